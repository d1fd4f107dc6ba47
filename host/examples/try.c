/* A state tested from C: A0 below A1, and a state of two elements in which A0 holds the second and A1 nothing. */
#include <inttypes.h>
#include <stdio.h>
#include <string.h>

#include "gorvask.h"

/* Room for this deck; a refusal 12 would ask for more. */
enum { CLAUSES = 16, ATOMS = 64, DEFERRALS = 16 };

static const char deck[] =
    "          0          2          0          0          3\n"
    "          3          0\n"
    "          3          1\n"
    "         21          0          1\n";

static const char state[] =
    "         50          2\n"
    "         51          0          1\n";

static uint8_t clauses[CLAUSES * GORVASK_CLAUSE_BYTES];
static uint8_t atoms[ATOMS * GORVASK_ATOM_BYTES];
static uint8_t deferrals[DEFERRALS * GORVASK_DEFERRAL_BYTES];
static uint8_t store[8 * (8192 + ATOMS)];
static uint8_t scratch[GORVASK_SCRATCH_BYTES];

/* Either of the two functions. */
typedef uint64_t test(
    const uint8_t *, size_t, const uint8_t *, size_t, uint8_t *, size_t, uint8_t *, size_t, uint8_t *, size_t, uint8_t *,
    size_t, uint8_t *, size_t);

static void print(const char *name, test *try_state)
{
    const uint64_t reply = try_state(
        (const uint8_t *)deck, strlen(deck), (const uint8_t *)state, strlen(state), clauses, sizeof clauses, atoms,
        sizeof atoms, deferrals, sizeof deferrals, store, sizeof store, scratch, sizeof scratch);
    printf("%s: ", name);
    if (reply == GORVASK_HOLDS) {
        printf("all hold\n");
    } else if (reply == GORVASK_BROKEN) {
        const uint32_t shown = gorvask_word(store, GORVASK_STORE_SHOWN);
        printf("%" PRIu32 " is broken by", gorvask_word(store, GORVASK_STORE_BROKEN));
        for (uint32_t place = 0; place < shown; place++)
            printf(" %" PRIu32, gorvask_word(store, GORVASK_STORE_ELEMENTS + place));
        printf("\n");
    } else {
        printf("refusal %" PRIu32 ", line %" PRIu32 "\n", gorvask_refusal_number(reply), gorvask_refusal_line(reply));
    }
}

int main(void)
{
    print("axioms", gorvask_try_axioms);
    print("clauses", gorvask_try_clauses);
    return 0;
}
