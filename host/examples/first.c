/* A first call from C: a deck of one axiom, A0 below Some r0 A1, and its clauses as rows of numbers. */
#include <inttypes.h>
#include <stdio.h>
#include <string.h>

#include "gorvask.h"

/* Room for this deck; a refusal 12 would ask for more. */
enum { CLAUSES = 16, ATOMS = 64, DEFERRALS = 16 };

static const char deck[] =
    "          0          3          0          1          3\n"
    "          3          0\n"
    "          3          1\n"
    "          9          0          1\n"
    "         21          0          2\n";

static uint8_t clauses[CLAUSES * GORVASK_CLAUSE_BYTES];
static uint8_t atoms[ATOMS * GORVASK_ATOM_BYTES];
static uint8_t deferrals[DEFERRALS * GORVASK_DEFERRAL_BYTES];
static uint8_t numbers[GORVASK_NUMBERS_BYTES];
static uint8_t scratch[GORVASK_SCRATCH_BYTES];

/* The six words of an atom. */
static void print_atom(uint32_t atom)
{
    for (size_t word = 0; word < 6; word++)
        printf(" %" PRIu32, gorvask_word(atoms, 6 * (size_t)atom + word));
    printf("\n");
}

static void print_clause(uint32_t clause)
{
    const size_t at = 3 * (size_t)clause;
    const uint32_t first = gorvask_word(clauses, at + GORVASK_CLAUSE_FIRST_ATOM);
    const uint32_t body = gorvask_word(clauses, at + GORVASK_CLAUSE_BODY);
    const uint32_t head = gorvask_word(clauses, at + GORVASK_CLAUSE_HEAD);
    printf("clause %" PRIu32 "\n", clause);
    for (uint32_t atom = 0; atom < body + head; atom++) {
        printf(atom < body ? "  if" : "  then");
        print_atom(first + atom);
    }
}

int main(void)
{
    const uint64_t reply = gorvask_clausify_with_stats(
        (const uint8_t *)deck, strlen(deck), clauses, sizeof clauses, atoms, sizeof atoms, deferrals, sizeof deferrals,
        numbers, sizeof numbers, scratch, sizeof scratch);
    if (reply != 0) {
        printf("refusal %" PRIu32 ", line %" PRIu32 "\n", gorvask_refusal_number(reply), gorvask_refusal_line(reply));
        return 1;
    }
    const uint32_t total = gorvask_word(numbers, GORVASK_TOTAL);
    for (uint32_t clause = 0; clause < total; clause++)
        print_clause(clause);
    printf("%" PRIu32 " visits\n", gorvask_word(numbers, GORVASK_VISITS));
    return 0;
}
