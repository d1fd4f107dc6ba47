/* A session from C: an axiom is struck and added again, and the clauses are taken each time. */
#include <inttypes.h>
#include <stdio.h>
#include <string.h>

#include "gorvask.h"

/* Room for this deck; a refusal 12 would ask for more. */
enum { CLAUSES = 16, ATOMS = 64, DEFERRALS = 16 };

/* A0 below A1, and the two disjoint. */
static const char deck[] =
    "          0          2          0          0          3\n"
    "          3          0\n"
    "          3          1\n"
    "         21          0          1\n"
    "         23          0          1\n";

static const char line[] =
    "         21          0          1\n";

static uint8_t session[GORVASK_SESSION_BYTES];
static uint8_t clauses[CLAUSES * GORVASK_CLAUSE_BYTES];
static uint8_t atoms[ATOMS * GORVASK_ATOM_BYTES];
static uint8_t deferrals[DEFERRALS * GORVASK_DEFERRAL_BYTES];
static uint8_t numbers[GORVASK_NUMBERS_BYTES];
static uint8_t scratch[GORVASK_SCRATCH_BYTES];

static void print(const char *name, uint64_t reply)
{
    if (reply == 0)
        printf("%s: done\n", name);
    else
        printf(
            "%s: refusal %" PRIu32 ", line %" PRIu32 "\n", name, gorvask_refusal_number(reply), gorvask_refusal_line(reply));
}

static void take(void)
{
    print(
        "take", gorvask_session_take(
                    session, sizeof session, clauses, sizeof clauses, atoms, sizeof atoms, deferrals, sizeof deferrals,
                    numbers, sizeof numbers, scratch, sizeof scratch));
    printf("%" PRIu32 " clauses\n", gorvask_word(numbers, GORVASK_TOTAL));
}

static void strike(uint32_t at)
{
    print("strike", gorvask_session_strike(at, session, sizeof session, scratch, sizeof scratch));
}

int main(void)
{
    take();
    print("start", gorvask_session_start(
                       (const uint8_t *)deck, strlen(deck), session, sizeof session, scratch, sizeof scratch));
    take();
    strike(4);
    take();
    strike(5);
    print("add", gorvask_session_add(
                     (const uint8_t *)line, strlen(line), session, sizeof session, scratch, sizeof scratch));
    print("options", gorvask_session_options(16, session, sizeof session, scratch, sizeof scratch));
    take();
    /* The live deck is the session's text, behind the word with its length. */
    fwrite(session + 4, 1, gorvask_word(session, 0), stdout);
    return 0;
}
