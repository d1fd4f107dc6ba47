/* Gorvask: from a deck of axioms to DL-clauses, a state of the layout tested against both, and a session in which the axioms of
 * a deck are added and struck one by one.
 *
 * Eight functions. They keep nothing between calls, allocate nothing and read no environment, so threads may call them side by
 * side, each with tables of its own. A call always ends, and every byte that it was lent is decided by what it was given to
 * read (a deck, a state, a session, a line, a number) and the lent sizes. */
#ifndef GORVASK_H
#define GORVASK_H

#include <stddef.h>
#include <stdint.h>

#ifdef __cplusplus
extern "C" {
#endif

/* ---- What is lent
 *
 * A table is bytes that hold words of four bytes, low byte first; a record is some words. Any content may be lent. A
 * table is whole records, as few as none and at most so many; `numbers` has exactly its size, `scratch` at least its. A
 * pointer may be NULL where its length is 0, and nowhere else. THE DECK AND THE FIVE TABLES MUST BE DISJOINT: no byte of
 * one may be a byte of another. */
#define GORVASK_CLAUSE_BYTES 12u
#define GORVASK_ATOM_BYTES 24u
#define GORVASK_DEFERRAL_BYTES 8u
#define GORVASK_NUMBERS_BYTES 40u
#define GORVASK_SCRATCH_BYTES 1572864u

#define GORVASK_MOST_CLAUSES 65536u
#define GORVASK_MOST_ATOMS 262144u
#define GORVASK_MOST_DEFERRALS 65536u

/* Stack that the calling thread should have left. No proof bounds it; a test holds calls on concepts of every shape at the
 * limits to 160 KiB at most, and this is four times as much. */
#define GORVASK_STACK_BYTES 655360u

/* The reply is 0 where the deck is accepted: the tables hold the records, then zeros. Otherwise it is a refusal's number
 * times 2^32 plus a line of the deck, from 1, or 0 where none is named: clauses, atoms, deferrals and numbers are all
 * zeros. Scratch is all zeros either way. */
uint64_t gorvask_clausify_with_stats(
    const uint8_t *deck, size_t deck_len,
    uint8_t *clauses, size_t clauses_len,
    uint8_t *atoms, size_t atoms_len,
    uint8_t *deferrals, size_t deferrals_len,
    uint8_t *numbers, size_t numbers_len,
    uint8_t *scratch, size_t scratch_len);

/* ---- A state of the layout
 *
 * The state is a text in a deck's columns: 50 and the number of elements, 1 to 64; then 51, a class and its elements; 52, a
 * role's id and its pairs; 53, an individual and its element. Lines stand by kind, then by id, each id once; elements, counted
 * from 0, and pairs strictly rise. 51 takes the deck's classes and the fresh ones; each individual has its line 53. An
 * individual's class holds its element alone; any other class or role without a line is empty. The state's length has no limit.
 *
 * One function tests the deck's axioms, in the order of their lines, the other the clauses that the deck gives, in theirs. The
 * deck is run for both. The tables are those of gorvask_clausify_with_stats, but for `numbers`: in its place stands `store`,
 * with at least so many bytes. With 8 * (8192 + the atom records lent) it is quick for every deck. THE DECK, THE STATE AND THE
 * FIVE TABLES MUST BE DISJOINT. */
#define GORVASK_STORE_BYTES 65536u
#define GORVASK_MOST_ELEMENTS 64u
#define GORVASK_MOST_SHOWN 129u

/* The reply is GORVASK_HOLDS, GORVASK_BROKEN, or a refusal's number times 2^32 plus a line: of 13 the state's, of any other the
 * deck's, 0 where none is named. With a verdict clauses, atoms and deferrals hold the run's records, then zeros, and the store
 * the words below, then zeros. After a refusal all of them are zeros. Scratch is all zeros either way. */
uint64_t gorvask_try_axioms(
    const uint8_t *deck, size_t deck_len,
    const uint8_t *state, size_t state_len,
    uint8_t *clauses, size_t clauses_len,
    uint8_t *atoms, size_t atoms_len,
    uint8_t *deferrals, size_t deferrals_len,
    uint8_t *store, size_t store_len,
    uint8_t *scratch, size_t scratch_len);

uint64_t gorvask_try_clauses(
    const uint8_t *deck, size_t deck_len,
    const uint8_t *state, size_t state_len,
    uint8_t *clauses, size_t clauses_len,
    uint8_t *atoms, size_t atoms_len,
    uint8_t *deferrals, size_t deferrals_len,
    uint8_t *store, size_t store_len,
    uint8_t *scratch, size_t scratch_len);

enum gorvask_tried { GORVASK_HOLDS = 0, GORVASK_BROKEN = 1 };

/* The store begins with the ten numbers, as enum gorvask_number has them; then, zeros where all hold: the line of the first
 * broken axiom or the number of the first broken clause, from 0, how many elements are shown, and these. They are the least
 * that break it, compared one by one: a clause's variables in rising order, an axiom's as the standard's condition has them. An
 * assertion shows none. */
enum gorvask_store_word {
    GORVASK_STORE_NUMBERS = 0,
    GORVASK_STORE_BROKEN = 10,
    GORVASK_STORE_SHOWN = 11,
    GORVASK_STORE_ELEMENTS = 12
};

/* ---- A session
 *
 * A session holds the live deck: its counts, key marks and concepts stay, its axioms are added and struck, its options change.
 * It is lent by the caller and has exactly so many bytes: the length n of the deck's text as a word, the n bytes of the text,
 * and zeros to the end. So it may be copied, kept in a file and handed in again; nothing else belongs to it.
 *
 * Each function but the first is refused by 1 unless the session is just that, of a deck that passes the line checks (2 to 9);
 * so a session of zeros is none. A refused call leaves the session as it was. Scratch is all zeros after each call. WHAT IS
 * READ, THE SESSION AND THE OTHER TABLES MUST BE DISJOINT. */
#define GORVASK_SESSION_BYTES 65540u

/* Each reply is 0 where it is done, or a refusal's number times 2^32 plus a line of the live deck, 0 where none is named.
 *
 * A start puts a deck that passes the line checks in the place of whatever the session held. Otherwise the reply is the deck's
 * refusal, 2 to 9 with its line, and the session is all zeros. */
uint64_t gorvask_session_start(
    const uint8_t *deck, size_t deck_len,
    uint8_t *session, size_t session_len,
    uint8_t *scratch, size_t scratch_len);

/* Adds one line of the kinds 21 to 36, its line feed with it, behind the live deck, and checks it there as the last line. 2 at
 * line 0 where both together are over 65,536 bytes. Any other refusal has the line that would be the last: 3 for an empty text;
 * 2 where the columns of its first line are wrong; 3 where more stands behind the line feed, for any other kind, and for too
 * few or too many numbers; 4 for a list of over 128 or the 1,025th axiom; 5 for a name that is not there. */
uint64_t gorvask_session_add(
    const uint8_t *line, size_t line_len,
    uint8_t *session, size_t session_len,
    uint8_t *scratch, size_t scratch_len);

/* Strikes the axiom on a line of the live deck, counted from 1, the header's. The lines behind it move up. 15 at line 0 where
 * no axiom stands there. */
uint64_t gorvask_session_strike(
    uint32_t line,
    uint8_t *session, size_t session_len,
    uint8_t *scratch, size_t scratch_len);

/* Changes the options of the live deck. 4 at line 1 above 15. */
uint64_t gorvask_session_options(
    uint32_t options,
    uint8_t *session, size_t session_len,
    uint8_t *scratch, size_t scratch_len);

/* The clauses of the live deck: the reply and every byte of the tables are those of gorvask_clausify_with_stats of that deck,
 * refusals 10 to 12 with its lines. The session is only read. */
uint64_t gorvask_session_take(
    const uint8_t *session, size_t session_len,
    uint8_t *clauses, size_t clauses_len,
    uint8_t *atoms, size_t atoms_len,
    uint8_t *deferrals, size_t deferrals_len,
    uint8_t *numbers, size_t numbers_len,
    uint8_t *scratch, size_t scratch_len);

/* ---- Records
 *
 * Clause: first atom, body count, head count. Its atoms are one run of the atom table, body first. There are
 * numbers[GORVASK_TOTAL] clauses; go by that number, since a clause without atoms may be three zeros. The clause says:
 * where all of its body holds, one of its head holds. */
enum gorvask_clause_word {
    GORVASK_CLAUSE_FIRST_ATOM = 0,
    GORVASK_CLAUSE_BODY = 1,
    GORVASK_CLAUSE_HEAD = 2
};

/* Atom: kind, role code, class id + 1, number, two variables; a lone variable comes first, and an unused word is 0. A role
 * code is 2 * id, plus 1 for the inverse. On kinds 4 and 5 class word 0 means unqualified. Variable 0 is x.
 *
 * Of a deck with C classes and I individuals, class ids below C are its classes, the next I its individuals' classes, and
 * those from C + I on are fresh: names that the run gave to parts of axioms. */
enum gorvask_atom_word {
    GORVASK_ATOM_KIND = 0,
    GORVASK_ATOM_ROLE = 1,
    GORVASK_ATOM_CLASS = 2,
    GORVASK_ATOM_NUMBER = 3,
    GORVASK_ATOM_FIRST_VAR = 4,
    GORVASK_ATOM_SECOND_VAR = 5
};

enum gorvask_atom_kind {
    GORVASK_CLASS = 1,    /* A(v) */
    GORVASK_ROLE = 2,     /* r(u, v) */
    GORVASK_EXISTS = 3,   /* some r A, of v */
    GORVASK_AT_MOST = 4,  /* at most n r A, of v */
    GORVASK_AT_LEAST = 5, /* at least n r A, of v */
    GORVASK_EQUAL = 6     /* u = v */
};

/* Deferral: the axiom's line and a kind. The axiom, or a part of it, gave no clause. There are numbers[GORVASK_DEFERRED]
 * of them, in the order in which they arose. */
enum gorvask_deferral_word { GORVASK_DEFERRAL_LINE = 0, GORVASK_DEFERRAL_KIND = 1 };

enum gorvask_deferral_kind {
    GORVASK_DISJOINT_ANTECEDENT = 1,
    GORVASK_DISJOINT_UNION_MEMBER = 2,
    GORVASK_DISJOINT_UNION_COVERING = 3,
    GORVASK_ROLE_CHAIN_LEN_NE_2 = 4,
    GORVASK_ANTECEDENT = 5,
    GORVASK_HEAD_OR_DISJUNCT = 6,
    GORVASK_HEAD_EXISTS_INNER = 7,
    GORVASK_HEAD_NOT_NONATOMIC = 8,
    GORVASK_REFLEXIVE_DERIVED_CAP = 9 /* line 0 */
};

/* Numbers: the statistics, then the fresh class ids taken and the visits. */
enum gorvask_number {
    GORVASK_TOTAL = 0,            /* clauses */
    GORVASK_HORN = 1,             /* with at most one head atom */
    GORVASK_DISJUNCTIVE = 2,      /* with two head atoms or more */
    GORVASK_BOTTOM_HEADED = 3,    /* with no head atom */
    GORVASK_WITH_EXISTS_HEAD = 4, /* with an Exists in the head */
    GORVASK_DEFERRED = 5,         /* deferrals */
    GORVASK_DECOMPOSED = 6,       /* clauses whose wide body was split (option 1) */
    GORVASK_REFUSED = 7,          /* clauses left with more than 8 body variables */
    GORVASK_FRESH_IDS = 8,
    GORVASK_VISITS = 9
};

/* ---- Refusals
 *
 * Lines are checked from the first, each for 2 to 9 in turn. 10 to 12 come with the axiom's line, or 0 after the last
 * axiom. 12 may go away with larger tables: lend twice the records and call again, up to the most. It stays where a single
 * body or head passes 256 atoms. 13 and 14 are of the tests alone, and follow 12. 15 is of a session alone, and comes straight
 * after 1. */
enum gorvask_refusal {
    GORVASK_WRONG_SIZE = 1,     /* a lent table has the wrong size, or a session holds no good deck: see above (line 0) */
    GORVASK_BAD_COLUMNS = 2,    /* the deck exceeds 65,536 bytes (line 0), or the line breaks the column layout */
    GORVASK_BAD_LINE = 3,       /* unknown kind, too few or too many fields, out of section order; or an empty deck */
    GORVASK_PAST_LIMIT = 4,     /* over 4,096 classes, 4,096 individuals, 1,024 roles, options 15, lists of 128,
                                   1,024 concepts or 1,024 axioms */
    GORVASK_UNDECLARED = 5,     /* a class, individual, role or concept that the deck does not declare */
    GORVASK_BAD_NESTING = 6,    /* a concept that names itself or a later one, or nests deeper than 64 */
    GORVASK_BAD_LIST = 7,       /* an And or Or list under 2 members, not strictly rising, or with a member that is Top,
                                   Bot or of its own kind */
    GORVASK_REPEATED = 8,       /* a concept line that repeats an earlier one */
    GORVASK_LARGEST_BOUND = 9,  /* a Max with bound 4294967295 */
    GORVASK_VISITS_SPENT = 10,  /* more than 1,000,000 visits */
    GORVASK_POOL_FULL = 11,     /* more than 2,048 concepts or 16,384 list members in normal form */
    GORVASK_NO_ROOM = 12,       /* a body or head of more than 256 atoms, or a table's end */
    GORVASK_BAD_STATE = 13,     /* the state's first bad line, 1 if it is empty; 0 where only a line 53 is missing */
    GORVASK_WIDE_CLAUSE = 14,   /* a clause that is to be tested has over four distinct variables (line 0) */
    GORVASK_NOT_LIVE = 15       /* the line that is to be struck is no axiom's in the live deck (line 0) */
};

/* ---- Reading */
static inline uint32_t gorvask_refusal_number(uint64_t reply) { return (uint32_t)(reply >> 32); }

static inline uint32_t gorvask_refusal_line(uint64_t reply) { return (uint32_t)reply; }

/* Word `index` of a table. */
static inline uint32_t gorvask_word(const uint8_t *table, size_t index)
{
    const uint8_t *at = table + 4 * index;
    return (uint32_t)at[0] | (uint32_t)at[1] << 8 | (uint32_t)at[2] << 16 | (uint32_t)at[3] << 24;
}

#ifdef __cplusplus
}
#endif

#endif
