//! Words for whoever wrote the deck or the state, or changes a session's deck: the table of refusals in `docs/ENTRIES.md`.

/// What is wrong and what to do, of the numbers 1 to 15. Of 2 and 13 it is what is wrong with a line.
pub const OF_NUMBERS: [[&str; 2]; 15] = [
    [
        "the calling program has lent a table of a wrong size: scratch too small, a table that is not whole records \
         or too large, `numbers` other than 40 bytes, a store under 65,536 bytes, or a session other than 65,540; or it has \
         handed in a session that holds no deck that passes the line checks. Nothing else was looked at",
        "have the program corrected, or start the session anew",
    ],
    [
        "the line's columns are wrong: every number is decimal, right-justified in 11 columns with at least one space \
         before it, without leading zeros, and at most 4294967295; there is at least one number; a line feed ends \
         each line, the last one too",
        "set the line anew in its columns; split a deck that is too long",
    ],
    [
        "the line's kind is unknown, it has too few or too many numbers, or it stands in the wrong section: one \
         header, then key marks, then concepts, then axioms. An empty deck is refused here at line 1",
        "correct the kind, count the numbers, move the line",
    ],
    [
        "a limit is passed: 4,096 classes, 4,096 individuals, 1,024 roles, options 15, 128 entries in a list, 1,024 \
         concepts, 1,024 axioms",
        "split the list or the deck",
    ],
    [
        "a class, individual or role is not among those that the header counts, or an axiom names a concept line that \
         is not there. Counting starts at 0, and a role is named by its code, twice its id, plus 1 for the inverse",
        "correct the number, or the header's counts",
    ],
    [
        "a concept names itself or a later one, or it nests deeper than 64",
        "write the parts before the whole; flatten the concept",
    ],
    [
        "an And or Or has under two members, they do not strictly rise, or one of them is Top, Bot, or an And in an \
         And, an Or in an Or",
        "sort the members, each once; put an inner list's members into the outer one",
    ],
    [
        "the concept stands on an earlier line already",
        "use that line's concept, and take this line out",
    ],
    [
        "an at-most has the bound 4294967295",
        "leave the at-most out: no layout has so many elements",
    ],
    [
        "the deck takes over 1,000,000 visits of concepts. The line is the axiom's at which that would happen",
        "simplify that axiom's concepts; give a concept that is used again and again a class of its own",
    ],
    [
        "the concepts with their normal forms are over 2,048, or their And and Or lists have over 16,384 members in \
         all",
        "simplify the axioms' concepts; give a concept that is used again and again a class of its own; or split the \
         deck",
    ],
    [
        "one side of a clause would have over 256 atoms, or the clause, atom or deferral table is full. At line 0 \
         this came after the last axiom: clauses of reflexive roles, or of option 1",
        "lend larger tables; where they are the largest or one side is too long, split the axiom or the deck. The lister's \
         are fixed: 1,024 clauses, 2,048 atoms and 256 deferrals",
    ],
    [
        "the state's line breaks the columns, or a rule of states: first 50 and 1 to 64 elements; then 51, class and \
         elements, 52, role id and pairs, 53, individual and element; by kind, then by id, each id once; elements are \
         below the count, elements and pairs rise; 51 takes declared and fresh classes. An empty state is refused here \
         at line 1",
        "correct the state's line, or give the individual one",
    ],
    [
        "a clause has over four distinct variables. The state is laid out well, and the axioms can be tested in it",
        "test the axioms alone; or give a part of the rule a class of its own",
    ],
    [
        "the line that is to be struck is no axiom's in the session's deck",
        "look up the axiom's line in that deck as it is now: it counts from 1, the header first, and behind a struck line \
         the others have moved up",
    ],
];

/// What is wrong where number 2 is about no line.
pub const TOO_LONG: &str = "the deck has over 65,536 bytes";

/// What is wrong where number 13 is about no line.
pub const NO_ELEMENT: &str = "all of the state's lines are good, and an individual has no line 53";

/// The same of a number that is not known.
pub const OF_UNKNOWN: [&str; 2] = [
    "the deck is refused for a reason that this program does not know; it may be older than the library",
    "look for the number in docs/ENTRIES.md",
];
