/*
 * Flow: labels, hardens and runs AWHILE programs.  Link with libflow.a, or with libflow.so.
 *
 * Every entry takes byte slices, each as a pointer and then a size_t.  An empty slice may be (NULL, 0).  Slices need no
 * alignment.  They must not overlap, and each must be readable (where it is lent for writing: writable) over its whole
 * length.  All numbers in all slices are little-endian and unsigned.
 *
 * THE ANSWER.  An entry returns 0 if it accepted the call, else the number of the refusal.  The same number stands
 * first in the answer slice, which holds numbers of 8 bytes each:
 *
 *     accepted, flow_sheet, flow_questions
 *     and flow_harden:                0, bytes written                                                     (2 numbers)
 *     accepted, flow_run, flow_guess
 *     and flow_rollback:              0, end, steps, directives used, observation bytes, flag, next node   (7 numbers)
 *     refused, every entry:           refusal, place                                                       (2 numbers)
 *
 * Numbers that do not fit whole into the answer slice are dropped, and its other bytes stay as they were: an answer
 * slice of 0 bytes is fine, and FLOW_ANSWER_BYTES holds every answer.
 *
 * A REFUSED CALL changes no lent memory except the answer slice.  Nothing is ever refused but for the causes listed
 * below.
 *
 * STACK.  A call recurses as deep as its table nests and allocates nothing.  On the deepest tables flow_sheet and
 * flow_questions take 308 KiB, flow_run, flow_guess and flow_rollback 146 KiB, flow_harden 106 KiB (measured on x86-64
 * by `make -C bench run`): 1 MiB suffices.
 *
 * THREADS.  An entry keeps nothing between calls and shares nothing with other calls: what it answers depends on what
 * it is lent alone.  So entries may be called from many threads at once, without a lock, as long as no two calls at a
 * time are lent memory that overlaps and that one of them may write.  Mind a thread's stack (above).
 *
 * The meaning of refusals and ends, as texts, stands in flow_words.h.
 */
#ifndef FLOW_H
#define FLOW_H

/* The release of this header and of the library that belongs to it (CHANGELOG.md). */
#define FLOW_RELEASE "1.9"

#include <stddef.h>
#include <stdint.h>

#ifdef __cplusplus
extern "C" {
#endif

/* The limits of a table, of a list of questions and of a run. */
enum {
    FLOW_VERSION = 1,                /* the version of tables and sheets whose variable masks have 4 bytes */
    FLOW_VERSION_2 = 2,              /* and of those whose variable masks have 8 bytes */
    FLOW_MAX_VARIABLES = 64,         /* of any version */
    FLOW_MAX_VARIABLES_1 = 32,       /* of version 1 */
    FLOW_MAX_ARRAYS = 16,
    FLOW_MAX_NODES = 4096,
    FLOW_MAX_CELLS = 16384,          /* all arrays together */
    FLOW_MAX_HARDENED_NODES = 512,   /* the most nodes of a table that flow_harden takes */
    FLOW_GROWTH = 8,                 /* at most this many nodes come out of flow_harden per node put in */
    FLOW_MAX_QUESTIONS = 256,        /* pairs in a list that flow_questions takes; as many bytes hold their labels */
    FLOW_QUESTION_BYTES = 4,         /* of a pair: node, then variable, 2 bytes each */
    FLOW_MAX_SAVES = 8               /* the most saves that are open at once in a run of flow_rollback */
};

/* Buffers of these lengths always suffice. */
enum {
    FLOW_TABLE_BYTES = 10 + 14 + 6 * FLOW_MAX_ARRAYS + 10 * FLOW_MAX_NODES,
    FLOW_SHEET_BYTES = 18 + 18 * FLOW_MAX_NODES,
    FLOW_SAVES_BYTES = 4 * FLOW_MAX_SAVES * (FLOW_MAX_VARIABLES + FLOW_MAX_CELLS + FLOW_MAX_NODES),
    FLOW_ANSWER_BYTES = 56
};

/*
 * The bytes of a variable mask in a table or sheet of a version, and the most variables that such a table declares.  A
 * version that is not known, which no entry accepts, has those of version 2.
 */
static inline size_t flow_mask_bytes(unsigned version)
{
    return version == FLOW_VERSION ? 4 : 8;
}

static inline unsigned flow_max_variables(unsigned version)
{
    return version == FLOW_VERSION ? FLOW_MAX_VARIABLES_1 : FLOW_MAX_VARIABLES;
}

/* What flow_answer_number gives where the answer slice does not hold the number: no answer has one as large. */
#define FLOW_NO_NUMBER UINT64_MAX

/* Number i of an answer slice: 0 is the refusal, 1 the bytes written, the end of a run or the place of a refusal. */
static inline uint64_t flow_answer_number(const uint8_t *answer, size_t answer_len, size_t i)
{
    uint64_t number = 0;
    if (i >= answer_len / 8)
        return FLOW_NO_NUMBER;
    for (unsigned byte = 0; byte < 8; byte++)
        number |= (uint64_t)answer[8 * i + byte] << 8 * byte;
    return number;
}

/*
 * Refusals.  The place is the byte offset, in the table, of the record concerned; for 7 it is the offset of the first
 * extra byte, and from 8 up it is 0.  The first failing record decides; within a record the order is 1 (head), 2, 1
 * (body), 3, 4, 5.  Then come 6, 7, 8, 9, 10, 11 and then 20 to 24.
 */
enum flow_refusal {
    FLOW_ACCEPTED = 0,
    FLOW_CUT = 1,              /* fewer than 4 bytes, or fewer than the record's length, remain */
    FLOW_WRONG_RECORD = 2,     /* kind or length wrong for this point */
    FLOW_BEYOND_LIMITS = 3,    /* version, count or mask beyond the limits (of variables: those of the version); a cell
                                  sum at the array that passes it */
    FLOW_OUT_OF_RANGE = 4,     /* variable not below V, array not below A, child not below its parent, constant
                                  above 1 */
    FLOW_WRONG_SORT = 5,       /* a child of the wrong sort */
    FLOW_NOT_A_TREE = 6,       /* a node not the last is a child never or more than once, or the last is no command;
                                  the place is the record of the lowest-numbered such node */
    FLOW_EXTRA_BYTES = 7,      /* bytes after the last node */
    FLOW_TOO_MANY_NODES = 8,   /* hardening with more than FLOW_MAX_HARDENED_NODES nodes */
    FLOW_NO_FREE_VARIABLE = 9, /* hardening with FLOW_MAX_VARIABLES variables: none is left for the flag.  No
                                  version 1 table has so many */
    FLOW_BAD_DIRECTIVES = 10,  /* directive list cut, or a wrong kind or length in it */
    FLOW_BAD_QUESTIONS = 11,   /* more than FLOW_MAX_QUESTIONS pairs, a list that ends inside a pair, a node that
                                  is not a command (one not below N too), or a variable not below V */
    FLOW_VARIABLES_LENGTH = 20, /* the variables slice is not exactly 4 V bytes */
    FLOW_CELLS_LENGTH = 21,    /* the cells slice is not exactly 4 bytes for each cell of all arrays */
    FLOW_PENDING_SHORT = 22,   /* the pending slice is shorter than 4 N bytes */
    FLOW_OUTPUT_SHORT = 23,    /* the sheet, the list of labels or the hardened table is longer than its buffer */
    FLOW_SAVES_SHORT = 24      /* the saves slice is shorter than flow_saves_bytes gives */
};

/* How a run ended, tested in this order before each step (flow_rollback: with a rollback next, see there). */
enum flow_end {
    FLOW_FINISHED = 1,         /* nothing is pending */
    FLOW_SPENT = 2,            /* the budget is used */
    FLOW_OUT_OF_DIRECTIVES = 3, /* the next step is shown and no directive is left (flow_guess, flow_rollback) */
    FLOW_STUCK = 4,            /* an index or a directive does not fit the next step */
    FLOW_FULL = 5              /* the next observation is longer than what is left of the observation buffer */
};

/*
 * The kinds of records.  A record is a 2-byte length (of the whole record), a 2-byte kind, then fields of 2 bytes
 * unless noted.  A variable mask has flow_mask_bytes(version) bytes, 4 or 8, by the version of its table or sheet; an
 * array mask has 2.
 */
enum flow_kind {
    /* tables: header, labels, A array records, N nodes */
    FLOW_HEADER = 1,           /* version, variables V (1 byte), arrays A (1 byte), nodes N */
    FLOW_ARRAY = 2,            /* cell count */
    FLOW_LABELS = 3,           /* variable mask (4 or 8 bytes), array mask; a bit set means secret; length 10
                                  or 14 */
    FLOW_NUMBER = 16,          /* numeric: value (4 bytes) */
    FLOW_VARIABLE = 17,        /* numeric: variable */
    FLOW_ADD = 18,             /* numeric: numeric, numeric; modulo 2^32, like the next two */
    FLOW_SUBTRACT = 19,
    FLOW_MULTIPLY = 20,
    FLOW_CHOICE = 21,          /* numeric: truth, numeric if true, numeric if false */
    FLOW_CONSTANT = 32,        /* truth: 0 or 1 */
    FLOW_EQUAL = 33,           /* truth: numeric, numeric */
    FLOW_LESS = 34,            /* truth: numeric, numeric; unsigned */
    FLOW_NOT = 35,             /* truth: truth */
    FLOW_AND = 36,             /* truth: truth, truth */
    FLOW_SKIP = 48,            /* command */
    FLOW_ASSIGN = 49,          /* command: variable, numeric */
    FLOW_SEQUENCE = 50,        /* command: command, command */
    FLOW_IF = 51,              /* command: truth, command if true, command if false */
    FLOW_WHILE = 52,           /* command: truth, command */
    FLOW_READ = 53,            /* command: variable, array, numeric index */
    FLOW_WRITE = 54,           /* command: array, numeric index, numeric value */
    /* observations, written by the machines */
    FLOW_SHOWN_BRANCH = 64,    /* value of the condition; length 6 */
    FLOW_SHOWN_READ = 65,      /* array, index (4 bytes); length 10 */
    FLOW_SHOWN_WRITE = 66,     /* array, index (4 bytes); length 10 */
    FLOW_SHOWN_ROLLBACK = 67,  /* no fields; length 4 (flow_rollback only) */
    /* directives, read by the guessing machines: one for each shown step */
    FLOW_STEP = 72,            /* go on as the program says; length 4 */
    FLOW_FORCE = 73,           /* at a branch: go the other way and set the flag; length 4 */
    FLOW_LOAD = 74,            /* at a read: array, index (4 bytes) of a cell; length 10 */
    FLOW_STORE = 75,           /* at a write: array, index (4 bytes) of a cell; length 10.  Where the program's own
                                  index is in bounds, load and store are a step: its own cell is used, with the flag
                                  set or clear, and the named one need not exist.  Out of bounds the named cell is
                                  used, which must exist, and only with the flag set; else the run is stuck */
    FLOW_ROLLBACK = 76,        /* a step of its own: undo the newest wrong guess; length 4 (flow_rollback only) */
    /* label sheets: the header, then by node number; label 1 is secret */
    FLOW_SHEET = 128,          /* version (the table's), N, final variable mask and array mask; length 14 or 18 */
    FLOW_SHEET_SEQUENCE = 129, /* node, variable mask and array mask after its first part; length 12 or 16 */
    FLOW_SHEET_IF = 130,       /* node, condition label; length 8 */
    FLOW_SHEET_WHILE = 131,    /* node, condition label, settled variable mask and array mask; length 14 or 18 */
    FLOW_SHEET_READ = 132,     /* node, variable label, index label; length 10 */
    FLOW_SHEET_WRITE = 133     /* node, index label; length 8 */
};

/*
 * Labels a table and writes its label sheet to the front of `sheet`.  A sheet has its table's version.  An expression
 * is secret if a variable in it is, but a product with a number node of value 0 as an operand is public, and a variable
 * inside one makes no larger expression secret.  Bytes of `sheet` beyond the reported length are unchanged; exact
 * length suffices.  Refusals: 1 to 7, 23.
 */
uint64_t flow_sheet(const uint8_t *table, size_t table_len,
                    uint8_t *sheet, size_t sheet_len,
                    uint8_t *answer, size_t answer_len);

/*
 * Answers a list of questions from one analysis of a table: is this variable secret just before this command?
 * `questions` holds at most FLOW_MAX_QUESTIONS pairs of FLOW_QUESTION_BYTES each: a node, which must be a command, then
 * a variable.  For each pair, in their order, one byte is written to the front of `labels`: 1 if the variable is secret
 * in the labelling that enters the command, else 0.  The context that the command stands in is not part of the answer.
 *   inside a loop       the labelling meant is that of the settled pass of every loop around the command.
 *   for a loop itself   it is the one on entry, before the loop settles; for a loop inside a loop, the one on its entry
 *                       in the settled pass of the outer loop.
 * A pair asked alone gets the byte that it gets in any list.  A list of no pairs is accepted and nothing is written.
 * Bytes of `labels` beyond the reported length, which is the number of pairs, are unchanged; exact length suffices.
 * Refusals: 1 to 7, 11, 23.
 */
uint64_t flow_questions(const uint8_t *table, size_t table_len,
                        const uint8_t *questions, size_t questions_len,
                        uint8_t *labels, size_t labels_len,
                        uint8_t *answer, size_t answer_len);

/*
 * Hardens a table and writes the hardened table to the front of `out`.  It declares one variable more, the flag, whose
 * number is the input's V; the flag must be 0 where a run of the hardened table starts.  Its version is 2 where the
 * input's is, or where it declares 33 variables; otherwise it stays 1.  Bytes of `out` beyond the reported length are
 * unchanged; exact length suffices.  Refusals: 1 to 9, 23.
 */
uint64_t flow_harden(const uint8_t *table, size_t table_len,
                     uint8_t *out, size_t out_len,
                     uint8_t *answer, size_t answer_len);

/*
 * Runs a table without guessing, from its root, for at most `budget` steps.
 *   variables     V words of 4 bytes: the values at the start, and at the end those that the run left.
 *   cells         a word for each cell, array after array by number; likewise.
 *   pending       at least N words; what they hold at the start is ignored.  At the end the first N words hold the
 *                 nodes still pending (the last of them is next) and then zeros; bytes beyond 4 N are unchanged.
 *   observations  any length; the run appends what it shows from the front and ends FLOW_FULL rather than write beyond
 *                 it.  Bytes beyond those reported are unchanged.
 * Flag and directives used are answered as 0; next node is 0 if nothing is pending.  Refusals: 1 to 7, 20, 21, 22.
 */
uint64_t flow_run(const uint8_t *table, size_t table_len,
                  uint8_t *variables, size_t variables_len,
                  uint8_t *cells, size_t cells_len,
                  uint8_t *pending, size_t pending_len,
                  uint8_t *observations, size_t observations_len,
                  uint32_t budget,
                  uint8_t *answer, size_t answer_len);

/*
 * Runs a table on the guessing machine: as flow_run, but each shown step (if, while, read, write) takes one directive
 * of the list, and the machine's flag (0 at the start) is set by the first force.  A list may be written once and
 * played to several states: a load at a read and a store at a write fit wherever the program's own index is in bounds.
 * The whole list is checked before the first step.  A cell or array that does not exist is no cause of refusal: where
 * it would be used the run ends FLOW_STUCK.  A rollback in the list is a wrong kind here and refused by 10.  Refusals:
 * 1 to 7, 10, 20, 21, 22.
 */
uint64_t flow_guess(const uint8_t *table, size_t table_len,
                    const uint8_t *directives, size_t directives_len,
                    uint8_t *variables, size_t variables_len,
                    uint8_t *cells, size_t cells_len,
                    uint8_t *pending, size_t pending_len,
                    uint8_t *observations, size_t observations_len,
                    uint32_t budget,
                    uint8_t *answer, size_t answer_len);

/* The bytes of save words that flow_rollback needs for a table of so many variables, cells of all arrays, and nodes. */
static inline size_t flow_saves_bytes(size_t variables, size_t cells, size_t nodes)
{
    return 4 * (size_t)FLOW_MAX_SAVES * (variables + cells + nodes);
}

/*
 * Runs a table on the machine that undoes wrong guesses: as flow_guess, but a force also opens a save, and the list may
 * hold rollbacks.  A save is the state of the right side: variables and cells as they are at the branch, and the
 * pending list with which the branch's own way goes on.
 *   rollback  A step that takes one directive, shows FLOW_SHOWN_ROLLBACK, makes variables, cells and pending list those
 *             of the newest save, and drops that save.
 *   order     A rollback is taken as soon as it is the next directive, before a silent step and also where nothing is
 *             pending.  There the tests are: budget used, FLOW_SPENT; no save open, FLOW_STUCK; no room for the
 *             observation, FLOW_FULL.  Otherwise a run with nothing pending has finished, whether a save is open or
 *             not.
 *   flag      1 exactly while a save is open: after the last of them is rolled back a load or store fits only in bounds
 *             again.
 *   saves     at most FLOW_MAX_SAVES are open; a force beyond them does not fit, FLOW_STUCK.
 * The slice `saves` holds at least flow_saves_bytes(V, cells, N) bytes; what they hold at the start is ignored.  They
 * are FLOW_MAX_SAVES places of V + cells + N words each, and at the end place 0 holds the oldest save that is still
 * open, place 1 the next, and so on: its variables, its cells, and its pending list (the last entry is next) padded
 * with zeros to N words.  Places without a save are zeros, and bytes beyond the places are unchanged.  How many are
 * open is not stored.  Like every slice `saves` must not overlap another.  What hardening promises of runs on
 * flow_guess it promises of runs on this machine.  Refusals: 1 to 7, 10, 20, 21, 22, 24.
 */
uint64_t flow_rollback(const uint8_t *table, size_t table_len,
                       const uint8_t *directives, size_t directives_len,
                       uint8_t *variables, size_t variables_len,
                       uint8_t *cells, size_t cells_len,
                       uint8_t *pending, size_t pending_len,
                       uint8_t *saves, size_t saves_len,
                       uint8_t *observations, size_t observations_len,
                       uint32_t budget,
                       uint8_t *answer, size_t answer_len);

#ifdef __cplusplus
}
#endif

#endif
