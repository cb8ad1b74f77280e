/*
 * Bolfrega: checks measurement plans against order sheets.
 *
 * The functions of libbolfrega.a, which `tools/build archive` proves and writes to target/staticlib. Each is proved to give the answer
 * that documents 01 and 02 settle, for every input. They keep no state, allocate nothing and call nothing but memset.
 * The archive is for x86-64 Linux; link it alone: cc program.c -Iinclude target/staticlib/libbolfrega.a
 *
 * A file is a sequence of 8-byte records: a plan's rules, then the moves and finishing stages of its order sheet. A run is a sequence of
 * step codes, one to a byte. The codes from 120 to 127 are remarks: a sheet stays in its stage on each of them, and none of its moves
 * is on one. A plan's rules may use them; they count in a run's length and are written out with it.
 *
 * Plans are exchanged in a wide form too, a sequence of 16-byte records, whose rules have bodies of at most twelve symbols in bytes 3 to 14.
 * Byte 15 and all other bytes that are not used are 0; all else is as in 8-byte records. bolfrega_widen moves a file over, bolfrega_narrow
 * back, and bolfrega_unfold makes the file of 8-byte records that every other call takes.
 *
 * One file serves many routes, each with its own first procedure. bolfrega_check_from and bolfrega_unfold_from take a set of procedures, the
 * members, as a word: bit p is 1 if procedure p (0 to 63) is one. Every word is such a set. bolfrega_check and bolfrega_unfold have procedure 0
 * as their one member: they say what those two say for the word 1.
 *
 * A check keeps a journal, a row for each effect that it keeps. bolfrega_check and bolfrega_check_from have one of their own; a host that wants to
 * see the rows, or to write the run behind any of them, or to check many files in less time, lends its own to bolfrega_check_rows and bolfrega_write.
 *
 * What every call asks of its caller:
 * - A pointer and the length after it are those of one area of memory. With length 0 the pointer may be null.
 * - `record`, `entries`, `length`, `offset`, `details`, `values`, `next`, `cells` and `near` are not null.
 * - These, and `buffer`, `table`, `list`, `out` and `journal`, overlap neither each other nor the file or the run, and are aligned as their types
 *   ask. What they hold before the call is of no account, but for the journal of bolfrega_write.
 *
 * What a call returns is a number: from 1 to 99 it refuses, from 100 on it answers; bolfrega_refusal also returns 0. Each has a constant
 * below, and bolfrega_message says it in words. A later version may return numbers that this header does not have. A host that meets a number
 * which it does not know has no answer: it never takes it for BOLFREGA_HOLDS, BOLFREGA_ACCEPTED or BOLFREGA_DERIVED. So compare with the
 * constant that you ask for, and let the default case of a switch be the failure.
 *
 * 1 and 2 are tested first, or 16 and 2, then 3, 4, 5, 12, 6, 7 record by record: the earliest record wins, and within it the earliest of
 * these.
 *
 * Every function may be called from any number of threads at once, also on the same file and run, and bolfrega_write on the same journal; all else
 * that is lent is lent to one call at a time. It takes less than 1 KiB of stack, unless its text says more.
 */
#ifndef BOLFREGA_H
#define BOLFREGA_H

#include <stddef.h>
#include <stdint.h>

#ifdef __cplusplus
extern "C" {
#endif

/* The version of the interface that this header describes. A library whose bolfrega_version is this or above has all that stands here. */
#define BOLFREGA_VERSION 3

/* The numbers that a call refuses with, as documents 01 and 02 have them. */
#define BOLFREGA_REFUSAL_LENGTH 1
#define BOLFREGA_REFUSAL_RECORDS 2
#define BOLFREGA_REFUSAL_KIND 3
#define BOLFREGA_REFUSAL_ABOVE_RANGE 4
#define BOLFREGA_REFUSAL_UNUSED 5
#define BOLFREGA_REFUSAL_ORDER 6
#define BOLFREGA_REFUSAL_COUNT 7
#define BOLFREGA_REFUSAL_JOURNAL 8
#define BOLFREGA_REFUSAL_ROW 9
#define BOLFREGA_REFUSAL_ROOM 10
#define BOLFREGA_REFUSAL_RUN 11
#define BOLFREGA_REFUSAL_REMARK 12
#define BOLFREGA_REFUSAL_LONG_RUN 13
#define BOLFREGA_REFUSAL_TABLE 14
#define BOLFREGA_REFUSAL_LIST 15
#define BOLFREGA_REFUSAL_WIDE_LENGTH 16
#define BOLFREGA_REFUSAL_LONG_BODY 17
#define BOLFREGA_REFUSAL_CHAINS 18

/* Records: byte 0 is the kind. A symbol below 128 is a step code, and BOLFREGA_SYMBOL(p) is procedure p. */
#define BOLFREGA_RULE 1      /* byte 1 the procedure, byte 2 the body's length, its symbols from byte 3 on */
#define BOLFREGA_MOVE 2      /* byte 1 from this stage, byte 2 on this step code, byte 3 to this stage */
#define BOLFREGA_FINISHING 3 /* byte 1 the stage */
#define BOLFREGA_SYMBOL(p) ((uint8_t)(128 + (p)))
#define BOLFREGA_RECORD_BYTES 8
#define BOLFREGA_WIDE_RECORD_BYTES 16

/* How many there are: procedures, stages and step codes count from 0. The codes from BOLFREGA_FIRST_REMARK on are remarks. */
#define BOLFREGA_PROCEDURES 64
#define BOLFREGA_STAGES 16
#define BOLFREGA_CODES 128
#define BOLFREGA_FIRST_REMARK 120

/* The most of each. */
#define BOLFREGA_MOST_RECORDS 1296
#define BOLFREGA_MOST_RULES 256
#define BOLFREGA_MOST_MOVES 1024
#define BOLFREGA_MOST_SYMBOLS 2       /* in the body of an 8-byte rule */
#define BOLFREGA_MOST_WIDE_SYMBOLS 12 /* in the body of a 16-byte rule */
#define BOLFREGA_MOST_ROWS 4096       /* of a journal */
#define BOLFREGA_LONGEST_RUN 65534    /* steps of a run to be judged or written */
#define BOLFREGA_MOST_STEPS 64        /* of a run to be recognized */

/* How much room bolfrega_check_rows works in: cells of 32 bits, and words of 64. */
#define BOLFREGA_TABLE_CELLS 45952
#define BOLFREGA_NEAR_WORDS 28676

/* What the check program of document 01 works with: rows, joins, and bytes for a run. */
#define BOLFREGA_PROGRAM_ROWS 1024
#define BOLFREGA_PROGRAM_BUDGET 1000000
#define BOLFREGA_PROGRAM_ROOM 4096

/* What bolfrega_check, bolfrega_check_from and bolfrega_check_rows return, unless they refuse. */
#define BOLFREGA_HOLDS 100  /* each member has a run, and the sheet accepts every run of every member */
#define BOLFREGA_BROKEN 101 /* a member has a run that the sheet turns away */
#define BOLFREGA_FULL 102   /* the journal had no row left */
#define BOLFREGA_SPENT 103  /* the joins reached the budget */
#define BOLFREGA_EMPTY 104  /* some member has no run: it never ends; and the sheet accepts every run of the others */

/* What bolfrega_judge returns, unless it refuses. */
#define BOLFREGA_ACCEPTED 110
#define BOLFREGA_TURNED_AWAY 111

/* What bolfrega_recognize returns, unless it refuses. */
#define BOLFREGA_DERIVED 112
#define BOLFREGA_NOT_DERIVED 113

/* The table of bolfrega_recognize: its number of cells, and the cell of the stretch from step i up to step j, 0 <= i <= j <= 64. */
#define BOLFREGA_CELLS 2145
#define BOLFREGA_CELL(i, j) ((size_t)(i) * (131 - (size_t)(i)) / 2 + ((size_t)(j) - (size_t)(i)))

/* What bolfrega_list returns, unless it refuses. */
#define BOLFREGA_LISTED 114

/* The list of bolfrega_list: the bytes that its buffer has at least, and of each entry: stage, code, number of moves. */
#define BOLFREGA_LIST_BYTES 5760
#define BOLFREGA_ENTRY_BYTES 3

/* What bolfrega_widen, bolfrega_narrow, bolfrega_unfold and bolfrega_unfold_from return, unless they refuse. */
#define BOLFREGA_CONVERTED 115

/* The most bytes of a file of 16-byte and of 8-byte records. An output of BOLFREGA_WIDE_BYTES always suffices for bolfrega_widen, and one of
 * BOLFREGA_FILE_BYTES for bolfrega_narrow, bolfrega_unfold and bolfrega_unfold_from. */
#define BOLFREGA_WIDE_BYTES 20736
#define BOLFREGA_FILE_BYTES 10368

/* What bolfrega_write returns, unless it refuses. */
#define BOLFREGA_WRITTEN 116

/* What bolfrega_step returns, unless it refuses, and what the values are then: those that are not named are 0. */
#define BOLFREGA_STEP_RULE 117      /* procedure, the body's length, its first symbol, its second symbol */
#define BOLFREGA_STEP_MOVE 118      /* from this stage, on this step code, to this stage */
#define BOLFREGA_STEP_FINISHING 119 /* the stage */
#define BOLFREGA_STEP_ENDED 120     /* past the last record */
#define BOLFREGA_STEP_VALUES 4      /* how many values there are */

/* The places of the details: bolfrega_check has the first eight, bolfrega_check_from and bolfrega_check_rows all nine. */
#define BOLFREGA_RECORD 0    /* the record that is refused */
#define BOLFREGA_JOINS 1     /* candidates formed */
#define BOLFREGA_USED 2      /* journal rows used */
#define BOLFREGA_PASS 3      /* the pass in which the check ended, from 1 */
#define BOLFREGA_ROW 4       /* the row of a broken check */
#define BOLFREGA_PAIRS 5     /* the number of stage pairs in that row's effect */
#define BOLFREGA_LENGTH 6    /* the length of its run; 65,535 means that or more */
#define BOLFREGA_REFUSED 7   /* 0 if that run is in the buffer, else 10 */
#define BOLFREGA_PROCEDURE 8 /* the procedure of that row, whose run it is: one of the members */

/* How many details there are, of bolfrega_check and of the two others. */
#define BOLFREGA_DETAILS 8
#define BOLFREGA_DETAILS_FROM 9

/* In the place BOLFREGA_ROW: there is no such row. In the place BOLFREGA_LENGTH: the run has that many steps or more. */
#define BOLFREGA_NO_ROW 65535
#define BOLFREGA_LENGTH_CAP 65535

/* A row of a journal: eleven words. */
struct bolfrega_row {
    uint64_t procedure; /* the procedure whose run it is */
    uint64_t rule;      /* the number of the rule, among the file's rules, that it was made by */
    uint64_t effect[4]; /* the pairs of stages that the run leads from and to: (a, b) is bit 16 * (a % 4) + b of word a / 4 */
    uint64_t left;      /* the row of the rule's first symbol, if that is a procedure, and else BOLFREGA_NO_ROW */
    uint64_t right;     /* the row of its second symbol, likewise */
    uint64_t length;    /* the length of the run, up to BOLFREGA_LENGTH_CAP */
    uint64_t birth;     /* the pass in which it was stored, from 1 */
    uint64_t retired;   /* the pass in which a smaller one took its place, or 0 */
};

/*
 * What a number says that a function returned, in words; of 3 to 7 and 12 they are about the record at fault. Of a number that is none of these
 * constants it says that it is unknown.
 */
static inline const char *bolfrega_message(uint64_t number)
{
    switch (number) {
    case 0:
        return "nothing refuses the file";
    case BOLFREGA_REFUSAL_LENGTH:
        return "the file's length is no multiple of 8";
    case BOLFREGA_REFUSAL_RECORDS:
        return "the file has more than 1,296 records";
    case BOLFREGA_REFUSAL_KIND:
        return "the kind is not 1, 2 or 3";
    case BOLFREGA_REFUSAL_ABOVE_RANGE:
        return "a used byte is above its range";
    case BOLFREGA_REFUSAL_UNUSED:
        return "an unused byte is not 0";
    case BOLFREGA_REFUSAL_ORDER:
        return "it does not exceed the record before it";
    case BOLFREGA_REFUSAL_COUNT:
        return "it is the 257th rule or the 1,025th move";
    case BOLFREGA_REFUSAL_JOURNAL:
        return "the journal has no row or more than 4,096 rows";
    case BOLFREGA_REFUSAL_ROW:
        return "the row is not used, or more rows are used than there are, or a row up to it is none of a check of this file";
    case BOLFREGA_REFUSAL_ROOM:
        return "the run has 65,535 or more steps or more than the buffer has bytes, or the output is shorter than the result";
    case BOLFREGA_REFUSAL_RUN:
        return "the run has more than 65,534 steps or a code above 127";
    case BOLFREGA_REFUSAL_REMARK:
        return "it is a move on a remark, a code of 120 or above";
    case BOLFREGA_REFUSAL_LONG_RUN:
        return "the run has more than 64 steps";
    case BOLFREGA_REFUSAL_TABLE:
        return "the table does not have 2,145 cells";
    case BOLFREGA_REFUSAL_LIST:
        return "the buffer for the list has fewer than 5,760 bytes";
    case BOLFREGA_REFUSAL_WIDE_LENGTH:
        return "the file's length is no multiple of 16";
    case BOLFREGA_REFUSAL_LONG_BODY:
        return "a body has more than two symbols";
    case BOLFREGA_REFUSAL_CHAINS:
        return "the unfolding needs procedure 64 or a 257th rule";
    case BOLFREGA_HOLDS:
        return "holds: the sheet accepts every run";
    case BOLFREGA_BROKEN:
        return "broken: a run is turned away";
    case BOLFREGA_FULL:
        return "full: the journal had no row left";
    case BOLFREGA_SPENT:
        return "spent: the joins reached the budget";
    case BOLFREGA_EMPTY:
        return "empty: a starting procedure has no run";
    case BOLFREGA_ACCEPTED:
        return "accepted: the sheet accepts the run";
    case BOLFREGA_TURNED_AWAY:
        return "turned away: the sheet does not accept the run";
    case BOLFREGA_DERIVED:
        return "derived: the run is one of the plan's";
    case BOLFREGA_NOT_DERIVED:
        return "not derived: the run is none of the plan's";
    case BOLFREGA_LISTED:
        return "listed: the gaps and doubles are in the list";
    case BOLFREGA_CONVERTED:
        return "converted: the result is in the output";
    case BOLFREGA_WRITTEN:
        return "written: the run is in the buffer";
    case BOLFREGA_STEP_RULE:
        return "rule: the record is a rule";
    case BOLFREGA_STEP_MOVE:
        return "move: the record is a move";
    case BOLFREGA_STEP_FINISHING:
        return "finishing: the record is a finishing stage";
    case BOLFREGA_STEP_ENDED:
        return "ended: there is no further record";
    default:
        return "an unknown number: no answer";
    }
}

/*
 * The version of the library's interface, BOLFREGA_VERSION or above.
 *
 * Version 2 adds bolfrega_check_from, bolfrega_unfold_from and BOLFREGA_PROCEDURE. Version 3 adds bolfrega_check_rows, bolfrega_write, bolfrega_step
 * and bolfrega_moves, with number 9. What the versions before had is unchanged.
 */
uint64_t bolfrega_version(void);

/*
 * Reads a file.
 *
 * Returns 0 if nothing refuses the file, else the number that does, 1 to 7 or 12.
 * Sets *record to the number of the record at fault, from 0, if it returns 3 to 7 or 12, and else to 0.
 */
uint64_t bolfrega_refusal(const uint8_t *file, size_t file_length, uint64_t *record);

/*
 * Reads the record at place `from` of a file, from 0. To read a whole file, begin at 0 and go on at *next until BOLFREGA_STEP_ENDED.
 *
 * Returns 1 or 2 by the file's length; else BOLFREGA_STEP_ENDED if there is no record at `from`; else 3 to 7 or 12 if that record is refused: 6 and 7
 * look at the records before it, which are not checked again; else BOLFREGA_STEP_RULE, BOLFREGA_STEP_MOVE or BOLFREGA_STEP_FINISHING.
 * Sets all values to what the record says, and to 0 if none came. Sets *next to `from` + 1 if a record came, and else to `from`. Sets *record to
 * `from` if it returns 3 to 7 or 12, and else to 0.
 */
uint64_t bolfrega_step(const uint8_t *file, size_t file_length, size_t from, uint64_t *record, uint64_t values[BOLFREGA_STEP_VALUES],
                       uint64_t *next);

/*
 * Says where the moves of a file stand in it: they are the *length bytes from file + *offset on. There are none if *length is 0, and both are 0 if
 * the file is refused: this call gives no number.
 */
void bolfrega_moves(const uint8_t *file, size_t file_length, uint64_t *offset, uint64_t *length);

/*
 * Judges a run by the order sheet in a file.
 *
 * Returns 1 to 7 or 12 if the file is refused; else 11 if the run is refused; else BOLFREGA_ACCEPTED if the sheet has a path on the run from
 * stage 0 to a finishing stage, and BOLFREGA_TURNED_AWAY if it has none.
 * Sets *record as bolfrega_refusal does: to 0 if it returns anything but 3 to 7 or 12.
 *
 * It keeps tables of about 4 KiB on the stack.
 */
uint64_t bolfrega_judge(const uint8_t *file, size_t file_length, const uint8_t *run, size_t run_length, uint64_t *record);

/*
 * Says whether a recorded run is one of the plan's.
 *
 * Returns 1 to 7 or 12 if the file is refused; else 11, 13 or 14, in this order; else BOLFREGA_DERIVED if procedure 0 derives the run, and
 * BOLFREGA_NOT_DERIVED if it does not. Every step code counts as a step here, whatever the sheet says of it.
 * Sets *record as bolfrega_refusal does: to 0 if it returns anything but 3 to 7 or 12.
 *
 * The table has a cell for each stretch of the run from step i up to step j, with 0 <= i <= j <= 64, in rising order of i, then j. If the
 * call is not refused, bit p of table[BOLFREGA_CELL(i, j)] becomes 1 if procedure p derives the stretch and else 0, whatever the call
 * returns, and the cells with j past the run's end become 0. A refused call leaves the table as it was.
 *
 * It keeps tables of about 36 KiB on the stack.
 */
uint64_t bolfrega_recognize(const uint8_t *file, size_t file_length, const uint8_t *run, size_t run_length, uint64_t *record,
                            uint64_t *table, size_t cells);

/*
 * Lists the gaps and doubles of the order sheet in a file: the pairs of a stage and a code whose number of moves is not one. The stages are 0
 * and every stage in a move or finishing record, the codes are those that moves are on.
 *
 * Returns 1 to 7 or 12 if the file is refused; else 15 if the list has fewer than BOLFREGA_LIST_BYTES bytes, however many entries there are;
 * else BOLFREGA_LISTED.
 * Sets *record as bolfrega_refusal does: to 0 if it returns anything but 3 to 7 or 12. Sets *entries to the number of entries, and to 0 if it
 * refuses.
 *
 * Each entry is three bytes: stage, code, number of moves (0, or 2 to 16). The first 3 * *entries bytes of the list become the entries; stages
 * rise, then codes. All other bytes of the list keep their values, and so do all of them if the call is refused. If there is no entry, a run of
 * codes that moves are on has exactly one path from each of the stages.
 *
 * It keeps tables of about 4 KiB on the stack.
 */
uint64_t bolfrega_list(const uint8_t *file, size_t file_length, uint64_t *record, uint64_t *entries, uint8_t *list, size_t list_length);

/*
 * Moves a file of 8-byte records over to 16 bytes: each record with eight zeros behind it.
 *
 * Returns 1 to 7 or 12 if the file is refused; else 10 if the output has fewer bytes than the result, which has twice those of the file;
 * else BOLFREGA_CONVERTED.
 * Sets *record as bolfrega_refusal does: to 0 if it returns anything but 3 to 7 or 12. Sets *length to the length of the result in bytes, and
 * to 0 if it refuses.
 *
 * The first *length bytes of the output become the result. All other bytes of the output keep their values, and so do all of them if the call
 * is refused. bolfrega_narrow and bolfrega_unfold both give the file's own bytes again.
 */
uint64_t bolfrega_widen(const uint8_t *file, size_t file_length, uint64_t *record, uint64_t *length, uint8_t *out, size_t out_length);

/*
 * Moves a file of 16-byte records back to 8 bytes. No body may have more than two symbols.
 *
 * Returns 16, 2 to 7 or 12 if the file is refused; else 17 if some body has more than two symbols; else 10 if the output has fewer bytes than
 * the result, which has half of those of the file; else BOLFREGA_CONVERTED.
 * Sets *record to the number of the record at fault, from 0, if it returns 3 to 7 or 12, and else to 0. Sets *length, and the output, as
 * bolfrega_widen does. bolfrega_widen gives the file's own bytes again.
 */
uint64_t bolfrega_narrow(const uint8_t *file, size_t file_length, uint64_t *record, uint64_t *length, uint8_t *out, size_t out_length);

/*
 * Unfolds a file of 16-byte records to one of 8 bytes, which passes the file checks of every other call.
 *
 * A body of more than two symbols becomes its first symbol and a chain procedure, whose one rule gives the rest; and so on, until two symbols
 * are left. Each body has chain procedures of its own. They are numbered one after the other, in file order and left to right, from one above
 * the highest procedure that is the head or a symbol of any rule. All rules are then put in file order, before the same moves and finishing
 * stages. Each procedure of the file derives the same runs in the result; the joins, rows and passes of a check are those of the result.
 *
 * Returns 16, 2 to 7 or 12 if the file is refused; else 18 if the result would need procedure 64 or a 257th rule; else 10 if the output has
 * fewer bytes than the result; else BOLFREGA_CONVERTED.
 * Sets *record to the number of the record at fault, from 0, if it returns 3 to 7 or 12, and else to 0. Sets *length, and the output, as
 * bolfrega_widen does.
 *
 * It keeps a table of about 2 KiB on the stack.
 */
uint64_t bolfrega_unfold(const uint8_t *file, size_t file_length, uint64_t *record, uint64_t *length, uint8_t *out, size_t out_length);

/*
 * Unfolds a file of 16-byte records as bolfrega_unfold does, for the members of `starts`: each of them counts as in use, with a rule or without.
 * The chain procedures are numbered from one above the highest procedure that is a member or the head or a symbol of any rule, so that no member
 * is one of them, and a check of the result for the same members speaks of their runs in the file.
 *
 * Returns 16, 2 to 7 or 12 if the file is refused; else 18 if the result would need procedure 64 or a 257th rule; else 10 if the output has
 * fewer bytes than the result; else BOLFREGA_CONVERTED. With procedure 63 as a member that is 18 for every file with a body of more than two
 * symbols.
 * Sets *record to the number of the record at fault, from 0, if it returns 3 to 7 or 12, and else to 0. Sets *length, and the output, as
 * bolfrega_widen does.
 *
 * It needs the stack of bolfrega_unfold.
 */
uint64_t bolfrega_unfold_from(const uint8_t *file, size_t file_length, uint64_t starts, uint64_t *record, uint64_t *length, uint8_t *out,
                              size_t out_length);

/*
 * Checks a file's plan, the runs of procedure 0, against its order sheet, with a journal of `rows` rows and a budget of `budget` joins.
 *
 * It keeps its journal (352 KiB) and its tables (about 411 KiB) on the stack, and writing a run takes up to 578 KiB more (144 bytes for
 * each row on the way down): a thread that calls it needs a stack of 1.5 MiB to be on the safe side. (The main thread of a Linux program
 * has 8 MiB.)
 *
 * How long it takes, as measured on one core of a server at 2.1 GHz (bench/README.md): some 25 microseconds for any file, most of them for
 * clearing its journal and tables; then 2 to 20 nanoseconds for most joins, and where hundreds or thousands of rows of one procedure are
 * looked through for each join, from 40 nanoseconds up to one or two microseconds. Joins of rows that were there in the pass before are only
 * counted: 62 thousand million of them took a quarter of a second. So a budget of 1,000,000 joins ends a call within about two seconds, and of the
 * files that we measure the slowest took 10 milliseconds with it.
 *
 * Returns, and sets all eight details:
 * - 1 to 7 or 12 if the file is refused; else 8 if `rows` is 0 or above 4,096. The record is that of bolfrega_refusal (0 for 1, 2 and 8), and
 *   the other details are 0.
 * - BOLFREGA_HOLDS, BOLFREGA_EMPTY, BOLFREGA_FULL or BOLFREGA_SPENT. Joins, used and pass are those of the check, the row is 65,535, the
 *   rest is 0.
 * - BOLFREGA_BROKEN. Joins, used, pass, row, pairs and length are those of the check, the record is 0. If the run has at most 65,534
 *   steps and fits into the buffer, refused is 0 and the run is the first `length` bytes of the buffer. Else refused is 10.
 *
 * Every byte of the buffer keeps its value but those of a run that is written. Once it returns BOLFREGA_HOLDS, BOLFREGA_BROKEN or
 * BOLFREGA_EMPTY, more rows (up to 4,096) or a larger budget change nothing that it returns, sets or writes.
 */
uint64_t bolfrega_check(const uint8_t *file, size_t file_length, size_t rows, uint64_t budget, uint64_t details[BOLFREGA_DETAILS], uint8_t *buffer,
                        size_t buffer_length);

/*
 * Checks a file's plan as bolfrega_check does, for the runs of every member of `starts`. With no member it never returns BOLFREGA_BROKEN or
 * BOLFREGA_EMPTY.
 *
 * It needs the stack and the time of bolfrega_check.
 *
 * Returns, and sets all nine details:
 * - 1 to 7 or 12 if the file is refused; else 8 if `rows` is 0 or above 4,096. The record is that of bolfrega_refusal (0 for 1, 2 and 8), and
 *   the other details are 0.
 * - BOLFREGA_HOLDS, BOLFREGA_EMPTY, BOLFREGA_FULL or BOLFREGA_SPENT. Joins, used and pass are those of the check, the row is 65,535, the
 *   rest is 0.
 * - BOLFREGA_BROKEN, at the first row of any member whose run is turned away. Joins, used, pass, row, pairs and length are those of the check,
 *   procedure is the member, the record is 0. If the run has at most 65,534 steps and fits into the buffer, refused is 0 and the run is
 *   the first `length` bytes of the buffer. Else refused is 10.
 *
 * Every byte of the buffer keeps its value but those of a run that is written. Once it returns BOLFREGA_HOLDS, BOLFREGA_BROKEN or
 * BOLFREGA_EMPTY, more rows (up to 4,096) or a larger budget change nothing that it returns, sets or writes.
 */
uint64_t bolfrega_check_from(const uint8_t *file, size_t file_length, uint64_t starts, size_t rows, uint64_t budget,
                             uint64_t details[BOLFREGA_DETAILS_FROM], uint8_t *buffer, size_t buffer_length);

/*
 * Checks a file's plan as bolfrega_check_from does, over `rows` rows of the host's own, and writes no run: bolfrega_write does that, of any row.
 *
 * It works in the lent `cells` and `near`. These and the rows may hold anything: nothing is cleared but what is read, so that a check of a tiny
 * file takes about a microsecond, and a host that checks many files lends the same areas again. It keeps about 7 KiB on the stack.
 *
 * Returns, and sets all nine details, as bolfrega_check_from does, but for BOLFREGA_REFUSED, which is 0.
 *
 * The first `used` rows become those of the check. All other rows keep their contents, and so do all of them if the call is refused. What `cells`
 * and `near` hold after the call is of no use.
 */
uint64_t bolfrega_check_rows(const uint8_t *file, size_t file_length, uint64_t starts, uint64_t budget, struct bolfrega_row *journal,
                             size_t rows, uint32_t cells[BOLFREGA_TABLE_CELLS], uint64_t near[BOLFREGA_NEAR_WORDS],
                             uint64_t details[BOLFREGA_DETAILS_FROM]);

/*
 * Writes the run behind row `row` of a journal of `rows` rows, of which `used` are used: that of a broken check, or any other that it stored.
 *
 * Returns 1 to 7 or 12 if the file is refused; else 8 if `rows` is 0 or above 4,096; else 9 if `row` is not below `used`, or `used` is above
 * `rows`, or a row up to `row` does not fit; else 10 if the run has 65,535 or more steps, or more than the buffer has bytes; else BOLFREGA_WRITTEN.
 * Whoever made the rows, a run that is written is one of the plan's, from the procedure of that row.
 * Sets *record as bolfrega_refusal does: to 0 if it returns anything but 3 to 7 or 12. Sets *length to the length of the run, and to 0 if it
 * refuses.
 *
 * The first *length bytes of the buffer become the run. All other bytes of the buffer keep their values, and so do all of them if the call is
 * refused. It takes up to 578 KiB of stack (144 bytes for each row on the way down).
 */
uint64_t bolfrega_write(const uint8_t *file, size_t file_length, const struct bolfrega_row *journal, size_t rows, size_t used, size_t row,
                        uint64_t *record, uint64_t *length, uint8_t *buffer, size_t buffer_length);

#ifdef __cplusplus
}
#endif

#endif
