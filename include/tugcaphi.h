/*
 * Tugcaphi: an access matrix after Harrison, Ruzzo and Ullman, and the judge of its leaks, as a library.
 *
 * Seven calls on bytes in memory. They open no file, keep nothing between calls, allocate nothing and print nothing. What each
 * answers and leaves is proved, for every input: docs/PROVED.md says what that means and what it rests on. docs/FORMAT.md has
 * the house file byte by byte, docs/REFUSALS.md every number by which a call is refused.
 *
 * The library needs memcpy and memset of C's and nothing else. In the repository it is target/staticlib/libexports.a, and
 * `install` puts it into a prefix as libtugcaphi.a:
 *
 *     cc example.c -I include -L target/staticlib -l exports
 *     cc example.c -I PREFIX/include -L PREFIX/lib -l tugcaphi
 *
 * What every call promises
 *
 * - It ends, whatever it is given, and reads and writes nothing but what it is lent.
 * - Any bytes are taken as a file, a trace, a list of cells or of names, a sheet or a buffer, and any number as a rule, a name or
 *   a right. What is wrong with them is the answer: a number of docs/REFUSALS.md, 1 to 9 and 44 for the file, 11, 12, 14, 15 and
 *   31 for a rule run or a trace, 21 to 24 for a question to the judge, 41 for a list of cells, 42 for one of names, 43 for a sheet.
 *   The first one that applies is given, in the order of that page.
 * - A condition of a rule holds by its own right and by every right in the cell that carries it. What is entered, deleted, leaks or
 *   is asked for is the right itself.
 * - Refused, it changes no byte of a file, a sheet or a buffer.
 *
 * What the caller must see to; no call can test it
 *
 * - A pointer is not null and points to as many bytes as its length says, for the whole call; a length of 0 is fine.
 * - What is lent for writing overlaps with nothing else that is lent: the file of access_run; the buffer and the number of
 *   access_judge, access_judge_part and access_need; the entries and the buffer of access_sheet; the number of access_replay. The
 *   number is aligned as a uint64_t is. What is lent for reading alone (const) may be one and the same memory.
 * - Nobody writes to what is lent while the call is at work, and nobody reads what is lent for writing. Calls of several threads
 *   at once, each with memory of its own or with memory that is only read, do not touch each other.
 * - There is stack for the call: see TUGCAPHI_STACK.
 */
#ifndef TUGCAPHI_H
#define TUGCAPHI_H

#include <stddef.h>
#include <stdint.h>

#ifdef __cplusplus
extern "C" {
#endif

/* The answers that are no refusals. */
#define TUGCAPHI_ACCEPTED 0 /* access_check */
#define TUGCAPHI_DONE 0     /* access_run */
#define TUGCAPHI_NO_LEAK 0  /* access_replay */
#define TUGCAPHI_LEAK 255
#define TUGCAPHI_SAFE 0     /* access_judge, access_judge_part, an entry of access_sheet */
#define TUGCAPHI_UNSAFE 255
#define TUGCAPHI_ANSWERED 0 /* access_sheet */
#define TUGCAPHI_NEVER 0    /* access_need */
#define TUGCAPHI_HELD 255

/*
 * A step of a trace: the rule's number and four names, 255 in the positions behind the rule's blanks, and any byte in a spare
 * blank, which is one that no condition and no step of the rule names.
 */
#define TUGCAPHI_STEP 5

/* A cell of a list: a right, a subject and a name. A list has at most so many of them. */
#define TUGCAPHI_CELL 3
#define TUGCAPHI_CELLS 8

/* An entry of a sheet: a right, the code of its answer, and two bytes for the number of steps. A sheet has at most so many. */
#define TUGCAPHI_ENTRY 4
#define TUGCAPHI_ENTRIES 8

/*
 * A house file has at most so many rights. A set of rights, a cell of the file or what a right carries, is a number of so many
 * bytes, low byte first, in which right i counts 2 to the power i.
 */
#define TUGCAPHI_RIGHTS 12
#define TUGCAPHI_SET 2

/*
 * A buffer of so many bytes is long enough for every call that takes one, whatever the file: 59,540. A sheet needs so many for
 * each entry.
 */
#define TUGCAPHI_BUFFER (TUGCAPHI_STEP * (TUGCAPHI_RIGHTS * 31 * 32 + 4))

/*
 * Bytes of stack that are enough for each call. This is measured and not proved: access_check used about 12,400 bytes, access_run
 * 14,600, access_replay 14,600, access_judge 57,600, access_judge_part 50,200, access_sheet 55,600, access_need 34,000. Each ran in
 * a thread whose stack of 1 MiB was painted with a pattern before, and what had lost its paint afterwards was counted, less what
 * an idle thread uses; on some hundred generated files, for all rights, access_judge_part with no names and some of them listed,
 * access_sheet with 0, 1 and 8 entries, access_need with lists of 0, 1 and 8 cells. The most is given; files whose rounds ran
 * differed by less than 2,400 bytes, since the calls hold arrays of fixed size alone, and recur at most once for each blank of a
 * rule. The tests measure it again on 60 files, and fail above this number.
 */
#define TUGCAPHI_STACK 98304

/*
 * Whether a file is accepted: 0, or the refusal of whoever wrote it, 1 to 9 or 44.
 */
uint8_t access_check(const uint8_t *file, size_t length);

/*
 * Runs rule number `rule` with the names a0 to a3. A spare blank takes any number, which changes nothing; positions behind the
 * rule's blanks must hold 255.
 *
 * 0: all its steps were carried out, in the file, whose kinds and cells alone have changed; it is still accepted, with the
 * same carries and rules. Else the refusal, 1 to 9, 44, 11, 12, 14 or 15, and the file is as it was.
 */
uint8_t access_run(uint8_t *file, size_t length, uint8_t rule, uint8_t a0, uint8_t a1, uint8_t a2, uint8_t a3);

/*
 * Carries out the steps of a trace, one after the other, on a copy of the file's state, and tells whether one of them leaks the
 * right: enters it into a cell that lacks it.
 *
 * 255: step number *step, from 0, is the first to leak, and none before it is refused. 0: all steps were carried out, and none
 * leaks; *step is 0. Else the refusal: 11, 12, 14 or 15 with the number of the refused step in *step, before which none leaks;
 * 1 to 9, 44, 21 and 31 with 0.
 */
uint8_t access_replay(const uint8_t *file, size_t length, const uint8_t *trace, size_t trace_length, uint8_t right,
                      uint64_t *step);

/*
 * Whether any run of the file's rules, however long and with whatever new names, can leak the right.
 *
 * 255, unsafe: the first 5 * *steps bytes of the buffer are a run that does, from the file as it is: no step of it is refused,
 * and it leaks at its last step and nowhere sooner. 0, safe: no run leaks; the first 5 * *steps bytes of the buffer are the
 * steps by which the judge found this out. Spare blanks have 0 in them. The rest of the buffer keeps its bytes. Else the refusal,
 * 1 to 9, 44 or 21 to 24; *steps is 0.
 */
uint8_t access_judge(const uint8_t *file, size_t length, uint8_t right, uint8_t *buffer, size_t buffer_length,
                     uint64_t *steps);

/*
 * The same of a part: of what stays when names that are trusted, such as those of an office that may grant everything anyway, are
 * dropped with their rows and columns. The list has a byte for each name, in any order; it may be empty, and then the answer and
 * every byte of the buffer are access_judge's.
 *
 * 255, unsafe: the steps, written as access_judge writes them, are a run from the part that leaks at its last step and nowhere
 * sooner; from the whole file it does so too, and the whole is unsafe. 0, safe: no run from the part leaks. So none from the
 * whole does in which no listed name is given to a blank that a condition or a step names. A name that a step creates is absent
 * in the whole, and the buffer must be as long as the whole needs. Else the refusal, 1 to 9, 44, 21 to 24, or 42 where a listed
 * name does not exist, is above 31 or is listed before; *steps is 0.
 */
uint8_t access_judge_part(const uint8_t *file, size_t length, uint8_t right, const uint8_t *trusted, size_t trusted_length,
                          uint8_t *buffer, size_t buffer_length, uint64_t *steps);

/*
 * access_judge of several rights: a sheet of at most 8 entries, each with a part of the buffer of its own. An entry has four
 * bytes: the right, which the caller writes, and then the place for its answer: the code, and the number of steps, low byte
 * first. There are entries_length / 4 entries, and a right may stand in several. Of n entries each has buffer_length / n bytes,
 * rounded down, the first one from the front of the buffer on, each next one behind the one before.
 *
 * 0: each entry has the code and the number that access_judge would give for its right and its part of the buffer, and the part
 * is as that call would leave it. A refusal, 1 to 9, 44 or 21 to 24, is an entry's code, too, with the number 0, and does not keep
 * the other entries from their answers; that of the file is the code of every entry. Bytes behind the last whole entry and behind
 * the last part stay, and an empty sheet changes nothing, whatever the file is. 43: there are more than 8 entries; the file was
 * not looked at, and no entry is answered.
 */
uint8_t access_sheet(const uint8_t *file, size_t length, uint8_t *entries, size_t entries_length, uint8_t *buffer,
                     size_t buffer_length);

/*
 * Whether all cells of a list can hold their rights at the same moment, as a press needs them. A cell is three bytes, right,
 * subject and name; the list has at most 8 cells and may have none.
 *
 * 255, held: the first 5 * *steps bytes of the buffer are a run, from the file as it is, no step of which is refused and which
 * ends with all cells held, and no shorter front of it does; *steps is 0 if the file holds them all. 0, never: no run, however
 * long and with whatever new names, that destroys no name existing in the file ends with all of them held; the first 5 * *steps
 * bytes of the buffer are the steps by which this was found out. Spare blanks have 0 in them. The rest of the buffer keeps its
 * bytes. Else the refusal, 1 to 9, 44, 22 to 24 or 41; *steps is 0.
 */
uint8_t access_need(const uint8_t *file, size_t length, const uint8_t *cells, size_t cells_length, uint8_t *buffer,
                    size_t buffer_length, uint64_t *steps);

#ifdef __cplusplus
}
#endif

#endif
