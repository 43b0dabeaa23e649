/* The judge of Hrafnolt, for C.
 *
 * Link with -lhrafnolt, which is libhrafnolt.a (target/staticlib/libexports.a, before it is installed) or the same as a shared library. From outside it needs memcpy and memset as the C
 * library has them (a later one may need memmove and memcmp, and nothing else: a test looks), and room on the stack: its calls within
 * calls are as deep as a cube has FFs, at most 224, which comes to less than 512 KiB (by its object code; this is not proved). No
 * function allocates, or keeps state between calls: any number of threads may call it at a time, each with its own work area. */
#ifndef HRAFNOLT_H
#define HRAFNOLT_H

/* The version, said by `--version`, the manual pages and hrafnolt.pc too. A program that was compiled with one major number works with every
 * library of that number: functions and numbers are added, and none is changed or taken away. */
#define HRAFNOLT_VERSION "1.0"
#define HRAFNOLT_VERSION_MAJOR 1
#define HRAFNOLT_VERSION_MINOR 0

#include <stddef.h>
#include <stdint.h>

#ifdef __cplusplus
extern "C" {
#endif

/* kind HRAFNOLT_SAFE:      first = number of entries; line `safe FIRST`
 * kind HRAFNOLT_REACHABLE: first = number of steps, second = lowest target met; line `reachable FIRST SECOND`
 * kind HRAFNOLT_PSO:       the same of a run of the PSO machine, claim 2; line `pso FIRST SECOND`
 *     A safe list is about every starting memory, a run about the one that its file gives after the claim.
 * kind HRAFNOLT_NEEDED:    first = number of marks, second = number of entries, of a report; line `needed FIRST SECOND`
 * kind HRAFNOLT_REFUSED:   first = number of the refusal table, second = place; line `refused FIRST SECOND`.
 *     A step that the machine can't take is 12, 15, 16, 17 or 18 by its cause, and the place is the step's number.
 *     11 has a step too, the lowest through which a configuration outside the list gets above the entry: transitions by number, serialise
 *     by process then variable, update by process. Its line is `refused 11 SECOND STEP`, the step as t0, s01 or u0.
 * step_kind, step_first and step_second are that step, and 0 for every other answer:
 *     HRAFNOLT_TRANSITION number 0, HRAFNOLT_SERIALISE process variable, HRAFNOLT_UPDATE process 0.
 * record_file, record_at and record_length are the offending record, a part of one of the lent files: record_length bytes from offset
 * record_at on, in the program or combined file (HRAFNOLT_PROGRAM_FILE) or in the evidence file (HRAFNOLT_EVIDENCE_FILE).
 *     1, 2, 3, 4, 5, 7: the record at the place, cut where its file ends; of a kind that no file has, the kind byte alone. Of 7 it is the
 *     entry's own 10. The place counts within the record's file, so record_at is equal to it.
 *     6: the empty end of the file that ended: record_at is its length, record_length is 0.
 *     Every other answer: the empty end of the evidence or combined file. */
struct hrafnolt_verdict {
    uint64_t kind, first, second;
    uint64_t step_kind, step_first, step_second;
    uint64_t record_file, record_at, record_length;
};

enum { HRAFNOLT_SAFE = 0, HRAFNOLT_REACHABLE = 1, HRAFNOLT_REFUSED = 2, HRAFNOLT_PSO = 3, HRAFNOLT_NEEDED = 4 };

/* The kinds of a step, as in its record. */
enum { HRAFNOLT_TRANSITION = 0x20, HRAFNOLT_SERIALISE = 0x21, HRAFNOLT_UPDATE = 0x22 };

/* The file that a record stands in. A combined file counts as the program file. */
enum { HRAFNOLT_PROGRAM_FILE = 0, HRAFNOLT_EVIDENCE_FILE = 1 };

/* Bytes of a work area: the least that is not refused with 8, and the most that is ever used (524,288 entries).
 * A large area has its price: each call sets all of it that it may use to 0, whatever the file needs. With the most, a small file takes some 60
 * microseconds in place of 2; so lend what hrafnolt_work_enough says, and no more, even if the area that it is a part of is larger. */
#define HRAFNOLT_WORK_LEAST ((size_t)65536)
#define HRAFNOLT_WORK_MOST ((size_t)(16384 + 12 * 524288))

/* A work area that holds every entry that a file of this length can have. For a pair the length of the evidence file is enough: a program
 * file has no entries. */
static inline size_t hrafnolt_work_enough(size_t file_len)
{
    size_t entries = file_len / 9; /* an entry has at least nine bytes */
    if (entries > 524288)
        entries = 524288;
    size_t bytes = 16384 + 12 * entries;
    return bytes < HRAFNOLT_WORK_LEAST ? HRAFNOLT_WORK_LEAST : bytes;
}

/* Judges the combined file file[0 .. file_len) with work[0 .. work_len) as its work area.
 *
 * What the proof takes for granted and a C caller must keep:
 * - file is not null and names file_len readable bytes (any non-null pointer does for an empty file);
 * - work is not null and names work_len bytes that can be read and written, and whose contents are set to something (any pointer does
 *   for 0 bytes);
 * - the two don't overlap, and nobody else writes to either, or reads work, during the call;
 * - each length is at most PTRDIFF_MAX.
 *
 * The contents of work do not matter when it is lent. Afterwards its first 16,384 bytes and twelve more for each entry allowed are 0 and
 * the rest is as it was; after refusal 8 all of it is as it was. The file is only read. */
struct hrafnolt_verdict hrafnolt_judge(const uint8_t *file, size_t file_len, uint8_t *work, size_t work_len);

/* Judges the evidence file evidence[0 .. evidence_len) against the program file program[0 .. program_len), for groups that share a program.
 * The program file holds the records 01 to 04 and ends; the evidence file begins at its claim, 0F. The program file is read through first: it is
 * 6 if it ends before its first 04, and an 0F in it is 2.
 *
 * What a C caller must keep is the same: program and evidence are not null and name so many readable bytes, work is as above and overlaps
 * neither of them, nobody writes to any of them during the call, and each length is at most PTRDIFF_MAX. Program and evidence may
 * overlap, or be the same bytes, since both are only read, and calls at the same time may share them, each with its own work area. The
 * verdict, and which bytes of work are 0 afterwards, depend on the bytes of the two files and on work_len, and on nothing else. */
struct hrafnolt_verdict hrafnolt_judge_pair(const uint8_t *program, size_t program_len, const uint8_t *evidence, size_t evidence_len,
                                            uint8_t *work, size_t work_len);

/* ---- fence reports (request N10)
 *
 * Judges the report file[0 .. file_len): the program, 01 to 04; up to 8 marks, records of kind 30 with one transition number;
 * evidence with claim 0 for the program; then for each mark in turn evidence with claim 1, a run in which that fence is a nop and all
 * others are kept. The answer is HRAFNOLT_NEEDED if and only if the marks are different fences, the list is safe and each run is
 * accepted: then no target can be reached, and each choice that makes at least one marked fence a nop and keeps the others can reach
 * one, in the PWS machine and in the PSO machine.
 *
 * Refusals of the records come first, with the numbers, offsets and records of hrafnolt_judge: a ninth mark is 5; a mark of no
 * transition, a claim out of its turn or one too many 4; missing evidence 6. Then 22 with the place among the marks of the lowest that
 * repeats an earlier one or is neither mfence nor sfence; then 23 with 8 if the list is not safe, or with the place of the lowest mark
 * whose run is not accepted. With 22, 23 and HRAFNOLT_NEEDED the record is the empty end of the file. What a C caller must keep, and
 * what is left in work, are as for hrafnolt_judge, and hrafnolt_work_enough(file_len) is enough. */
struct hrafnolt_verdict hrafnolt_report(const uint8_t *file, size_t file_len, uint8_t *work, size_t work_len);

/* ---- runs as drawings (request N12)
 *
 * number 0: value bytes were written, at the start of out. Else the number of a refusal, and its place: nothing was written.
 * Bytes of out past those written are never touched. */
struct hrafnolt_written {
    uint64_t number, value;
};

/* Output that is long enough for each drawing, and for the step records of each. */
#define HRAFNOLT_DOT_MOST ((size_t)33560)
#define HRAFNOLT_STEPS_MOST ((size_t)(3 * 1024))

/* Step records (20, 21, 22), of a run of either machine, to DOT text. Bad records are 2, 1, 5 or 4 with the record's offset, as the judge says for a program of four
 * processes, four variables and 256 transitions; an output too short is 26 with the bytes needed.
 * The pointers are not null, each names as many bytes as its length says (at most PTRDIFF_MAX), those of out set to something, and the two
 * don't overlap. */
struct hrafnolt_written hrafnolt_dot_write(const uint8_t *steps, size_t steps_len, uint8_t *out, size_t out_len);

/* DOT text, exactly as hrafnolt_dot_write makes it, back to step records. Any other text is 27 with the offset of the first byte that no
 * such text has after the same beginning, or the text's length if it stops early; an output too short is 26 with the bytes needed. */
struct hrafnolt_written hrafnolt_dot_read(const uint8_t *text, size_t text_len, uint8_t *out, size_t out_len);

/* ---- programs with registers (request N8)
 *
 * Output that is long enough for each program: 01, four 02s, 256 of 03, 4,096 of 04. */
#define HRAFNOLT_PROGRAM_MOST ((size_t)22547)

/* A file of 01, 02s, 05s and 04s, in which a process may have a register, to the program file of 01 to 04 that says the same without registers. Refusals of the
 * records are 2, 1, 5, 3, 4 and 6 with the offset, as the judge says for a program file; then 19 with the lowest process that would need over 32 states; then
 * 28 with the number of the 05 that a 257th transition comes from; then 29 with the bytes needed, for an output too short. The pointers are as for
 * hrafnolt_dot_write. */
struct hrafnolt_written hrafnolt_registers(const uint8_t *program, size_t program_len, uint8_t *out, size_t out_len);

/* ---- a year of verdicts in exact fractions (request N11)
 *
 * A collection counts results: all of them, the safe ones, the sum of their entries, and of the squares of their entries. All 0 is the
 * empty one. It goes in and comes back by value. */
struct hrafnolt_collection {
    uint64_t results, safe, sum, squares;
};

/* number 0, and the collection with what was added; or 25, and the collection as it was (of a join, the first). */
struct hrafnolt_collected {
    uint64_t number;
    struct hrafnolt_collection collection;
};

/* number 0, and a fraction in lowest terms, 0 as 0/1; or 24, if there is no such number, or 25, then 0 and 0. */
struct hrafnolt_fraction {
    uint64_t number, numerator, denominator;
};

/* 25: more than 4,096 results, a safe result of more than 524,288 entries, or a collection that no addition made, as far as its counts
 * show: more results than 4,096, more safe ones than results, a sum or squares too large for them, or squares too small for the sum. */
struct hrafnolt_collected hrafnolt_add_safe(struct hrafnolt_collection c, uint64_t entries);
struct hrafnolt_collected hrafnolt_add_other(struct hrafnolt_collection c);
struct hrafnolt_collected hrafnolt_join(struct hrafnolt_collection a, struct hrafnolt_collection b);

/* Mean and variance of the entries of the safe results (the variance divides by their number), and the share of safe results among all.
 * 24: no safe result; for the share, no result at all. 25: as above. */
struct hrafnolt_fraction hrafnolt_mean(struct hrafnolt_collection c);
struct hrafnolt_fraction hrafnolt_variance(struct hrafnolt_collection c);
struct hrafnolt_fraction hrafnolt_share(struct hrafnolt_collection c);

/* ---- words
 *
 * What a refusal's number says, in the words of README.md's table; null for a number that no refusal has. */
static inline const char *hrafnolt_reason(uint64_t number)
{
    switch (number) {
    case 1:
        return "the file ends inside a record";
    case 2:
        return "the kind of a record is unknown, or not allowed here";
    case 3:
        return "a number of the shape (processes, variables, a present variable's values) or a count of states is outside its range";
    case 4:
        return "a field names what does not exist, a value is outside its variable's range, or an absent one is not 0; in a report a claim out of its turn";
    case 5:
        return "one record more than a count allows";
    case 6:
        return "the file ends before the claim, or before the starting memory of a run; a program file before its first 04; a report before its last run";
    case 7:
        return "an entry without message, with a pointer outside its messages, or with none at 1";
    case 8:
        return "the work area has under 65,536 bytes";
    case 9:
        return "a configuration in a target is not above the list";
    case 10:
        return "a start, of whatever memory, is above an entry";
    case 11:
        return "one step leads above this entry from outside the list";
    case 12:
        return "the step's process is not in the transition's first local state";
    case 13:
        return "the last local states are no target";
    case 14:
        return "the program only: more than 65,536 bytes";
    case 15:
        return "the value that is read, or that an arw expects, is not the one there";
    case 16:
        return "a queue that must be empty is not: one of the process's for a fence (under claim 2 for an mfence), the variable's own for an arw";
    case 17:
        return "the pointer is not at the newest message, for an mfence or an arw; never under claim 2";
    case 18:
        return "nothing waits to be serialised, or there is no newer message to update to; under claim 2 no value heads the buffer, or a mark does not head all of them";
    case 19:
        return "programs with registers only: a process would need more than 32 local states";
    case 22:
        return "fence reports only: a mark repeats an earlier one, or is neither mfence nor sfence";
    case 23:
        return "fence reports only: the list, or the run of a mark, fails its judgement";
    case 24:
        return "figures only: no safe result to take the mean or variance of, or no result at all to take the share of";
    case 25:
        return "figures only: more than 4,096 results, a safe result of more than 524,288 entries, or a collection that no addition made";
    case 26:
        return "drawings only: the output is too short";
    case 27:
        return "drawings only: the text is no drawing";
    case 28:
        return "programs with registers only: more than 256 transitions would be written";
    case 29:
        return "programs with registers only: the output is too short";
    default:
        return NULL;
    }
}

#ifdef __cplusplus
}
#endif

#endif
