/* Calls the exported judges as a C program would, on files from standard input, and checks the lent areas after each call.
 * Standard input: for each call the work area's size, the length of the program file, or all ones for a combined file, and the length of
 * the evidence or combined file (64 bits each, least significant byte first), and the bytes of the two files.
 * Standard output: for each call its line and its record, `LINE, record FILE OFFSET LENGTH`, or `fault: ..` if an area is not as the contract
 * says, or if the answer depends on what it must not depend on.
 *
 * Each file and the work area end at a page that can't be touched, and lie in pages of their own after another such page; the files' pages
 * are read only during the call. The work area is filled with a pattern that has no 0, another one for each call, and so is what lies
 * before it. Now and then a call is made again with an area that holds something else, and a pair again with its two files in one piece. */
#define _GNU_SOURCE
#include "hrafnolt.h"

#include "../../c/line.h"

#include <inttypes.h>
#include <stdio.h>
#include <stdlib.h>
#include <string.h>
#include <sys/mman.h>
#include <unistd.h>

struct region {
    uint8_t *end; /* the first byte of the page after it */
    size_t room;
};

/* A file in a region of its own, and what it held before the call. */
struct lent {
    struct region region;
    uint8_t *bytes, *copy;
    size_t length, copy_room;
};

static size_t page;

static void need(int holds, const char *what)
{
    if (!holds) {
        perror(what);
        exit(3);
    }
}

/* At least `room` bytes between two pages that can't be touched. */
static void make_room(struct region *region, size_t room)
{
    if (room <= region->room)
        return;
    if (region->end != NULL)
        need(munmap(region->end - region->room - page, region->room + 2 * page) == 0, "munmap");
    room = (room + page - 1) / page * page;
    uint8_t *all = mmap(NULL, room + 2 * page, PROT_NONE, MAP_PRIVATE | MAP_ANONYMOUS, -1, 0);
    need(all != MAP_FAILED, "mmap");
    need(mprotect(all + page, room, PROT_READ | PROT_WRITE) == 0, "mprotect");
    region->end = all + page + room;
    region->room = room;
}

/* Room for a file of this length, up against the end of its region. */
static void make_file(struct lent *file, size_t length)
{
    make_room(&file->region, length + 1);
    if (length > file->copy_room) {
        file->copy = realloc(file->copy, length);
        need(file->copy != NULL, "realloc");
        file->copy_room = length;
    }
    file->bytes = file->region.end - length;
    file->length = length;
}

static void read_file(struct lent *file, size_t length)
{
    make_file(file, length);
    need(fread(file->bytes, 1, length, stdin) == length, "standard input");
    if (length > 0)
        memcpy(file->copy, file->bytes, length);
}

static void protect(const struct lent *file, int how)
{
    size_t touched = (file->length + page) / page * page;
    need(mprotect(file->region.end - touched, touched, how) == 0, "mprotect");
}

static int changed(const struct lent *file)
{
    return file->length > 0 && memcmp(file->bytes, file->copy, file->length) != 0;
}

/* What a work area is filled with, and what it must be after the call where it is zeroed. */
static uint8_t *pattern, *zeros;
static size_t pattern_room;

static void make_pattern(size_t room)
{
    if (room <= pattern_room)
        return;
    pattern = realloc(pattern, room);
    zeros = realloc(zeros, room);
    need(pattern != NULL && zeros != NULL, "realloc");
    for (size_t i = pattern_room; i < room; i++) {
        pattern[i] = (uint8_t)(i * 37 % 251 + 1);
        zeros[i] = 0;
    }
    pattern_room = room;
}

static size_t entries_allowed(size_t work_len)
{
    size_t entries = (work_len - 16384) / 12;
    return entries > 524288 ? 524288 : entries;
}

/* 11 has a step of one of the three kinds, with 0 where that has no second number; every other answer has none. */
static int step_right(struct hrafnolt_verdict v)
{
    if (v.kind != HRAFNOLT_REFUSED || v.first != 11)
        return v.step_kind == 0 && v.step_first == 0 && v.step_second == 0;
    return v.step_kind == HRAFNOLT_SERIALISE || ((v.step_kind == HRAFNOLT_TRANSITION || v.step_kind == HRAFNOLT_UPDATE) && v.step_second == 0);
}

/* The record lies within its file. */
static int record_right(struct hrafnolt_verdict v, size_t program_len, size_t file_len, int pair)
{
    size_t length = pair && v.record_file == 0 ? program_len : file_len;
    return v.record_file <= (uint64_t)pair && v.record_at <= length && v.record_length <= length - v.record_at;
}

/* One call, with a pattern of its own in the work area: what is wrong with what it left, or null. */
static const char *call(const struct lent *program, const struct lent *file, struct region *works, size_t work_len, size_t turn,
                        struct hrafnolt_verdict *v)
{
    const uint8_t *filling = pattern + turn % 251;
    uint8_t *work = works->end - work_len;
    memcpy(work, filling, work_len);
    memset(work - page, 0xA5, page);
    *v = program == NULL ? hrafnolt_judge(file->bytes, file->length, work, work_len)
                         : hrafnolt_judge_pair(program->bytes, program->length, file->bytes, file->length, work, work_len);
    size_t zeroed = v->kind == HRAFNOLT_REFUSED && v->first == 8 ? 0 : 16384 + 12 * entries_allowed(work_len);
    for (size_t i = 0; i < page; i++)
        if (work[(ptrdiff_t)i - (ptrdiff_t)page] != 0xA5)
            return "a byte before the work area was changed";
    if (zeroed > work_len)
        return "accepted a work area that is too small";
    if (memcmp(work, zeros, zeroed) != 0)
        return "the work area is not 0 where it must be";
    if (memcmp(work + zeroed, filling + zeroed, work_len - zeroed) != 0)
        return "the work area was touched where it must not be";
    return NULL;
}

/* The same bytes again, with other contents of the work area, and a pair also in one piece, where the evidence lies directly behind the
 * program: the answer must be the same. */
static const char *call_again(const struct lent *program, const struct lent *file, struct region *works, size_t work_len, size_t turn,
                              const struct hrafnolt_verdict *v)
{
    static struct lent whole;
    struct hrafnolt_verdict w;
    const char *fault = call(program, file, works, work_len, turn + 100, &w);
    if (fault == NULL && memcmp(&w, v, sizeof w) != 0)
        return "the answer depends on what the work area held";
    if (fault != NULL || program == NULL)
        return fault;
    make_file(&whole, program->length + file->length);
    memcpy(whole.bytes, program->bytes, program->length);
    memcpy(whole.bytes + program->length, file->bytes, file->length);
    struct lent first = {.bytes = whole.bytes, .length = program->length};
    struct lent second = {.bytes = whole.bytes + program->length, .length = file->length};
    fault = call(&first, &second, works, work_len, turn, &w);
    if (fault == NULL && memcmp(&w, v, sizeof w) != 0)
        return "the answer depends on where the files lie";
    return fault;
}

int main(void)
{
    struct lent programs = {0}, files = {0};
    struct region works = {0};
    uint64_t head[3];
    page = (size_t)sysconf(_SC_PAGESIZE);
    for (size_t turn = 0; fread(head, 1, sizeof head, stdin) == sizeof head; turn++) {
        size_t work_len = head[0];
        int pair = head[1] != UINT64_MAX;
        struct lent *program = pair ? &programs : NULL;
        struct hrafnolt_verdict v;
        if (pair)
            read_file(&programs, head[1]);
        read_file(&files, head[2]);
        make_room(&works, work_len + page);
        make_pattern(work_len + 500);

        if (pair)
            protect(&programs, PROT_READ);
        protect(&files, PROT_READ);
        const char *fault = call(program, &files, &works, work_len, turn, &v);
        if (fault == NULL && turn % 16 == 0 && work_len + head[2] < 200000)
            fault = call_again(program, &files, &works, work_len, turn, &v);
        if (pair)
            protect(&programs, PROT_READ | PROT_WRITE);
        protect(&files, PROT_READ | PROT_WRITE);

        if (changed(&files) || (pair && changed(&programs)))
            fault = "a file was changed";
        else if (v.kind > HRAFNOLT_PSO)
            fault = "no such kind of verdict";
        else if (v.kind == HRAFNOLT_SAFE && v.second != 0)
            fault = "safe has one number only";
        else if (!step_right(v))
            fault = "the step is not one, or there is one beside another answer than 11";
        else if (!record_right(v, programs.length, head[2], pair))
            fault = "the record is no part of a file";
        if (fault != NULL)
            printf("fault: %s\n", fault);
        else {
            print_line(stdout, v);
            printf(", record %" PRIu64 " %" PRIu64 " %" PRIu64 "\n", v.record_file, v.record_at, v.record_length);
        }
        fflush(stdout);
    }
    return 0;
}
