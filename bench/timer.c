/* timer FILE AREA MILLISECONDS: judges the file through the exported function, once or as often as that takes, with the least work area
 * (`least`) or one that is large enough for the file (`enough`); prints the least processor time of one call in nanoseconds, and the
 * line. */
#define _GNU_SOURCE
#include "hrafnolt.h"

#include "../c/line.h"

#include <inttypes.h>
#include <stdio.h>
#include <stdlib.h>
#include <string.h>
#include <time.h>

static uint64_t used(void)
{
    struct timespec t;
    clock_gettime(CLOCK_PROCESS_CPUTIME_ID, &t);
    return (uint64_t)t.tv_sec * 1000000000u + (uint64_t)t.tv_nsec;
}

int main(int count, char **words)
{
    if (count != 4)
        return 2;
    FILE *in = fopen(words[1], "rb");
    if (in == NULL || fseek(in, 0, SEEK_END) != 0)
        return 2;
    size_t length = (size_t)ftell(in);
    size_t room = strcmp(words[2], "least") == 0 ? HRAFNOLT_WORK_LEAST : hrafnolt_work_enough(length);
    rewind(in);
    uint8_t *file = malloc(length + 1), *work = malloc(room);
    if (file == NULL || work == NULL || fread(file, 1, length, in) != length)
        return 2;
    memset(work, 1, room); /* so that the pages are there before the first call */
    uint64_t least = UINT64_MAX, all = 0, enough = strtoull(words[3], NULL, 10) * 1000000u;
    struct hrafnolt_verdict v;
    do {
        uint64_t start = used();
        v = hrafnolt_judge(file, length, work, room);
        uint64_t taken = used() - start;
        all += taken;
        if (taken < least)
            least = taken;
    } while (all < enough);
    printf("%" PRIu64 " ", least);
    print_line(stdout, v);
    printf("\n");
    return 0;
}
