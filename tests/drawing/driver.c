/* Calls the writer and the reader of drawings, and the front part for registers, on what standard input holds: for each call a byte (0 write, 1 read,
 * 2 a program with registers), the lengths of the input
 * and of the output in four bytes each, least significant first, and the input. Answers with number and value in eight bytes each and the
 * output as it was left; it holds A5 before the call. Both slices end where a page begins that can't be touched.
 * With the word `time` it writes and reads one run of 1,024 steps, and prints the microseconds of each. */
#define _GNU_SOURCE
#include "hrafnolt.h"

#include <stdio.h>
#include <stdlib.h>
#include <string.h>
#include <sys/mman.h>
#include <time.h>

enum { MOST = 1 << 20, PAGE = 4096 };

/* So many bytes, with a guard behind. */
static uint8_t *area(void)
{
    uint8_t *bytes = mmap(NULL, MOST + PAGE, PROT_READ | PROT_WRITE, MAP_PRIVATE | MAP_ANONYMOUS, -1, 0);
    if (bytes == MAP_FAILED || mprotect(bytes + MOST, PAGE, PROT_NONE) != 0) {
        perror("driver");
        exit(2);
    }
    return bytes;
}

static uint32_t number(const uint8_t *b)
{
    return b[0] | (uint32_t)b[1] << 8 | (uint32_t)b[2] << 16 | (uint32_t)b[3] << 24;
}

static void put(uint64_t x)
{
    for (int i = 0; i < 8; i++)
        putchar((int)(x >> 8 * i & 255));
}

static double now(void)
{
    struct timespec t;
    clock_gettime(CLOCK_MONOTONIC, &t);
    return (double)t.tv_sec * 1e6 + (double)t.tv_nsec / 1e3;
}

static int timed(void)
{
    enum { TURNS = 200 };
    static uint8_t steps[3 * 1024], text[HRAFNOLT_DOT_MOST], back[3 * 1024];
    size_t n = 0;
    for (int i = 0; i < 1024; i++) {
        steps[n++] = 0x21;
        steps[n++] = (uint8_t)(i & 3);
        steps[n++] = (uint8_t)(i >> 2 & 3);
    }
    struct hrafnolt_written w = {0, 0}, r = {0, 0};
    double begin = now();
    for (int i = 0; i < TURNS; i++)
        w = hrafnolt_dot_write(steps, n, text, sizeof text);
    double middle = now();
    for (int i = 0; i < TURNS; i++)
        r = hrafnolt_dot_read(text, w.value, back, sizeof back);
    double end = now();
    if (w.number != 0 || r.number != 0 || r.value != n || memcmp(steps, back, n) != 0)
        return 1;
    printf("%.0f %.0f\n", (middle - begin) / TURNS, (end - middle) / TURNS);
    return 0;
}

int main(int count, char **words)
{
    if (count == 2 && strcmp(words[1], "time") == 0)
        return timed();
    uint8_t *in_end = area() + MOST, *out_end = area() + MOST, head[9];
    while (fread(head, 1, 9, stdin) == 9) {
        size_t in_len = number(head + 1), out_len = number(head + 5);
        if (in_len > MOST || out_len > MOST || fread(in_end - in_len, 1, in_len, stdin) != in_len)
            return 2;
        memset(out_end - out_len, 0xA5, out_len);
        struct hrafnolt_written (*call)(const uint8_t *, size_t, uint8_t *, size_t) =
            head[0] == 0 ? hrafnolt_dot_write : head[0] == 1 ? hrafnolt_dot_read : hrafnolt_registers;
        struct hrafnolt_written w = call(in_end - in_len, in_len, out_end - out_len, out_len);
        put(w.number);
        put(w.value);
        fwrite(out_end - out_len, 1, out_len, stdout);
    }
    return fflush(stdout) == 0 ? 0 : 2;
}
