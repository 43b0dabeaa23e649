/* The line of a verdict, as the program prints it, for programs in C. */
#ifndef LINE_H
#define LINE_H

#include "hrafnolt.h"

#include <inttypes.h>
#include <stdio.h>

/* t and the transition, s with process and variable, u and the process. */
static inline void print_step(FILE *out, struct hrafnolt_verdict v)
{
    if (v.step_kind == HRAFNOLT_TRANSITION)
        fprintf(out, "t%" PRIu64, v.step_first);
    else if (v.step_kind == HRAFNOLT_SERIALISE)
        fprintf(out, "s%" PRIu64 "%" PRIu64, v.step_first, v.step_second);
    else
        fprintf(out, "u%" PRIu64, v.step_first);
}

/* Without a line feed. */
static inline void print_line(FILE *out, struct hrafnolt_verdict v)
{
    static const char *const kinds[] = {"safe", "reachable", "refused", "pso", "needed"};
    fprintf(out, "%s %" PRIu64, kinds[v.kind], v.first);
    if (v.kind != HRAFNOLT_SAFE)
        fprintf(out, " %" PRIu64, v.second);
    if (v.step_kind != 0) {
        fputc(' ', out);
        print_step(out, v);
    }
}

#endif
