/* Calls the functions of a year's figures as lines of standard input say, on 16 collections that are empty at first:
 *   set R RESULTS SAFE SUM SQUARES   safe R ENTRIES   other R   join R S   mean R   variance R   share R
 * The answer of each is a line: NUMBER RESULTS SAFE SUM SQUARES, which R then holds, or NUMBER NUMERATOR DENOMINATOR. */
#include "hrafnolt.h"

#include <inttypes.h>
#include <stdio.h>
#include <string.h>

static struct hrafnolt_collection held[16];

static void keep(unsigned place, struct hrafnolt_collected answer)
{
    struct hrafnolt_collection c = answer.collection;
    held[place] = c;
    printf("%" PRIu64 " %" PRIu64 " %" PRIu64 " %" PRIu64 " %" PRIu64 "\n", answer.number, c.results, c.safe, c.sum, c.squares);
}

static void show(struct hrafnolt_fraction f)
{
    printf("%" PRIu64 " %" PRIu64 " %" PRIu64 "\n", f.number, f.numerator, f.denominator);
}

int main(void)
{
    char line[256], word[16];
    while (fgets(line, sizeof line, stdin) != NULL) {
        uint64_t place, a = 0, b = 0, c = 0, d = 0;
        int read = sscanf(line, "%15s %" SCNu64 " %" SCNu64 " %" SCNu64 " %" SCNu64 " %" SCNu64, word, &place, &a, &b, &c, &d);
        if (read < 2 || place >= 16)
            return 2;
        if (strcmp(word, "set") == 0 && read == 6)
            keep(place, (struct hrafnolt_collected){0, {a, b, c, d}});
        else if (strcmp(word, "safe") == 0 && read == 3)
            keep(place, hrafnolt_add_safe(held[place], a));
        else if (strcmp(word, "other") == 0)
            keep(place, hrafnolt_add_other(held[place]));
        else if (strcmp(word, "join") == 0 && read == 3 && a < 16)
            keep(place, hrafnolt_join(held[place], held[a]));
        else if (strcmp(word, "mean") == 0)
            show(hrafnolt_mean(held[place]));
        else if (strcmp(word, "variance") == 0)
            show(hrafnolt_variance(held[place]));
        else if (strcmp(word, "share") == 0)
            show(hrafnolt_share(held[place]));
        else
            return 2;
    }
    return 0;
}
