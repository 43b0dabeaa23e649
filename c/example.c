/* example FILE..: judges each combined file from C and prints its line, and what a refusal's number says.
 *
 *     cc example.c $(pkg-config --cflags --libs hrafnolt) -o example
 *
 * Exit status: 0 if all were accepted, 1 if any was refused, 2 if a file can't be read. */
#include <hrafnolt.h>

#include <inttypes.h>
#include <stdio.h>
#include <stdlib.h>

/* All bytes of a file, in memory of its own, so that nobody else writes to them during the call. Null if it can't be read. */
static uint8_t *read_file(const char *name, size_t *length)
{
    FILE *file = fopen(name, "rb");
    size_t room = 65536;
    uint8_t *bytes = file == NULL ? NULL : malloc(room);
    *length = 0;
    while (bytes != NULL && (*length += fread(bytes + *length, 1, room - *length, file)) == room) {
        uint8_t *more = realloc(bytes, room *= 2);
        if (more == NULL)
            free(bytes);
        bytes = more;
    }
    if (bytes != NULL && ferror(file)) {
        free(bytes);
        bytes = NULL;
    }
    if (file != NULL)
        fclose(file);
    return bytes;
}

static void print_verdict(const char *name, struct hrafnolt_verdict v)
{
    static const char *const kinds[] = {"safe", "reachable", "refused", "pso"};
    printf("%s: %s %" PRIu64, name, kinds[v.kind], v.first);
    if (v.kind != HRAFNOLT_SAFE)
        printf(" %" PRIu64, v.second);
    if (v.kind == HRAFNOLT_REFUSED)
        printf(" (%s)", hrafnolt_reason(v.first));
    printf("\n");
}

int main(int count, char **names)
{
    int status = 0;
    for (int i = 1; i < count; i++) {
        size_t length;
        uint8_t *file = read_file(names[i], &length);
        /* As much as the file needs, and no more: each call sets all of it to 0. */
        size_t needed = hrafnolt_work_enough(length);
        uint8_t *work = file == NULL ? NULL : calloc(needed, 1);
        if (work == NULL) {
            perror(names[i]);
            status = 2;
        } else {
            struct hrafnolt_verdict v = hrafnolt_judge(file, length, work, needed);
            print_verdict(names[i], v);
            if (v.kind == HRAFNOLT_REFUSED && status == 0)
                status = 1;
        }
        free(work);
        free(file);
    }
    return status;
}
