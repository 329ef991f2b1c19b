/* A complete caller of lgs_stages: reads case.dat in the current folder, of any length, and prints a line `stage S N` for each student (student S has stage
 * N), rising by student, or the one line `refused K I` (refusal K at place I), and of a refusal also what it means, as an error message.
 *
 *   tools/build
 *   gcc -O2 -Iinclude -o target/bin/stages examples/stages.c target/lib/liblgs.a
 *
 * Exit status: 0 for stages, 1 for a refusal, 2 where the file cannot be read, memory is short, or the text cannot be written; an error message says which. */
#include "lgs.h"

#include <inttypes.h>
#include <stdio.h>
#include <stdlib.h>

/* Says what failed, and the system's reason. */
static void fail(const char *what)
{
    perror(what);
    exit(2);
}

/* All bytes of a file, and how many. */
static uint8_t *read_file(const char *name, size_t *length)
{
    FILE *file = fopen(name, "rb");
    if (file == NULL)
        fail(name);
    uint8_t *bytes = NULL;
    size_t room = 0, used = 0;
    while (used == room) {
        room = room == 0 ? 65536 : 2 * room;
        bytes = realloc(bytes, room);
        if (bytes == NULL)
            fail(name);
        used += fread(bytes + used, 1, room - used, file);
    }
    if (ferror(file))
        fail(name);
    fclose(file);
    *length = used;
    return bytes;
}

int main(void)
{
    size_t case_length;
    uint8_t *case_bytes = read_file("case.dat", &case_length);
    uint16_t stages[LGS_MOST_STAGES] = {0};
    lgs_part_report answer = lgs_stages(case_bytes, case_length, stages, LGS_MOST_STAGES);

    if (answer.kind == LGS_REFUSED) {
        printf("refused %" PRIu64 " %" PRIu64 "\n", answer.first, answer.second);
        fprintf(stderr, "%s\n", lgs_refusal_text(answer.first));
    } else {
        for (size_t i = 0; i < answer.first; i++)
            printf("stage %zu %u\n", i + 1, stages[i]);
    }
    if (fflush(stdout) != 0 || ferror(stdout))
        fail("the text could not be written");
    free(case_bytes);
    return answer.kind == LGS_REFUSED;
}
