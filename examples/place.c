/* A complete caller of lgs_place: reads case.dat and book.dat in the current folder, of any length, and prints the answer as `place` does, and of a refusal
 * also what it means, as an error message.
 *
 *   tools/build
 *   gcc -O2 -Iinclude -o target/bin/example examples/place.c target/lib/liblgs.a
 *
 * Exit status: 0 for an answer, 1 for a refusal, 2 where a file cannot be read, memory is short, or the text cannot be written; an error message says which. */
#include "lgs.h"

#include <inttypes.h>
#include <stdio.h>
#include <stdlib.h>

/* Says what failed, and the system's reason. */
static void fail(const char *what)
{
    perror(what);
    exit(2);
}

/* count entries of this size, all zero; for none it may be null. */
static void *lend(size_t count, size_t size)
{
    void *entries = calloc(count, size);
    if (entries == NULL && count > 0)
        fail("memory for the buffers");
    return entries;
}

/* All bytes of a file, and how many. */
static uint8_t *read_file(const char *name, size_t *length)
{
    FILE *file = fopen(name, "rb");
    if (file == NULL)
        fail(name);
    uint8_t *bytes = NULL;
    size_t room = 0, used = 0;
    while (used == room) {
        room = room == 0 ? 65536 : 2 * room;
        bytes = realloc(bytes, room);
        if (bytes == NULL)
            fail(name);
        used += fread(bytes + used, 1, room - used, file);
    }
    if (ferror(file))
        fail(name);
    fclose(file);
    *length = used;
    return bytes;
}

int main(void)
{
    size_t case_length, book_length;
    uint8_t *case_bytes = read_file("case.dat", &case_length);
    uint8_t *book_bytes = read_file("book.dat", &book_length);

    lgs_lengths needs = lgs_needs(case_bytes, case_length);
    uint16_t *places = lend(needs.places, sizeof *places);
    uint16_t *visits = lend(needs.visits, sizeof *visits);
    uint16_t *seats = lend(needs.seats, sizeof *seats);
    uint16_t *index = lend(needs.index, sizeof *index);
    lgs_student_state *states = lend(needs.states, sizeof *states);

    lgs_report answer = lgs_place(case_bytes, case_length, book_bytes, book_length, places, needs.places, visits, needs.visits,
                                  seats, needs.seats, index, needs.index, states, needs.states);

    if (answer.kind == LGS_REFUSED) {
        printf("refused %" PRIu64 " %" PRIu64 "\n", answer.first, answer.second);
        fprintf(stderr, "%s\n", lgs_refusal_text(answer.first));
    } else {
        if (answer.kind == LGS_NEXT)
            printf("next %" PRIu64 " %" PRIu64 "\n", answer.first, answer.second);
        else
            for (size_t i = 0; i < needs.places; i++)
                printf("place %zu %u\n", i + 1, places[i]);
        printf("visits %" PRIu64 "\n", answer.visits);
        for (size_t i = 0; i < answer.visits; i++)
            printf("visit %u %u\n", visits[2 * i], visits[2 * i + 1]);
        printf("fares %" PRIu64 "\n", answer.fares);
    }
    if (fflush(stdout) != 0 || ferror(stdout))
        fail("the text could not be written");
    free(states);
    free(index);
    free(seats);
    free(visits);
    free(places);
    free(book_bytes);
    free(case_bytes);
    return answer.kind == LGS_REFUSED;
}
