/* What the calls between guard pages share: the pages, example K, and threads. */
#include "check.h"
#include "lgs.h"

#include <pthread.h>
#include <stdlib.h>
#include <string.h>
#include <sys/mman.h>

/* Example K of document 01; each student's lot, at bytes 8 and 9 of her record, is her number, and each pair's fare, at bytes 10 and 11, is 0. */
enum { STUDENTS = 3, WORKSHOPS = 2, PAIRS = 6, RECORDS = STUDENTS + WORKSHOPS + PAIRS };
static const uint8_t K_CASE[16 * RECORDS] = {
    1, 0, 1, 0, 1, 0, 2, 0, 1, 0, 0, 0, 0, 0, 0, 0,
    1, 0, 2, 0, 2, 0, 2, 0, 2, 0, 0, 0, 0, 0, 0, 0,
    1, 0, 3, 0, 2, 0, 2, 0, 3, 0, 0, 0, 0, 0, 0, 0,
    2, 0, 1, 0, 1, 0, 3, 0, 0, 0, 0, 0, 0, 0, 0, 0,
    2, 0, 2, 0, 1, 0, 3, 0, 0, 0, 0, 0, 0, 0, 0, 0,
    3, 0, 1, 0, 1, 0, 1, 0, 1, 0, 0, 0, 0, 0, 0, 0,
    3, 0, 1, 0, 2, 0, 1, 0, 1, 0, 0, 0, 0, 0, 0, 0,
    3, 0, 2, 0, 1, 0, 1, 0, 2, 0, 0, 0, 0, 0, 0, 0,
    3, 0, 2, 0, 2, 0, 1, 0, 2, 0, 0, 0, 0, 0, 0, 0,
    3, 0, 3, 0, 1, 0, 1, 0, 2, 0, 0, 0, 0, 0, 0, 0,
    3, 0, 3, 0, 2, 0, 2, 0, 2, 0, 0, 0, 0, 0, 0, 0,
};

/* The largest case. */
enum { ALL = 512, SHOPS = 64, LARGE_PAIRS = ALL * SHOPS, LARGE_RECORDS = ALL + SHOPS + LARGE_PAIRS };

enum { PAGE = 4096, PAGES = 16 * LARGE_RECORDS / PAGE + 1, ROOM = PAGE * PAGES };

/* Bytes that start right behind a forbidden page, or end right before one. */
static void *guarded(size_t length, int at_end)
{
    uint8_t *all = mmap(NULL, ROOM + 2 * PAGE, PROT_NONE, MAP_PRIVATE | MAP_ANONYMOUS, -1, 0);
    if (all == MAP_FAILED || length > ROOM || mprotect(all + PAGE, ROOM, PROT_READ | PROT_WRITE) != 0)
        exit(2);
    return at_end ? all + PAGE + ROOM - length : all + PAGE;
}

static void give_back(void *bytes, size_t length, int at_end)
{
    munmap((uint8_t *)bytes - PAGE - (at_end ? ROOM - length : 0), ROOM + 2 * PAGE);
}

/* The pages of these bytes may not be written any more. */
static void only_read(void *bytes, size_t length)
{
    uintptr_t first = (uintptr_t)bytes / PAGE * PAGE, end = ((uintptr_t)bytes + length + PAGE - 1) / PAGE * PAGE;
    if (mprotect((void *)first, end - first, PROT_READ) != 0)
        exit(2);
}

/* These bytes are as they were lent. */
static int all_lent(const uint8_t *bytes, size_t length)
{
    for (size_t i = 0; i < length; i++)
        if (bytes[i] != 0xA5)
            return 0;
    return 1;
}

/* Writes a field of two bytes at this byte of a record. */
static void put(uint8_t *bytes, size_t record, size_t at, unsigned value)
{
    bytes[16 * record + at] = (uint8_t)(value & 255);
    bytes[16 * record + at + 1] = (uint8_t)(value >> 8);
}

static int is_part(lgs_part_report r, uint64_t kind, uint64_t first, uint64_t second)
{
    return r.kind == kind && r.first == first && r.second == second;
}

/* Four threads make these calls at the same time; each is given its number, and leaves there how many answers were wrong. */
static void threads(void *(*calls)(void *))
{
    pthread_t thread[4];
    size_t number[4];
    for (size_t i = 0; i < 4; i++) {
        number[i] = i;
        if (pthread_create(&thread[i], NULL, calls, &number[i]) != 0)
            exit(2);
    }
    for (size_t i = 0; i < 4; i++) {
        pthread_join(thread[i], NULL);
        check(number[i] == 0, "calls at the same time");
    }
}
