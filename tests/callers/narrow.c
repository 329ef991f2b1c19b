/* The library's functions with one field of the answer half as wide, to show that calls.c and calls_wishes.c notice it: of the field that the variable
 * NARROW of the environment numbers, as in place:3 or stages:0, only the lower half is written. The library's own functions are here whole_place and so on.
 * As in calls.c, the address of the answer goes in first, x86-64's way. */
#include "lgs.h"

#include <stdlib.h>
#include <string.h>

lgs_report whole_place(const uint8_t *, size_t, const uint8_t *, size_t, uint16_t *, size_t, uint16_t *, size_t,
                       uint16_t *, size_t, uint16_t *, size_t, lgs_student_state *, size_t);
lgs_part_report whole_stages(const uint8_t *, size_t, uint16_t *, size_t);
lgs_part_report whole_write_wishes(const uint8_t *, size_t, uint8_t *, size_t);
lgs_part_report whole_read_wishes(const uint8_t *, size_t, const uint8_t *, size_t, uint8_t *, size_t);

lgs_report *narrow_place(lgs_report *, const uint8_t *, size_t, const uint8_t *, size_t, uint16_t *, size_t, uint16_t *, size_t,
                         uint16_t *, size_t, uint16_t *, size_t, lgs_student_state *, size_t) __asm__("lgs_place");
lgs_part_report *narrow_stages(lgs_part_report *, const uint8_t *, size_t, uint16_t *, size_t) __asm__("lgs_stages");
lgs_part_report *narrow_write(lgs_part_report *, const uint8_t *, size_t, uint8_t *, size_t) __asm__("lgs_write_wishes");
lgs_part_report *narrow_read(lgs_part_report *, const uint8_t *, size_t, const uint8_t *, size_t, uint8_t *, size_t) __asm__("lgs_read_wishes");

/* Writes the answer's fields, 8 bytes each but for the narrow one. */
static void *put(void *at, const void *answer, size_t size, const char *function)
{
    const char *narrow = getenv("NARROW");
    size_t name = strlen(function), half = narrow != NULL && strncmp(narrow, function, name) == 0 ? (size_t)(narrow[name] - '0') : size;
    for (size_t i = 0; i < size / 8; i++)
        memcpy((uint8_t *)at + 8 * i, (const uint8_t *)answer + 8 * i, i == half ? 4 : 8);
    return at;
}

lgs_report *narrow_place(lgs_report *at, const uint8_t *c, size_t nc, const uint8_t *b, size_t nb, uint16_t *p, size_t np, uint16_t *v, size_t nv,
                         uint16_t *s, size_t ns, uint16_t *i, size_t ni, lgs_student_state *t, size_t nt)
{
    lgs_report answer = whole_place(c, nc, b, nb, p, np, v, nv, s, ns, i, ni, t, nt);
    return put(at, &answer, sizeof answer, "place:");
}

lgs_part_report *narrow_stages(lgs_part_report *at, const uint8_t *c, size_t nc, uint16_t *s, size_t ns)
{
    lgs_part_report answer = whole_stages(c, nc, s, ns);
    return put(at, &answer, sizeof answer, "stages:");
}

lgs_part_report *narrow_write(lgs_part_report *at, const uint8_t *c, size_t nc, uint8_t *t, size_t nt)
{
    lgs_part_report answer = whole_write_wishes(c, nc, t, nt);
    return put(at, &answer, sizeof answer, "write_wishes:");
}

lgs_part_report *narrow_read(lgs_part_report *at, const uint8_t *c, size_t nc, const uint8_t *t, size_t nt, uint8_t *y, size_t ny)
{
    lgs_part_report answer = whole_read_wishes(c, nc, t, nt, y, ny);
    return put(at, &answer, sizeof answer, "read_wishes:");
}
