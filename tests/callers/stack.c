/* How much of the stack a call of each function takes, by calls on a stack that is filled with a pattern before: arguments case.dat, book.dat of the example.
 * Last line 'N passed, M failed'. */
#define _GNU_SOURCE
#include "check.h"
#include "lgs.h"

#include <string.h>
#include <ucontext.h>

enum { LIMIT = 16 * 1024, READ_LIMIT = 48 * 1024, STACK = 16 * LIMIT, FILE_LIMIT = 65536, PATTERN = 0xab };
enum { STUDENTS = 512, WORKSHOPS = 64, RECORDS = STUDENTS + WORKSHOPS + STUDENTS * WORKSHOPS };

static uint8_t stack[STACK], case_bytes[FILE_LIMIT], book_bytes[FILE_LIMIT];
static size_t case_length, book_length;
static uint16_t places[LGS_MOST_PLACES], visits[FILE_LIMIT / 8], seats[LGS_MOST_SEATS], book_index[FILE_LIMIT / 16];
static lgs_student_state states[LGS_MOST_STATES];
static uint8_t full_case[16 * RECORDS];
static uint16_t stages[LGS_MOST_STAGES];
static uint8_t text[8 * STUDENTS + 4 * STUDENTS * WORKSHOPS], copy[16 * RECORDS];
static size_t text_length;
static lgs_report report;
static lgs_part_report part_report;
static ucontext_t here, there;

static size_t read_file(const char *name, uint8_t *bytes)
{
    FILE *file = fopen(name, "rb");
    size_t length = file ? fread(bytes, 1, FILE_LIMIT, file) : 0;
    if (file)
        fclose(file);
    return length;
}

static void call(void)
{
    report = lgs_place(case_bytes, case_length, book_bytes, book_length, places, LGS_MOST_PLACES, visits, FILE_LIMIT / 8, seats, LGS_MOST_SEATS,
                       book_index, FILE_LIMIT / 16, states, LGS_MOST_STATES);
}

static void call_stages(void)
{
    part_report = lgs_stages(full_case, sizeof full_case, stages, LGS_MOST_STAGES);
}

static void call_write(void)
{
    part_report = lgs_write_wishes(full_case, sizeof full_case, text, sizeof text);
}

static void call_read(void)
{
    part_report = lgs_read_wishes(full_case, sizeof full_case, text, text_length, copy, sizeof copy);
}

/* One call; how many bytes of the stack it touched. */
static size_t call_on_stack(void (*function)(void))
{
    size_t left = 0;
    memset(stack, PATTERN, STACK);
    getcontext(&there);
    there.uc_stack.ss_sp = stack;
    there.uc_stack.ss_size = STACK;
    there.uc_link = &here;
    makecontext(&there, function, 0);
    swapcontext(&here, &there);
    while (left < STACK && stack[left] == PATTERN)
        left++;
    return STACK - left;
}

static void tell(const char *what, size_t used, size_t limit, int right)
{
    printf("%s: %zu bytes of stack\n", what, used);
    check(right && used < limit, what);
}

/* One call of lgs_place; the answer is of this kind, with this first value. */
static void measure(const char *what, uint64_t kind, uint64_t first)
{
    size_t used = call_on_stack(call);
    tell(what, used, LIMIT, report.kind == kind && report.first == first);
}

/* One call of lgs_stages; the last student has this stage after it. */
static void measure_stages(const char *what, uint64_t kind, uint64_t first, uint16_t last)
{
    memset(stages, 0, sizeof stages);
    size_t used = call_on_stack(call_stages);
    tell(what, used, LIMIT, part_report.kind == kind && part_report.first == first && stages[STUDENTS - 1] == last);
}

/* One call of lgs_write_wishes or lgs_read_wishes. */
static void measure_wishes(const char *what, void (*function)(void), uint64_t kind, uint64_t first, uint64_t second)
{
    size_t used = call_on_stack(function);
    tell(what, used, function == call_read ? READ_LIMIT : LIMIT, part_report.kind == kind && part_report.first == first && part_report.second == second);
}

static void put(size_t record, unsigned kind, unsigned a, unsigned b, unsigned c, unsigned d)
{
    const unsigned field[4] = {a, b, c, d};
    uint8_t *bytes = full_case + 16 * record;
    bytes[0] = (uint8_t)kind;
    for (size_t i = 0; i < 4; i++) {
        bytes[2 * i + 2] = (uint8_t)(field[i] & 255);
        bytes[2 * i + 3] = (uint8_t)(field[i] >> 8);
    }
}

/* 512 students, each with her number as her lot, 64 workshops, all pairs; every workshop ranks student after student. */
static void make_full_case(void)
{
    for (unsigned s = 1; s <= STUDENTS; s++)
        put(s - 1, 1, s, 1, 65, s);
    for (unsigned w = 1; w <= WORKSHOPS; w++)
        put(STUDENTS + w - 1, 2, w, 8, 513, 0);
    for (unsigned s = 1; s <= STUDENTS; s++)
        for (unsigned w = 1; w <= WORKSHOPS; w++)
            put(STUDENTS + WORKSHOPS + WORKSHOPS * (s - 1) + w - 1, 3, s, w, 1, s);
}

/* The stack of lgs_stages at the largest size: a chain of 512, one class of all, two students turned, a fault in the last record,
 * and a lot twice. */
static void measure_all_stages(void)
{
    make_full_case();
    measure_stages("stages: a chain of 512", LGS_DONE, STUDENTS, 512);
    put(RECORDS - 1, 3, STUDENTS, WORKSHOPS, 1, 513);
    put(RECORDS - 1 - WORKSHOPS, 3, STUDENTS - 1, WORKSHOPS, 1, 513);
    measure_stages("stages: equal at one workshop only", LGS_REFUSED, LGS_NO_STAGES, 0);
    put(RECORDS - 1, 3, STUDENTS, WORKSHOPS, 1, 511);
    put(RECORDS - 1 - WORKSHOPS, 3, STUDENTS - 1, WORKSHOPS, 1, 512);
    measure_stages("stages: two students turned", LGS_REFUSED, LGS_NO_STAGES, 0);
    put(RECORDS - 1, 3, STUDENTS, WORKSHOPS, 1, 514);
    measure_stages("stages: the last record out of range", LGS_REFUSED, LGS_CASE_RANGE, 0);
    for (size_t i = STUDENTS + WORKSHOPS; i < RECORDS; i++) {
        full_case[16 * i + 8] = 1;
        full_case[16 * i + 9] = 0;
    }
    measure_stages("stages: all in one group", LGS_DONE, STUDENTS, 1);
    put(STUDENTS - 1, 1, STUDENTS, 1, 65, STUDENTS - 1);
    measure_stages("stages: a lot twice", LGS_REFUSED, LGS_CASE_LOT, 0);
}

/* The full case with this line group and groups of so many workshops for all students. */
static void make_wishes(unsigned size, unsigned line)
{
    make_full_case();
    for (unsigned s = 1; s <= STUDENTS; s++)
        put(s - 1, 1, s, 1, line, s);
    for (unsigned i = 0; i < STUDENTS * WORKSHOPS; i++)
        put(STUDENTS + WORKSHOPS + i, 3, i / WORKSHOPS + 1, i % WORKSHOPS + 1, i % WORKSHOPS / size + 1, 1);
}

/* The stack of lgs_write_wishes and lgs_read_wishes at the largest size: lines of many groups and of one, a fault in the last line of either kind, no
 * text, a number that fills the text, and a fault in the last record. */
static void measure_all_wishes(void)
{
    for (unsigned size = 1; size <= WORKSHOPS; size *= 2) {
        make_wishes(size, size == 2 ? 1 : 65);
        call_write();
        text_length = part_report.first;
        measure_wishes("wishes: written", call_write, LGS_DONE, text_length, 0);
        measure_wishes("wishes: read", call_read, LGS_DONE, sizeof full_case, 0);
    }
    text_length -= 1;
    measure_wishes("wishes: the last line feed missing", call_read, LGS_REFUSED, LGS_WISH_FORM, STUDENTS - 1);
    text_length += 1;
    put(RECORDS - 1, 3, STUDENTS, WORKSHOPS, 66, 1);
    measure_wishes("wishes: written, the last record out of range", call_write, LGS_REFUSED, LGS_CASE_RANGE, RECORDS - 1);
    measure_wishes("wishes: read, the last record out of range", call_read, LGS_REFUSED, LGS_CASE_RANGE, RECORDS - 1);
    make_wishes(1, 65);
    memset(text, '9', sizeof text), memcpy(text, "1: ", 3), memcpy(text + sizeof text - 3, ",-\n", 3), text_length = sizeof text;
    measure_wishes("wishes: one number of 135,162 digits", call_read, LGS_REFUSED, LGS_WISH_NAMES, 0);
    text_length = 0;
    measure_wishes("wishes: no text", call_read, LGS_REFUSED, LGS_WISH_FORM, 0);
}

/* All marks of one side, at this byte of each record, are 5. */
static void equal_marks(size_t at)
{
    for (size_t i = 0; i + 8 <= book_length; i += 8) {
        book_bytes[i + at] = 5;
        book_bytes[i + at + 1] = 0;
    }
}

int main(int count, char **names)
{
    if (count != 3)
        return 2;
    case_length = read_file(names[1], case_bytes);
    book_length = read_file(names[2], book_bytes);
    measure("the example", LGS_PLACED, 0);
    equal_marks(4);
    measure("equal marks of a student", LGS_REFUSED, LGS_BOOK_TIE);
    book_length = read_file(names[2], book_bytes);
    equal_marks(6);
    measure("equal marks of a workshop", LGS_PLACED, 0);
    book_length = 0;
    measure("an empty book", LGS_NEXT, 1);
    case_bytes[16 + 8] = 0;
    measure("a lot of 0", LGS_REFUSED, LGS_CASE_LOT);
    measure_all_stages();
    measure_all_wishes();
    return counted();
}
