/* The placing engine and its parts for programs in C (C99 or later), C++, Rust, Python and others. tools/build makes the library, target/lib/liblgs.a to
 * link or target/lib/liblgs.so to load; docs/FORMAT.md has the case and the book byte by byte; examples/ has complete callers.
 *
 *   lgs_place           a case and a book of visit results: the next visit, or the finished placement
 *   lgs_stages          a case: each student's stage
 *   lgs_write_wishes    a case: the students' wishes as lines of text
 *   lgs_read_wishes     a case and such lines: a copy of the case with their wishes
 *
 * Whatever the bytes, the lengths and the contents at entry, a call reads and writes only what is lent, and it returns.
 *
 * What is asked of the caller, of every function:
 *   - Each pointer has as many entries as the length after it says, and each entry was written before, with any value (calloc does it). With the
 *     length 0 it may be null, as for the empty book of a first call.
 *   - Pointers are aligned as their type: 1 byte for uint8_t, 2 for uint16_t, 8 for the states.
 *   - What is written overlaps nothing else that is lent. What is only read (case and book, case and a text to be read) may overlap.
 *   - No other thread writes to what is lent, or reads what is written, before the call returns.
 * Calls are reentrant: nothing is kept from call to call, so threads with buffers of their own may call at the same time. A call takes less than 16 KB
 * of the stack, and one of lgs_read_wishes less than 48 KB.
 *
 * The buffers, counted in entries. Longer ones may be lent; shorter ones are refused (LGS_SHORT_BUFFER). lgs_needs gives the lengths for a case. The
 * last column suffices whatever the case.
 *
 *                                 needed for n students and p pairs       always enough
 *   lgs_place          places     n                                       512
 *                      visits     2 * p                                   2 * (case_length / 16)
 *                      seats      the sum of all quotas                   32768
 *                      index      p                                       case_length / 16
 *                      states     n                                       512
 *   lgs_stages         stages     n                                       512
 *   lgs_write_wishes   text       8 * n + 4 * p                           8 * 512 + 4 * (case_length / 16)
 *   lgs_read_wishes    copy       case_length                             case_length
 *
 * Seats, index and states are scratch: they may hold anything at entry, and are zero over their whole length on return. The others are outputs: a refusal
 * leaves them as they were, and so stay, after every answer, the entries past those that the function's section names.
 */
#ifndef LGS_H
#define LGS_H

#include <stddef.h>
#include <stdint.h>

#ifdef __cplusplus
extern "C" {
#endif

/* Another number where a program that was compiled before can no longer call the library: liblgs.so has it in the name that the loader looks for. */
#define LGS_VERSION 1

/* Buffers of these lengths suffice for every case. */
enum { LGS_MOST_PLACES = 512, LGS_MOST_STATES = 512, LGS_MOST_SEATS = 32768, LGS_MOST_STAGES = 512 };

/* The kind of an answer that is a refusal, of every function. The answer's `first` is then the refusal's number, and its `second` the refusal's place, the
 * number of a record, or of a line of a text, from 0; the place is 0 for those that name neither. */
enum { LGS_REFUSED = 2 };

/* The refusals, in the order of testing. Each function's section says which ones it gives. */
enum {
    LGS_CASE_LENGTH = 1,    /* case length no multiple of 16 */
    LGS_CASE_FORM = 2,      /* kind not 1 to 3, or a byte that should be zero; place: the first such record of the case */
    LGS_CASE_ORDER = 3,     /* kinds fall, a number out of sequence, pairs not rising, or a pair names nobody; place: as before */
    LGS_CASE_COUNTS = 4,    /* no student, over 512, no workshop, over 64 */
    LGS_CASE_RANGE = 5,     /* stage, quota, group or line group out of range; place: the first such record of the case */
    LGS_CASE_LOT = 13,      /* a student's lot not 1 to 512, or already used by an earlier student; place: the first such record of the case */
    LGS_SHORT_BUFFER = 6,   /* a lent buffer shorter than needed */
    LGS_BOOK_LENGTH = 7,    /* book length no multiple of 8 */
    LGS_BOOK_PAIR = 8,      /* a visit without its pair; place: the first such record of the book */
    LGS_BOOK_MARK = 9,      /* mark 0 or outside -1000 to 1000; place: as before */
    LGS_BOOK_REPEATED = 10, /* a pair that is in the book already; place: the first later record */
    LGS_BOOK_TIE = 11,      /* one student gave an equal mark, other than -1000, earlier in the same group; place: the first later record */
    LGS_NO_STAGES = 12,     /* no stage numbers agree with every workshop's groups */
    LGS_WISH_FORM = 14,     /* a line departs from the form of wish lines, is missing, or is left over; place: the line */
    LGS_WISH_NAMES = 15     /* a line names a workshop twice, misses one, or names one without a pair; place: the line */
};

/* A refusal in a short plain sentence. */
static inline const char *lgs_refusal_text(uint64_t number)
{
    switch (number) {
    case LGS_CASE_LENGTH:
        return "The length of the case is no multiple of 16.";
    case LGS_CASE_FORM:
        return "A record of the case has another kind than 1 to 3, or a byte that should be zero.";
    case LGS_CASE_ORDER:
        return "A record of the case is out of order, or a pair names nobody.";
    case LGS_CASE_COUNTS:
        return "The case has no student, over 512 students, no workshop, or over 64 workshops.";
    case LGS_CASE_RANGE:
        return "A stage, quota, group or line group in the case is out of range.";
    case LGS_CASE_LOT:
        return "A lot in the case is not from 1 to 512, or an earlier student has it.";
    case LGS_SHORT_BUFFER:
        return "A lent buffer is shorter than needed.";
    case LGS_BOOK_LENGTH:
        return "The length of the book is no multiple of 8.";
    case LGS_BOOK_PAIR:
        return "A visit in the book is of two who are no pair of the case.";
    case LGS_BOOK_MARK:
        return "A mark in the book is 0 or outside -1000 to 1000.";
    case LGS_BOOK_REPEATED:
        return "A visit in the book is of a pair that is in the book already.";
    case LGS_BOOK_TIE:
        return "A student gave two workshops of one group the same mark.";
    case LGS_NO_STAGES:
        return "No stage numbers agree with every workshop's groups.";
    case LGS_WISH_FORM:
        return "A line of wishes departs from the form, is missing, or is left over.";
    case LGS_WISH_NAMES:
        return "A line of wishes names a workshop twice, misses one, or names one with which she has no pair.";
    default:
        return "No refusal has this number.";
    }
}

/* How many entries the functions need for a case. */
typedef struct {
    size_t places, visits, seats, index, states; /* lgs_place */
    size_t stages;                               /* lgs_stages */
    size_t text;                                 /* lgs_write_wishes */
    size_t copy;                                 /* lgs_read_wishes */
} lgs_lengths;

/* The least lengths with which no function refuses the case for a short buffer; of a case that is refused for its own bytes (1 to 5, 13) some lengths.
 * Whatever the bytes, none is above what is always enough. */
static inline lgs_lengths lgs_needs(const uint8_t *case_bytes, size_t case_length)
{
    lgs_lengths needs;
    size_t students = 0, seats = 0, pairs = 0;
    for (size_t i = 0; i < case_length / 16; i++) {
        const uint8_t *record = case_bytes + 16 * i;
        size_t low = record[4], high = record[5];
        if (record[0] == 1 && students < LGS_MOST_PLACES)
            students += 1;
        if (record[0] == 2)
            seats += low + 256 * high;
        if (record[0] == 3)
            pairs += 1;
        if (seats > LGS_MOST_SEATS)
            seats = LGS_MOST_SEATS;
    }
    needs.places = needs.states = needs.stages = students;
    needs.visits = 2 * pairs;
    needs.seats = seats;
    needs.index = pairs;
    needs.text = 8 * students + 4 * pairs;
    needs.copy = case_length;
    return needs;
}

/* ---- lgs_place: the next visit, the finished placement, or one of twelve refusals (those down to LGS_BOOK_TIE in the list above).
 *
 * A mark of -1000 in the book, from either side and in any group, means that the two cannot be placed together. Each student has a lot, at bytes 8 and 9
 * of her record, low byte first: 1 to 512, all different. A workshop may give equal marks in one group, and of two such students it ranks the one with
 * the lower lot higher; a student may not. Each pair has a fare in pence, at bytes 10 and 11 of its record, low byte first: any number of 16 bits. A fare
 * changes nothing but the total in the answer.
 *
 * A placement fills the first n places (the workshop of each student, or 0) and the used head of the visits (student, workshop of each visit, in the
 * order visited); a next visit fills the head of the visits, and leaves the places. */
enum { LGS_PLACED = 0, LGS_NEXT = 1 };

/* A student's state: scratch. */
typedef struct {
    uint32_t reached;
    uint32_t held;
    uint64_t openings;
} lgs_student_state;

/* kind LGS_PLACED: visits is the visit count.
 * kind LGS_NEXT: first is the student and second the workshop of the next visit, visits the count of visits already done.
 * With both, fares is the sum of the fares, in pence, of the visits in the list: at most 2,147,450,880 (32,768 pairs of 65,535 pence), which 32 bits
 * hold. The fare of the next visit itself is not in it. Values that are not named are 0. */
typedef struct {
    uint64_t kind;
    uint64_t first;
    uint64_t second;
    uint64_t visits;
    uint64_t fares;
} lgs_report;

lgs_report lgs_place(const uint8_t *case_bytes, size_t case_length,
                     const uint8_t *book_bytes, size_t book_length,
                     uint16_t *places, size_t places_length,
                     uint16_t *visits, size_t visits_length,
                     uint16_t *seats, size_t seats_length,
                     uint16_t *index, size_t index_length,
                     lgs_student_state *states, size_t states_length);

/* ---- The parts answer with three numbers. kind LGS_DONE: what first and second are, the part's section says. Values that are not named are 0. */
enum { LGS_DONE = 0 };

typedef struct {
    uint64_t kind;
    uint64_t first;
    uint64_t second;
} lgs_part_report;

/* ---- lgs_stages: for each student a stage that agrees with every workshop's groups, each as small as agreement permits, starting at 1; or one of the
 * refusals down to LGS_SHORT_BUFFER in the list above or, tested last and given for no other reason, LGS_NO_STAGES.
 *
 * The stages agree when, at each workshop with quota above 0, of two students with pairs there not beyond its line group, the one in the better group has
 * the earlier stage, and equal groups have equal stages. With such stages in the case the visits that lgs_place lists are the smallest list. The stages
 * that are in the case are only checked for range; they change nothing else, so a case that has none yet may have 1 everywhere. The lots and the fares
 * change nothing else either.
 *
 * LGS_DONE: first is the number of students n, and the first n entries are the stages of students 1 to n. In short:
 *
 *     uint16_t stages[LGS_MOST_STAGES] = {0};
 *     lgs_part_report answer = lgs_stages(case_bytes, case_length, stages, LGS_MOST_STAGES);
 *     if (answer.kind == LGS_DONE)
 *         for (size_t i = 0; i < answer.first; i++)
 *             printf("student %zu: stage %u\n", i + 1, stages[i]);
 *     else
 *         printf("%s (refused %d at %d)\n", lgs_refusal_text(answer.first), (int)answer.first, (int)answer.second);
 *
 * Each stage then goes into its student's record, at bytes 4 and 5, low byte first: that of student i + 1 is at case_bytes[16 * i + 4]. */
lgs_part_report lgs_stages(const uint8_t *case_bytes, size_t case_length,
                           uint16_t *stages, size_t stages_length);

/* ---- Wish lines: the students' groups and line groups as text, a line for each student, from student 1 up. Each line is as `3: 2,{4,1},-,5` and a line
 * feed: student 3, her groups best first, braces around a group of two or more items, and `-` for none exactly once, alone or inside braces. Numbers
 * begin with 1 to 9, and the only blank follows the colon. A line names every workshop that the student has a pair with, and no other. docs/FORMAT.md has
 * more of it. */

/* lgs_write_wishes: the lines of a case, or one of the refusals down to LGS_SHORT_BUFFER in the list above.
 *
 * Items in braces are written rising, with `-` first. Two cases write the same lines exactly when they have the same students and pairs, and each student
 * has the same order of groups, with her line group in it; gaps between the numbers of groups do not show, nor does anything else.
 *
 * LGS_DONE: first is how many bytes were put at the head of the text; no zero byte is put behind them. In short:
 *
 *     static uint8_t text[8 * 512 + 4 * 4096]; // for cases of up to 4,096 records; lgs_needs gives the length for any
 *     lgs_part_report answer = lgs_write_wishes(case_bytes, case_length, text, sizeof text);
 *     if (answer.kind == LGS_DONE)
 *         fwrite(text, 1, answer.first, stdout);
 *     else
 *         printf("%s (refused %d at %d)\n", lgs_refusal_text(answer.first), (int)answer.first, (int)answer.second);
 */
lgs_part_report lgs_write_wishes(const uint8_t *case_bytes, size_t case_length,
                                 uint8_t *text, size_t text_length);

/* lgs_read_wishes: a copy of the case with the groups of these lines, or one of the refusals down to LGS_SHORT_BUFFER in the list above or, tested last,
 * LGS_WISH_FORM and LGS_WISH_NAMES: line by line, and in each line first its form and then its names. The place is the line's, from 0; something left over
 * has the place after the last student's line. The text may have any length, also 0, and items in braces any order.
 *
 * LGS_DONE: first is case_length, and as many bytes at the head of the copy are those of the case but for bytes 6 and 7, low byte first, of students and
 * pairs: in a student's record they are the position, from 1, of the group with `-` in her line, and in a pair's record that of the group with its workshop.
 * No function refuses the copy for its own bytes (1 to 5, 13). A book in which she gave equal marks to two workshops that are now in one group is refused
 * with it (LGS_BOOK_TIE). In short:
 *
 *     static uint8_t copy[16 * 4096]; // for cases of up to 4,096 records
 *     lgs_part_report answer = lgs_read_wishes(case_bytes, case_length, text, text_length, copy, sizeof copy);
 *     if (answer.kind == LGS_DONE)
 *         fwrite(copy, 1, answer.first, stdout);
 *     else
 *         printf("%s (refused %d at %d)\n", lgs_refusal_text(answer.first), (int)answer.first, (int)answer.second);
 */
lgs_part_report lgs_read_wishes(const uint8_t *case_bytes, size_t case_length,
                                const uint8_t *text, size_t text_length,
                                uint8_t *copy, size_t copy_length);

#ifdef __cplusplus
}
#endif

#endif
