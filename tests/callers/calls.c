/* Calls of lgs_place and lgs_stages from C, each buffer between two pages that cannot be touched, and the place of each answer full of 0xA5 before the
 * call. Last line 'N passed, M failed'. */
#define _GNU_SOURCE
#include "guard.h"

enum { SEATS = 2, VISITS = 4 };
static const uint8_t K_BOOK[8 * VISITS] = {
    1, 0, 1, 0, 5, 0, 3, 0,
    1, 0, 2, 0, 2, 0, 4, 0,
    2, 0, 2, 0, 0xff, 0xff, 1, 0,
    3, 0, 2, 0, 4, 0, 6, 0,
};
static const uint16_t K_PLACES[STUDENTS] = {1, 0, 2};
static const uint16_t K_VISITS[2 * VISITS] = {1, 1, 1, 2, 2, 2, 3, 2};

/* Fares for K's pairs, of which the third and the fifth are not visited, and what the first so many visits cost together. */
static const unsigned FARES[PAIRS] = {1, 256, 65535, 4660, 65535, 16};
static const uint64_t COST[VISITS + 1] = {0, 1, 257, 4917, 4933};
static uint8_t K_FARES[sizeof K_CASE]; /* K with these fares, from the start of main on */

/* The functions as the machine calls them on x86-64: the address of the answer's place goes in first, and comes back. So the place is ours, and full of
 * 0xA5: a field that is written only in part shows, and so does what is written behind the last one. */
lgs_report *place_into(lgs_report *, const uint8_t *, size_t, const uint8_t *, size_t, uint16_t *, size_t, uint16_t *, size_t,
                       uint16_t *, size_t, uint16_t *, size_t, lgs_student_state *, size_t) __asm__("lgs_place");
lgs_part_report *stages_into(lgs_part_report *, const uint8_t *, size_t, uint16_t *, size_t) __asm__("lgs_stages");

/* What is lent in one call. */
typedef struct {
    const uint8_t *case_bytes, *book_bytes;
    size_t case_length, book_length, places, visits, seats, index, states;
} loan;

/* What came back. */
typedef struct {
    lgs_report report;
    uint8_t behind[64];
    uint16_t places[LGS_MOST_PLACES], visits[2 * LARGE_RECORDS];
    int zero;   /* all scratch is zero */
    int within; /* the answer's address came back, and what is behind it is as it was */
} result;

static int all_zero(const void *bytes, size_t length)
{
    const uint8_t *b = bytes;
    for (size_t i = 0; i < length; i++)
        if (b[i] != 0)
            return 0;
    return 1;
}

/* One call with every buffer at a forbidden page, full of 0xA5. */
static result call(loan l, int at_end)
{
    const size_t size[7] = {l.case_length, l.book_length, 2 * l.places, 2 * l.visits, 2 * l.seats, 2 * l.index, 16 * l.states};
    void *b[7];
    for (int i = 0; i < 7; i++) {
        b[i] = guarded(size[i], at_end);
        memset(b[i], 0xA5, size[i]);
    }
    memcpy(b[0], l.case_bytes, l.case_length);
    memcpy(b[1], l.book_bytes, l.book_length);
    only_read(b[0], size[0]);
    only_read(b[1], size[1]);
    result r;
    memset(&r, 0xA5, sizeof r);
    lgs_report *at = place_into(&r.report, b[0], l.case_length, b[1], l.book_length, b[2], l.places, b[3], l.visits, b[4], l.seats, b[5], l.index,
                                b[6], l.states);
    r.within = at == &r.report && all_lent(r.behind, sizeof r.behind);
    memcpy(r.places, b[2], size[2]);
    memcpy(r.visits, b[3], size[3]);
    r.zero = all_zero(b[4], size[4]) && all_zero(b[5], size[5]) && all_zero(b[6], size[6]);
    for (int i = 0; i < 7; i++)
        give_back(b[i], size[i], at_end);
    return r;
}

static int is(lgs_report r, uint64_t kind, uint64_t first, uint64_t second, uint64_t visits, uint64_t fares)
{
    return r.kind == kind && r.first == first && r.second == second && r.visits == visits && r.fares == fares;
}

/* The entries from `from` on are as they were lent. */
static int as_lent(const uint16_t *entries, size_t from, size_t to)
{
    for (size_t i = from; i < to; i++)
        if (entries[i] != 0xA5A5)
            return 0;
    return 1;
}

static loan exact(size_t book_records)
{
    return (loan){K_CASE, K_BOOK, sizeof K_CASE, 8 * book_records, STUDENTS, 2 * PAIRS, SEATS, PAIRS, STUDENTS};
}

/* The lengths that the header says always suffice. */
static loan generous(size_t book_records)
{
    loan l = exact(book_records);
    l.places = LGS_MOST_PLACES;
    l.visits = 2 * (l.case_length / 16);
    l.seats = LGS_MOST_SEATS;
    l.index = l.case_length / 16;
    l.states = LGS_MOST_STATES;
    return l;
}

static void placement(loan l, uint64_t fares, int at_end)
{
    result r = call(l, at_end);
    check(is(r.report, LGS_PLACED, 0, 0, VISITS, fares), "K is placed");
    check(memcmp(r.places, K_PLACES, sizeof K_PLACES) == 0 && as_lent(r.places, STUDENTS, l.places), "K's places");
    check(memcmp(r.visits, K_VISITS, sizeof K_VISITS) == 0 && as_lent(r.visits, 2 * VISITS, l.visits), "K's visits");
    check(r.zero && r.within, "scratch is zero after a placement, and nothing is written behind the answer");
}

static void next_visit(loan l, uint64_t student, uint64_t workshop, uint64_t visits, uint64_t fares, int at_end)
{
    result r = call(l, at_end);
    check(is(r.report, LGS_NEXT, student, workshop, visits, fares), "the next visit");
    check(as_lent(r.places, 0, l.places), "a next visit leaves the places");
    check(memcmp(r.visits, K_VISITS, 4 * visits) == 0 && as_lent(r.visits, 2 * visits, l.visits), "visits up to the next one");
    check(r.zero && r.within, "scratch is zero after a next visit, and nothing is written behind the answer");
}

static void refusal(loan l, uint64_t number, uint64_t place, const char *what, int at_end)
{
    result r = call(l, at_end);
    check(is(r.report, LGS_REFUSED, number, place, 0, 0), what);
    check(as_lent(r.places, 0, l.places) && as_lent(r.visits, 0, l.visits), "a refusal leaves places and visits");
    check(r.zero && r.within, "scratch is zero after a refusal, and nothing is written behind the answer");
}

/* A copy of K's case or book with one byte changed. */
static const uint8_t *changed(const uint8_t *bytes, size_t length, size_t at, uint8_t value)
{
    static uint8_t copy[16 * RECORDS];
    memcpy(copy, bytes, length);
    copy[at] = value;
    return copy;
}

static void refusals(int at_end)
{
    loan l = exact(VISITS);
    l.case_length = 15;
    refusal(l, LGS_CASE_LENGTH, 0, "a case of 15 bytes", at_end);
    l = exact(VISITS);
    l.case_length = 0;
    refusal(l, LGS_CASE_COUNTS, 0, "a case of 0 bytes", at_end);
    l = exact(VISITS);
    l.case_bytes = changed(K_CASE, sizeof K_CASE, 16 * 4 + 15, 1);
    refusal(l, LGS_CASE_FORM, 4, "a byte that should be zero", at_end);
    l.case_bytes = changed(K_CASE, sizeof K_CASE, 16 * 2 + 2, 4);
    refusal(l, LGS_CASE_ORDER, 2, "a number out of sequence", at_end);
    l.case_bytes = changed(K_CASE, sizeof K_CASE, 16 * 6 + 6, 66);
    refusal(l, LGS_CASE_RANGE, 6, "a group out of range", at_end);
    l = exact(VISITS);
    l.book_length -= 1;
    refusal(l, LGS_BOOK_LENGTH, 0, "a book of 31 bytes", at_end);
    l = exact(VISITS);
    l.book_bytes = changed(K_BOOK, sizeof K_BOOK, 8 * 3, 4);
    refusal(l, LGS_BOOK_PAIR, 3, "a visit without its pair", at_end);
    l.book_bytes = changed(K_BOOK, sizeof K_BOOK, 8 * 1 + 4, 0);
    refusal(l, LGS_BOOK_MARK, 1, "a mark of 0", at_end);
    l.book_bytes = changed(K_BOOK, sizeof K_BOOK, 8 * 1 + 2, 1);
    refusal(l, LGS_BOOK_REPEATED, 1, "a pair twice", at_end);
    l.book_bytes = changed(K_BOOK, sizeof K_BOOK, 8 * 1 + 4, 5);
    refusal(l, LGS_BOOK_TIE, 1, "an equal mark of a student", at_end);
}

/* K's case with these lots. */
static const uint8_t *with_lots(unsigned first, unsigned second, unsigned third)
{
    static uint8_t copy[sizeof K_CASE];
    const unsigned lots[STUDENTS] = {first, second, third};
    memcpy(copy, K_CASE, sizeof copy);
    for (size_t i = 0; i < STUDENTS; i++)
        put(copy, i, 8, lots[i]);
    return copy;
}

/* Lots out of range and used twice are refused at the first such record, after 5 and before 6; a workshop has none. */
static void wrong_lots(int at_end)
{
    loan l = exact(VISITS);
    l.case_bytes = with_lots(1, 0, 3), refusal(l, LGS_CASE_LOT, 1, "a lot of 0", at_end);
    l.case_bytes = with_lots(513, 2, 3), refusal(l, LGS_CASE_LOT, 0, "a lot of 513", at_end);
    l.case_bytes = with_lots(1, 2, 65535), refusal(l, LGS_CASE_LOT, 2, "a lot of 65535", at_end);
    l.case_bytes = with_lots(258, 258, 3), refusal(l, LGS_CASE_LOT, 1, "a lot twice", at_end);
    l.case_bytes = with_lots(3, 2, 3), refusal(l, LGS_CASE_LOT, 2, "the last lot used already", at_end);
    l.case_bytes = with_lots(7, 7, 0), refusal(l, LGS_CASE_LOT, 1, "a lot twice before a lot of 0", at_end);
    l.case_bytes = changed(with_lots(0, 2, 3), sizeof K_CASE, 16 * 10 + 6, 66), refusal(l, LGS_CASE_RANGE, 10, "5 before 13", at_end);
    l.case_bytes = changed(K_CASE, sizeof K_CASE, 16 * 3 + 8, 1), refusal(l, LGS_CASE_FORM, 3, "a lot of a workshop", at_end);
    l = exact(0);
    l.case_bytes = with_lots(1, 2, 2), l.places = 0, refusal(l, LGS_CASE_LOT, 2, "13 before 6", at_end);
    l = exact(VISITS);
    l.case_bytes = with_lots(1, 2, 2), l.book_length -= 1, refusal(l, LGS_CASE_LOT, 2, "13 before 7", at_end);
}

/* K with these lots, and with this mark of workshop 2 for student 3; the places of students 2 and 3. */
static void parted(const uint8_t *lots, uint8_t mark, uint16_t second, uint16_t third, const char *what, int at_end)
{
    loan l = exact(VISITS);
    l.case_bytes = lots;
    l.book_bytes = changed(K_BOOK, sizeof K_BOOK, 8 * 3 + 6, mark);
    result r = call(l, at_end);
    check(is(r.report, LGS_PLACED, 0, 0, VISITS, 0) && r.places[0] == 1 && r.places[1] == second && r.places[2] == third, what);
    check(memcmp(r.visits, K_VISITS, sizeof K_VISITS) == 0 && r.zero, "visits and scratch with equal marks");
}

/* Workshop 2 has the mark 1 for student 2. An equal mark for student 3 is parted by the lower lot; another mark is not, nor is another group. */
static void lots(int at_end)
{
    parted(K_CASE, 1, 2, 0, "equal marks, lots as the numbers", at_end);
    parted(with_lots(1, 3, 2), 1, 0, 2, "equal marks, the lots of students 2 and 3 exchanged", at_end);
    parted(with_lots(512, 511, 510), 1, 0, 2, "equal marks, high lots", at_end);
    parted(with_lots(1, 255, 256), 1, 2, 0, "equal marks, lots 255 and 256", at_end);
    parted(with_lots(1, 257, 256), 1, 0, 2, "equal marks, lots 257 and 256", at_end);
    parted(with_lots(512, 1, 2), 2, 0, 2, "a higher mark with a higher lot", at_end);
    parted(with_lots(3, 2, 1), 6, 0, 2, "the best group with the highest lot", at_end);
    wrong_lots(at_end);
}

/* K's case with these fares, put at `copy`. */
static const uint8_t *with_fares(uint8_t *copy, const unsigned fares[PAIRS])
{
    memcpy(copy, K_CASE, sizeof K_CASE);
    for (size_t i = 0; i < PAIRS; i++)
        put(copy, STUDENTS + WORKSHOPS + i, 10, fares[i]);
    return copy;
}

/* K with these fares and so many visits held: the answer is that without fares, but for the total. */
static void costs(const unsigned fares[PAIRS], size_t held, uint64_t total, int at_end)
{
    uint8_t copy[sizeof K_CASE];
    loan l = exact(held);
    l.case_bytes = with_fares(copy, fares);
    if (held == VISITS)
        placement(l, total, at_end);
    else
        next_visit(l, K_VISITS[2 * held], K_VISITS[2 * held + 1], held, total, at_end);
}

/* Bytes 10 and 11 are a fare in the pairs' records alone, and the bytes after it are still zero; a refusal has no total. */
static void refusals_with_fares(int at_end)
{
    loan l = exact(VISITS);
    l.case_bytes = changed(K_FARES, sizeof K_FARES, 10, 1), refusal(l, LGS_CASE_FORM, 0, "a fare of a student", at_end);
    l.case_bytes = changed(K_FARES, sizeof K_FARES, 16 * 2 + 11, 1), refusal(l, LGS_CASE_FORM, 2, "a fare of the last student", at_end);
    l.case_bytes = changed(K_FARES, sizeof K_FARES, 16 * 3 + 10, 1), refusal(l, LGS_CASE_FORM, 3, "a fare of a workshop", at_end);
    l.case_bytes = changed(K_FARES, sizeof K_FARES, 16 * 4 + 11, 1), refusal(l, LGS_CASE_FORM, 4, "a fare of the last workshop", at_end);
    for (size_t at = 12; at < 16; at++)
        l.case_bytes = changed(K_FARES, sizeof K_FARES, 16 * 8 + at, 1), refusal(l, LGS_CASE_FORM, 8, "a byte after a fare", at_end);
    l.case_bytes = K_FARES;
    l.visits -= 1, refusal(l, LGS_SHORT_BUFFER, 0, "visits short, with fares", at_end);
    l.visits += 1, l.book_length -= 1, refusal(l, LGS_BOOK_LENGTH, 0, "a book of 31 bytes, with fares", at_end);
    l.book_length += 1, l.book_bytes = changed(K_BOOK, sizeof K_BOOK, 8 * 3 + 4, 0), refusal(l, LGS_BOOK_MARK, 3, "a mark of 0, with fares", at_end);
}

static void fares(int at_end)
{
    const unsigned most[PAIRS] = {65535, 65535, 65535, 65535, 65535, 65535}, elsewhere[PAIRS] = {0, 0, 65535, 0, 1, 0};
    for (size_t held = 0; held <= VISITS; held++) {
        costs(FARES, held, COST[held], at_end);
        costs(most, held, 65535 * held, at_end);
        costs(elsewhere, held, 0, at_end);
    }
    loan l = generous(VISITS);
    l.case_bytes = K_FARES, placement(l, COST[VISITS], at_end);
    refusals_with_fares(at_end);
}

/* Each buffer one entry short. */
static void short_buffers(int at_end)
{
    loan l;
    l = exact(VISITS), l.places -= 1, refusal(l, LGS_SHORT_BUFFER, 0, "places short", at_end);
    l = exact(VISITS), l.visits -= 1, refusal(l, LGS_SHORT_BUFFER, 0, "visits short", at_end);
    l = exact(VISITS), l.seats -= 1, refusal(l, LGS_SHORT_BUFFER, 0, "seats short", at_end);
    l = exact(VISITS), l.index -= 1, refusal(l, LGS_SHORT_BUFFER, 0, "index short", at_end);
    l = exact(VISITS), l.states -= 1, refusal(l, LGS_SHORT_BUFFER, 0, "states short", at_end);
}

/* The book is lent from the case's own bytes: its first 8 read as student 1, workshop 1, marks 1 and 2. */
static void overlap(void)
{
    uint16_t places[STUDENTS], visits[2 * PAIRS], seats[SEATS], index[PAIRS];
    lgs_student_state states[STUDENTS];
    memset(places, 0, sizeof places), memset(visits, 0, sizeof visits), memset(seats, 0, sizeof seats);
    memset(index, 0, sizeof index), memset(states, 0, sizeof states);
    lgs_report r = lgs_place(K_CASE, sizeof K_CASE, K_CASE, 8, places, STUDENTS, visits, 2 * PAIRS, seats, SEATS, index, PAIRS, states, STUDENTS);
    check(is(r, LGS_NEXT, 1, 2, 1, 0), "case and book overlap");
}

/* Threads that call at the same time get what one alone gets. */
static void *many_calls(void *number)
{
    size_t wrong = 0;
    for (int i = 0; i < 200; i++) {
        size_t held = ((size_t)i + *(size_t *)number) % (VISITS + 1);
        loan l = exact(held);
        l.case_bytes = K_FARES;
        result r = call(l, i % 2);
        wrong += held == VISITS ? !is(r.report, LGS_PLACED, 0, 0, VISITS, COST[VISITS])
                                : !is(r.report, LGS_NEXT, K_VISITS[2 * held], K_VISITS[2 * held + 1], held, COST[held]);
    }
    *(size_t *)number = wrong;
    return NULL;
}

/* Two students with the lots 1 and 2, two workshops, and both the other way round at the second workshop. */
enum { TURNED_STUDENTS = 2, TURNED_QUOTA = 16 * 3 + 4 };
static const uint8_t TURNED[16 * 8] = {
    1, 0, 1, 0, 1, 0, 2, 0, 1, 0, 0, 0, 0, 0, 0, 0,
    1, 0, 2, 0, 1, 0, 2, 0, 2, 0, 0, 0, 0, 0, 0, 0,
    2, 0, 1, 0, 1, 0, 3, 0, 0, 0, 0, 0, 0, 0, 0, 0,
    2, 0, 2, 0, 1, 0, 3, 0, 0, 0, 0, 0, 0, 0, 0, 0,
    3, 0, 1, 0, 1, 0, 1, 0, 1, 0, 0, 0, 0, 0, 0, 0,
    3, 0, 1, 0, 2, 0, 1, 0, 2, 0, 0, 0, 0, 0, 0, 0,
    3, 0, 2, 0, 1, 0, 1, 0, 2, 0, 0, 0, 0, 0, 0, 0,
    3, 0, 2, 0, 2, 0, 1, 0, 1, 0, 0, 0, 0, 0, 0, 0,
};
static const uint16_t K_STAGES[STUDENTS] = {1, 2, 2};

/* What came back from lgs_stages. */
typedef struct {
    lgs_part_report report;
    uint8_t behind[64];
    uint16_t stages[LGS_MOST_STAGES];
    int within;
} stages_result;

/* One call of lgs_stages with the case and the buffer at a forbidden page, the buffer full of 0xA5. */
static stages_result call_stages(const uint8_t *bytes, size_t length, size_t room, int at_end)
{
    void *lent_case = guarded(length, at_end), *lent = guarded(2 * room, at_end);
    memcpy(lent_case, bytes, length);
    memset(lent, 0xA5, 2 * room);
    only_read(lent_case, length);
    stages_result r;
    memset(&r, 0xA5, sizeof r);
    lgs_part_report *at = stages_into(&r.report, lent_case, length, lent, room);
    r.within = at == &r.report && all_lent(r.behind, sizeof r.behind);
    memcpy(r.stages, lent, 2 * room);
    give_back(lent_case, length, at_end);
    give_back(lent, 2 * room, at_end);
    return r;
}

static void stages_refusal(const uint8_t *bytes, size_t length, size_t room, uint64_t number, uint64_t place, const char *what, int at_end)
{
    stages_result r = call_stages(bytes, length, room, at_end);
    check(is_part(r.report, LGS_REFUSED, number, place), what);
    check(as_lent(r.stages, 0, room) && r.within, "a refusal leaves the stages, and nothing is written behind the answer");
}

static void stages_done(const uint8_t *bytes, size_t room, int at_end)
{
    stages_result r = call_stages(bytes, sizeof K_CASE, room, at_end);
    check(is_part(r.report, LGS_DONE, STUDENTS, 0), "K has stages");
    check(memcmp(r.stages, K_STAGES, sizeof K_STAGES) == 0 && as_lent(r.stages, STUDENTS, room) && r.within, "K's stages");
}

/* Lots are tested after 5, and before 6 and 12. */
static void stages_lots(int at_end)
{
    stages_refusal(with_lots(1, 0, 3), sizeof K_CASE, STUDENTS, LGS_CASE_LOT, 1, "stages: a lot of 0", at_end);
    stages_refusal(with_lots(1, 2, 513), sizeof K_CASE, STUDENTS, LGS_CASE_LOT, 2, "stages: a lot of 513", at_end);
    stages_refusal(with_lots(5, 5, 0), sizeof K_CASE, 0, LGS_CASE_LOT, 1, "stages: 13 before 6", at_end);
    uint8_t same[sizeof TURNED];
    memcpy(same, TURNED, sizeof same);
    same[16 + 8] = 1;
    stages_refusal(same, sizeof same, TURNED_STUDENTS, LGS_CASE_LOT, 1, "stages: 13 before 12", at_end);
}

static void stages(int at_end)
{
    stages_done(K_CASE, STUDENTS, at_end);
    stages_done(K_CASE, STUDENTS + 1, at_end);
    stages_done(K_CASE, LGS_MOST_STAGES, at_end);
    stages_done(K_FARES, STUDENTS, at_end);
    stages_done(with_lots(512, 1, 300), STUDENTS, at_end);
    stages_refusal(K_CASE, 0, 0, LGS_CASE_COUNTS, 0, "no case, no room", at_end);
    stages_refusal(K_CASE, sizeof K_CASE - 1, STUDENTS, LGS_CASE_LENGTH, 0, "a byte short", at_end);
    stages_refusal(K_CASE, 15, LGS_MOST_STAGES, LGS_CASE_LENGTH, 0, "15 bytes", at_end);
    stages_refusal(K_CASE + 16, sizeof K_CASE - 16, STUDENTS, LGS_CASE_ORDER, 0, "without student 1", at_end);
    stages_refusal(K_CASE, 16 * STUDENTS, STUDENTS, LGS_CASE_COUNTS, 0, "without workshops", at_end);
    stages_refusal(K_CASE, sizeof K_CASE, STUDENTS - 1, LGS_SHORT_BUFFER, 0, "stages short", at_end);
    stages_refusal(K_CASE, sizeof K_CASE, 0, LGS_SHORT_BUFFER, 0, "no room", at_end);
    stages_refusal(TURNED, sizeof TURNED, TURNED_STUDENTS, LGS_NO_STAGES, 0, "the other way round", at_end);
    stages_refusal(TURNED, sizeof TURNED, LGS_MOST_STAGES, LGS_NO_STAGES, 0, "the other way round, much room", at_end);
    stages_refusal(TURNED, sizeof TURNED, TURNED_STUDENTS - 1, LGS_SHORT_BUFFER, 0, "6 before 12", at_end);
    uint8_t changed[sizeof TURNED];
    memcpy(changed, TURNED, sizeof changed);
    changed[TURNED_QUOTA] = 0;
    stages_result r = call_stages(changed, sizeof changed, TURNED_STUDENTS, at_end);
    check(is_part(r.report, LGS_DONE, TURNED_STUDENTS, 0) && r.stages[0] == 1 && r.stages[1] == 2, "quota 0 at the second workshop");
    changed[16 + 4] = 0;
    stages_refusal(changed, sizeof changed, TURNED_STUDENTS, LGS_CASE_RANGE, 1, "stage 0", at_end);
    changed[16 + 8] = 1;
    stages_refusal(changed, sizeof changed, TURNED_STUDENTS, LGS_CASE_RANGE, 1, "stages: 5 before 13", at_end);
    changed[15] = 1;
    stages_refusal(changed, sizeof changed, TURNED_STUDENTS, LGS_CASE_FORM, 0, "a byte that should be zero", at_end);
    stages_lots(at_end);
}

/* The stages go into the case, and the engine gives the same placement with it as with K's own, which are equal. */
static void both(void)
{
    uint8_t bytes[sizeof K_CASE];
    memcpy(bytes, K_CASE, sizeof bytes);
    for (size_t i = 0; i < STUDENTS; i++)
        bytes[16 * i + 4] = 77;
    stages_result s = call_stages(bytes, sizeof bytes, STUDENTS, 1);
    check(is_part(s.report, LGS_DONE, STUDENTS, 0), "K without its stages");
    for (size_t i = 0; i < STUDENTS; i++)
        put(bytes, i, 4, s.stages[i]);
    check(memcmp(bytes, K_CASE, sizeof bytes) == 0, "K's own stages are the least");
    loan l = exact(VISITS);
    l.case_bytes = bytes;
    result r = call(l, 1);
    check(is(r.report, LGS_PLACED, 0, 0, VISITS, 0) && memcmp(r.places, K_PLACES, sizeof K_PLACES) == 0, "the engine with these stages");
}

/* 512 students, lots downward, 64 workshops of 512 seats, and all pairs. */
static uint8_t LARGE[16 * LARGE_RECORDS], LARGE_BOOK[8 * LARGE_PAIRS];

/* The next record. */
static void add(size_t *record, uint8_t kind, size_t a, size_t b, size_t c, size_t d, unsigned fare)
{
    const size_t field[4] = {a, b, c, d};
    LARGE[16 * *record] = kind;
    for (size_t i = 0; i < 4; i++)
        put(LARGE, *record, 2 * i + 2, (unsigned)field[i]);
    put(LARGE, *record, 10, fare);
    *record += 1;
}

/* The students have the workshops in groups by their numbers, or all in one; the workshops have all students in one. */
static void large_case(int one_group, unsigned fare)
{
    size_t record = 0;
    for (size_t s = 1; s <= ALL; s++)
        add(&record, 1, s, 1, 65, ALL + 1 - s, 0);
    for (size_t w = 1; w <= SHOPS; w++)
        add(&record, 2, w, 512, 513, 0, 0);
    for (size_t i = 0; i < LARGE_PAIRS; i++)
        add(&record, 3, i / SHOPS + 1, i % SHOPS + 1, one_group ? 1 : i % SHOPS + 1, 1, fare);
}

/* The visits of all students to the first so many workshops, by student; her mark is the workshop's number. The book's length. */
static size_t large_book(size_t shops)
{
    for (size_t i = 0; i < ALL * shops; i++) {
        const uint8_t visit[8] = {(uint8_t)((i / shops + 1) & 255), (uint8_t)((i / shops + 1) >> 8), (uint8_t)(i % shops + 1), 0,
                                  (uint8_t)(i % shops + 1), 0, 1, 0};
        memcpy(LARGE_BOOK + 8 * i, visit, 8);
    }
    return 8 * ALL * shops;
}

/* The large case and so much of this book: its visits are listed, and after the last of all of them each student is at the last of these workshops. */
static void large_place(size_t shops, size_t book_length, uint64_t fares, const char *what, int at_end)
{
    loan l = {LARGE, LARGE_BOOK, sizeof LARGE, book_length, LGS_MOST_PLACES, 2 * LARGE_RECORDS, LGS_MOST_SEATS, LARGE_RECORDS, LGS_MOST_STATES};
    result r = call(l, at_end);
    size_t visits = book_length / 8, wrong = 0;
    int whole = visits == ALL * shops;
    for (size_t i = 0; i < visits; i++)
        wrong += r.visits[2 * i] != i / shops + 1 || r.visits[2 * i + 1] != i % shops + 1;
    for (size_t i = 0; i < ALL; i++)
        wrong += r.places[i] != (whole ? shops : 0xA5A5);
    check(whole ? is(r.report, LGS_PLACED, 0, 0, visits, fares) : is(r.report, LGS_NEXT, visits / shops + 1, visits % shops + 1, visits, fares), what);
    check(wrong == 0 && as_lent(r.visits, 2 * visits, l.visits), "places and visits of the largest case");
    check(r.zero && r.within, "scratch is zero after the largest case, and nothing is written behind the answer");
}

/* The workshops have the students in groups downward, or the last one has them from the middle on. */
static void large_groups(int turned)
{
    for (size_t i = 0; i < LARGE_PAIRS; i++) {
        size_t s = i / SHOPS + 1, w = i % SHOPS + 1;
        put(LARGE, ALL + SHOPS + i, 8, (unsigned)(turned ? (s + (w == SHOPS ? 256 : 0)) % ALL + 1 : ALL + 1 - s));
    }
}

static void large_stages(int at_end)
{
    large_groups(0);
    stages_result r = call_stages(LARGE, sizeof LARGE, LGS_MOST_STAGES, at_end);
    size_t wrong = 0;
    for (size_t i = 0; i < ALL; i++)
        wrong += r.stages[i] != ALL - i;
    check(is_part(r.report, LGS_DONE, ALL, 0) && wrong == 0 && r.within, "a chain of 512 stages");
    large_groups(1);
    stages_refusal(LARGE, sizeof LARGE, LGS_MOST_STAGES, LGS_NO_STAGES, 0, "one workshop of 64 turned", at_end);
}

static void large(int at_end)
{
    large_case(0, 0);
    large_place(1, large_book(1), 0, "512 x 64, a visit each", at_end);
    large_case(1, 65535);
    size_t length = large_book(SHOPS);
    large_place(SHOPS, length, 2147450880, "the largest total", at_end);
    large_place(SHOPS, length - 8, 2147385345, "the largest total, one visit before", at_end);
    large_stages(at_end);
}

static void *many_stages(void *number)
{
    size_t wrong = 0;
    for (int i = 0; i < 200; i++) {
        int turned = (i + (int)*(size_t *)number) % 2;
        stages_result r = turned ? call_stages(TURNED, sizeof TURNED, TURNED_STUDENTS, i % 2) : call_stages(K_CASE, sizeof K_CASE, STUDENTS, i % 2);
        wrong += turned ? !is_part(r.report, LGS_REFUSED, LGS_NO_STAGES, 0)
                        : !is_part(r.report, LGS_DONE, STUDENTS, 0) || memcmp(r.stages, K_STAGES, sizeof K_STAGES) != 0;
    }
    *(size_t *)number = wrong;
    return NULL;
}

int main(void)
{
    with_fares(K_FARES, FARES);
    for (int at_end = 0; at_end < 2; at_end++) {
        placement(exact(VISITS), 0, at_end);
        placement(generous(VISITS), 0, at_end);
        next_visit(exact(0), 1, 1, 0, 0, at_end);
        next_visit(exact(2), 2, 2, 2, 0, at_end);
        next_visit(generous(3), 3, 2, 3, 0, at_end);
        refusals(at_end);
        short_buffers(at_end);
        lots(at_end);
        fares(at_end);
        stages(at_end);
        large(at_end);
    }
    overlap();
    both();
    threads(many_calls);
    threads(many_stages);
    return counted();
}
