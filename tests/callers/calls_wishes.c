/* Calls of lgs_write_wishes and lgs_read_wishes from C, each buffer between two pages that cannot be touched, and the place of each answer full of 0xA5
 * before the call. Last line 'N passed, M failed'. */
#define _GNU_SOURCE
#include "guard.h"

/* The functions as the machine calls them on x86-64; calls.c says why. */
lgs_part_report *write_into(lgs_part_report *, const uint8_t *, size_t, uint8_t *, size_t) __asm__("lgs_write_wishes");
lgs_part_report *read_into(lgs_part_report *, const uint8_t *, size_t, const uint8_t *, size_t, uint8_t *, size_t) __asm__("lgs_read_wishes");

/* K's lines. */
static const char K_TEXT[] = "1: {1,2},-\n2: {1,2},-\n3: 1,{-,2}\n";
enum { K_ROOM = 8 * STUDENTS + 4 * PAIRS, K_LENGTH = sizeof K_TEXT - 1 };

/* The paper's line, with a case that it fits: the groups have gaps, and the other fields many values. Both are made at the start of main. */
#define PAPER_REST "2: -\n3: 2,{4,1},-,5\n"
#define PAPER "1: 3,-\n" PAPER_REST
static const char GAPS_TEXT[] = "1: 3,-\n2: -\n3: 2,{1,4},-,5\n";
enum { GAPS_SHOPS = 5, GAPS_PAIRS = 5, GAPS_RECORDS = STUDENTS + GAPS_SHOPS + GAPS_PAIRS, GAPS_ROOM = 8 * STUDENTS + 4 * GAPS_PAIRS };
static uint8_t GAPS[16 * GAPS_RECORDS], GAPS_COPY[16 * GAPS_RECORDS];

/* What is lent in one call: the case, the text to be read (null for lgs_write_wishes), and how many bytes for what is written. */
typedef struct {
    const uint8_t *case_bytes;
    size_t case_length;
    const void *text;
    size_t text_length, room;
} loan;

/* What came back. What was lent for writing is in LENT. */
typedef struct {
    lgs_part_report report;
    uint8_t behind[64];
    int within; /* the answer's address came back, and what is behind it is as it was */
} result;
static _Thread_local uint8_t LENT[ROOM];

/* One call with every buffer at a forbidden page, what is written full of 0xA5. */
static result call(loan l, int at_end)
{
    void *lent_case = guarded(l.case_length, at_end), *text = guarded(l.text_length, at_end), *lent = guarded(l.room, at_end);
    memcpy(lent_case, l.case_bytes, l.case_length);
    if (l.text != NULL)
        memcpy(text, l.text, l.text_length);
    memset(lent, 0xA5, l.room);
    only_read(lent_case, l.case_length);
    only_read(text, l.text_length);
    result r;
    memset(&r, 0xA5, sizeof r);
    lgs_part_report *at = l.text == NULL ? write_into(&r.report, lent_case, l.case_length, lent, l.room)
                                         : read_into(&r.report, lent_case, l.case_length, text, l.text_length, lent, l.room);
    r.within = at == &r.report && all_lent(r.behind, sizeof r.behind);
    memcpy(LENT, lent, l.room);
    give_back(lent_case, l.case_length, at_end);
    give_back(text, l.text_length, at_end);
    give_back(lent, l.room, at_end);
    return r;
}

/* The answer is this many bytes, these, and the rest of what was lent is as it was. */
static int gives(loan l, const void *bytes, size_t length, int at_end)
{
    result r = call(l, at_end);
    return is_part(r.report, LGS_DONE, length, 0) && memcmp(LENT, bytes, length) == 0 && all_lent(LENT + length, l.room - length) && r.within;
}

/* The answer is this refusal, and what was lent is as it was. */
static int refuses(loan l, uint64_t number, uint64_t place, int at_end)
{
    result r = call(l, at_end);
    return is_part(r.report, LGS_REFUSED, number, place) && all_lent(LENT, l.room) && r.within;
}

static loan writing(const uint8_t *bytes, size_t length, size_t room)
{
    return (loan){bytes, length, NULL, 0, room};
}

static loan reading(const uint8_t *bytes, size_t length, const char *text, size_t room)
{
    return (loan){bytes, length, text, strlen(text), room};
}

/* ---- cases */

static void record(uint8_t *bytes, size_t at, uint8_t kind, unsigned a, unsigned b, unsigned c, unsigned d, unsigned e)
{
    const unsigned field[5] = {a, b, c, d, e};
    memset(bytes + 16 * at, 0, 16);
    bytes[16 * at] = kind;
    for (size_t i = 0; i < 5; i++)
        put(bytes, at, 2 * i + 2, field[i]);
}

/* The case of the paper's line with these line groups and groups. */
static void make_gaps(uint8_t *bytes, const unsigned lines[STUDENTS], const unsigned groups[GAPS_PAIRS])
{
    static const unsigned student[GAPS_PAIRS] = {1, 3, 3, 3, 3}, workshop[GAPS_PAIRS] = {3, 1, 2, 4, 5};
    for (unsigned i = 0; i < STUDENTS; i++)
        record(bytes, i, 1, i + 1, 512 - i, lines[i], 300 - i, 0);
    for (unsigned i = 0; i < GAPS_SHOPS; i++)
        record(bytes, STUDENTS + i, 2, i + 1, 128 * i, 513 - i, 0, 0);
    for (unsigned i = 0; i < GAPS_PAIRS; i++)
        record(bytes, STUDENTS + GAPS_SHOPS + i, 3, student[i], workshop[i], groups[i], 513 - 100 * i, 65535 - 1000 * i);
}

/* ---- answers */

static void written(int at_end)
{
    check(gives(writing(K_CASE, sizeof K_CASE, K_ROOM), K_TEXT, K_LENGTH, at_end), "K's lines");
    check(gives(writing(K_CASE, sizeof K_CASE, K_ROOM + 1), K_TEXT, K_LENGTH, at_end), "K's lines, a byte more room");
    check(gives(writing(K_CASE, sizeof K_CASE, 8 * 512 + 4 * RECORDS), K_TEXT, K_LENGTH, at_end), "K's lines, much room");
    check(gives(writing(GAPS, sizeof GAPS, GAPS_ROOM), GAPS_TEXT, sizeof GAPS_TEXT - 1, at_end), "lines of groups with gaps");
    check(gives(writing(GAPS_COPY, sizeof GAPS, GAPS_ROOM), GAPS_TEXT, sizeof GAPS_TEXT - 1, at_end), "lines of the same groups without gaps");
    check(gives(writing(GAPS, 16 * (STUDENTS + 1), 8 * STUDENTS), "1: -\n2: -\n3: -\n", 15, at_end), "lines of no pairs");
}

static void read_into_copy(int at_end)
{
    const size_t k = sizeof K_CASE, g = sizeof GAPS;
    check(gives(reading(K_CASE, k, K_TEXT, k), K_CASE, k, at_end), "K from its lines");
    check(gives(reading(K_CASE, k, "1: {2,1},-\n2: {1,2},-\n3: 1,{2,-}\n", k), K_CASE, k, at_end), "K from its lines in another order");
    check(gives(reading(K_CASE, k, K_TEXT, k + 1), K_CASE, k, at_end), "K from its lines, a byte more room");
    check(gives(reading(K_CASE, k, K_TEXT, 65536), K_CASE, k, at_end), "K from its lines, much room");
    check(gives(reading(GAPS, g, PAPER, g), GAPS_COPY, g, at_end), "the paper's line");
    check(gives(reading(GAPS, g, GAPS_TEXT, g), GAPS_COPY, g, at_end), "what was written of groups with gaps");
    check(gives(reading(GAPS_COPY, g, PAPER, g + 16), GAPS_COPY, g, at_end), "the paper's line again");
    uint8_t other[sizeof GAPS];
    make_gaps(other, (const unsigned[]){1, 1, 5}, (const unsigned[]){1, 4, 3, 2, 1});
    check(gives(reading(GAPS, g, "1: {3,-}\n2: -\n3: 5,4,2,1,-\n", g), other, g, at_end), "other lines");
    check(gives(reading(other, g, PAPER, g), GAPS_COPY, g, at_end), "and back");
}

/* ---- refusals of the case and of the room: those of the case come first, and then that of the room, whatever the text */

static const uint8_t *changed(const uint8_t *bytes, size_t at, uint8_t value)
{
    static uint8_t copy[sizeof K_CASE];
    memcpy(copy, bytes, sizeof copy);
    copy[at] = value;
    return copy;
}

/* Both functions refuse so, with enough room and with none, and whatever the text. */
static void case_refusal(const uint8_t *bytes, size_t length, uint64_t number, uint64_t place, const char *what, int at_end)
{
    const char *texts[3] = {K_TEXT, "", "\xff"};
    check(refuses(writing(bytes, length, K_ROOM), number, place, at_end), what);
    check(refuses(writing(bytes, length, 0), number, place, at_end), what);
    for (int i = 0; i < 3; i++) {
        check(refuses(reading(bytes, length, texts[i], sizeof K_CASE), number, place, at_end), what);
        check(refuses(reading(bytes, length, texts[i], 0), number, place, at_end), what);
    }
}

static void case_refusals(int at_end)
{
    const size_t k = sizeof K_CASE;
    case_refusal(K_CASE, 0, LGS_CASE_COUNTS, 0, "no case", at_end);
    case_refusal(K_CASE, 15, LGS_CASE_LENGTH, 0, "15 bytes", at_end);
    case_refusal(K_CASE, k - 1, LGS_CASE_LENGTH, 0, "a byte short", at_end);
    case_refusal(changed(K_CASE, 16 * 4 + 15, 1), k, LGS_CASE_FORM, 4, "a byte that should be zero", at_end);
    case_refusal(K_CASE + 16, k - 16, LGS_CASE_ORDER, 0, "without student 1", at_end);
    case_refusal(changed(K_CASE, 16 * 10 + 4, 3), k, LGS_CASE_ORDER, 10, "a pair that names nobody", at_end);
    case_refusal(K_CASE, 16 * STUDENTS, LGS_CASE_COUNTS, 0, "without workshops", at_end);
    case_refusal(changed(K_CASE, 16 * 6 + 6, 66), k, LGS_CASE_RANGE, 6, "a group out of range", at_end);
    case_refusal(changed(K_CASE, 16 * 1 + 6, 0), k, LGS_CASE_RANGE, 1, "a line group out of range", at_end);
    case_refusal(changed(K_CASE, 16 * 2 + 8, 1), k, LGS_CASE_LOT, 2, "a lot twice", at_end);
}

/* The text would often fit into less: what is needed goes by the counts. */
static void short_buffers(int at_end)
{
    const size_t k = sizeof K_CASE, none = 16 * (STUDENTS + 1), one = 16 * (STUDENTS + GAPS_SHOPS + 1);
    const size_t rooms[3] = {K_ROOM - 1, K_LENGTH, 0};
    for (int i = 0; i < 3; i++)
        check(refuses(writing(K_CASE, k, rooms[i]), LGS_SHORT_BUFFER, 0, at_end), "text short");
    check(refuses(writing(GAPS, none, 8 * STUDENTS - 1), LGS_SHORT_BUFFER, 0, at_end), "text short, no pairs");
    check(refuses(writing(GAPS, one, 8 * STUDENTS + 3), LGS_SHORT_BUFFER, 0, at_end), "text short, one pair");
    const char *texts[4] = {K_TEXT, "", "1: {1,2},-", "1: -\n"};
    for (int i = 0; i < 4; i++) {
        check(refuses(reading(K_CASE, k, texts[i], k - 1), LGS_SHORT_BUFFER, 0, at_end), "copy short, 6 before 14 and 15");
        check(refuses(reading(K_CASE, k, texts[i], 0), LGS_SHORT_BUFFER, 0, at_end), "no room for the copy");
    }
}

/* ---- refusals of the text */

/* Lines of student 1 that depart from the form; all other lines are right. */
static const char *const DEPARTING[] = {
    "", "1", "1:", "1: ", "1:3,-", "1 : 3,-", "1:  3,-", " 1: 3,-", "1: 3, -", "1: 3,- ", "1: 3,-\r", "1:\t3,-", "1, 3,-", ": 3,-", "-: 3", "x: 3,-",
    "2: 3,-", "01: 3,-", "0: 3,-", "10: 3,-", "257: 3,-", "65537: 3,-", "4294967297: 3,-", "18446744073709551617: 3,-",
    "1: {3},-", "1: 3,{-}", "1: {},3,-", "1: 3,-,{}", "1: 3", "1: 3,-,-", "1: {-,-},3", "1: {3,-},-", "1: -,{3,-}", "1: 03,-", "1: 0,-", "1: 0,3,-", "1: 00,-",
    "1: +3,-", "1: -3", "1: 3-", "1: --,3", "1: 3,,-", "1: ,3,-", "1: 3,-,", "1: {3,-", "1: 3,-}", "1: {3,-},", "1: {,3,-}", "1: {3,-,}", "1: {{3,-}}",
    "1: {3,{-,3}}", "1: {3,-}}", "1: {3}-", "1: }3,-{", "1: 3;-", "1: 3.0,-", "1: 3,-,x", "1: 3,\xe2\x88\x92", "1: (3,-)", "1: \"3,-\"",
    /* also misnamed, which does not show */
    "1: 2", "1: 2,-,-", "1: 3,3,03,-", "1: 99,-\r", "1: -,{3}", "1: {4},-", "2: 2,-", "1: 3,3,3,", "1:-", "1: 99999999999999999999x,-",
};

/* Lines of student 1 in the form that name other workshops than 3, or 3 twice. */
static const char *const MISNAMING[] = {
    "1: -", "1: 2,-", "1: 3,3,-", "1: {3,3},-", "1: {-,3},3", "1: 3,{-,3}", "1: {-,3,3}", "1: 3,2,-", "1: {2,3},-", "1: 2,3,-", "1: -,3,2", "1: {-,2}",
    "1: 6,-", "1: 3,6,-", "1: 3,64,-", "1: 3,65,-", "1: 65,-", "1: 67,-", "1: 3,67,-", "1: 3,128,-", "1: 259,-", "1: 3,256,-", "1: 3,259,-", "1: 3,1000,-",
    "1: 1003,-", "1: 65539,-", "1: 3,65536,-", "1: 4294967299,-", "1: 3,4294967296,-", "1: 18446744073709551619,-", "1: 3,18446744073709551616,-",
    "1: 30,-", "1: 33,-",
};

/* Texts in which several lines are wrong, or the end is. */
static const struct {
    const char *text;
    uint64_t number, place;
} TEXTS[] = {
    {"", LGS_WISH_FORM, 0}, {"\n", LGS_WISH_FORM, 0}, {"1: 3,-", LGS_WISH_FORM, 0}, {"1: 3,-\n", LGS_WISH_FORM, 1},
    {"1: 3,-\n2: -", LGS_WISH_FORM, 1}, {"1: 3,-\n2: -\n", LGS_WISH_FORM, 2}, {"1: 3,-\n2: -\n3: 2,{4,1},-,5", LGS_WISH_FORM, 2},
    {PAPER "\n", LGS_WISH_FORM, 3}, {PAPER " ", LGS_WISH_FORM, 3}, {PAPER "\r\n", LGS_WISH_FORM, 3}, {PAPER "4: -\n", LGS_WISH_FORM, 3},
    {PAPER "3: 2,{4,1},-,5\n", LGS_WISH_FORM, 3}, {PAPER PAPER, LGS_WISH_FORM, 3}, {PAPER "4: -\n5: -\n", LGS_WISH_FORM, 3},
    {"\n" PAPER, LGS_WISH_FORM, 0}, {"1: 3,-\n\n" PAPER_REST, LGS_WISH_FORM, 1}, {"\xef\xbb\xbf" PAPER, LGS_WISH_FORM, 0},
    {"2: -\n1: 3,-\n3: 2,{4,1},-,5\n", LGS_WISH_FORM, 0}, {"1: 3,-\n3: 2,{4,1},-,5\n2: -\n", LGS_WISH_FORM, 1},
    {"1: 3,-\n1: 3,-\n" PAPER_REST, LGS_WISH_FORM, 1}, {"1: 3,-\r2: -\r3: 2,{4,1},-,5\r", LGS_WISH_FORM, 0},
    {"1: 3,-\n2: -\n3: 2,{4,1},-,5\r\n", LGS_WISH_FORM, 2},
    {"1: 2,-\n2:\n", LGS_WISH_NAMES, 0}, {"1: 2,-", LGS_WISH_FORM, 0}, {"1: 2,-\n", LGS_WISH_NAMES, 0}, {"1: 3\n2: 1,-\n", LGS_WISH_FORM, 0},
    {"1: 3,-\n2: 1,-\n3: -,-\n", LGS_WISH_NAMES, 1}, {"1: 3,-\n2: 01,-\n3: -\n", LGS_WISH_FORM, 1}, {"1: 3,-\n2: -\n3: 2,{4,1},-\n", LGS_WISH_NAMES, 2},
    {"1: 3,-\n2: -\n3: 2,{4,1},-\nleft over", LGS_WISH_NAMES, 2}, {"1: 3,-\n2: -\n3: 2,{4,1},-", LGS_WISH_FORM, 2},
    {"1: 3,-\n2: -\n3: 2,{4,2,1},-,5\n", LGS_WISH_NAMES, 2}, {"1: 3,-\n2: -\n3: 2,{4,1},-,5,3\n", LGS_WISH_NAMES, 2},
};

static int text_refused(const char *text, uint64_t number, uint64_t place, int at_end)
{
    return refuses(reading(GAPS, sizeof GAPS, text, sizeof GAPS), number, place, at_end);
}

/* The line for student 1 with the others, and the line alone. */
static void first_line(const char *line, uint64_t number, int at_end)
{
    char text[128];
    snprintf(text, sizeof text, "%s\n%s", line, PAPER_REST);
    check(text_refused(text, number, 0, at_end), line);
    check(text_refused(line, LGS_WISH_FORM, 0, at_end), line);
}

static void text_refusals(int at_end)
{
    for (size_t i = 0; i < sizeof DEPARTING / sizeof *DEPARTING; i++)
        first_line(DEPARTING[i], LGS_WISH_FORM, at_end);
    for (size_t i = 0; i < sizeof MISNAMING / sizeof *MISNAMING; i++)
        first_line(MISNAMING[i], LGS_WISH_NAMES, at_end);
    for (size_t i = 0; i < sizeof TEXTS / sizeof *TEXTS; i++)
        check(text_refused(TEXTS[i].text, TEXTS[i].number, TEXTS[i].place, at_end), TEXTS[i].text);
}

/* Very long lines: this, then so many times that, and then the rest of the text. */
static void long_text(const char *head, const char *again, size_t times, const char *rest, uint64_t number, const char *what, int at_end)
{
    size_t length = strlen(head) + times * strlen(again) + strlen(rest);
    char *text = malloc(length + 1), *end = text;
    if (text == NULL)
        exit(2);
    end = stpcpy(end, head);
    for (size_t i = 0; i < times; i++)
        end = stpcpy(end, again);
    stpcpy(end, rest);
    check(text_refused(text, number, 0, at_end), what);
    free(text);
}

static void long_texts(int at_end)
{
    long_text("1: ", "9", 500000, ",-\n" PAPER_REST, LGS_WISH_NAMES, "a workshop of 500,000 digits", at_end);
    long_text("1: 3", "0", 500000, ",-\n" PAPER_REST, LGS_WISH_NAMES, "a workshop with 500,000 zeros", at_end);
    long_text("1", "0", 500000, ": 3,-\n" PAPER_REST, LGS_WISH_FORM, "a student with 500,000 zeros", at_end);
    long_text("1: ", "3,", 250000, "-\n" PAPER_REST, LGS_WISH_NAMES, "250,000 groups", at_end);
    long_text("1: {", "3,", 250000, "-}\n" PAPER_REST, LGS_WISH_NAMES, "a group of 250,000", at_end);
    long_text("1: 3", ",-", 65537, "\n" PAPER_REST, LGS_WISH_FORM, "none 65,537 times", at_end);
    long_text("1: 3,-", "{", 500000, "\n" PAPER_REST, LGS_WISH_FORM, "500,000 braces", at_end);
    long_text("", "\n", 500000, "", LGS_WISH_FORM, "500,000 line feeds", at_end);
}

/* ---- K's text with one byte changed, more, or less, and each head of it */

/* A workshop's number stands at this byte of K's text: a digit that does not begin a line. */
static int named_at(size_t at)
{
    return at < K_LENGTH && K_TEXT[at] >= '1' && K_TEXT[at] <= '9' && at > 0 && K_TEXT[at - 1] != '\n';
}

static uint64_t line_at(size_t at)
{
    uint64_t line = 0;
    for (size_t i = 0; i < at; i++)
        line += K_TEXT[i] == '\n';
    return line;
}

/* K's text with `less` bytes less at a place, and then these bytes there. */
static int damaged(size_t at, size_t less, const uint8_t *more, size_t count, uint64_t number, uint64_t place, int at_end)
{
    uint8_t text[K_LENGTH + 1];
    memcpy(text, K_TEXT, at);
    if (count > 0)
        text[at] = *more;
    memcpy(text + at + count, K_TEXT + at + less, K_LENGTH - at - less);
    loan l = {K_CASE, sizeof K_CASE, text, K_LENGTH - less + count, sizeof K_CASE};
    return refuses(l, number, place, at_end);
}

/* Every damage of one byte is refused in its line: one that makes another workshop's number as misnaming, any other as departing. */
static void one_byte(int at_end)
{
    size_t other = 0, more = 0, less = 0, head = 0;
    for (size_t at = 0; at <= K_LENGTH; at++) {
        uint64_t line = line_at(at);
        for (unsigned b = 0; b < 256; b++) {
            uint8_t byte = (uint8_t)b;
            int digit = b >= '0' && b <= '9', number = digit && b != '0', names = (digit && at > 0 && named_at(at - 1)) || (number && named_at(at));
            int feeds = b == '\n' && at < K_LENGTH && K_TEXT[at] == '\n'; /* the line is whole, and the next one empty */
            if (at < K_LENGTH && b != (uint8_t)K_TEXT[at])
                other += !damaged(at, 1, &byte, 1, number && named_at(at) ? LGS_WISH_NAMES : LGS_WISH_FORM, line, at_end);
            more += !damaged(at, 0, &byte, 1, names ? LGS_WISH_NAMES : LGS_WISH_FORM, line + (uint64_t)feeds, at_end);
        }
        if (at < K_LENGTH) {
            less += !damaged(at, 1, NULL, 0, LGS_WISH_FORM, line, at_end);
            head += !damaged(at, K_LENGTH - at, NULL, 0, LGS_WISH_FORM, line, at_end);
        }
    }
    check(other == 0, "another byte in K's text");
    check(more == 0, "a byte more in K's text");
    check(less == 0, "a byte less in K's text");
    check(head == 0, "the head of K's text");
}

/* ---- the largest case */

static uint8_t LARGE[16 * LARGE_RECORDS], LARGE_COPY[16 * LARGE_RECORDS];
static char LARGE_TEXT[8 * ALL + 4 * LARGE_PAIRS + 1];

/* The groups of item 0, none, and of items 1 to 64, the same for all students: each by itself with none first; all in one; in twos, which is longest. */
static unsigned large_group(int kind, unsigned item)
{
    return kind == 0 ? item + 1 : kind == 1 ? 65 : item / 2 + 1;
}

/* The largest case with these groups, or with the positions that they have in the lines. */
static void large_case(uint8_t *bytes, int kind, int positions)
{
    size_t at = 0;
    unsigned gap = positions && kind == 1 ? 64 : 0;
    for (unsigned s = 1; s <= ALL; s++)
        record(bytes, at++, 1, s, 1, large_group(kind, 0) - gap, ALL + 1 - s, 0);
    for (unsigned w = 1; w <= SHOPS; w++)
        record(bytes, at++, 2, w, 512, 513, 0, 0);
    for (unsigned i = 0; i < LARGE_PAIRS; i++)
        record(bytes, at++, 3, i / SHOPS + 1, i % SHOPS + 1, large_group(kind, i % SHOPS + 1) - gap, 1, i % 65536);
}

/* The lines; with `back` the items in braces stand in falling order. */
static size_t large_text(int kind, int back)
{
    char *end = LARGE_TEXT;
    for (unsigned s = 1; s <= ALL; s++) {
        end += sprintf(end, "%u: ", s);
        for (unsigned first = 0, last; first <= SHOPS; first = last + 1) {
            for (last = first; last < SHOPS && large_group(kind, last + 1) == large_group(kind, first);)
                last++;
            end += sprintf(end, "%s%s", first == 0 ? "" : ",", last > first ? "{" : "");
            for (unsigned i = first; i <= last; i++) {
                unsigned item = back ? first + last - i : i;
                end += item == 0 ? sprintf(end, "%s-", i > first ? "," : "") : sprintf(end, "%s%u", i > first ? "," : "", item);
            }
            end += sprintf(end, "%s", last > first ? "}" : "");
        }
        end += sprintf(end, "\n");
    }
    return (size_t)(end - LARGE_TEXT);
}

static void large(int kind, int at_end)
{
    const size_t room = 8 * ALL + 4 * LARGE_PAIRS;
    large_case(LARGE, kind, 0);
    large_case(LARGE_COPY, kind, 1);
    size_t length = large_text(kind, 0);
    check(gives(writing(LARGE, sizeof LARGE, room), LARGE_TEXT, length, at_end), "the largest case's lines");
    check(refuses(writing(LARGE, sizeof LARGE, room - 1), LGS_SHORT_BUFFER, 0, at_end), "the largest case, text short");
    for (int back = 0; back < 2; back++) {
        loan l = {LARGE, sizeof LARGE, LARGE_TEXT, large_text(kind, back), sizeof LARGE};
        check(gives(l, LARGE_COPY, sizeof LARGE, at_end), "the largest case from its lines");
        l.text_length -= 1;
        check(refuses(l, LGS_WISH_FORM, ALL - 1, at_end), "the last line without its line feed");
    }
}

/* ---- all of it */

/* Text and case, which are only read, may be the same bytes. */
static void overlap(void)
{
    uint8_t copy[sizeof K_CASE];
    memset(copy, 0xA5, sizeof copy);
    lgs_part_report r = lgs_read_wishes(K_CASE, sizeof K_CASE, K_CASE, sizeof K_CASE, copy, sizeof copy);
    check(is_part(r, LGS_REFUSED, LGS_WISH_FORM, 0) && all_lent(copy, sizeof copy), "case and text overlap");
}

static void *many_wishes(void *number)
{
    size_t wrong = 0;
    for (int i = 0; i < 200; i++) {
        switch ((i + (int)*(size_t *)number) % 4) {
        case 0:
            wrong += !gives(writing(K_CASE, sizeof K_CASE, K_ROOM), K_TEXT, K_LENGTH, i % 2);
            break;
        case 1:
            wrong += !gives(reading(GAPS, sizeof GAPS, PAPER, sizeof GAPS), GAPS_COPY, sizeof GAPS, i % 2);
            break;
        case 2:
            wrong += !gives(reading(K_CASE, sizeof K_CASE, K_TEXT, sizeof K_CASE), K_CASE, sizeof K_CASE, i % 2);
            break;
        default:
            wrong += !refuses(reading(GAPS, sizeof GAPS, K_TEXT, sizeof GAPS), LGS_WISH_NAMES, 0, i % 2);
        }
    }
    *(size_t *)number = wrong;
    return NULL;
}

int main(void)
{
    make_gaps(GAPS, (const unsigned[]){65, 64, 30}, (const unsigned[]){2, 20, 7, 20, 65});
    make_gaps(GAPS_COPY, (const unsigned[]){2, 1, 3}, (const unsigned[]){1, 2, 1, 2, 4});
    for (int at_end = 0; at_end < 2; at_end++) {
        written(at_end);
        read_into_copy(at_end);
        case_refusals(at_end);
        short_buffers(at_end);
        text_refusals(at_end);
        long_texts(at_end);
        if (at_end)
            one_byte(at_end);
        for (int kind = 0; kind < 3; kind++)
            large(kind, at_end);
    }
    overlap();
    threads(many_wishes);
    return counted();
}
