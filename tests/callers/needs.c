/* What the header has as code, lgs_needs and lgs_refusal_text, and pointers that are null where the length is 0. To be compiled with sanitizers: each
 * buffer is exactly as long as is said. Last line 'N passed, M failed'. */
#include "check.h"
#include "lgs.h"

#include <stdlib.h>
#include <string.h>

enum { MOST_STUDENTS = 512, MOST_WORKSHOPS = 64, MOST_RECORDS = MOST_STUDENTS + MOST_WORKSHOPS + MOST_STUDENTS * MOST_WORKSHOPS };
static uint8_t case_bytes[16 * MOST_RECORDS];
static size_t records;

static void add(unsigned kind, unsigned a, unsigned b, unsigned c, unsigned d)
{
    const unsigned field[4] = {a, b, c, d};
    uint8_t *record = case_bytes + 16 * records++;
    memset(record, 0, 16);
    record[0] = (uint8_t)kind;
    for (size_t i = 0; i < 4; i++) {
        record[2 * i + 2] = (uint8_t)(field[i] & 255);
        record[2 * i + 3] = (uint8_t)(field[i] >> 8);
    }
}

/* So many students and workshops with this quota; each student has a pair with every one of the first so many workshops. */
static void make(unsigned students, unsigned workshops, unsigned quota, unsigned paired)
{
    records = 0;
    for (unsigned s = 1; s <= students; s++)
        add(1, s, 1, 65, s);
    for (unsigned w = 1; w <= workshops; w++)
        add(2, w, quota, 513, 0);
    for (unsigned s = 1; s <= students; s++)
        for (unsigned w = 1; w <= paired; w++)
            add(3, s, w, 1, 1);
}

/* count entries of this size, all written; null for none. */
static void *lend(size_t count, size_t size)
{
    void *entries = count == 0 ? NULL : malloc(count * size);
    if (entries == NULL && count != 0)
        exit(2);
    return entries == NULL ? NULL : memset(entries, 0xA5, count * size);
}

/* The answer of lgs_place with these lengths. */
static lgs_report placed(const uint8_t *bytes, size_t length, const uint8_t *book, size_t book_length, lgs_lengths l)
{
    uint16_t *places = lend(l.places, 2), *visits = lend(l.visits, 2), *seats = lend(l.seats, 2), *index = lend(l.index, 2);
    lgs_student_state *states = lend(l.states, sizeof *states);
    lgs_report r = lgs_place(bytes, length, book, book_length, places, l.places, visits, l.visits, seats, l.seats, index, l.index, states, l.states);
    free(places), free(visits), free(seats), free(index), free(states);
    return r;
}

/* The answer of lgs_stages with these lengths. */
static lgs_part_report staged(const uint8_t *bytes, size_t length, lgs_lengths l)
{
    uint16_t *lent = lend(l.stages, 2);
    lgs_part_report r = lgs_stages(bytes, length, lent, l.stages);
    free(lent);
    return r;
}

/* The answers of lgs_write_wishes and lgs_read_wishes with these lengths. */
static lgs_part_report written(const uint8_t *bytes, size_t length, lgs_lengths l)
{
    uint8_t *text = lend(l.text, 1);
    lgs_part_report r = lgs_write_wishes(bytes, length, text, l.text);
    free(text);
    return r;
}

static lgs_part_report read_back(const uint8_t *bytes, size_t length, const uint8_t *text, size_t text_length, lgs_lengths l)
{
    uint8_t *copy = lend(l.copy, 1);
    lgs_part_report r = lgs_read_wishes(bytes, length, text, text_length, copy, l.copy);
    free(copy);
    return r;
}

/* The refusal of lgs_place with a null book, or 0 for an answer. */
static uint64_t place(const uint8_t *bytes, size_t length, lgs_lengths l)
{
    lgs_report r = placed(bytes, length, NULL, 0, l);
    return r.kind == LGS_REFUSED ? r.first : 0;
}

static uint64_t stages(const uint8_t *bytes, size_t length, lgs_lengths l)
{
    lgs_part_report r = staged(bytes, length, l);
    return r.kind == LGS_REFUSED ? r.first : 0;
}

static uint64_t write_wishes(const uint8_t *bytes, size_t length, lgs_lengths l)
{
    lgs_part_report r = written(bytes, length, l);
    return r.kind == LGS_REFUSED ? r.first : 0;
}

/* The same of lgs_read_wishes with the case's own lines, in as many bytes as they have; with a null text where the case has none. */
static uint64_t read_wishes(const uint8_t *bytes, size_t length, lgs_lengths l)
{
    size_t room = lgs_needs(bytes, length).text;
    uint8_t *all = lend(room, 1);
    lgs_part_report lines = lgs_write_wishes(bytes, length, all, room);
    uint8_t *text = lines.kind == LGS_DONE ? lend(lines.first, 1) : NULL;
    if (text != NULL)
        memcpy(text, all, lines.first);
    lgs_part_report r = read_back(bytes, length, text, text == NULL ? 0 : lines.first, l);
    free(all), free(text);
    return r.kind == LGS_REFUSED ? r.first : 0;
}

/* The answer is this refusal, which names no record. */
static int refused(lgs_report r, uint64_t number)
{
    return r.kind == LGS_REFUSED && r.first == number && r.second == 0 && r.visits == 0 && r.fares == 0;
}

static int part_refused(lgs_part_report r, uint64_t number)
{
    return r.kind == LGS_REFUSED && r.first == number && r.second == 0;
}

/* With one entry less, where there is one, the case is refused for it. */
static void one_short(size_t *length, lgs_lengths *l, uint64_t (*call)(const uint8_t *, size_t, lgs_lengths), const char *what)
{
    if (*length == 0)
        return;
    *length -= 1;
    check(call(case_bytes, 16 * records, *l) == LGS_SHORT_BUFFER, what);
    *length += 1;
}

/* The lengths are those that the made case needs: they are enough, and one less of any is not. */
static void exactly(size_t students, size_t pairs, size_t seats, const char *what)
{
    lgs_lengths l = lgs_needs(case_bytes, 16 * records);
    check(l.places == students && l.visits == 2 * pairs && l.seats == seats && l.index == pairs && l.states == students, what);
    check(l.stages == students && place(case_bytes, 16 * records, l) == 0 && stages(case_bytes, 16 * records, l) == 0, what);
    check(l.text == 8 * students + 4 * pairs && l.copy == 16 * records, what);
    check(write_wishes(case_bytes, 16 * records, l) == 0 && read_wishes(case_bytes, 16 * records, l) == 0, what);
    one_short(&l.places, &l, place, "places one short");
    one_short(&l.visits, &l, place, "visits one short");
    one_short(&l.seats, &l, place, "seats one short");
    one_short(&l.index, &l, place, "index one short");
    one_short(&l.states, &l, place, "states one short");
    one_short(&l.stages, &l, stages, "stages one short");
    one_short(&l.text, &l, write_wishes, "text one short");
    one_short(&l.copy, &l, read_wishes, "copy one short");
}

static void made_cases(void)
{
    make(1, 1, 1, 0), exactly(1, 0, 1, "no pair");
    make(3, 2, 0, 0), exactly(3, 0, 0, "no pair and no seat");
    make(3, 2, 0, 2), exactly(3, 6, 0, "no seat");
    make(3, 2, 1, 2), exactly(3, 6, 2, "a seat each");
    make(5, 3, 300, 1), exactly(5, 5, 900, "quotas above 255");
    make(257, 64, 3, 2), exactly(257, 514, 192, "257 students");
    make(512, 64, 512, 64), exactly(512, 32768, 32768, "the largest case");
    make(3, 2, 1, 2), add(3, 3, 2, 1, 1), records -= 1, exactly(3, 6, 2, "bytes behind the case");
}

/* Example K, from a file. */
static void example(const char *name)
{
    FILE *file = fopen(name, "rb");
    records = file ? fread(case_bytes, 1, sizeof case_bytes, file) / 16 : 0;
    if (file)
        fclose(file);
    exactly(3, 6, 2, "K");
}

/* Whatever the bytes, no length is above what is always enough, and none is too short. */
static void any_bytes(void)
{
    uint64_t state = 88172645463325252;
    int bounded = 1, enough = 1;
    for (size_t turn = 0; turn < 20000; turn++) {
        size_t length = turn % 400;
        uint8_t *bytes = lend(length, 1);
        for (size_t i = 0; i < length; i++) {
            state ^= state << 13, state ^= state >> 7, state ^= state << 17;
            bytes[i] = i % 16 == 0 && turn % 3 ? (uint8_t)(state % 5) : (uint8_t)state;
        }
        lgs_lengths l = lgs_needs(bytes, length);
        bounded &= l.places <= LGS_MOST_PLACES && l.states <= LGS_MOST_STATES && l.stages <= LGS_MOST_STAGES && l.seats <= LGS_MOST_SEATS;
        bounded &= l.visits <= 2 * (length / 16) && l.index <= length / 16;
        bounded &= l.text <= 8 * 512 + 4 * (length / 16) && l.copy <= length;
        enough &= place(bytes, length, l) != LGS_SHORT_BUFFER && stages(bytes, length, l) != LGS_SHORT_BUFFER;
        enough &= write_wishes(bytes, length, l) != LGS_SHORT_BUFFER && read_wishes(bytes, length, l) != LGS_SHORT_BUFFER;
        free(bytes);
    }
    make(513, 65, 65535, 0);
    lgs_lengths l = lgs_needs(case_bytes, 16 * records);
    bounded &= l.places == 512 && l.states == 512 && l.stages == 512 && l.seats == 32768 && l.text == 8 * 512 && l.copy == 16 * records;
    check(bounded, "lengths within what is always enough");
    check(enough, "lengths that are enough");
}

/* Null with the length 0, for what is read, for what is written, and for all. */
static void nulls(void)
{
    static const uint8_t BOOK[8] = {1, 0, 1, 0, 1, 0, 1, 0};
    lgs_lengths none = lgs_needs(NULL, 0), all;
    check(none.places + none.visits + none.seats + none.index + none.states + none.stages == 0, "no case, no lengths");
    check(refused(placed(NULL, 0, NULL, 0, none), LGS_CASE_COUNTS), "everything null");
    check(part_refused(staged(NULL, 0, none), LGS_CASE_COUNTS), "case and stages null");
    make(3, 2, 1, 2);
    check(refused(placed(case_bytes, 16 * records, BOOK, sizeof BOOK, none), LGS_SHORT_BUFFER), "every buffer null");
    check(refused(placed(case_bytes, 16 * records, NULL, 0, none), LGS_SHORT_BUFFER), "every buffer and the book null");
    check(part_refused(staged(case_bytes, 16 * records, none), LGS_SHORT_BUFFER), "the stages null");
    check(refused(placed(case_bytes, 15, NULL, 0, none), LGS_CASE_LENGTH), "every buffer null, half a case");
    all = lgs_needs(case_bytes, 16 * records);
    check(refused(placed(NULL, 0, BOOK, sizeof BOOK, all), LGS_CASE_COUNTS) && part_refused(staged(NULL, 0, all), LGS_CASE_COUNTS), "the case null");
    lgs_report r = placed(case_bytes, 16 * records, NULL, 0, all);
    check(r.kind == LGS_NEXT && r.first == 1 && r.second == 1 && r.visits == 0 && r.fares == 0, "the book null");
    make(3, 2, 0, 0);
    check(place(case_bytes, 16 * records, lgs_needs(case_bytes, 16 * records)) == 0, "the book, the visits, the seats and the index null");
}

static void null_wishes(void)
{
    static const uint8_t LINES[16] = "1: -\n2: -\n3: -\n";
    lgs_lengths none = lgs_needs(NULL, 0), all;
    check(none.text + none.copy == 0, "no case, no lengths for wishes");
    check(part_refused(written(NULL, 0, none), LGS_CASE_COUNTS), "case and text null");
    check(part_refused(read_back(NULL, 0, NULL, 0, none), LGS_CASE_COUNTS), "case, text and copy null");
    make(3, 2, 1, 0);
    all = lgs_needs(case_bytes, 16 * records);
    check(part_refused(written(case_bytes, 16 * records, none), LGS_SHORT_BUFFER), "the text null");
    check(part_refused(written(NULL, 0, all), LGS_CASE_COUNTS), "the case null");
    check(part_refused(read_back(case_bytes, 16 * records, NULL, 0, none), LGS_SHORT_BUFFER), "text and copy null");
    check(part_refused(read_back(case_bytes, 16 * records, LINES, sizeof LINES - 1, none), LGS_SHORT_BUFFER), "the copy null");
    check(part_refused(read_back(NULL, 0, LINES, sizeof LINES - 1, all), LGS_CASE_COUNTS), "the case null, with lines");
    check(part_refused(read_back(case_bytes, 16 * records, NULL, 0, all), LGS_WISH_FORM), "the text to be read null");
    lgs_part_report r = read_back(case_bytes, 16 * records, LINES, sizeof LINES - 1, all);
    check(r.kind == LGS_DONE && r.first == 16 * records && r.second == 0, "nothing null");
}

/* Each refusal has a sentence of its own, and every other number the same one. */
static void texts(void)
{
    const char *other = lgs_refusal_text(0);
    const uint64_t unknown[5] = {16, 255, 256 + 1, UINT32_MAX, UINT64_MAX};
    for (uint64_t i = 1; i <= 15; i++) {
        const char *text = lgs_refusal_text(i);
        int different = strcmp(text, other) != 0;
        for (uint64_t j = 1; j < i; j++)
            different &= strcmp(text, lgs_refusal_text(j)) != 0;
        check(different && strlen(text) < 100 && text[strlen(text) - 1] == '.', text);
    }
    for (size_t i = 0; i < 5; i++)
        check(strcmp(lgs_refusal_text(unknown[i]), other) == 0, "a number that no refusal has");
    check(strstr(lgs_refusal_text(LGS_CASE_LOT), "lot") != NULL && strstr(lgs_refusal_text(LGS_NO_STAGES), "stage") != NULL, "what the sentences are about");
    check(strstr(lgs_refusal_text(LGS_WISH_FORM), "form") != NULL && strstr(lgs_refusal_text(LGS_WISH_NAMES), "names") != NULL, "form and names");
}

int main(int count, char **names)
{
    if (count != 2)
        return 2;
    example(names[1]);
    made_cases();
    any_bytes();
    nulls();
    null_wishes();
    texts();
    return counted();
}
