/* The header as C and as C++: layouts, numbers, the functions' types, and first calls, of nothing at all and of one student. */
#include "lgs.h"

#ifdef __cplusplus
#define ASSERT(what) static_assert(what, #what)
#else
#define ASSERT(what) _Static_assert(what, #what)
#endif

ASSERT(LGS_VERSION == 1);

ASSERT(sizeof(lgs_student_state) == 16);
ASSERT(offsetof(lgs_student_state, reached) == 0 && sizeof(((lgs_student_state *)0)->reached) == 4);
ASSERT(offsetof(lgs_student_state, held) == 4 && sizeof(((lgs_student_state *)0)->held) == 4);
ASSERT(offsetof(lgs_student_state, openings) == 8 && sizeof(((lgs_student_state *)0)->openings) == 8);

ASSERT(sizeof(lgs_report) == 40);
ASSERT(offsetof(lgs_report, kind) == 0 && offsetof(lgs_report, first) == 8);
ASSERT(offsetof(lgs_report, second) == 16 && offsetof(lgs_report, visits) == 24);
ASSERT(offsetof(lgs_report, fares) == 32 && sizeof(((lgs_report *)0)->fares) == 8);

ASSERT(LGS_PLACED == 0 && LGS_NEXT == 1 && LGS_REFUSED == 2);
ASSERT(LGS_CASE_LENGTH == 1 && LGS_CASE_FORM == 2 && LGS_CASE_ORDER == 3 && LGS_CASE_COUNTS == 4);
ASSERT(LGS_CASE_RANGE == 5 && LGS_SHORT_BUFFER == 6 && LGS_BOOK_LENGTH == 7 && LGS_BOOK_PAIR == 8);
ASSERT(LGS_BOOK_MARK == 9 && LGS_BOOK_REPEATED == 10 && LGS_BOOK_TIE == 11 && LGS_CASE_LOT == 13);
ASSERT(LGS_MOST_PLACES == 512 && LGS_MOST_STATES == 512 && LGS_MOST_SEATS == 64 * 512);

ASSERT(sizeof(lgs_part_report) == 24);
ASSERT(offsetof(lgs_part_report, kind) == 0 && sizeof(((lgs_part_report *)0)->kind) == 8);
ASSERT(offsetof(lgs_part_report, first) == 8 && sizeof(((lgs_part_report *)0)->first) == 8);
ASSERT(offsetof(lgs_part_report, second) == 16 && sizeof(((lgs_part_report *)0)->second) == 8);
ASSERT(LGS_DONE == 0 && LGS_NO_STAGES == 12 && LGS_MOST_STAGES == 512);
ASSERT(LGS_WISH_FORM == 14 && LGS_WISH_NAMES == 15);

/* The prototypes again: another type in the header is an error here. The order of the names is tested by header_facts.c and
 * from_python.py. */
#ifdef __cplusplus
extern "C" {
#endif
lgs_report lgs_place(const uint8_t *, size_t, const uint8_t *, size_t, uint16_t *, size_t, uint16_t *, size_t,
                     uint16_t *, size_t, uint16_t *, size_t, lgs_student_state *, size_t);
lgs_part_report lgs_stages(const uint8_t *, size_t, uint16_t *, size_t);
lgs_part_report lgs_write_wishes(const uint8_t *, size_t, uint8_t *, size_t);
lgs_part_report lgs_read_wishes(const uint8_t *, size_t, const uint8_t *, size_t, uint8_t *, size_t);
#ifdef __cplusplus
}
#endif

/* One student, with the lot 1, and one workshop, who have no pair. */
static const uint8_t ALONE[32] = {1, 0, 1, 0, 9, 0, 1, 0, 1, 0, 0, 0, 0, 0, 0, 0, 2, 0, 1, 0, 1, 0, 1, 0, 0, 0, 0, 0, 0, 0, 0, 0};

/* The stages of nothing at all, of one student, and of one student without room. */
static int stages_called(void)
{
    uint16_t stages[2] = {7, 7};
    lgs_part_report r = lgs_stages(ALONE, 0, stages, 0);
    int nothing = r.kind == LGS_REFUSED && r.first == LGS_CASE_COUNTS && r.second == 0 && stages[0] == 7;
    r = lgs_stages(ALONE, sizeof ALONE, stages, 0);
    int no_room = r.kind == LGS_REFUSED && r.first == LGS_SHORT_BUFFER && r.second == 0 && stages[0] == 7;
    r = lgs_stages(ALONE, sizeof ALONE, stages, 1);
    int one = r.kind == LGS_DONE && r.first == 1 && r.second == 0 && stages[0] == 1;
    return nothing && no_room && one && stages[1] == 7;
}

/* The wish lines of nothing at all, of one student, and of one student without room. */
static int wishes_written(void)
{
    uint8_t text[9] = {7, 7, 7, 7, 7, 7, 7, 7, 7};
    lgs_part_report r = lgs_write_wishes(ALONE, 0, text, 0);
    int nothing = r.kind == LGS_REFUSED && r.first == LGS_CASE_COUNTS && r.second == 0 && text[0] == 7;
    r = lgs_write_wishes(ALONE, sizeof ALONE, text, 7);
    int no_room = r.kind == LGS_REFUSED && r.first == LGS_SHORT_BUFFER && r.second == 0 && text[0] == 7;
    r = lgs_write_wishes(ALONE, sizeof ALONE, text, 8);
    int one = r.kind == LGS_DONE && r.first == 5 && r.second == 0 && text[0] == '1' && text[3] == '-' && text[4] == '\n';
    return nothing && no_room && one && text[5] == 7 && text[8] == 7;
}

/* The line of one student read, without room, with another student's number, and with a workshop that she has no pair with. */
static int wishes_read(void)
{
    const uint8_t line[5] = {'1', ':', ' ', '-', '\n'}, other[5] = {'2', ':', ' ', '-', '\n'}, named[7] = {'1', ':', ' ', '-', ',', '1', '\n'};
    uint8_t copy[sizeof ALONE + 1] = {0};
    lgs_part_report r = lgs_read_wishes(ALONE, sizeof ALONE, line, sizeof line, copy, sizeof ALONE - 1);
    int no_room = r.kind == LGS_REFUSED && r.first == LGS_SHORT_BUFFER && r.second == 0 && copy[0] == 0;
    r = lgs_read_wishes(ALONE, sizeof ALONE, other, sizeof other, copy, sizeof ALONE);
    int form = r.kind == LGS_REFUSED && r.first == LGS_WISH_FORM && r.second == 0 && copy[0] == 0;
    r = lgs_read_wishes(ALONE, sizeof ALONE, named, sizeof named, copy, sizeof ALONE);
    int names = r.kind == LGS_REFUSED && r.first == LGS_WISH_NAMES && r.second == 0 && copy[0] == 0;
    r = lgs_read_wishes(ALONE, sizeof ALONE, line, sizeof line, copy, sizeof copy);
    int one = r.kind == LGS_DONE && r.first == sizeof ALONE && r.second == 0;
    for (size_t i = 0; i < sizeof ALONE; i++)
        one &= copy[i] == ALONE[i];
    return no_room && form && names && one && copy[sizeof ALONE] == 0;
}

int main(void)
{
    uint8_t none = 0;
    uint16_t entry = 7;
    lgs_student_state state = {1, 2, 3};
    lgs_report r = lgs_place(&none, 0, &none, 0, &entry, 0, &entry, 0, &entry, 0, &entry, 0, &state, 1);
    int refused = r.kind == LGS_REFUSED && r.first == LGS_CASE_COUNTS && r.second == 0 && r.visits == 0 && r.fares == 0;
    int left = entry == 7 && state.reached == 0 && state.held == 0 && state.openings == 0;
    lgs_lengths needs = lgs_needs(ALONE, sizeof ALONE);
    int needed = needs.places == 1 && needs.visits == 0 && needs.seats == 1 && needs.index == 0 && needs.states == 1 && needs.stages == 1;
    needed &= needs.text == 8 && needs.copy == sizeof ALONE;
    return refused && left && needed && lgs_refusal_text(r.first)[0] == 'T' && stages_called() && wishes_written() && wishes_read() ? 0 : 1;
}
