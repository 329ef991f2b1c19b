/* What the header says, one fact a line, for from_python.py to compare the binding with:
 *
 *   version N   refusal NAME N   kind NAME N   most NAME N   text N SENTENCE   size STRUCT BYTES   field STRUCT FIELD OFFSET BYTES
 *   function NAME PARAMETERS
 *
 * The parameters are the header's own words: here their names are macros, so each declaration becomes that of a function without parameters and a string. */
#define lgs_place(...) place_parameters(void); static const char PLACE[] = #__VA_ARGS__
#define lgs_stages(...) stages_parameters(void); static const char STAGES[] = #__VA_ARGS__
#define lgs_write_wishes(...) write_parameters(void); static const char WRITE_WISHES[] = #__VA_ARGS__
#define lgs_read_wishes(...) read_parameters(void); static const char READ_WISHES[] = #__VA_ARGS__
#include "lgs.h"

#include <stdio.h>

#define NUMBER(what, name) printf(#what " " #name " %d\n", LGS_##name)
#define SIZE(type) printf("size " #type " %zu\n", sizeof(type))
#define FIELD(type, field) printf("field " #type " " #field " %zu %zu\n", offsetof(type, field), sizeof(((type *)0)->field))

static void numbers(void)
{
    printf("version %d\n", LGS_VERSION);
    NUMBER(refusal, CASE_LENGTH), NUMBER(refusal, CASE_FORM), NUMBER(refusal, CASE_ORDER), NUMBER(refusal, CASE_COUNTS);
    NUMBER(refusal, CASE_RANGE), NUMBER(refusal, CASE_LOT), NUMBER(refusal, SHORT_BUFFER), NUMBER(refusal, BOOK_LENGTH);
    NUMBER(refusal, BOOK_PAIR), NUMBER(refusal, BOOK_MARK), NUMBER(refusal, BOOK_REPEATED), NUMBER(refusal, BOOK_TIE);
    NUMBER(refusal, NO_STAGES), NUMBER(refusal, WISH_FORM), NUMBER(refusal, WISH_NAMES);
    NUMBER(kind, PLACED), NUMBER(kind, NEXT), NUMBER(kind, REFUSED), NUMBER(kind, DONE);
    NUMBER(most, MOST_PLACES), NUMBER(most, MOST_STATES), NUMBER(most, MOST_SEATS), NUMBER(most, MOST_STAGES);
}

static void structs(void)
{
    SIZE(lgs_report);
    FIELD(lgs_report, kind), FIELD(lgs_report, first), FIELD(lgs_report, second), FIELD(lgs_report, visits), FIELD(lgs_report, fares);
    SIZE(lgs_part_report);
    FIELD(lgs_part_report, kind), FIELD(lgs_part_report, first), FIELD(lgs_part_report, second);
    SIZE(lgs_student_state);
    FIELD(lgs_student_state, reached), FIELD(lgs_student_state, held), FIELD(lgs_student_state, openings);
}

int main(void)
{
    numbers();
    for (int number = 0; number <= 20; number++)
        printf("text %d %s\n", number, lgs_refusal_text((uint64_t)number));
    structs();
    printf("function lgs_place %s\n", PLACE);
    printf("function lgs_stages %s\n", STAGES);
    printf("function lgs_write_wishes %s\n", WRITE_WISHES);
    printf("function lgs_read_wishes %s\n", READ_WISHES);
    return fflush(stdout) != 0;
}
