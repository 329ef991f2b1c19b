//! The table of proved cases, with the answers the specification states, and rows for never, for
//! lots and for fares, with answers worked out by hand.

use crate::model::*;

/// One case of the table.
pub struct Proved {
    pub name: &'static str,
    pub input: Input,
    pub expected: Expected,
}

/// What is stated about the answer.
pub enum Expected {
    Exactly(Answer),
    /// Only the places are stated.
    Places(Vec<u16>),
    /// Only the places and the number of visits are stated.
    PlacesAndCount(Vec<u16>, usize),
    /// Only the pair of the next visit is stated.
    Next(u16, u16),
}

impl Expected {
    pub fn holds(&self, answer: &Answer) -> bool {
        match (self, answer) {
            (Expected::Exactly(expected), answer) => expected == answer,
            (Expected::Places(expected), Answer::Placed { places, .. }) => expected == places,
            (Expected::PlacesAndCount(expected, count), Answer::Placed { places, visits, .. }) => {
                expected == places && *count == visits.len()
            }
            (
                Expected::Next(s, w),
                Answer::Next {
                    student, workshop, ..
                },
            ) => (s, w) == (student, workshop),
            _ => false,
        }
    }

    /// The same with this total, where the whole answer is stated.
    fn costing(self, total: u64) -> Expected {
        match self {
            Expected::Exactly(answer) => Expected::Exactly(answer.costing(total)),
            other => other,
        }
    }
}

/// Example K: its case and its book.
pub fn example() -> (Case, Vec<Record>) {
    let students = [(1, 2, 1), (2, 2, 2), (2, 2, 3)];
    let students = students.map(|(stage, line, lot)| Student { stage, line, lot });
    let workshops = [(1, 3), (1, 3)].map(|(quota, line)| Workshop { quota, line });
    let pairs = [
        (1, 1, 1, 1),
        (1, 2, 1, 1),
        (2, 1, 1, 2),
        (2, 2, 1, 2),
        (3, 1, 1, 2),
        (3, 2, 2, 2),
    ];
    let book = [(1, 1, 5, 3), (1, 2, 2, 4), (2, 2, -1, 1), (3, 2, 4, 6)];
    let case = Case {
        students: students.to_vec(),
        workshops: workshops.to_vec(),
        pairs: pairs
            .map(|(student, workshop, student_group, workshop_group)| Pair {
                student,
                workshop,
                student_group,
                workshop_group,
                fare: 0,
            })
            .to_vec(),
    };
    let book = book.map(|(student, workshop, student_mark, workshop_mark)| Record {
        student,
        workshop,
        student_mark,
        workshop_mark,
    });
    (case, book.to_vec())
}

/// The visits of the example.
const VISITS: [(u16, u16); 4] = [(1, 1), (1, 2), (2, 2), (3, 2)];

fn answer_of_example() -> Expected {
    placed([1, 0, 2], &VISITS)
}

fn placed(places: [u16; 3], visits: &[(u16, u16)]) -> Expected {
    Expected::Exactly(Answer::Placed {
        places: places.to_vec(),
        visits: visits.to_vec(),
        fares: 0,
    })
}

fn next((student, workshop): (u16, u16), visits: &[(u16, u16)]) -> Expected {
    Expected::Exactly(Answer::Next {
        student,
        workshop,
        visits: visits.to_vec(),
        fares: 0,
    })
}

fn refused(number: u16, place: usize) -> Expected {
    Expected::Exactly(Answer::Refused { number, place })
}

fn places(places: [u16; 3]) -> Expected {
    Expected::Places(places.to_vec())
}

/// The example after a change.
fn changed(
    name: &'static str,
    expected: Expected,
    change: impl FnOnce(&mut Case, &mut Vec<Record>),
) -> Proved {
    let (mut case, mut book) = example();
    change(&mut case, &mut book);
    Proved {
        name,
        input: case.input(&book),
        expected,
    }
}

/// The example after a change of its bytes or buffers.
fn changed_input(
    name: &'static str,
    expected: Expected,
    change: impl FnOnce(&mut Input),
) -> Proved {
    let mut row = changed(name, expected, |_, _| ());
    change(&mut row.input);
    row
}

/// The two pairs of workshop 1 that the example's book leaves out.
fn add_workshop_one(book: &mut Vec<Record>) {
    for (student, student_mark, workshop_mark) in [(2, 3, 2), (3, 6, 5)] {
        book.push(Record {
            student,
            workshop: 1,
            student_mark,
            workshop_mark,
        });
    }
}

/// A case of zero bytes, with ample buffers and no book.
fn zero_bytes(name: &'static str, length: usize, expected: Expected) -> Proved {
    let input = Input {
        case: vec![0; length],
        book: Vec::new(),
        lent: Lengths::ample(),
    };
    Proved {
        name,
        input,
        expected,
    }
}

pub fn table() -> Vec<Proved> {
    vec![
        changed("K", answer_of_example(), |_, _| ()),
        changed("empty book", Expected::Next(1, 1), |_, book| book.clear()),
        changed("first two records", Expected::Next(2, 2), |_, book| {
            book.truncate(2)
        }),
        changed("(2,2) workshop mark 7", places([1, 2, 0]), |_, book| {
            book[2].workshop_mark = 7
        }),
        changed("(3,2) student mark -4", places([1, 2, 0]), |_, book| {
            book[3].student_mark = -4
        }),
        changed(
            "quota of 1 at 0",
            Expected::PlacesAndCount(vec![2, 0, 0], 1),
            |case, _| case.workshops[0].quota = 0,
        ),
        changed("quota of 2 at 2", places([1, 2, 2]), |case, _| {
            case.workshops[1].quota = 2
        }),
        changed("no pairs, no book", places([0, 0, 0]), |case, book| {
            case.pairs.clear();
            book.clear();
        }),
        changed(
            "line of 2 at 2, its mark for 3 at -6",
            places([1, 2, 0]),
            |case, book| {
                case.workshops[1].line = 2;
                book[3].workshop_mark = -6;
            },
        ),
        changed("mark of 2 for 1 at 1", answer_of_example(), |_, book| {
            book[1].workshop_mark = 1
        }),
        changed("mark of 2 for 3 at 1", places([1, 2, 0]), |_, book| {
            book[3].workshop_mark = 1
        }),
        changed(
            "mark of student 1 at 1000",
            answer_of_example(),
            |_, book| book[0].student_mark = 1000,
        ),
        changed("mark of student 1 at 1001", refused(9, 0), |_, book| {
            book[0].student_mark = 1001
        }),
        zero_bytes("0 bytes", 0, refused(4, 0)),
        zero_bytes("15 bytes", 15, refused(1, 0)),
    ]
}

/// Rows for never. Without (1,1) student 1 takes workshop 2, which drops out for 2 and 3, and
/// workshop 1 stays empty and undeleted.
pub fn of_never() -> Vec<Proved> {
    let mut rows = of_one_side();
    rows.extend(of_several());
    rows.extend(of_line_groups_and_seats());
    rows.extend(of_ranges());
    rows
}

/// Never from the student, from the workshop, and from both.
fn of_one_side() -> Vec<Proved> {
    let asked = [(1, 1), (1, 2)];
    let visited = [(1, 1), (1, 2), (2, 1), (3, 1)];
    vec![
        changed(
            "(1,1) student mark -1000",
            next((2, 1), &asked),
            |_, book| book[0].student_mark = -1000,
        ),
        changed(
            "(1,1) workshop mark -1000",
            next((2, 1), &asked),
            |_, book| book[0].workshop_mark = -1000,
        ),
        changed(
            "(1,1) student mark -1000, full book",
            placed([2, 0, 1], &visited),
            |_, book| {
                book[0].student_mark = -1000;
                add_workshop_one(book);
            },
        ),
        changed(
            "(1,1) workshop mark -1000, full book",
            placed([2, 0, 1], &visited),
            |_, book| {
                book[0].workshop_mark = -1000;
                add_workshop_one(book);
            },
        ),
        changed("(2,2) both marks -1000", answer_of_example(), |_, book| {
            book[2].student_mark = -1000;
            book[2].workshop_mark = -1000;
        }),
        changed(
            "(3,2) both marks -1000",
            placed([1, 2, 0], &VISITS),
            |_, book| {
                book[3].student_mark = -1000;
                book[3].workshop_mark = -1000;
            },
        ),
        changed(
            "quota of 1 at 2, (3,1) workshop mark -1000: on to her next group",
            placed([1, 1, 2], &[(1, 1), (1, 2), (2, 1), (2, 2), (3, 1), (3, 2)]),
            |case, book| {
                case.workshops[0].quota = 2;
                add_workshop_one(book);
                book[5].workshop_mark = -1000;
            },
        ),
    ]
}

/// Several -1000 of one person in one group, and equal marks beside them.
fn of_several() -> Vec<Proved> {
    let all_in_group_two = |case: &mut Case| case.pairs[1].workshop_group = 2;
    vec![
        changed(
            "student 1 gives -1000 twice",
            next((2, 1), &[(1, 1), (1, 2)]),
            |_, book| {
                book[0].student_mark = -1000;
                book[1].student_mark = -1000;
            },
        ),
        changed(
            "student 1 gives -1000 twice, full book",
            placed([0, 2, 1], &[(1, 1), (1, 2), (2, 1), (2, 2), (3, 1)]),
            |_, book| {
                book[0].student_mark = -1000;
                book[1].student_mark = -1000;
                add_workshop_one(book);
            },
        ),
        changed(
            "workshop 2 gives -1000 twice",
            placed([1, 0, 0], &VISITS),
            |_, book| {
                book[2].workshop_mark = -1000;
                book[3].workshop_mark = -1000;
            },
        ),
        changed(
            "workshop 2 gives -1000 and twice 6",
            placed([1, 2, 0], &VISITS),
            |case, book| {
                all_in_group_two(case);
                book[1].workshop_mark = -1000;
                book[2].workshop_mark = 6;
            },
        ),
        changed(
            "workshop 2 gives 6, -1000 and 6",
            answer_of_example(),
            |case, book| {
                all_in_group_two(case);
                book[1].workshop_mark = 6;
                book[2].workshop_mark = -1000;
            },
        ),
        changed(
            "student 2 gives -1000, then workshop 2 an equal mark",
            answer_of_example(),
            |_, book| {
                book[2].student_mark = -1000;
                book[3].workshop_mark = 1;
            },
        ),
        changed(
            "student 3 gives -1000, and workshop 2 an equal mark",
            placed([1, 2, 0], &VISITS),
            |_, book| {
                book[3].student_mark = -1000;
                book[3].workshop_mark = 1;
            },
        ),
        changed(
            "workshop 1 gives -1000, and student 1 an equal mark",
            refused(11, 1),
            |_, book| {
                book[0].workshop_mark = -1000;
                book[1].student_mark = 5;
            },
        ),
    ]
}

/// Never in the line group, and seats that stay free.
fn of_line_groups_and_seats() -> Vec<Proved> {
    vec![
        changed(
            "(3,2) student mark -1000, in her line group",
            placed([1, 2, 0], &VISITS),
            |_, book| book[3].student_mark = -1000,
        ),
        changed(
            "line of 2 at 2, its mark for 3 at -1000",
            placed([1, 2, 0], &VISITS),
            |case, book| {
                case.workshops[1].line = 2;
                book[3].workshop_mark = -1000;
            },
        ),
        changed(
            "line of 2 at 2, its marks for 2 and 3 at -1000",
            placed([1, 0, 0], &VISITS),
            |case, book| {
                case.workshops[1].line = 2;
                book[2].workshop_mark = -1000;
                book[3].workshop_mark = -1000;
            },
        ),
        changed(
            "quota of 2 at 2, (2,2) student mark -1000: a seat stays free",
            placed([1, 0, 2], &VISITS),
            |case, book| {
                case.workshops[1].quota = 2;
                book[2].student_mark = -1000;
            },
        ),
        changed(
            "quota of 1 at 2, (2,1) workshop mark -1000: a seat for 3",
            placed([1, 2, 1], &[(1, 1), (1, 2), (2, 1), (2, 2), (3, 1)]),
            |case, book| {
                case.workshops[0].quota = 2;
                add_workshop_one(book);
                book[4].workshop_mark = -1000;
            },
        ),
    ]
}

/// What -1000 is beside -999 and -1001, and in a record that no visit asks for.
fn of_ranges() -> Vec<Proved> {
    vec![
        changed(
            "(1,1) workshop mark -999",
            answer_of_example(),
            |_, book| book[0].workshop_mark = -999,
        ),
        changed(
            "(2,2) marks -999 and 7",
            placed([1, 2, 0], &VISITS),
            |_, book| {
                book[2].student_mark = -999;
                book[2].workshop_mark = 7;
            },
        ),
        changed("(2,2) marks -1000 and 7", answer_of_example(), |_, book| {
            book[2].student_mark = -1000;
            book[2].workshop_mark = 7;
        }),
        changed("(1,1) student mark -1001", refused(9, 0), |_, book| {
            book[0].student_mark = -1001
        }),
        changed("(3,2) workshop mark -1001", refused(9, 3), |_, book| {
            book[3].workshop_mark = -1001
        }),
        changed(
            "(2,1) and (3,1) never, but not visited",
            answer_of_example(),
            |_, book| {
                add_workshop_one(book);
                book[4].workshop_mark = -1000;
                book[5].workshop_mark = -1000;
            },
        ),
    ]
}

/// Rows for lots.
pub fn of_lots() -> Vec<Proved> {
    let mut rows = of_two_equal_marks();
    rows.extend(of_other_marks_and_groups());
    rows.extend(of_chains());
    rows.extend(of_bad_lots());
    rows.extend(of_lots_and_other_causes());
    rows.extend(of_students_equal_marks());
    rows
}

fn set_lots(case: &mut Case, lots: [u16; 3]) {
    for (student, lot) in case.students.iter_mut().zip(lots) {
        student.lot = lot;
    }
}

/// The example with these lots and another change.
fn with_lots(
    name: &'static str,
    lots: [u16; 3],
    expected: Expected,
    change: impl FnOnce(&mut Case, &mut Vec<Record>),
) -> Proved {
    changed(name, expected, |case, book| {
        set_lots(case, lots);
        change(case, book);
    })
}

/// Workshop 2 holds student 2, and 3, whom it has not met and keeps undeleted, comes with the same
/// mark.
fn of_two_equal_marks() -> Vec<Proved> {
    let held = || placed([1, 2, 0], &VISITS);
    let taken = || placed([1, 0, 2], &VISITS);
    let row =
        |name, lots, expected| with_lots(name, lots, expected, |_, book| book[3].workshop_mark = 1);
    vec![
        row("the lower lot keeps the seat", [1, 2, 3], held()),
        row("the lower lot takes the seat", [1, 3, 2], taken()),
        row("lots with gaps, the lower held", [400, 7, 90], held()),
        row("lots with gaps, the lower comes", [400, 90, 7], taken()),
        row("the last two lots, 511 held", [1, 511, 512], held()),
        row("the last two lots, 511 comes", [1, 512, 511], taken()),
        row("255 held, 256 comes", [1, 255, 256], held()),
        row("256 held, 255 comes", [1, 256, 255], taken()),
        row("2 held, 257 comes", [1, 2, 257], held()),
        row("257 held, 2 comes", [1, 257, 2], taken()),
        with_lots(
            "a seat for both",
            [1, 3, 2],
            placed([1, 2, 2], &VISITS),
            |case, book| {
                case.workshops[1].quota = 2;
                book[3].workshop_mark = 1;
            },
        ),
    ]
}

/// Marks before lots, groups before marks, and equal marks at the line, below it, and of -1000.
fn of_other_marks_and_groups() -> Vec<Proved> {
    let equal = |book: &mut [Record], mark: i16| {
        book[2].workshop_mark = mark;
        book[3].workshop_mark = mark;
    };
    vec![
        with_lots(
            "the higher mark comes with the higher lot",
            [1, 2, 3],
            answer_of_example(),
            |_, _| (),
        ),
        with_lots(
            "the higher mark is held with the higher lot",
            [1, 3, 2],
            placed([1, 2, 0], &VISITS),
            |_, book| book[2].workshop_mark = 7,
        ),
        with_lots(
            "equal marks, 3 in a worse group with the lower lot",
            [1, 3, 2],
            placed([1, 2, 0], &VISITS[..3]),
            |case, book| {
                case.pairs[5].workshop_group = 3;
                equal(book, 1);
            },
        ),
        with_lots(
            "equal marks, 3 in a better group with the higher lot",
            [1, 2, 3],
            answer_of_example(),
            |case, book| {
                case.pairs[5].workshop_group = 1;
                equal(book, 1);
            },
        ),
        with_lots(
            "equal marks above the line of 2, the lower comes",
            [1, 3, 2],
            answer_of_example(),
            |case, book| {
                case.workshops[1].line = 2;
                equal(book, 1);
            },
        ),
        with_lots(
            "equal marks above the line of 2, the lower held",
            [1, 2, 3],
            placed([1, 2, 0], &VISITS),
            |case, book| {
                case.workshops[1].line = 2;
                equal(book, 1);
            },
        ),
        with_lots(
            "equal marks below the line of 2",
            [1, 3, 2],
            placed([1, 0, 0], &VISITS),
            |case, book| {
                case.workshops[1].line = 2;
                equal(book, -1);
            },
        ),
        with_lots(
            "equal negative marks in another group, the lower comes",
            [1, 3, 2],
            answer_of_example(),
            |_, book| equal(book, -5),
        ),
        with_lots(
            "equal negative marks in another group, the lower held",
            [1, 2, 3],
            placed([1, 2, 0], &VISITS),
            |_, book| equal(book, -5),
        ),
        with_lots(
            "equal marks of 1000, the lower comes",
            [1, 3, 2],
            answer_of_example(),
            |_, book| equal(book, 1000),
        ),
        with_lots(
            "equal marks of -999, the lower comes",
            [1, 3, 2],
            answer_of_example(),
            |_, book| equal(book, -999),
        ),
        with_lots(
            "equal marks of -1000",
            [1, 3, 2],
            placed([1, 0, 0], &VISITS),
            |_, book| equal(book, -1000),
        ),
    ]
}

/// Three equal marks of workshop 2, a better newcomer, and a seat lost while another is held.
fn of_chains() -> Vec<Proved> {
    // Student 1 goes to workshop 2 first, where all are in one group; 3 drives 2 out of workshop 1.
    let three_equal = |case: &mut Case, book: &mut Vec<Record>| {
        case.pairs[1].workshop_group = 2;
        book[0].student_mark = 1;
        book[1..4]
            .iter_mut()
            .for_each(|record| record.workshop_mark = 4);
        add_workshop_one(book);
    };
    // Workshop 2 alone, with two seats: 1 and 2 hold them with equal marks, then 3 comes.
    let two_seats = |case: &mut Case, book: &mut Vec<Record>| {
        case.workshops[0].quota = 0;
        case.workshops[1].quota = 2;
        case.pairs[1].workshop_group = 2;
        book[2].workshop_mark = 4;
    };
    // Student 1 holds workshop 1 and has 2 open, which 2 takes; then 3 drives 1 out of workshop 1.
    let left_behind = |case: &mut Case, book: &mut Vec<Record>| {
        case.pairs[1].workshop_group = 2;
        case.pairs[4].workshop_group = 1;
        book[1].workshop_mark = 1;
        add_workshop_one(book);
    };
    let of_three = [(1, 1), (1, 2), (2, 1), (2, 2), (3, 1), (3, 2)];
    let of_two = [(1, 2), (2, 2), (3, 2)];
    let of_left = [(1, 1), (1, 2), (2, 2), (3, 1)];
    vec![
        with_lots(
            "three equal, 2 is turned away",
            [1, 2, 3],
            placed([2, 0, 1], &of_three[..5]),
            three_equal,
        ),
        with_lots(
            "three equal, 2 is best and 1 moves on",
            [2, 1, 3],
            placed([1, 2, 0], &of_three),
            three_equal,
        ),
        with_lots(
            "three equal, 3 is best, then 2",
            [3, 2, 1],
            placed([1, 0, 2], &of_three),
            three_equal,
        ),
        with_lots(
            "of two equal holders 2 is dropped",
            [1, 2, 3],
            placed([2, 0, 2], &of_two),
            two_seats,
        ),
        with_lots(
            "of two equal holders 1 is dropped",
            [2, 1, 3],
            placed([0, 2, 2], &of_two),
            two_seats,
        ),
        with_lots(
            "the open seat is still there",
            [1, 2, 3],
            placed([2, 0, 1], &of_left),
            left_behind,
        ),
        with_lots(
            "the open seat is closed by a lot",
            [2, 1, 3],
            placed([0, 2, 1], &of_left),
            left_behind,
        ),
    ]
}

/// Lots out of range or used twice.
fn of_bad_lots() -> Vec<Proved> {
    let row = |name, lots, expected| with_lots(name, lots, expected, |_, _| ());
    vec![
        row("lot 0 of 1", [0, 2, 3], refused(13, 0)),
        row("lot 0 of 3", [1, 2, 0], refused(13, 2)),
        row("lot 512", [1, 512, 3], answer_of_example()),
        row("lot 513", [1, 513, 3], refused(13, 1)),
        row("lot 768", [1, 2, 768], refused(13, 2)),
        row("lot 32770", [1, 32770, 3], refused(13, 1)),
        row("lot 65535", [65535, 2, 3], refused(13, 0)),
        row("the last lots", [512, 511, 510], answer_of_example()),
        row("1 and 2 have one lot", [5, 5, 3], refused(13, 1)),
        row("2 and 3 have one lot", [1, 5, 5], refused(13, 2)),
        row("1 and 3 have one lot", [5, 2, 5], refused(13, 2)),
        row("all have one lot", [5, 5, 5], refused(13, 1)),
        row("all have lot 512", [512, 512, 512], refused(13, 1)),
        row("1 and 257", [1, 257, 3], answer_of_example()),
        row(
            "a lot used again, then one out of range",
            [5, 5, 600],
            refused(13, 1),
        ),
        row(
            "a lot out of range, then one used again",
            [5, 600, 5],
            refused(13, 1),
        ),
        row("no lots", [0, 0, 0], refused(13, 0)),
    ]
}

/// Cause 13 comes after 1 to 5 and before 6 to 11; what 2 says of bytes 8 and 9.
fn of_lots_and_other_causes() -> Vec<Proved> {
    const LOT_OF_TWO: usize = 16 + 8;
    let bad = |input: &mut Input| input.case[LOT_OF_TWO] = 1;
    let workshop_two = 4 * 16;
    vec![
        changed_input("13 and 1", refused(1, 0), |input| {
            bad(input);
            input.case.push(0);
        }),
        changed_input("13 and 2", refused(2, 4), |input| {
            bad(input);
            input.case[workshop_two + 15] = 1;
        }),
        changed_input("13 and 3", refused(3, 4), |input| {
            bad(input);
            input.case[workshop_two + 2] = 3;
        }),
        changed_input("13 and 4", refused(4, 0), |input| {
            bad(input);
            input.case.truncate(3 * 16);
        }),
        changed_input("13 and 5 in a later record", refused(5, 10), |input| {
            bad(input);
            input.case[10 * 16 + 6] = 66;
        }),
        changed_input("13 and 5 in the same record", refused(5, 1), |input| {
            bad(input);
            input.case[16 + 4] = 0;
        }),
        changed_input("13 and 6", refused(13, 1), |input| {
            bad(input);
            input.lent.places = 2;
        }),
        changed_input("13 and 7", refused(13, 1), |input| {
            bad(input);
            input.book.push(0);
        }),
        changed_input("13 and 8", refused(13, 1), |input| {
            bad(input);
            input.book[0] = 9;
        }),
        changed_input("13 and 9", refused(13, 1), |input| {
            bad(input);
            input.book[4] = 0;
        }),
        changed_input("13 and 10", refused(13, 1), |input| {
            bad(input);
            let first = input.book[..8].to_vec();
            input.book.extend(first);
        }),
        changed_input("13 and 11", refused(13, 1), |input| {
            bad(input);
            input.book[8 + 4] = 5;
        }),
        changed_input("byte 8 of a workshop", refused(2, 4), |input| {
            input.case[workshop_two + 8] = 2
        }),
        changed_input("byte 9 of a workshop", refused(2, 3), |input| {
            input.case[3 * 16 + 9] = 1
        }),
        changed_input("byte 10 of a student", refused(2, 2), |input| {
            input.case[2 * 16 + 10] = 1
        }),
        changed_input("byte 9 of a student", answer_of_example(), |input| {
            input.case[2 * 16 + 9] = 1
        }),
    ]
}

/// A student's equal marks have no lots.
fn of_students_equal_marks() -> Vec<Proved> {
    vec![
        changed("student 1 gives 5 twice", refused(11, 1), |_, book| {
            book[1].student_mark = 5
        }),
        with_lots(
            "student 1 gives 5 twice, other lots",
            [3, 2, 1],
            refused(11, 1),
            |_, book| book[1].student_mark = 5,
        ),
        changed(
            "workshop 2 gives 1 twice, later student 1 gives 5 twice",
            refused(11, 3),
            |_, book| {
                book[3].workshop_mark = 1;
                book[1].student_mark = 5;
                book.rotate_left(2);
            },
        ),
        changed(
            "student 3 gives 4 in two groups",
            answer_of_example(),
            |_, book| {
                add_workshop_one(book);
                book[5].student_mark = 4;
            },
        ),
    ]
}

/// Rows for fares.
pub fn of_fares() -> Vec<Proved> {
    let mut rows = of_finished_totals();
    rows.extend(of_bytes_of_fares());
    rows.extend(of_stopped_totals());
    rows.extend(of_other_lists());
    rows.extend(of_bytes_that_stay_zero());
    rows.extend(of_fares_and_other_causes());
    rows
}

/// A fare for each pair: one bit, so that the total tells which of them were added up.
const BITS: [u16; 6] = [1, 2, 4, 8, 16, 32];
/// The total of the example's visits with these fares.
const VISITS_IN_BITS: u64 = 1 + 2 + 8 + 32;

/// The example with these fares and another change.
fn with_fares(
    name: &'static str,
    fares: [u16; 6],
    expected: Expected,
    change: impl FnOnce(&mut Case, &mut Vec<Record>),
) -> Proved {
    changed(name, expected, |case, book| {
        for (pair, fare) in case.pairs.iter_mut().zip(fares) {
            pair.fare = fare;
        }
        change(case, book);
    })
}

/// The example lists pairs 0, 1, 3 and 5 of the case, and not 2 and 4, which are (2,1) and (3,1).
fn of_finished_totals() -> Vec<Proved> {
    let row =
        |name, fares, total| with_fares(name, fares, answer_of_example().costing(total), |_, _| ());
    vec![
        row("no fares", [0; 6], 0),
        row("one bit for each pair", BITS, VISITS_IN_BITS),
        row("other fares", [1, 20, 300, 4000, 5, 60000], 64021),
        row("the first visit's fare", [7, 0, 0, 0, 0, 0], 7),
        row("the second visit's fare", [0, 7, 0, 0, 0, 0], 7),
        row("the third visit's fare", [0, 0, 0, 7, 0, 0], 7),
        row("the last visit's fare", [0, 0, 0, 0, 0, 7], 7),
        row("fares of others only", [0, 0, 7, 0, 65535, 0], 0),
        row("one fare for all", [7; 6], 28),
        row("65535 for all", [65535; 6], 262140),
        row(
            "65535 at the listed pairs",
            [65535, 65535, 0, 65535, 0, 65535],
            262140,
        ),
        row("65535 at the first", [65535, 0, 0, 0, 0, 0], 65535),
        row("65535 and 1", [65535, 1, 0, 0, 0, 0], 65536),
        row("twice 32768", [32768, 0, 0, 0, 0, 32768], 65536),
        row("four times 16384", [16384; 6], 65536),
    ]
}

/// The low byte stands first, in byte 10, and no other bytes count.
fn of_bytes_of_fares() -> Vec<Proved> {
    let row =
        |name, fares, total| with_fares(name, fares, answer_of_example().costing(total), |_, _| ());
    let byte = |name, byte: usize, value: u8, total: u64| {
        changed_input(name, answer_of_example().costing(total), |input| {
            for pair in 5..11 {
                input.case[pair * 16 + byte] = value;
            }
        })
    };
    vec![
        byte("byte 10 of all pairs", 10, 1, 4),
        byte("byte 11 of all pairs", 11, 1, 4 * 256),
        byte("byte 10 of all pairs at 255", 10, 255, 4 * 255),
        byte("byte 11 of all pairs at 255", 11, 255, 4 * 65280),
        row("255 and 256", [255, 256, 0, 0, 0, 0], 511),
        row("the workshops' groups", [1, 1, 2, 2, 2, 2], 6),
        row("the students' groups", [1, 1, 1, 1, 1, 2], 5),
        changed_input(
            "byte 10 of the first pair",
            answer_of_example().costing(1),
            |input| input.case[5 * 16 + 10] = 1,
        ),
        changed_input(
            "byte 11 of the last pair",
            answer_of_example().costing(256),
            |input| input.case[10 * 16 + 11] = 1,
        ),
    ]
}

/// The next visit is not paid yet, whatever the book has of later ones.
fn of_stopped_totals() -> Vec<Proved> {
    let stopped = |name, fares, kept: usize, total| {
        let pair = VISITS[kept];
        let expected = next(pair, &VISITS[..kept]).costing(total);
        with_fares(name, fares, expected, |_, book| book.truncate(kept))
    };
    vec![
        stopped("stopped at once", BITS, 0, 0),
        stopped("stopped at once, 65535 for all", [65535; 6], 0, 0),
        stopped("stopped at (1,2)", BITS, 1, 1),
        stopped("stopped at (2,2)", BITS, 2, 3),
        stopped("stopped at (3,2)", BITS, 3, 11),
        stopped(
            "a fare at the next visit only",
            [0, 0, 0, 65535, 0, 0],
            2,
            0,
        ),
        stopped("no fare at the next visit", [300, 40, 9, 0, 9, 9], 2, 340),
        stopped("stopped with 65535 for all", [65535; 6], 3, 196605),
        with_fares(
            "a later record is there already",
            BITS,
            next((2, 2), &VISITS[..2]).costing(3),
            |_, book| {
                book.remove(2);
            },
        ),
        with_fares(
            "the first record is missing",
            BITS,
            next((1, 1), &[]),
            |_, book| {
                book.remove(0);
            },
        ),
    ]
}

/// Other visits than those of the example.
fn of_other_lists() -> Vec<Proved> {
    let in_bits =
        |name, places, visits: &[(u16, u16)], total, change: fn(&mut Case, &mut Vec<Record>)| {
            with_fares(name, BITS, placed(places, visits).costing(total), change)
        };
    vec![
        in_bits(
            "no place for 3",
            [1, 2, 0],
            &VISITS,
            VISITS_IN_BITS,
            |_, book| book[2].workshop_mark = 7,
        ),
        in_bits("one visit", [2, 0, 0], &[(1, 2)], 2, |case, _| {
            case.workshops[0].quota = 0
        }),
        in_bits("no pairs", [0, 0, 0], &[], 0, |case, book| {
            case.pairs.clear();
            book.clear();
        }),
        in_bits("no seats", [0, 0, 0], &[], 0, |case, _| {
            case.workshops.iter_mut().for_each(|w| w.quota = 0)
        }),
        in_bits(
            "a record that no visit asks for",
            [1, 0, 2],
            &VISITS,
            VISITS_IN_BITS,
            |_, book| add_workshop_one(book),
        ),
        in_bits(
            "two visits end in never",
            [1, 0, 0],
            &VISITS,
            VISITS_IN_BITS,
            |_, book| {
                book[2].workshop_mark = -1000;
                book[3].student_mark = -1000;
            },
        ),
        in_bits(
            "the first visit ends in never",
            [2, 0, 1],
            &[(1, 1), (1, 2), (2, 1), (3, 1)],
            1 + 2 + 4 + 16,
            |_, book| {
                book[0].student_mark = -1000;
                add_workshop_one(book);
            },
        ),
        with_fares(
            "stopped after a never",
            BITS,
            next((2, 1), &[(1, 1), (1, 2)]).costing(3),
            |_, book| book[0].workshop_mark = -1000,
        ),
        in_bits(
            "all pairs are visited",
            [1, 1, 2],
            &[(1, 1), (1, 2), (2, 1), (2, 2), (3, 1), (3, 2)],
            63,
            |case, book| {
                case.workshops[0].quota = 2;
                add_workshop_one(book);
                book[5].workshop_mark = -1000;
            },
        ),
    ]
}

/// Number 2 tests bytes 10 and 11 of students and workshops, and 12 to 15 of all records.
fn of_bytes_that_stay_zero() -> Vec<Proved> {
    let row = |name, place: usize, byte: usize, value: u8| {
        changed_input(name, refused(2, place), |input| {
            input.case[place * 16 + byte] = value
        })
    };
    let with_fare = |name, place: usize, byte: usize| {
        with_bytes(name, BITS, refused(2, place), |input| {
            input.case[place * 16 + byte] = 1
        })
    };
    vec![
        row("byte 10 of student 1", 0, 10, 1),
        row("byte 11 of student 1", 0, 11, 1),
        row("byte 11 of student 3", 2, 11, 128),
        row("byte 12 of student 2", 1, 12, 1),
        row("byte 10 of workshop 1", 3, 10, 1),
        row("byte 11 of workshop 2", 4, 11, 255),
        row("byte 12 of workshop 2", 4, 12, 1),
        row("byte 12 of the first pair", 5, 12, 1),
        row("byte 13 of a pair", 7, 13, 1),
        row("byte 14 of a pair", 8, 14, 1),
        row("byte 15 of the last pair", 10, 15, 1),
        row("byte 1 of a pair", 6, 1, 1),
        with_fare("fares, and byte 12 of the last pair", 10, 12),
        with_fare("fares, and byte 13 of the first pair", 5, 13),
        with_fare("fares, and byte 10 of a workshop", 4, 10),
        with_fare("fares, and byte 11 of a student", 2, 11),
    ]
}

/// The example with these fares after a change of its bytes or buffers.
fn with_bytes(
    name: &'static str,
    fares: [u16; 6],
    expected: Expected,
    change: impl FnOnce(&mut Input),
) -> Proved {
    let mut row = with_fares(name, fares, expected, |_, _| ());
    change(&mut row.input);
    row
}

/// Fares stand beside every other cause, in an earlier record and in the same one.
fn of_fares_and_other_causes() -> Vec<Proved> {
    let row = |name, number, place, change: fn(&mut Input)| {
        with_bytes(name, [65535; 6], refused(number, place), change)
    };
    vec![
        row("fares and 1", 1, 0, |input| input.case.push(0)),
        row("fares and 2 by the kind", 2, 8, |input| {
            input.case[8 * 16] = 4
        }),
        row("fares and 3", 3, 9, |input| input.case[9 * 16 + 2] = 1),
        row("fares and 4", 4, 0, |input| {
            let mut workshops = Vec::new();
            (3..=65).for_each(|number| push_case_record(&mut workshops, 2, &[number, 1, 1]));
            input.case.splice(5 * 16..5 * 16, workshops);
        }),
        row("fares and 5", 5, 10, |input| input.case[10 * 16 + 6] = 66),
        row("fares and 13", 13, 0, |input| input.case[8] = 0),
        row("fares and 6", 6, 0, |input| input.lent.visits = 11),
        row("fares and 7", 7, 0, |input| input.book.push(0)),
        row("fares and 8", 8, 3, |input| input.book[3 * 8] = 4),
        row("fares and 9", 9, 2, |input| input.book[2 * 8 + 6] = 0),
        row("fares and 10", 10, 4, |input| {
            let first = input.book[..8].to_vec();
            input.book.extend(first);
        }),
        row("fares and 11", 11, 1, |input| input.book[8 + 4] = 5),
    ]
}
