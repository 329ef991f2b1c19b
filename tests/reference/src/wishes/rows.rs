//! Rows with answers worked out by hand.

use super::{Answer, Request, Task, FORM, NAMES};
use crate::model::*;
use crate::proved;

pub struct HandRow {
    pub name: String,
    pub request: Request,
    pub expected: Answer,
}

/// Lines of the students, and pairs as student, workshop and the student's group. Stages, lots,
/// fares, quotas and the workshops' groups are all different from 0.
fn case(lines: &[u16], workshops: usize, pairs: &[(u16, u16, u16)]) -> Case {
    let students = (1..).zip(lines).map(|(number, &line)| Student {
        stage: 300 + number,
        line,
        lot: 512 - number,
    });
    let workshops = (1..=workshops as u16).map(|number| Workshop {
        quota: 256 + number,
        line: 512,
    });
    let pairs = pairs
        .iter()
        .map(|&(student, workshop, student_group)| Pair {
            student,
            workshop,
            student_group,
            workshop_group: 513,
            fare: 0xabcd,
        });
    Case {
        students: students.collect(),
        workshops: workshops.collect(),
        pairs: pairs.collect(),
    }
}

fn written(name: &str, case: &Case, text: &str) -> HandRow {
    HandRow {
        name: name.to_string(),
        request: Request::write(case),
        expected: Answer::Done(text.as_bytes().to_vec()),
    }
}

/// The text gives the students these lines and the pairs these groups.
fn read(name: &str, case: &Case, text: &str, lines: &[u16], groups: &[u16]) -> HandRow {
    let mut copy = case.clone();
    for (student, line) in copy.students.iter_mut().zip(lines) {
        student.line = *line;
    }
    for (pair, group) in copy.pairs.iter_mut().zip(groups) {
        pair.student_group = *group;
    }
    HandRow {
        name: name.to_string(),
        request: Request::read(case, text.as_bytes()),
        expected: Answer::Done(copy.to_bytes()),
    }
}

fn refused(name: &str, request: Request, number: u16, place: usize) -> HandRow {
    HandRow {
        name: name.to_string(),
        request,
        expected: Answer::Refused { number, place },
    }
}

pub fn rows() -> Vec<HandRow> {
    let mut rows = of_examples();
    rows.extend(of_written());
    rows.extend(of_read());
    rows.extend(of_form());
    rows.extend(of_names());
    rows.extend(of_two_causes());
    rows.extend(of_numbers());
    rows.extend(of_rooms());
    rows.extend(of_case_causes());
    rows.extend(of_lots());
    rows.extend(of_unnamed_bytes());
    rows
}

const LINES_OF_K: &str = "1: {1,2},-\n2: {1,2},-\n3: 1,{-,2}\n";

/// Student 3 of the paper's line, and two students without pairs.
fn paper() -> Case {
    case(
        &[9, 65, 7],
        5,
        &[(3, 1, 5), (3, 2, 2), (3, 4, 5), (3, 5, 8)],
    )
}

const PAPER: &str = "1: -\n2: -\n3: 2,{4,1},-,5\n";

fn of_examples() -> Vec<HandRow> {
    let (k, _) = proved::example();
    let groups = [1, 1, 1, 1, 1, 2];
    vec![
        written("K", &k, LINES_OF_K),
        read("K's own lines", &k, LINES_OF_K, &[2, 2, 2], &groups),
        read(
            "other lines for K",
            &k,
            "1: -,2,1\n2: {2,1,-}\n3: {2,-},1\n",
            &[1, 1, 1],
            &[3, 2, 1, 1, 2, 1],
        ),
        written("the paper's line", &paper(), "1: -\n2: -\n3: 2,{1,4},-,5\n"),
        read(
            "the paper's line",
            &paper(),
            PAPER,
            &[1, 1, 3],
            &[2, 1, 2, 4],
        ),
        read(
            "the paper's line, rising",
            &paper(),
            "1: -\n2: -\n3: 2,{1,4},-,5\n",
            &[1, 1, 3],
            &[2, 1, 2, 4],
        ),
    ]
}

fn of_written() -> Vec<HandRow> {
    let one = |line, workshops, pairs: &[(u16, u16)]| {
        let pairs: Vec<_> = pairs.iter().map(|&(w, group)| (1, w, group)).collect();
        case(&[line], workshops, &pairs)
    };
    let mut hundred = vec![1; 100];
    hundred[99] = 7;
    let many = case(&hundred, 12, &[(100, 10, 7)]);
    let mut lines: String = (1..100).map(|student| format!("{student}: -\n")).collect();
    lines += "100: {-,10}\n";
    vec![
        written("no pairs", &one(1, 1, &[]), "1: -\n"),
        written("no pairs, line 65", &one(65, 64, &[]), "1: -\n"),
        written("one before none", &one(2, 1, &[(1, 1)]), "1: 1,-\n"),
        written("one behind none", &one(1, 1, &[(1, 2)]), "1: -,1\n"),
        written("one beside none", &one(3, 1, &[(1, 3)]), "1: {-,1}\n"),
        written(
            "all apart, with gaps",
            &one(40, 3, &[(1, 65), (2, 3), (3, 39)]),
            "1: 2,3,-,1\n",
        ),
        written("gaps at the start", &one(65, 2, &[(2, 64)]), "1: 2,-\n"),
        written(
            "numbers rise as numbers",
            &one(1, 12, &[(2, 1), (9, 1), (10, 1), (12, 1)]),
            "1: {-,2,9,10,12}\n",
        ),
        written(
            "three groups of two",
            &one(2, 64, &[(3, 1), (7, 3), (33, 2), (63, 3), (64, 1)]),
            "1: {3,64},{-,33},{7,63}\n",
        ),
        written(
            "two students, other orders",
            &case(&[1, 9], 2, &[(1, 1, 2), (1, 2, 3), (2, 1, 8), (2, 2, 7)]),
            "1: -,1,2\n2: 2,1,-\n",
        ),
        written("student 100 and workshop 10", &many, &lines),
    ]
}

fn of_read() -> Vec<HandRow> {
    let case = case(
        &[60, 2],
        12,
        &[(1, 2, 65), (1, 12, 7), (2, 2, 2), (2, 10, 2)],
    );
    let row = |text: &str, lines: [u16; 2], groups: [u16; 4]| {
        read(
            &format!("read {}", text.escape_default()),
            &case,
            text,
            &lines,
            &groups,
        )
    };
    vec![
        row("1: 2,12,-\n2: 2,10,-\n", [3, 3], [1, 2, 1, 2]),
        row("1: -,12,2\n2: 10,-,2\n", [1, 2], [3, 2, 3, 1]),
        row("1: {-,2,12}\n2: {2,10},-\n", [1, 2], [1, 1, 1, 1]),
        row("1: {12,-,2}\n2: {10,2},-\n", [1, 2], [1, 1, 1, 1]),
        row("1: {12,2,-}\n2: -,{2,10}\n", [1, 1], [1, 1, 2, 2]),
        row("1: {12,2},-\n2: {10,-},2\n", [2, 1], [1, 1, 2, 1]),
        row("1: 12,{2,-}\n2: 2,{-,10}\n", [2, 2], [2, 1, 1, 2]),
    ]
}

/// Two students; the first has pairs with 1 and 2, the second with 1 and 3.
fn two() -> Case {
    case(&[5, 5], 3, &[(1, 1, 5), (1, 2, 5), (2, 1, 6), (2, 3, 4)])
}

/// Texts for the two, each refused by this number at this place.
fn refused_texts(number: u16, texts: &[(&str, usize)]) -> Vec<HandRow> {
    let two = two();
    let row = |&(text, place): &(&str, usize)| {
        let name = format!("{number} at {place}: {}", text.escape_default());
        refused(&name, Request::read(&two, text.as_bytes()), number, place)
    };
    texts.iter().map(row).collect()
}

/// Lines, their ends and their heads depart.
const DEPARTING: &[(&str, usize)] = &[
    // Lines missing, left over, or in another order.
    ("", 0),
    ("\n", 0),
    ("1: 2,{-,1}\n", 1),
    ("2: {1,3},-\n", 0),
    ("2: {1,3},-\n1: 2,{-,1}\n", 0),
    ("1: 2,{-,1}\n1: 2,{-,1}\n2: {1,3},-\n", 1),
    ("1: 2,{-,1}\n\n2: {1,3},-\n", 1),
    ("\n1: 2,{-,1}\n2: {1,3},-\n", 0),
    ("1: 2,{-,1}\n2: {1,3},-\n\n", 2),
    ("1: 2,{-,1}\n2: {1,3},-\n ", 2),
    ("1: 2,{-,1}\n2: {1,3},-\nx", 2),
    ("1: 2,{-,1}\n2: {1,3},-\n3: -\n", 2),
    ("1: 2,{-,1}\n2: {1,3},-\n3: -\n4: -\n", 2),
    ("1: 2,{-,1}\n2: {1,3},-\n2: {1,3},-\n", 2),
    // Ends of lines.
    ("1: 2,{-,1}\n2: {1,3},-", 1),
    ("1: 2,{-,1}2: {1,3},-\n", 0),
    ("1: 2,{-,1}\n2: {1,3},-\r\n", 1),
    ("1: 2,{-,1}\r\n2: {1,3},-\r\n", 0),
    ("1: 2,{-,1}\r2: {1,3},-\r", 0),
    ("1: 2,{-,1},\n2: {1,3},-\n", 0),
    ("1: 2,{-,1} \n2: {1,3},-\n", 0),
    // The head.
    ("01: 2,{-,1}\n2: {1,3},-\n", 0),
    ("0: 2,{-,1}\n2: {1,3},-\n", 0),
    ("11: 2,{-,1}\n2: {1,3},-\n", 0),
    ("1: 2,{-,1}\n3: {1,3},-\n", 1),
    (": 2,{-,1}\n2: {1,3},-\n", 0),
    ("1 2,{-,1}\n2: {1,3},-\n", 0),
    ("1:2,{-,1}\n2: {1,3},-\n", 0),
    ("1:  2,{-,1}\n2: {1,3},-\n", 0),
    ("1 : 2,{-,1}\n2: {1,3},-\n", 0),
    (" 1: 2,{-,1}\n2: {1,3},-\n", 0),
    ("1:\t2,{-,1}\n2: {1,3},-\n", 0),
    ("1: \n2: {1,3},-\n", 0),
    ("1:\n2: {1,3},-\n", 0),
];

fn of_form() -> Vec<HandRow> {
    let mut rows = refused_texts(FORM, DEPARTING);
    rows.extend(refused_texts(FORM, DEPARTING_GROUPS));
    rows
}

/// Groups and items depart.
const DEPARTING_GROUPS: &[(&str, usize)] = &[
    // None.
    ("1: 2,1\n2: {1,3},-\n", 0),
    ("1: -,2,{-,1}\n2: {1,3},-\n", 0),
    ("1: 2,{-,1}\n2: {1,-,3,-}\n", 1),
    ("1: 2,{--,1}\n2: {1,3},-\n", 0),
    ("1: 2,{0,1}\n2: {1,3},-\n", 0),
    // Braces.
    ("1: 2,{-,1}\n2: {1,3},{-}\n", 1),
    ("1: {2},{-,1}\n2: {1,3},-\n", 0),
    ("1: 2,{-,1},{}\n2: {1,3},-\n", 0),
    ("1: {}\n2: {1,3},-\n", 0),
    ("1: 2,{-,1\n2: {1,3},-\n", 0),
    ("1: 2,-,1}\n2: {1,3},-\n", 0),
    ("1: 2,{{-,1}}\n2: {1,3},-\n", 0),
    ("1: {2,{-,1}}\n2: {1,3},-\n", 0),
    ("1: 2{-,1}\n2: {1,3},-\n", 0),
    ("1: 2,{-,1}\n2: {1,3}-\n", 1),
    ("1: 2,{-,1,}\n2: {1,3},-\n", 0),
    ("1: 2,{,-,1}\n2: {1,3},-\n", 0),
    ("1: 2,{-1}\n2: {1,3},-\n", 0),
    // Commas, blanks and other characters.
    ("1: ,2,{-,1}\n2: {1,3},-\n", 0),
    ("1: 2,,{-,1}\n2: {1,3},-\n", 0),
    ("1: 2, {-,1}\n2: {1,3},-\n", 0),
    ("1: 2,{-, 1}\n2: {1,3},-\n", 0),
    ("1: 2,{-,1 }\n2: {1,3},-\n", 0),
    ("1: 2;{-,1}\n2: {1,3},-\n", 0),
    ("1: 2,[-,1]\n2: {1,3},-\n", 0),
    ("1: +2,{-,1}\n2: {1,3},-\n", 0),
    ("1: 2.,{-,1}\n2: {1,3},-\n", 0),
    ("1: 2,{-,1}\0\n2: {1,3},-\n", 0),
    ("1: \u{b2},{-,1}\n2: {1,3},-\n", 0),
    // Zeros.
    ("1: 02,{-,1}\n2: {1,3},-\n", 0),
    ("1: 2,{-,01}\n2: {1,3},-\n", 0),
    ("1: 2,{-,1},0\n2: {1,3},-\n", 0),
    ("1: 2,{-,1}\n2: {0,1,3},-\n", 1),
    ("1: 2,{-,1}\n02: {1,3},-\n", 1),
];

/// Workshops are named twice, missing, or without a pair.
const MISNAMING: &[(&str, usize)] = &[
    // Twice.
    ("1: 2,{-,1},1\n2: {1,3},-\n", 0),
    ("1: 2,{-,1,1}\n2: {1,3},-\n", 0),
    ("1: {2,2},{-,1}\n2: {1,3},-\n", 0),
    ("1: 2,{-,1}\n2: {1,3},-,3\n", 1),
    // Missing.
    ("1: {-,1}\n2: {1,3},-\n", 0),
    ("1: 2,-\n2: {1,3},-\n", 0),
    ("1: -\n2: {1,3},-\n", 0),
    ("1: 2,{-,1}\n2: -\n", 1),
    // Without a pair.
    ("1: 2,{-,1},3\n2: {1,3},-\n", 0),
    ("1: 2,{-,1,3}\n2: {1,3},-\n", 0),
    ("1: 2,{-,1}\n2: {1,2,3},-\n", 1),
    ("1: 2,{-,1},4\n2: {1,3},-\n", 0),
    ("1: 2,{-,1},64\n2: {1,3},-\n", 0),
    ("1: 2,{-,1},65\n2: {1,3},-\n", 0),
    // One for another, and one twice with another missing.
    ("1: 3,{-,1}\n2: {1,3},-\n", 0),
    ("1: 1,{-,1}\n2: {1,3},-\n", 0),
    ("1: 2,{-,1}\n2: {1,1},-\n", 1),
    ("1: {1,3},-\n2: {1,3},-\n", 0),
    ("1: 12,-\n2: {1,3},-\n", 0),
];

fn of_names() -> Vec<HandRow> {
    let mut rows = refused_texts(NAMES, MISNAMING);
    let far = case(&[1, 1], 3, &[]);
    rows.push(refused(
        "no pairs, one named",
        Request::read(&far, b"1: -,1\n2: -\n"),
        NAMES,
        0,
    ));
    rows.push(refused(
        "no pairs, one named late",
        Request::read(&far, b"1: -\n2: {-,3}\n"),
        NAMES,
        1,
    ));
    rows
}

/// Two causes at once, in one line or in two.
fn of_two_causes() -> Vec<HandRow> {
    let mut rows = refused_texts(
        FORM,
        &[
            // Both in one line.
            ("1: 2,{-,1},1\r\n2: {1,3},-\n", 0),
            ("1: 2,2,{-,1}, \n2: {1,3},-\n", 0),
            ("1: 1,1,2\n2: {1,3},-\n", 0),
            ("1: 3\n2: {1,3},-\n", 0),
            ("1: 2,{-,1}\n2: {1,1,3},-", 1),
            ("1: 2,{-,1}\n2: {1},-\n", 1),
            ("2: 2,{-,1},3\n2: {1,3},-\n", 0),
            ("1: 65,{-,1},02\n2: {1,3},-\n", 0),
            // 14 and then 15.
            ("1: 2,-,1}\n2: {1,1},-\n", 0),
            ("1:2,{-,1}\n2: -\n", 0),
            ("1: 2,{-,1}\r\n2: 4,{1,3},-\n", 0),
            // 14 twice.
            ("1: 2,1\n2: {1,3}\n", 0),
            ("1: 2,1\n2: {1,3},-\nx", 0),
        ],
    );
    rows.extend(refused_texts(
        NAMES,
        &[
            // 15 and then 14.
            ("1: {-,1}\n2: {1},3,-\n", 0),
            ("1: 2,2,{-,1}\n", 0),
            ("1: 3,2,{-,1}\n2: {1,3},-", 0),
            ("1: 2,{-,1},9\n\n2: {1,3},-\n", 0),
            ("1: -\nx", 0),
            ("1: 2,{-,1}\n2: 1,-\nx", 1),
            ("1: 2,{-,1}\n2: 1,-\n\n", 1),
            // 15 twice.
            ("1: -\n2: -\n", 0),
        ],
    ));
    rows
}

/// Numbers that other kinds of arithmetic take for 1, 2 or 3.
fn of_numbers() -> Vec<HandRow> {
    let numbers = [
        "257",
        "258",
        "65537",
        "65538",
        "2147483649",
        "4294967297",
        "4294967298",
        "9223372036854775809",
        "18446744073709551617",
        "18446744073709551618",
        "340282366920938463463374607431768211457",
        "340282366920938463463374607431768211458",
    ];
    let mut numbers: Vec<String> = numbers.map(String::from).to_vec();
    numbers.push("2".repeat(300));
    numbers.push(format!("1{}", "0".repeat(5000)));
    numbers.push(format!("1{}2", "0".repeat(400)));
    let two = two();
    let mut rows = Vec::new();
    for (at, number) in numbers.iter().enumerate() {
        let texts = [
            (format!("1: {number},{{-,1}}\n2: {{1,3}},-\n"), NAMES, 0),
            (format!("1: 2,{{-,1}},{number}\n2: {{1,3}},-\n"), NAMES, 0),
            (format!("1: 2,{{-,1}}\n2: {{1,3,{number}}},-\n"), NAMES, 1),
            (format!("{number}: 2,{{-,1}}\n2: {{1,3}},-\n"), FORM, 0),
            (format!("1: 2,{{-,1}}\n{number}: {{1,3}},-\n"), FORM, 1),
            (format!("1: 2,{{-,1}}\n2: {{1,3}},-\n{number}"), FORM, 2),
            (format!("1: 0{number},{{-,1}}\n2: {{1,3}},-\n"), FORM, 0),
            (format!("1: 2,{{-,1}},{number}\r\n2: {{1,3}},-\n"), FORM, 0),
        ];
        for (text, cause, place) in texts {
            let name = format!("far number {at}, {cause} at {place}");
            let request = Request::read(&two, text.as_bytes());
            rows.push(refused(&name, request, cause, place));
        }
    }
    rows
}

fn with_room(request: Request, room: usize) -> Request {
    Request { room, ..request }
}

/// The buffers of K: 8 * 3 + 4 * 6 bytes for its text, and 11 * 16 for a copy.
fn of_rooms() -> Vec<HandRow> {
    const OTHERS: [&str; 4] = ["", "1: -\n", "x", "1: {1,2},-\n2: {1,2},-\n3: 1,{-,2}\nx"];
    let (k, _) = proved::example();
    let write = |room| with_room(Request::write(&k), room);
    let read = |text: &str, room| with_room(Request::read(&k, text.as_bytes()), room);
    let done = |name: String, request, bytes: &[u8]| HandRow {
        name,
        request,
        expected: Answer::Done(bytes.to_vec()),
    };
    let mut rows = Vec::new();
    for room in [48, 49, 56, 1000] {
        let name = format!("K with room for {room}");
        rows.push(done(name, write(room), LINES_OF_K.as_bytes()));
    }
    for room in [0, 1, 33, 34, 40, 44, 47] {
        rows.push(refused(&format!("K with room for {room}"), write(room), 6, 0));
    }
    for room in [176, 177, 192, 1000] {
        let name = format!("a copy of K with room for {room}");
        rows.push(done(name, read(LINES_OF_K, room), &k.to_bytes()));
    }
    for room in [0, 1, 160, 175] {
        for text in OTHERS.into_iter().chain([LINES_OF_K]) {
            let name = format!("6 at {room} before 14 and 15: {}", text.escape_default());
            rows.push(refused(&name, read(text, room), 6, 0));
        }
    }
    rows
}

/// Causes of the case come before those of the room and of the text.
fn of_case_causes() -> Vec<HandRow> {
    let two = two();
    let changes: [(&str, u16, usize, fn(&mut Vec<u8>)); 12] = [
        ("1", 1, 0, |bytes| bytes.push(0)),
        ("1: one byte less", 1, 0, |bytes| {
            bytes.truncate(bytes.len() - 1)
        }),
        ("2: byte 1", 2, 0, |bytes| bytes[1] = 1),
        ("2: byte 15 of a pair", 2, 8, |bytes| bytes[8 * 16 + 15] = 1),
        ("3: students", 3, 1, |bytes| bytes[16 + 2] = 3),
        ("3: a pair twice", 3, 6, |bytes| bytes[6 * 16 + 4] = 1),
        ("4: no students", 4, 0, Vec::clear),
        ("5: line 0", 5, 1, |bytes| bytes[16 + 6] = 0),
        ("5: group 66", 5, 7, |bytes| bytes[7 * 16 + 6] = 66),
        ("13: lot 0", 13, 0, |bytes| bytes[8..10].fill(0)),
        ("13: one lot twice", 13, 1, |bytes| bytes[16 + 8] = bytes[8]),
        ("5 before 13", 5, 6, |bytes| {
            bytes[8..10].fill(0);
            bytes[6 * 16 + 6] = 0;
        }),
    ];
    let good = "1: 2,{-,1}\n2: {1,3},-\n";
    let texts = [good, "", "1: 2\n", "1: -\n2: {1,3},-\n"];
    let mut tasks = vec![Task::Write];
    tasks.extend(texts.map(|text| Task::Read(text.as_bytes().to_vec())));
    let mut rows = Vec::new();
    for (name, number, place, change) in changes {
        for task in &tasks {
            for room in [0, 31, 32, 143, 144, 200] {
                let mut case = two.to_bytes();
                change(&mut case);
                let task = task.clone();
                let request = Request { case, task, room };
                rows.push(refused(name, request, number, place));
            }
        }
    }
    rows
}

/// K is written, and its own lines are read, after a change of its bytes; it is refused by this
/// number at this place, or not.
fn changed_k(
    name: &str,
    refusal: Option<(u16, usize)>,
    change: impl Fn(&mut [u8]),
) -> Vec<HandRow> {
    let (k, _) = proved::example();
    let write = Request::write(&k);
    let read = Request::read(&k, LINES_OF_K.as_bytes());
    let row = |mut request: Request| {
        change(&mut request.case);
        let good = match request.task {
            Task::Write => LINES_OF_K.as_bytes().to_vec(),
            Task::Read(_) => request.case.clone(),
        };
        HandRow {
            name: name.to_string(),
            request,
            expected: refusal.map_or(Answer::Done(good), |(number, place)| Answer::Refused {
                number,
                place,
            }),
        }
    };
    [write, read].map(row).into()
}

/// K with other lots, good and bad.
fn of_lots() -> Vec<HandRow> {
    let lots = [
        ([3, 2, 1], None),
        ([510, 511, 512], None),
        ([1, 257, 256], None),
        ([1, 2, 0], Some(2)),
        ([513, 2, 3], Some(0)),
        ([1, 2, 32771], Some(2)),
        ([1, 65535, 3], Some(1)),
        ([7, 8, 7], Some(2)),
        ([7, 7, 7], Some(1)),
        ([7, 7, 0], Some(1)),
        ([7, 600, 7], Some(1)),
    ];
    let rows = lots.map(|(lots, place): ([u16; 3], Option<usize>)| {
        let name = format!("K with lots {lots:?}");
        changed_k(&name, place.map(|place| (13, place)), |case| {
            for (record, lot) in case.chunks_exact_mut(CASE_RECORD).zip(lots) {
                record[8..10].copy_from_slice(&lot.to_le_bytes());
            }
        })
    });
    rows.into_iter().flatten().collect()
}

/// K with a byte that should be zero, or with one of a fare.
fn of_unnamed_bytes() -> Vec<HandRow> {
    // The record, the byte, and whether it is refused.
    let bytes = [
        (0, 10, true),
        (2, 11, true),
        (3, 8, true),
        (4, 9, true),
        (3, 10, true),
        (4, 11, true),
        (5, 10, false),
        (10, 11, false),
        (5, 12, true),
        (8, 13, true),
        (9, 14, true),
        (10, 15, true),
    ];
    let rows = bytes.map(|(record, byte, bad)| {
        let name = format!("byte {byte} of record {record} of K");
        let change = |case: &mut [u8]| case[record * CASE_RECORD + byte] = 1;
        changed_k(&name, bad.then_some((2, record)), change)
    });
    rows.into_iter().flatten().collect()
}
