//! Rows with answers worked out by hand.

use super::{Answer, Request, NO_STAGES};
use crate::model::*;
use crate::proved;

pub struct HandRow {
    pub name: &'static str,
    pub request: Request,
    pub expected: Answer,
}

/// Workshops as quota and line, pairs as student, workshop and the workshop's group.
fn case(students: usize, workshops: &[(u16, u16)], pairs: &[(u16, u16, u16)]) -> Case {
    let student = |lot: u16| Student {
        stage: 1,
        line: 2,
        lot,
    };
    Case {
        students: (1..=students as u16).map(student).collect(),
        workshops: workshops
            .iter()
            .map(|&(quota, line)| Workshop { quota, line })
            .collect(),
        pairs: pairs
            .iter()
            .map(|&(student, workshop, workshop_group)| Pair {
                student,
                workshop,
                student_group: 1,
                workshop_group,
                fare: 0,
            })
            .collect(),
    }
}

fn stages(name: &'static str, case: &Case, stages: &[u16]) -> HandRow {
    HandRow {
        name,
        request: Request::of(case),
        expected: Answer::Stages(stages.to_vec()),
    }
}

fn refused(name: &'static str, request: Request, number: u16, place: usize) -> HandRow {
    HandRow {
        name,
        request,
        expected: Answer::Refused { number, place },
    }
}

fn none(name: &'static str, case: &Case) -> HandRow {
    refused(name, Request::of(case), NO_STAGES, 0)
}

/// Two workshops that put two students the other way round.
const TURNED: [(u16, u16, u16); 4] = [(1, 1, 1), (1, 2, 2), (2, 1, 2), (2, 2, 1)];

pub fn rows() -> Vec<HandRow> {
    let (k, _) = proved::example();
    let turned = |one: (u16, u16), other: (u16, u16)| case(2, &[one, other], &TURNED);
    let both = turned((1, 3), (1, 3));
    let short = |case: &Case, room: usize| Request {
        room,
        ..Request::of(case)
    };
    let mut rows = vec![
        stages("K", &k, &[1, 2, 2]),
        none("the other way round", &both),
        stages("quota 0 at the first", &turned((0, 3), (1, 3)), &[2, 1]),
        stages("quota 0 at the second", &turned((1, 3), (0, 3)), &[1, 2]),
        stages("quota 0 at both", &turned((0, 3), (0, 3)), &[1, 1]),
        stages("beyond the first's line", &turned((1, 1), (1, 3)), &[2, 1]),
        stages("beyond the second's line", &turned((1, 3), (1, 1)), &[1, 2]),
        stages("beyond both lines", &turned((1, 1), (1, 1)), &[1, 1]),
        none("in both line groups", &turned((1, 2), (1, 2))),
        none("the largest quotas", &turned((512, 513), (512, 513))),
        none("beyond a student's own line", &{
            let mut case = both.clone();
            case.pairs[3].student_group = 3;
            case
        }),
        stages(
            "as early as agreement permits",
            &case(3, &[(1, 3), (1, 3)], &[(1, 1, 1), (2, 1, 2), (3, 2, 1)]),
            &[1, 2, 1],
        ),
        stages("no pairs", &case(3, &[(1, 1)], &[]), &[1, 1, 1]),
        stages("one of each", &case(1, &[(1, 1)], &[(1, 1, 1)]), &[1]),
        stages(
            "gaps are not kept",
            &case(3, &[(1, 513)], &[(1, 1, 513), (2, 1, 7), (3, 1, 400)]),
            &[3, 1, 2],
        ),
        none(
            "equal at one, not at the other",
            &case(
                2,
                &[(1, 3), (1, 3)],
                &[(1, 1, 1), (1, 2, 1), (2, 1, 1), (2, 2, 2)],
            ),
        ),
        none(
            "a ring of three",
            &case(
                3,
                &[(1, 3), (1, 3), (1, 3)],
                &[
                    (1, 1, 1),
                    (1, 3, 2),
                    (2, 1, 2),
                    (2, 2, 1),
                    (3, 2, 2),
                    (3, 3, 1),
                ],
            ),
        ),
        stages(
            "a ring of three, open",
            &case(
                3,
                &[(1, 3), (1, 3), (1, 3)],
                &[
                    (1, 1, 1),
                    (1, 3, 1),
                    (2, 1, 2),
                    (2, 2, 1),
                    (3, 2, 2),
                    (3, 3, 2),
                ],
            ),
            &[1, 2, 3],
        ),
        none(
            "a ring through equal groups",
            &case(
                4,
                &[(1, 3), (1, 3), (1, 3), (1, 3)],
                &[
                    (1, 1, 1),
                    (1, 4, 2),
                    (2, 1, 2),
                    (2, 2, 1),
                    (3, 2, 1),
                    (3, 3, 1),
                    (4, 3, 1),
                    (4, 4, 2),
                ],
            ),
        ),
        stages(
            "two chains tied by equal groups",
            &case(
                5,
                &[(1, 9), (1, 9), (1, 9)],
                &[
                    (1, 1, 1),
                    (2, 1, 2),
                    (3, 1, 3),
                    (3, 3, 5),
                    (4, 2, 4),
                    (4, 3, 5),
                    (5, 2, 8),
                ],
            ),
            &[1, 2, 3, 3, 4],
        ),
        refused("one entry short", short(&k, 2), 6, 0),
        refused("no entry", short(&k, 0), 6, 0),
        refused("6 before 12", short(&both, 1), 6, 0),
        HandRow {
            name: "a longer buffer",
            request: short(&k, 512),
            expected: Answer::Stages(vec![1, 2, 2]),
        },
    ];
    let mut changed = |name, number, place, change: fn(&mut Vec<u8>)| {
        // With a buffer that suffices, and with one that is short.
        for room in [2, 1] {
            let mut request = short(&both, room);
            change(&mut request.case);
            rows.push(refused(name, request, number, place));
        }
    };
    changed("1 before 6 and 12", 1, 0, |bytes| bytes.push(0));
    changed("2 before 6 and 12", 2, 3, |bytes| bytes[3 * 16 + 15] = 1);
    changed("3 before 6 and 12", 3, 1, |bytes| bytes[16 + 2] = 3);
    changed("5 before 6 and 12: stage 0", 5, 1, |bytes| {
        bytes[16 + 4] = 0
    });
    changed("5 before 6 and 12: group 514", 5, 7, |bytes| {
        bytes[7 * 16 + 8..7 * 16 + 10].copy_from_slice(&514u16.to_le_bytes())
    });
    changed("13 before 6 and 12: lot 0", 13, 0, |bytes| bytes[8] = 0);
    changed("13 before 6 and 12: lot 513", 13, 1, |bytes| {
        bytes[16 + 8..16 + 10].copy_from_slice(&513u16.to_le_bytes())
    });
    changed("13 before 6 and 12: one lot", 13, 1, |bytes| {
        bytes[16 + 8] = 1
    });
    changed("1 before 13", 1, 0, |bytes| {
        bytes[8] = 0;
        bytes.push(0);
    });
    changed("2 before 13", 2, 2, |bytes| {
        bytes[8] = 0;
        bytes[2 * 16 + 8] = 1;
    });
    changed("2: byte 9 of a workshop", 2, 3, |bytes| {
        bytes[3 * 16 + 9] = 1
    });
    changed("2: byte 10 of a student", 2, 1, |bytes| bytes[16 + 10] = 1);
    changed("2: byte 11 of a workshop", 2, 2, |bytes| {
        bytes[2 * 16 + 11] = 1
    });
    changed("2: byte 12 of a pair", 2, 5, |bytes| bytes[5 * 16 + 12] = 1);
    changed("2: byte 15 of a pair, a fare before it", 2, 7, |bytes| {
        bytes[4 * 16 + 10] = 1;
        bytes[7 * 16 + 15] = 1;
    });
    changed("3 before 13", 3, 3, |bytes| {
        bytes[8] = 0;
        bytes[3 * 16 + 2] = 1;
    });
    changed("4 before 13", 4, 0, |bytes| {
        bytes[8] = 0;
        bytes.truncate(2 * 16);
    });
    changed("5 before 13", 5, 7, |bytes| {
        bytes[8] = 0;
        bytes[7 * 16 + 6] = 0;
    });
    let empty = Request {
        case: Vec::new(),
        room: 0,
    };
    rows.push(refused("no bytes", empty, 4, 0));
    let fifteen = Request {
        case: vec![0; 15],
        room: 512,
    };
    rows.push(refused("15 bytes", fifteen, 1, 0));
    for (name, stage) in [("K with stage 1", 1), ("K with stage 512", 512)] {
        let mut case = k.clone();
        case.students.iter_mut().for_each(|s| s.stage = stage);
        rows.push(stages(name, &case, &[1, 2, 2]));
    }
    rows.extend(of_lots(&k));
    for (name, fare) in [("K with fares of 1", 1), ("K with fares of 65,280", 65_280)] {
        let mut case = k.clone();
        case.pairs.iter_mut().for_each(|pair| pair.fare = fare);
        rows.push(stages(name, &case, &[1, 2, 2]));
    }
    for (name, stage) in [("K with stage 0", 0), ("K with stage 513", 513)] {
        let mut case = k.clone();
        case.students[2].stage = stage;
        rows.push(refused(name, Request::of(&case), 5, 2));
    }
    rows
}

/// K with other lots, good and bad.
fn of_lots(k: &Case) -> Vec<HandRow> {
    let with = |lots: [u16; 3]| {
        let mut case = k.clone();
        for (student, lot) in case.students.iter_mut().zip(lots) {
            student.lot = lot;
        }
        case
    };
    let good = [
        ("K with its lots the other way round", [3, 2, 1]),
        ("K with the last lots", [510, 511, 512]),
        ("K with lots 1, 257 and 256", [1, 257, 256]),
    ];
    let bad = [
        ("K with lot 0", [1, 2, 0], 2),
        ("K with lot 513", [513, 2, 3], 0),
        ("K with lot 32771", [1, 2, 32771], 2),
        ("K with lot 65535", [1, 65535, 3], 1),
        ("K with one lot twice", [7, 8, 7], 2),
        ("K with one lot thrice", [7, 7, 7], 1),
        ("K with a lot again, then one out of range", [7, 7, 0], 1),
        ("K with a lot out of range, then one again", [7, 600, 7], 1),
    ];
    let good = good.map(|(name, lots)| stages(name, &with(lots), &[1, 2, 2]));
    let bad = bad.map(|(name, lots, place)| refused(name, Request::of(&with(lots)), 13, place));
    good.into_iter().chain(bad).collect()
}
