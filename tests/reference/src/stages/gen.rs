//! Cases for the stages: agreeing ones, nearly agreeing ones, rings and chains, and damage of each
//! kind.

use super::Request;
use crate::gen::{self, Rng, Shape};
use crate::model::*;

/// Any small case: random, nearly agreeing, or a ring.
pub fn small(rng: &mut Rng) -> Case {
    let mut case = match rng.below(4) {
        0 | 1 => shaped(rng),
        2 => nearly(rng),
        _ => ring(rng),
    };
    if rng.chance(20) {
        let w = rng.below(case.workshops.len());
        case.workshops[w].quota = 0;
    }
    if rng.chance(20) {
        let w = rng.below(case.workshops.len());
        case.workshops[w].line = rng.range(1, usize::from(MAX_WORKSHOP_GROUP)) as u16;
    }
    case
}

/// At most `students` students, and few workshops.
pub fn tiny(rng: &mut Rng, students: usize) -> Case {
    loop {
        let case = small(rng);
        if case.students.len() <= students && case.workshops.len() <= 5 {
            return case;
        }
    }
}

fn shaped(rng: &mut Rng) -> Case {
    let shape = Shape {
        workshop_groups: rng.range(1, 8),
        agreeing: rng.chance(70),
        ..Shape::small(rng)
    };
    gen::case(rng, &shape)
}

/// An agreeing case in which one workshop puts one or two students somewhere else.
fn nearly(rng: &mut Rng) -> Case {
    let shape = Shape {
        workshop_groups: rng.range(2, 8),
        late_lines: 100,
        agreeing: true,
        pairs: rng.pick(&[30, 50, 70, 100]),
        ..Shape::small(rng)
    };
    let mut case = gen::case(rng, &shape);
    if case.pairs.is_empty() {
        return case;
    }
    for _ in 0..rng.range(1, 2) {
        let (from, to) = (rng.below(case.pairs.len()), rng.below(case.pairs.len()));
        let workshop = case.pairs[to].workshop;
        let same_workshop = case.pairs[from].workshop == workshop;
        case.pairs[to].workshop_group = match rng.below(3) {
            0 if same_workshop => case.pairs[from].workshop_group,
            1 => rng.range(
                1,
                usize::from(case.workshops[usize::from(workshop) - 1].line),
            ) as u16,
            _ => rng.range(1, usize::from(MAX_WORKSHOP_GROUP)) as u16,
        };
    }
    case
}

/// Students in a ring, each two neighbours at a workshop of their own, which puts the first before
/// the second, or both into one group; often one workshop is the other way round, has quota 0, or
/// has its line before the second. Some other students stand at some of these workshops, behind.
fn ring(rng: &mut Rng) -> Case {
    let size = rng.range(2, 6);
    let others = rng.pick(&[0, 0, 1, 3]);
    let mut students: Vec<u16> = (1..=(size + others) as u16).collect();
    let mut workshops: Vec<u16> = (1..=size as u16).collect();
    rng.shuffle(&mut students);
    rng.shuffle(&mut workshops);
    let equal_share = rng.pick(&[0, 0, 30, 60, 100]);
    let odd = rng.pick(&[usize::MAX, usize::MAX, 0, 1]);
    let fault = rng.below(3);
    let mut rows = Vec::new();
    for link in 0..size {
        let (one, other) = (students[link], students[(link + 1) % size]);
        let low = rng.range(1, 250) as u16;
        let high = if rng.chance(equal_share) {
            low
        } else {
            rng.range(usize::from(low) + 1, 400) as u16
        };
        let mut line = rng.pick(&[high, high + 1, 450]);
        let mut quota = rng.pick(&[1, 1, 2, 512]);
        let mut groups = [(one, low), (other, high)];
        if link == odd {
            match fault {
                0 => quota = 0,
                1 if low < high => line = rng.pick(&[low, high - 1]),
                _ => (groups[0].1, groups[1].1) = (high, low),
            }
        }
        rows.push((quota, line, groups.to_vec()));
    }
    for &student in &students[size..] {
        for (_, _, groups) in rows.iter_mut() {
            if rng.chance(40) {
                groups.push((student, rng.pick(&[401, 402, 440])));
            }
        }
    }
    of_rows(rng, size + others, &workshops, &rows)
}

/// A workshop's quota, its line, and the students with their groups.
type Workplace = (u16, u16, Vec<(u16, u16)>);

/// The case with these workplaces, numbered as `numbers` says; the stages in it are random.
fn of_rows(rng: &mut Rng, students: usize, numbers: &[u16], rows: &[Workplace]) -> Case {
    let mut case = Case {
        students: Vec::new(),
        workshops: vec![Workshop { quota: 0, line: 1 }; rows.len()],
        pairs: Vec::new(),
    };
    for lot in gen::lots(rng, students) {
        case.students.push(Student {
            stage: rng.range(1, usize::from(MAX_STAGE)) as u16,
            line: rng.range(1, usize::from(MAX_STUDENT_GROUP)) as u16,
            lot,
        });
    }
    for ((quota, line, groups), &workshop) in rows.iter().zip(numbers) {
        case.workshops[usize::from(workshop) - 1] = Workshop {
            quota: *quota,
            line: *line,
        };
        for &(student, workshop_group) in groups {
            case.pairs.push(Pair {
                student,
                workshop,
                student_group: rng.range(1, usize::from(MAX_STUDENT_GROUP)) as u16,
                workshop_group,
                fare: 0,
            });
        }
    }
    case.pairs.sort_by_key(|pair| (pair.student, pair.workshop));
    gen::draw_fares(rng, &mut case);
    case
}

/// The numbers 1 to `count` in any order.
fn shuffled(rng: &mut Rng, count: usize) -> Vec<u16> {
    let mut numbers: Vec<u16> = (1..=count as u16).collect();
    rng.shuffle(&mut numbers);
    numbers
}

/// All pairs; every workshop ranks all students alike, one to a group, up to the last group.
pub fn one_chain(rng: &mut Rng, students: usize, workshops: usize) -> Case {
    let order = shuffled(rng, students);
    let first = MAX_WORKSHOP_GROUP + 1 - students as u16;
    let groups: Vec<(u16, u16)> = order.into_iter().zip(first..).collect();
    let rows = vec![(8, MAX_WORKSHOP_GROUP, groups); workshops];
    of_rows(rng, students, &rising(workshops), &rows)
}

/// All pairs; one chain through all students whose links are at one workshop after the other, from
/// the last down to the first and again. Each workshop sees the students of its own links; all
/// others are beyond its line group.
pub fn passed_on(rng: &mut Rng, students: usize, workshops: usize) -> Case {
    // The chain goes from the last student to the first.
    let order: Vec<u16> = (1..=students as u16).rev().collect();
    let beyond = MAX_WORKSHOP_GROUP;
    let rows: Vec<Workplace> = (0..workshops)
        .map(|w| {
            let own = |at: usize| at % workshops == workshops - 1 - w;
            let group = |at: usize| {
                let seen = at + 1 < students && own(at) || at > 0 && own(at - 1);
                if seen {
                    at as u16 + 1
                } else {
                    beyond
                }
            };
            let groups = order.iter().zip(0..).map(|(&s, at)| (s, group(at)));
            (8, beyond - 1, groups.collect())
        })
        .collect();
    of_rows(rng, students, &rising(workshops), &rows)
}

/// Every workshop sees a part of one chain through all students, any part of it.
pub fn scattered(rng: &mut Rng, students: usize, workshops: usize, share: usize) -> Case {
    let order = shuffled(rng, students);
    let rows: Vec<Workplace> = (0..workshops)
        .map(|_| {
            let groups = order.iter().copied().zip(1..);
            let seen = groups.filter(|_| rng.chance(share)).collect();
            (8, MAX_WORKSHOP_GROUP, seen)
        })
        .collect();
    of_rows(rng, students, &rising(workshops), &rows)
}

/// How a long ring is closed, and how its workshops rank their students.
#[derive(Clone, Copy, PartialEq, Eq)]
pub enum Ring {
    /// One after the other, and the last workshop does not come back to the first student.
    Open,
    /// One after the other.
    Closed,
    /// All in one group.
    Equal,
    /// All in one group, but for the last workshop, which ranks one after the other.
    EqualButOne,
}

/// All students in a ring; each workshop sees a part of it and the first student of the next part.
pub fn long_ring(rng: &mut Rng, students: usize, workshops: usize, ring: Ring) -> Case {
    let order = shuffled(rng, students);
    let numbers = shuffled(rng, workshops);
    let part = students / workshops;
    let rows: Vec<Workplace> = (0..workshops)
        .map(|w| {
            let last = w + 1 == workshops;
            let end = if last { students } else { (w + 1) * part };
            let strict = match ring {
                Ring::Open | Ring::Closed => true,
                Ring::Equal => false,
                Ring::EqualButOne => last,
            };
            let seen = w * part..=end - usize::from(last && ring == Ring::Open);
            let groups = seen.map(|at| {
                let group = if strict { at - w * part + 1 } else { 1 };
                (order[at % students], group as u16)
            });
            (1, MAX_WORKSHOP_GROUP, groups.collect())
        })
        .collect();
    of_rows(rng, students, &numbers, &rows)
}

/// All pairs, few groups, all workshops alike.
pub fn few_groups(rng: &mut Rng, students: usize, workshops: usize, groups: usize) -> Case {
    gen::experiment(rng, students, workshops, 4, groups)
}

fn rising(count: usize) -> Vec<u16> {
    (1..=count as u16).collect()
}

/// The last workshop takes two students of neighbouring groups the other way round: the last two
/// who count there, or two who stand so many steps before them.
pub fn turn_two(case: &mut Case, steps: usize) {
    let last = case.workshops.len();
    let line = case.workshops[last - 1].line;
    let pairs = case.pairs.iter_mut();
    let mut counted: Vec<&mut Pair> = pairs
        .filter(|pair| usize::from(pair.workshop) == last && pair.workshop_group <= line)
        .collect();
    counted.sort_by_key(|pair| pair.workshop_group);
    let differ = |at: &usize| counted[at - 1].workshop_group < counted[*at].workshop_group;
    let two = (1..counted.len()).rev().filter(differ).nth(steps);
    if let Some(at) = two {
        let group = counted[at].workshop_group;
        counted[at].workshop_group = counted[at - 1].workshop_group;
        counted[at - 1].workshop_group = group;
    }
}

/// Large cases of every sort: chains, few groups, parts of a chain, with and without two students
/// the other way round, and random ones.
pub fn large(rng: &mut Rng, random: usize) -> Vec<Case> {
    let (n, m) = (MAX_STUDENTS, MAX_WORKSHOPS);
    let mut cases = vec![
        one_chain(rng, n, m),
        one_chain(rng, n, m),
        one_chain(rng, n - 1, m - 1),
        passed_on(rng, n, m),
        passed_on(rng, 300, 7),
        few_groups(rng, n, m, 8),
        few_groups(rng, n, m, 1),
        few_groups(rng, n, m, 100),
        scattered(rng, n, m, 5),
        scattered(rng, n, m, 50),
        scattered(rng, n, 2, 60),
        scattered(rng, n, m, 0),
    ];
    for ring in [Ring::Open, Ring::Closed, Ring::Equal, Ring::EqualButOne] {
        for (students, workshops) in [(n, m), (n, 3), (100, 50), (64, 64)] {
            cases.push(long_ring(rng, students, workshops, ring));
        }
    }
    let mut turned = cases.clone();
    for (index, case) in turned.iter_mut().enumerate() {
        turn_two(case, index % 3);
    }
    cases.extend(turned);
    let shapes = Shape::large(rng);
    for _ in 0..random {
        let mut shape = rng.pick(&shapes);
        shape.agreeing = rng.chance(80);
        let mut case = gen::case(rng, &shape);
        if rng.chance(30) {
            turn_two(&mut case, rng.below(3));
        }
        cases.push(case);
    }
    cases
}

/// Other stages, lots and fares in the case, anywhere in their range.
pub fn other_unused(rng: &mut Rng, case: &Case) -> Case {
    let mut other = case.clone();
    for student in &mut other.students {
        student.stage = rng.range(1, usize::from(MAX_STAGE)) as u16;
    }
    gen::draw_lots(rng, &mut other);
    gen::draw_fares(rng, &mut other);
    other
}

/// The case with these stages in its student records.
pub fn with_stages(bytes: &[u8], stages: &[u16]) -> Vec<u8> {
    let mut bytes = bytes.to_vec();
    for (record, stage) in bytes.chunks_mut(CASE_RECORD).zip(stages) {
        record[4..6].copy_from_slice(&stage.to_le_bytes());
    }
    bytes
}

/// Lengths of a buffer for so many students: exact, short, none, longer.
pub fn room(rng: &mut Rng, students: usize) -> usize {
    match rng.below(10) {
        0 => students.saturating_sub(1),
        1 => rng.below(students + 1),
        2 => 0,
        3 => students + 1,
        4 => students + rng.range(2, 40),
        5 => MAX_STUDENTS,
        _ => students,
    }
}

/// A case with up to three damages, and a buffer of any length.
pub fn damaged(rng: &mut Rng) -> Request {
    let case = gen::damaged_input(rng).case;
    let records = case.chunks(CASE_RECORD);
    let students = records.take_while(|record| record[0] == 1).count();
    Request {
        room: room(rng, students),
        case,
    }
}

/// The case's bytes with a bad lot.
pub fn with_bad_lot(rng: &mut Rng, case: Vec<u8>) -> Vec<u8> {
    let mut input = Input {
        case,
        book: Vec::new(),
        lent: Lengths::ample(),
    };
    gen::bad_lot(rng, &mut input);
    input.case
}

/// The request with one damage that is refused by this cause, 1 to 5 or 13.
pub fn with_cause(rng: &mut Rng, case: &Case, cause: u16) -> Vec<u8> {
    let mut bytes = case.to_bytes();
    let (n, m) = (case.students.len(), case.workshops.len());
    let records = bytes.len() / CASE_RECORD;
    match cause {
        1 => {
            let length = bytes.len() - rng.range(1, CASE_RECORD - 1);
            bytes.truncate(length);
        }
        2 => {
            let at = rng.below(records) * CASE_RECORD;
            match rng.below(3) {
                0 => bytes[at] = rng.pick(&[0, 4, 255]),
                1 => bytes[at + 1] = 1,
                _ => {
                    let first = match bytes[at] {
                        1 => 10,
                        2 => 8,
                        _ => 12,
                    };
                    bytes[at + rng.range(first, 15)] = rng.pick(&[1, 128]);
                }
            }
        }
        3 => {
            let at = rng.below(records) * CASE_RECORD;
            set(&mut bytes, at + 2, rng.pick(&[0, 513, 65535]));
        }
        4 => {
            let (kind, present, wanted) = match rng.chance(50) {
                true => (1, n, MAX_STUDENTS + 1),
                false => (2, m, MAX_WORKSHOPS + 1),
            };
            let mut added = Vec::new();
            for number in present as u16 + 1..=wanted as u16 {
                let fields = [number, 1, 1, number.min(MAX_LOT)];
                let named = if kind == 1 { 4 } else { 3 };
                push_case_record(&mut added, kind, &fields[..named]);
            }
            let at = CASE_RECORD * if kind == 1 { n } else { n + m };
            bytes.splice(at..at, added);
        }
        13 => return with_bad_lot(rng, bytes),
        _ => {
            let index = rng.below(records);
            let at = index * CASE_RECORD;
            let (field, value) = if index < n {
                rng.pick(&[(2, 0), (2, 513), (2, 65535), (3, 0), (3, 66)])
            } else if index < n + m {
                rng.pick(&[(2, 513), (2, 65535), (3, 0), (3, 514)])
            } else {
                rng.pick(&[(3, 0), (3, 66), (4, 0), (4, 514)])
            };
            set(&mut bytes, at + 2 * field, value);
        }
    }
    bytes
}

fn set(bytes: &mut [u8], at: usize, value: u16) {
    bytes[at..at + 2].copy_from_slice(&value.to_le_bytes());
}
