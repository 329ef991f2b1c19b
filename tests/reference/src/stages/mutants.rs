//! Broken references of the stages. The suite must tell each of them from the right one.

use super::{answer, least, least_along, rows_of_groups, rows_where, Answer, Request, NO_STAGES};
use crate::literal;
use crate::model::*;
use crate::mutants::{earlier_lot, lots_before, number_lots, SLIPS_OF_FARES, SLIPS_OF_LOTS};

pub struct Mutant {
    pub name: &'static str,
    pub answer: Box<dyn Fn(&Request) -> Answer>,
}

/// Without a slip; they must agree with the right one.
pub fn controls() -> Vec<Mutant> {
    vec![
        on_case("no slip", least),
        on_case("raising until nothing moves", |case| {
            raised(case, &vec![1; case.students.len()], usize::MAX)
        }),
    ]
}

/// Slips that small cases show.
pub fn all() -> Vec<Mutant> {
    let mut mutants = slips_of_counting();
    mutants.extend(slips_of_numbers());
    mutants.extend(slips_of_refusal());
    mutants.extend(slips_of_lots_and_fares());
    mutants
}

/// Slips that show only where there are many people.
pub fn of_size() -> Vec<Mutant> {
    vec![
        on_stages("stages in a byte", |_, stages| {
            stages.iter().map(|stage| stage & 255).collect()
        }),
        on_stages("at most 511 stages", |_, stages| {
            stages.iter().map(|&stage| stage.min(511)).collect()
        }),
        on_case("forgets workshop 64", |case| {
            let mut case = case.clone();
            case.pairs.retain(|pair| pair.workshop < 64);
            least(&case)
        }),
        on_case("forgets student 512", |case| {
            let mut case = case.clone();
            case.pairs.retain(|pair| pair.student < 512);
            least(&case)
        }),
        on_case("raises 64 times at most", |case| {
            raised(case, &vec![1; case.students.len()], 64)
        }),
        on_case("forgets group 513", |case| {
            let mut case = case.clone();
            case.pairs.retain(|pair| pair.workshop_group < 513);
            least(&case)
        }),
    ]
}

/// Pairs that count and should not, or do not and should.
fn slips_of_counting() -> Vec<Mutant> {
    vec![
        on_case("equal groups ignored", equal_groups_ignored),
        on_groups("quota 0 counted", |workshop, _, pair| {
            (pair.workshop_group <= workshop.line).then_some(pair.workshop_group)
        }),
        on_groups("beyond the line counted", |workshop, _, pair| {
            (workshop.quota > 0).then_some(pair.workshop_group)
        }),
        on_groups("the line group not counted", |workshop, _, pair| {
            let counts = workshop.quota > 0 && pair.workshop_group < workshop.line;
            counts.then_some(pair.workshop_group)
        }),
        on_groups("one group past the line counted", |workshop, _, pair| {
            let counts = workshop.quota > 0 && pair.workshop_group <= workshop.line + 1;
            counts.then_some(pair.workshop_group)
        }),
        on_groups("quota 1 not counted", |workshop, _, pair| {
            let counts = workshop.quota > 1 && pair.workshop_group <= workshop.line;
            counts.then_some(pair.workshop_group)
        }),
        on_groups(
            "beyond her own line not counted",
            |workshop, student, pair| {
                let counts = workshop.quota > 0
                    && pair.workshop_group <= workshop.line
                    && pair.student_group <= student.line;
                counts.then_some(pair.workshop_group)
            },
        ),
        on_groups("the student's groups", |workshop, _, pair| {
            let counts = workshop.quota > 0 && pair.workshop_group <= workshop.line;
            counts.then_some(pair.student_group)
        }),
        on_case("the last pair forgotten", |case| {
            let mut case = case.clone();
            case.pairs.pop();
            least(&case)
        }),
        on_case("the worse group first", |case| {
            let mut rows = rows_of_groups(case);
            rows.iter_mut().for_each(|row| row.reverse());
            least_along(case.students.len(), &rows)
        }),
        on_case("only neighbours in the file are equal", |case| {
            let mut rows = rows_of_groups(case);
            for group in rows.iter_mut().flatten() {
                let broken = group.windows(2).position(|two| two[0] + 1 != two[1]);
                group.truncate(broken.map_or(group.len(), |at| at + 1));
            }
            least_along(case.students.len(), &rows)
        }),
        on_case("one pass over the workshops", |case| {
            raised(case, &vec![1; case.students.len()], 1)
        }),
        on_case("two passes over the workshops", |case| {
            raised(case, &vec![1; case.students.len()], 2)
        }),
    ]
}

/// Stages that are not the least.
fn slips_of_numbers() -> Vec<Mutant> {
    vec![
        on_stages("one too high at one student", |_, mut stages| {
            if let Some(last) = stages.last_mut() {
                *last += 1;
            }
            stages
        }),
        on_stages("the last stage one too high", |_, mut stages| {
            let last = stages.iter().copied().max().unwrap_or(0);
            stages
                .iter_mut()
                .filter(|s| **s == last)
                .for_each(|s| *s += 1);
            stages
        }),
        on_stages("starts at 0", |_, stages| {
            stages.iter().map(|stage| stage - 1).collect()
        }),
        on_stages("0 for a student without pairs", |case, mut stages| {
            for (s, stage) in (1..).zip(&mut stages) {
                if case.pairs.iter().all(|pair| pair.student != s) {
                    *stage = 0;
                }
            }
            stages
        }),
        on_stages("the stages of the file", |case, _| {
            case.students.iter().map(|student| student.stage).collect()
        }),
        on_case("the stages of the file as a floor", |case| {
            let floor: Vec<u16> = case.students.iter().map(|s| s.stage).collect();
            least(case)?;
            raised(case, &floor, usize::MAX)
        }),
        on_stages("the groups' numbers, gaps kept", |case, mut stages| {
            for pair in &case.pairs {
                stages[usize::from(pair.student) - 1] = pair.workshop_group;
            }
            stages
        }),
        on_stages("as late as agreement permits", |case, stages| {
            // Counted from the end, as if the worse group came first.
            let mut rows = rows_of_groups(case);
            rows.iter_mut().for_each(|row| row.reverse());
            let last = stages.iter().copied().max().unwrap_or(0);
            let from_end = least_along(stages.len(), &rows).expect("they agree");
            from_end.iter().map(|stage| last + 1 - stage).collect()
        }),
    ]
}

fn slips_of_refusal() -> Vec<Mutant> {
    vec![
        on_stages_answer("12 for every case", |_| refused(NO_STAGES, 0)),
        mutant("12 before 6", |request| {
            let ample = with_room(request, MAX_STUDENTS);
            match answer(request) {
                right @ Answer::Refused { number: 6, .. } => {
                    let ample = answer(&ample);
                    if ample.is_refused(NO_STAGES) {
                        ample
                    } else {
                        right
                    }
                }
                right => right,
            }
        }),
        mutant("6 before 5", |request| match answer(request) {
            Answer::Refused { number: 5, .. } if request.room < students(request) => refused(6, 0),
            right => right,
        }),
        mutant("6 before 13", |request| match answer(request) {
            Answer::Refused { number: 13, .. } if request.room < students(request) => refused(6, 0),
            right => right,
        }),
        mutant("12 before 13", |request| match answer(request) {
            right @ Answer::Refused { number: 13, .. } => {
                let other = answer(&with_good_lots(request));
                if other.is_refused(NO_STAGES) {
                    return other;
                }
                right
            }
            right => right,
        }),
        mutant("6 before all", |request| {
            if request.room < students(request) {
                return refused(6, 0);
            }
            answer(request)
        }),
        mutant("12 before 5", |request| match answer(request) {
            right @ Answer::Refused { number: 5, .. } => {
                let records: Vec<&[u8]> = request.case.chunks(CASE_RECORD).collect();
                let case = literal::decode_case(&records);
                let room = request.room >= case.students.len();
                if room && least(&case).is_none() {
                    return refused(NO_STAGES, 0);
                }
                right
            }
            right => right,
        }),
        mutant("6 forgotten", |request| {
            match answer(&with_room(request, MAX_STUDENTS)) {
                Answer::Stages(mut stages) => {
                    stages.truncate(request.room);
                    Answer::Stages(stages)
                }
                refused => refused,
            }
        }),
        mutant("6 where the buffer just suffices", |request| {
            match answer(request) {
                Answer::Stages(stages) if stages.len() == request.room => refused(6, 0),
                right => right,
            }
        }),
        mutant("6 where the buffer is longer", |request| {
            match answer(request) {
                Answer::Stages(stages) if stages.len() < request.room => refused(6, 0),
                right => right,
            }
        }),
        mutant("12 with a place", |request| match answer(request) {
            Answer::Refused {
                number: NO_STAGES, ..
            } => refused(NO_STAGES, students(request)),
            right => right,
        }),
        mutant("never 12", |request| match answer(request) {
            Answer::Refused {
                number: NO_STAGES, ..
            } => Answer::Stages(vec![1; students(request)]),
            right => right,
        }),
        mutant("the range of stages not tested", |request| {
            let mut mended = request.clone();
            for record in mended.case.chunks_exact_mut(CASE_RECORD) {
                let stage = u16::from_le_bytes([record[4], record[5]]);
                if record[0] == 1 && !(1..=MAX_STAGE).contains(&stage) {
                    record[4..6].copy_from_slice(&[1, 0]);
                }
            }
            answer(&mended)
        }),
        mutant("12 where the file's stages do not agree", |request| match (
            answer(request),
            literal::read_case(&request.case),
        ) {
            (Answer::Stages(_), Ok(case)) if !case.stages_agree() => refused(NO_STAGES, 0),
            (right, _) => right,
        }),
        mutant(
            "12 only by two students at two workshops",
            |request| match (answer(request), literal::read_case(&request.case)) {
                (right, Ok(case)) if right.is_refused(NO_STAGES) && !two_the_other_way(&case) => {
                    Answer::Stages(vec![1; case.students.len()])
                }
                (right, _) => right,
            },
        ),
    ]
}

fn slips_of_lots_and_fares() -> Vec<Mutant> {
    let slips = SLIPS_OF_LOTS.iter().chain(&SLIPS_OF_FARES);
    let misread = slips.map(|&(name, change)| {
        mutant(name, move |request| {
            let mut request = request.clone();
            change(&mut request.case);
            answer(&request)
        })
    });
    let mut mutants: Vec<Mutant> = misread.collect();
    mutants.extend([
        mutant("13 forgotten", |request| match answer(request) {
            Answer::Refused { number: 13, .. } => answer(&with_good_lots(request)),
            right => right,
        }),
        on_refused("13 before 5", |case, number, place| {
            lots_before(5, case, (number, place))
        }),
        on_refused("13 before 4", |case, number, place| {
            lots_before(4, case, (number, place))
        }),
        on_refused("13 names the earlier student", |case, number, place| {
            (number, earlier_lot(case, number, place))
        }),
        on_refused("13 without its place", |_, number, place| {
            (number, if number == 13 { 0 } else { place })
        }),
        on_refused("5 for 13", |_, number, place| {
            (if number == 13 { 5 } else { number }, place)
        }),
    ]);
    mutants
}

/// The right answer with its refusal changed.
fn on_refused(name: &'static str, change: fn(&[u8], u16, usize) -> (u16, usize)) -> Mutant {
    mutant(name, move |request| match answer(request) {
        Answer::Refused { number, place } => {
            let (number, place) = change(&request.case, number, place);
            refused(number, place)
        }
        right => right,
    })
}

/// The request with numbers for lots.
fn with_good_lots(request: &Request) -> Request {
    let mut request = request.clone();
    number_lots(&mut request.case);
    request
}

/// The least stages if equal groups were free: each student alone must come after all those in
/// better groups.
pub fn equal_groups_ignored(case: &Case) -> Option<Vec<u16>> {
    let mut rows = Vec::new();
    for row in rows_of_groups(case) {
        for two in row.windows(2) {
            for &better in &two[0] {
                rows.extend(two[1].iter().map(|&worse| vec![vec![better], vec![worse]]));
            }
        }
    }
    least_along(case.students.len(), &rows)
}

/// Two workshops put two students the other way round, or one of them makes them equal.
fn two_the_other_way(case: &Case) -> bool {
    let rows = rows_of_groups(case);
    let group = |row: &super::Row, s: usize| row.iter().position(|group| group.contains(&s));
    let n = case.students.len();
    (0..n).any(|a| {
        (0..a).any(|b| {
            let both = rows
                .iter()
                .filter_map(|row| Some(group(row, a)?.cmp(&group(row, b)?)));
            let mut orders: Vec<_> = both.collect();
            orders.dedup();
            orders.len() > 1
        })
    })
}

/// Raises stages from a floor, workshop after workshop, so many passes at most; `None` once a stage
/// has risen by more than there are students.
fn raised(case: &Case, floor: &[u16], passes: usize) -> Option<Vec<u16>> {
    let rows = rows_of_groups(case);
    let most = floor.iter().copied().max().unwrap_or(0) + case.students.len() as u16;
    let mut stages = floor.to_vec();
    let mut moved = true;
    let mut left = passes;
    while moved && left > 0 {
        moved = false;
        left -= 1;
        for row in &rows {
            let mut last = 0;
            for group in row {
                let highest = group.iter().map(|&s| stages[s]).max().unwrap_or(0);
                last = highest.max(last + 1);
                for &s in group {
                    moved |= stages[s] != last;
                    stages[s] = last;
                }
            }
        }
        if stages.iter().any(|&stage| stage > most) {
            return None;
        }
    }
    Some(stages)
}

fn refused(number: u16, place: usize) -> Answer {
    Answer::Refused { number, place }
}

fn with_room(request: &Request, room: usize) -> Request {
    Request {
        room,
        ..request.clone()
    }
}

/// Records of kind 1 at the start.
fn students(request: &Request) -> usize {
    let records = request.case.chunks(CASE_RECORD);
    records.take_while(|record| record[0] == 1).count()
}

fn mutant(name: &'static str, answer: impl Fn(&Request) -> Answer + 'static) -> Mutant {
    Mutant {
        name,
        answer: Box::new(answer),
    }
}

/// The right answer, but for the stages of a good case.
fn on_case(name: &'static str, stages: fn(&Case) -> Option<Vec<u16>>) -> Mutant {
    mutant(name, move |request| match answer(request) {
        Answer::Refused { number, place } if number != NO_STAGES => refused(number, place),
        _ => {
            let case = literal::read_case(&request.case).expect("it was not refused");
            stages(&case).map_or(refused(NO_STAGES, 0), Answer::Stages)
        }
    })
}

/// Workshop, student and pair to the group in which the pair counts.
type Group = fn(&Workshop, &Student, &Pair) -> Option<u16>;

fn on_groups(name: &'static str, group: Group) -> Mutant {
    mutant(name, move |request| match answer(request) {
        Answer::Refused { number, place } if number != NO_STAGES => refused(number, place),
        _ => {
            let case = literal::read_case(&request.case).expect("it was not refused");
            let student = |pair: &Pair| &case.students[usize::from(pair.student) - 1];
            let rows = rows_where(&case, |workshop, pair| group(workshop, student(pair), pair));
            let stages = least_along(case.students.len(), &rows);
            stages.map_or(refused(NO_STAGES, 0), Answer::Stages)
        }
    })
}

/// The right answer with its stages changed.
fn on_stages(name: &'static str, change: fn(&Case, Vec<u16>) -> Vec<u16>) -> Mutant {
    mutant(name, move |request| match answer(request) {
        Answer::Stages(stages) => {
            let case = literal::read_case(&request.case).expect("it was not refused");
            Answer::Stages(change(&case, stages))
        }
        refused => refused,
    })
}

fn on_stages_answer(name: &'static str, change: fn(Vec<u16>) -> Answer) -> Mutant {
    mutant(name, move |request| match answer(request) {
        Answer::Stages(stages) => change(stages),
        refused => refused,
    })
}
