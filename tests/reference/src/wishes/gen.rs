//! Cases for the wish lines, wishes that fit them, texts, and damage of single characters.

use super::{line, Group, Request, Task, NONE};
use crate::gen::{self, Rng, Shape};
use crate::model::*;
use crate::stages;

/// Up to 12 students and 12 workshops, now and then 64, groups with gaps, pairs from none to all.
pub fn small(rng: &mut Rng) -> Case {
    let few = rng.pick(&[1, 2, 3, 4, 6, 9, 10, 12]);
    let shape = Shape {
        students: rng.pick(&[1, 1, 2, 2, 3, 4, 5, 12]),
        workshops: if rng.chance(3) { MAX_WORKSHOPS } else { few },
        student_groups: rng.pick(&[1, 2, 3, 5, 8, 13]),
        workshop_groups: rng.range(1, 3),
        pairs: rng.pick(&[0, 15, 30, 70, 100, 100]),
        uneven: rng.pick(&[0, 0, 30]),
        agreeing: false,
        ..Shape::small(rng)
    };
    gen::case(rng, &shape)
}

/// What a large case has.
#[derive(Clone, Copy)]
pub struct Large {
    pub students: usize,
    pub workshops: usize,
    /// Of a hundred possible ones.
    pub pairs: usize,
    /// How many groups a student may use.
    pub groups: usize,
    /// How many students have all pairs, or none, instead, in percent.
    pub uneven: usize,
}

/// The largest, with all pairs.
pub const LARGEST: Large = Large {
    students: MAX_STUDENTS,
    workshops: MAX_WORKSHOPS,
    pairs: 100,
    groups: MAX_STUDENT_GROUP as usize,
    uneven: 0,
};

pub fn large(rng: &mut Rng, large: Large) -> Case {
    let shape = Shape {
        students: large.students,
        workshops: large.workshops,
        student_groups: large.groups,
        workshop_groups: rng.range(1, 8),
        pairs: large.pairs,
        uneven: large.uneven,
        agreeing: false,
        ..Shape::small(rng)
    };
    gen::case(rng, &shape)
}

/// By student: the workshops she has a pair with.
pub fn workshops_of(case: &Case) -> Vec<Vec<u16>> {
    let mut all = vec![Vec::new(); case.students.len()];
    for pair in &case.pairs {
        all[usize::from(pair.student) - 1].push(pair.workshop);
    }
    all
}

/// Any wishes for each student that name what has to be named, items of a group in any order.
pub fn any_wishes(rng: &mut Rng, case: &Case) -> Vec<Vec<Group>> {
    let joined = rng.pick(&[0, 30, 60, 90, 100]);
    wishes_joined(rng, case, joined)
}

/// The same, where so many of a hundred items are in the group of the item before.
pub fn wishes_joined(rng: &mut Rng, case: &Case, joined: usize) -> Vec<Vec<Group>> {
    let of_one = |mut items: Vec<u16>| {
        items.push(NONE);
        rng.shuffle(&mut items);
        let mut groups = Vec::<Group>::new();
        for item in items {
            match groups.last_mut() {
                Some(last) if rng.chance(joined) => last.push(item),
                _ => groups.push(vec![item]),
            }
        }
        groups
    };
    workshops_of(case).into_iter().map(of_one).collect()
}

/// The lines of these wishes.
pub fn text(wishes: &[Vec<Group>]) -> Vec<u8> {
    let lines = wishes.iter().zip(1..);
    let lines: Vec<String> = lines
        .map(|(wishes, student)| line(student, wishes))
        .collect();
    lines.concat().into_bytes()
}

/// The case with these wishes, groups counted from 1.
pub fn with_wishes(case: &Case, wishes: &[Vec<Group>]) -> Case {
    let group_of = |student: usize, item: u16| {
        let groups = (1..).zip(&wishes[student]);
        let mut found = groups.filter(|(_, group)| group.contains(&item));
        found.next().expect("everything is named").0
    };
    let mut case = case.clone();
    for (index, student) in case.students.iter_mut().enumerate() {
        student.line = group_of(index, NONE);
    }
    for pair in &mut case.pairs {
        pair.student_group = group_of(usize::from(pair.student) - 1, pair.workshop);
    }
    case
}

/// The items of every group in another order.
pub fn shuffled(rng: &mut Rng, wishes: &[Vec<Group>]) -> Vec<Vec<Group>> {
    let mut wishes = wishes.to_vec();
    for group in wishes.iter_mut().flatten() {
        rng.shuffle(group);
    }
    wishes
}

/// Everything in the case changed that lines do not show: stages, lots, fares, quotas, what
/// workshops say, and workshops that have no pair.
pub fn other_unused(rng: &mut Rng, case: &Case) -> Case {
    let mut other = stages::gen::other_unused(rng, case);
    let last = other.pairs.iter().map(|pair| pair.workshop).max();
    let fewest = usize::from(last.unwrap_or(1));
    let workshop = Workshop { quota: 1, line: 1 };
    let count = rng.range(fewest, MAX_WORKSHOPS);
    other.workshops.resize(count, workshop);
    for workshop in &mut other.workshops {
        workshop.quota = rng.below(usize::from(MAX_QUOTA) + 1) as u16;
        workshop.line = rng.range(1, usize::from(MAX_WORKSHOP_GROUP)) as u16;
    }
    for pair in &mut other.pairs {
        pair.workshop_group = rng.range(1, usize::from(MAX_WORKSHOP_GROUP)) as u16;
    }
    other
}

/// Other group numbers in the same order, with other gaps.
pub fn other_gaps(rng: &mut Rng, case: &Case) -> Case {
    let mut other = case.clone();
    for (index, student) in other.students.iter_mut().enumerate() {
        let number = index as u16 + 1;
        let mut hers: Vec<&mut u16> = other
            .pairs
            .iter_mut()
            .filter(|pair| pair.student == number)
            .map(|pair| &mut pair.student_group)
            .collect();
        hers.push(&mut student.line);
        let mut used: Vec<u16> = hers.iter().map(|group| **group).collect();
        used.sort_unstable();
        used.dedup();
        let mut numbers: Vec<u16> = (1..=MAX_STUDENT_GROUP).collect();
        while numbers.len() > used.len() {
            numbers.remove(rng.below(numbers.len()));
        }
        for group in hers {
            let at = used.binary_search(group).expect("it is in use");
            *group = numbers[at];
        }
    }
    other
}

/// Characters that a line has, and some that it may not have.
pub const CHARACTERS: &[u8] = b"0123456789{},-: \n\r\t+;.x\0\x0b/[]|\x7f\x80\xad\xff";

/// Changes, adds, takes away or repeats one character, or swaps it with one before it; or a line gets
/// a carriage return.
fn damage_once(rng: &mut Rng, text: &mut Vec<u8>) {
    let other = match rng.chance(80) {
        true => rng.pick(&CHARACTERS[..18]),
        false => rng.pick(CHARACTERS),
    };
    let at = rng.below(text.len() + 1);
    if at == text.len() {
        match rng.chance(50) {
            true => text.push(other),
            false => drop(text.pop()),
        }
        return;
    }
    match rng.below(9) {
        0 | 1 => text[at] = other,
        2 => text.insert(at, other),
        3 => drop(text.remove(at)),
        4 => text.insert(at, text[at]),
        5..8 => text.swap(at.saturating_sub(rng.pick(&[1, 2, 2])), at),
        _ => {
            let ends = text.iter().enumerate().filter(|(_, byte)| **byte == b'\n');
            let ends: Vec<usize> = ends.map(|(end, _)| end).collect();
            if !ends.is_empty() {
                text.insert(rng.pick(&ends), b'\r');
            }
        }
    }
}

/// One to three characters damaged.
pub fn damage(rng: &mut Rng, text: &mut Vec<u8>) {
    for _ in 0..rng.pick(&[1, 1, 1, 2, 3]) {
        damage_once(rng, text);
    }
}

/// Lengths of a buffer that needs this one: exact, short, none, longer.
pub fn room(rng: &mut Rng, needed: usize) -> usize {
    match rng.below(8) {
        0 => needed.saturating_sub(1),
        1 => rng.below(needed + 1),
        2 => rng.pick(&[0, needed.saturating_sub(4), needed.saturating_sub(8)]),
        3 => needed + 1,
        4 => needed + rng.range(2, 40),
        _ => needed,
    }
}

/// A case with up to three damages, to be written or with a text that it might have had, and a
/// buffer of any length.
pub fn damaged_case(rng: &mut Rng) -> Request {
    let case = gen::damaged_input(rng).case;
    let of_kind = |kind: u8| {
        let records = case.chunks_exact(CASE_RECORD);
        records.filter(|record| record[0] == kind).count()
    };
    let students = of_kind(1);
    if rng.chance(40) {
        return Request {
            room: room(rng, super::room_for_text(students, of_kind(3))),
            case,
            task: Task::Write,
        };
    }
    let mut text: Vec<u8> = (1..=students)
        .flat_map(|student| format!("{student}: -\n").into_bytes())
        .collect();
    if rng.chance(50) {
        damage(rng, &mut text);
    }
    Request {
        room: room(rng, case.len()),
        case,
        task: Task::Read(text),
    }
}

/// A case with one damage of this cause, 1 to 5 or 13.
pub fn with_cause(rng: &mut Rng, case: &Case, cause: u16) -> Vec<u8> {
    stages::gen::with_cause(rng, case, cause)
}
