//! All small cases and all short lines.

use super::{item_text, Group, NONE};
use crate::model::*;
use std::cmp::Ordering;
use std::collections::HashMap;

// ---- All lines ----

/// What may stand in the lines that are tried.
pub const ALPHABET: &[u8] = b"12-{},";

/// Every text of these characters with at most so many, the shorter ones first.
pub fn all_texts(alphabet: &[u8], longest: usize) -> Vec<Vec<u8>> {
    let mut texts = vec![Vec::new()];
    let mut start = 0;
    for _ in 0..longest {
        let end = texts.len();
        for at in start..end {
            for &byte in alphabet {
                let mut longer = texts[at].clone();
                longer.push(byte);
                texts.push(longer);
            }
        }
        start = end;
    }
    texts
}

/// What the form makes of items: the wishes by their text, where the text has at most so many
/// characters of the alphabet. Numbers are those with the digits 1 and 2.
pub fn all_of_form(longest: usize) -> HashMap<Vec<u8>, Vec<Group>> {
    let mut items = vec![NONE];
    let mut numbers = vec![0];
    for _ in 0..longest - 2 {
        numbers = numbers
            .iter()
            .flat_map(|n| [10 * n + 1, 10 * n + 2])
            .collect();
        items.extend(&numbers);
    }
    // Every group that is short enough, with its text.
    let mut groups: Vec<(String, Group)> = items.iter().map(|&i| (item_text(i), vec![i])).collect();
    let mut inside = groups.clone();
    while !inside.is_empty() {
        inside = extended(&inside, &items, longest - 2);
        let braced = |(text, group): &(String, Group)| (format!("{{{text}}}"), group.clone());
        groups.extend(inside.iter().map(braced));
    }
    groups.retain(|(text, _)| text.len() <= longest);
    joined(&groups, longest)
}

/// Each list of items with one more item behind a comma, if that is not too long.
fn extended(lists: &[(String, Group)], items: &[u16], longest: usize) -> Vec<(String, Group)> {
    let mut longer = Vec::new();
    for (text, group) in lists {
        for &item in items {
            let text = format!("{text},{}", item_text(item));
            if text.len() <= longest {
                longer.push((text, [&group[..], &[item]].concat()));
            }
        }
    }
    longer
}

/// Every list of groups with none exactly once that is not too long.
fn joined(groups: &[(String, Group)], longest: usize) -> HashMap<Vec<u8>, Vec<Group>> {
    let mut lists: Vec<(String, Vec<Group>)> = groups
        .iter()
        .map(|(text, group)| (text.clone(), vec![group.clone()]))
        .collect();
    let mut all = HashMap::new();
    while !lists.is_empty() {
        let mut longer = Vec::new();
        for (text, list) in lists {
            for (more, group) in groups {
                let text = format!("{text},{more}");
                if text.len() <= longest {
                    longer.push((text, [&list[..], &[group.clone()]].concat()));
                }
            }
            let nones = list.iter().flatten().filter(|&&item| item == NONE);
            if nones.count() == 1 {
                all.insert(text.into_bytes(), list);
            }
        }
        lists = longer;
    }
    all
}

/// Whether these wishes name each of these workshops once and no other.
pub fn names_once(wishes: &[Group], workshops: &[u16]) -> bool {
    let mut named: Vec<u16> = wishes.iter().flatten().copied().collect();
    named.retain(|&item| item != NONE);
    named.sort_unstable();
    named == workshops
}

// ---- All cases ----

/// Every case with so many students and workshops, any pairs, and groups and lines from 1 to `top`.
/// What the lines do not show is the same in all.
pub fn all_cases(students: usize, workshops: usize, top: u16) -> Vec<Case> {
    let of_one = all_of_one(workshops, top);
    let mut cases = vec![Case {
        students: Vec::new(),
        workshops: vec![Workshop { quota: 1, line: 1 }; workshops],
        pairs: Vec::new(),
    }];
    for student in 1..=students as u16 {
        let more = |case: &Case| -> Vec<Case> {
            let add = |wishes: &Vec<u16>| with_student(case, student, wishes);
            of_one.iter().map(add).collect()
        };
        cases = cases.iter().flat_map(more).collect();
    }
    cases
}

/// For one student the line, and the group of each workshop, or 0 without a pair.
fn all_of_one(workshops: usize, top: u16) -> Vec<Vec<u16>> {
    let mut all: Vec<Vec<u16>> = (1..=top).map(|line| vec![line]).collect();
    for _ in 0..workshops {
        let more = |one: &Vec<u16>| -> Vec<Vec<u16>> {
            (0..=top)
                .map(|group| [&one[..], &[group]].concat())
                .collect()
        };
        all = all.iter().flat_map(more).collect();
    }
    all
}

fn with_student(case: &Case, student: u16, wishes: &[u16]) -> Case {
    let mut case = case.clone();
    case.students.push(Student {
        stage: 1,
        line: wishes[0],
        lot: student,
    });
    for (workshop, &group) in (1..).zip(&wishes[1..]) {
        if group > 0 {
            case.pairs.push(Pair {
                student,
                workshop,
                student_group: group,
                workshop_group: 1,
                fare: 0,
            });
        }
    }
    case
}

/// By number the students and pairs, and the order of every student's groups, none included.
pub type Order = (Vec<(u16, u16)>, Vec<Vec<Ordering>>);

pub fn order(case: &Case) -> Order {
    let pairs = case.pairs.iter();
    let names = pairs.map(|pair| (pair.student, pair.workshop)).collect();
    let orders = (0..case.students.len()).map(|s| compared(case, s));
    (names, orders.collect())
}

/// How each two of a student's groups compare, none among them.
fn compared(case: &Case, s: usize) -> Vec<Ordering> {
    let hers = case
        .pairs
        .iter()
        .filter(|p| usize::from(p.student) == s + 1);
    let mut groups: Vec<u16> = hers.map(|pair| pair.student_group).collect();
    groups.push(case.students[s].line);
    let mut all = Vec::new();
    for (at, one) in groups.iter().enumerate() {
        all.extend(groups[at + 1..].iter().map(|other| one.cmp(other)));
    }
    all
}

/// The groups of a student are counted from 1 without gaps.
pub fn without_gaps(case: &Case) -> bool {
    (0..case.students.len()).all(|s| {
        let hers = case
            .pairs
            .iter()
            .filter(|p| usize::from(p.student) == s + 1);
        let mut groups: Vec<u16> = hers.map(|pair| pair.student_group).collect();
        groups.push(case.students[s].line);
        groups.sort_unstable();
        groups.dedup();
        groups.iter().zip(1..).all(|(group, count)| *group == count)
    })
}
