//! The kinds of cases that a part meets: it counts them, and fails where one is missing.

use super::{wishes, Group, NONE};
use crate::model::*;
use crate::tally::{Counts, Tally};

const NAMES: [&str; 18] = [
    "no pairs",
    "all pairs",
    "few pairs",
    "a student without pairs, others with",
    "gaps in a student's groups",
    "none alone",
    "none in braces",
    "none first, others behind",
    "none last",
    "none between others",
    "two groups in braces in one line",
    "all in one group",
    "no braces in a line of four items or more",
    "workshops 9 and 10 in one group",
    "line 65",
    "group 65",
    "students 9 and 10",
    "512 students with 64 workshops",
];

/// Only large cases are of the last kind.
const OF_LARGE: usize = NAMES.len() - 1;

/// How many cases were of each kind.
#[derive(Default)]
pub struct Kinds(Counts<{ NAMES.len() }>);

impl Kinds {
    pub fn count(&mut self, case: &Case) {
        self.0.add(kinds(case));
    }

    /// Tells the counts; every kind that is due must have been met.
    pub fn check(&self, tally: &mut Tally, large: bool) {
        self.0
            .check(tally, "cases with", NAMES, |kind| large || kind != OF_LARGE);
    }
}

fn kinds(case: &Case) -> [bool; NAMES.len()] {
    let (n, m, p) = (case.students.len(), case.workshops.len(), case.pairs.len());
    let lines: Vec<Vec<Group>> = (1..=n as u16).map(|s| wishes(case, s)).collect();
    let any = |holds: &dyn Fn(&[Group]) -> bool| lines.iter().any(|line| holds(line));
    let group = |holds: &dyn Fn(&Group) -> bool| lines.iter().flatten().any(holds);
    let items = |line: &[Group]| line.iter().map(Vec::len).sum::<usize>();
    let none_at = |line: &[Group]| line.iter().position(|group| group[0] == NONE);
    let in_braces = |line: &[Group]| line.iter().filter(|group| group.len() > 1).count();
    [
        p == 0,
        p == n * m,
        p > 0 && 3 * p < n * m,
        p > 0 && any(&|line| items(line) == 1),
        has_gaps(case, &lines),
        group(&|group| group[..] == [NONE]),
        group(&|group| group[0] == NONE && group.len() > 1),
        any(&|line| none_at(line) == Some(0) && line.len() > 1),
        any(&|line| none_at(line) == Some(line.len() - 1) && line.len() > 1),
        any(&|line| (1..line.len() - 1).any(|at| none_at(line) == Some(at))),
        any(&|line| in_braces(line) > 1),
        any(&|line| line.len() == 1 && line[0].len() > 2),
        any(&|line| in_braces(line) == 0 && line.len() > 3),
        group(&|group| group.contains(&9) && group.contains(&10)),
        case.students.iter().any(|student| student.line == 65),
        case.pairs.iter().any(|pair| pair.student_group == 65),
        n >= 10,
        (n, m) == (MAX_STUDENTS, MAX_WORKSHOPS),
    ]
}

/// A group number is higher than the count of groups up to it.
fn has_gaps(case: &Case, lines: &[Vec<Group>]) -> bool {
    let count = |student: usize| lines[student].len();
    let students = case.students.iter().enumerate();
    let pairs = case.pairs.iter();
    let mut groups = students
        .map(|(s, student)| (s, student.line))
        .chain(pairs.map(|pair| (usize::from(pair.student) - 1, pair.student_group)));
    groups.any(|(s, group)| usize::from(group) > count(s))
}
