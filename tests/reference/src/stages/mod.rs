//! Paper 2's part: for each student the least stage that agrees with every workshop's groups.
//!
//! Students whom a workshop puts into one group are joined into a class, since they need one stage.
//! A workshop's groups, best first, are then a row of classes in which each must come before the
//! next. The stage of a class is the number of classes on the longest way that ends at it; where a
//! way comes back to its start, no stages agree.

pub mod brute;
pub mod fast;
pub mod gen;
pub mod kinds;
pub mod lending;
pub mod mutants;
pub mod rows;
pub mod tests;

use crate::literal::{self, Refusal};
use crate::model::*;
use std::collections::BTreeMap;
use std::fmt::Write;

/// No stage numbers agree.
pub const NO_STAGES: u16 = 12;

/// Everything one call gets.
#[derive(Clone, Debug)]
pub struct Request {
    pub case: Vec<u8>,
    /// Entries of the stages buffer.
    pub room: usize,
}

/// The answer, with what it leaves in the stages buffer.
#[derive(Clone, Debug, PartialEq, Eq)]
pub enum Answer {
    Stages(Vec<u16>),
    Refused { number: u16, place: usize },
}

/// The answer as a call returns it.
#[repr(C)]
#[derive(Clone, Copy, Debug, PartialEq, Eq)]
pub struct Report {
    pub kind: u64,
    pub first: u64,
    pub second: u64,
}

impl Report {
    pub fn done(students: usize) -> Report {
        Report {
            kind: 0,
            first: students as u64,
            second: 0,
        }
    }

    pub fn refused(number: u16, place: usize) -> Report {
        Report {
            kind: 2,
            first: u64::from(number),
            second: place as u64,
        }
    }
}

impl Answer {
    pub fn report(&self) -> Report {
        match *self {
            Answer::Stages(ref stages) => Report::done(stages.len()),
            Answer::Refused { number, place } => Report::refused(number, place),
        }
    }

    /// What stands in the head of the buffer; a refusal puts nothing there.
    pub fn written(&self) -> &[u16] {
        match self {
            Answer::Stages(stages) => stages,
            Answer::Refused { .. } => &[],
        }
    }

    pub fn is_refused(&self, cause: u16) -> bool {
        matches!(*self, Answer::Refused { number, .. } if number == cause)
    }
}

impl Request {
    /// A case with a buffer that just suffices.
    pub fn of(case: &Case) -> Request {
        Request {
            case: case.to_bytes(),
            room: case.students.len(),
        }
    }

    /// The case as bytes, for a failure report.
    pub fn describe(&self) -> String {
        const SHOWN: usize = 80;
        let mut text = format!("room for {}\n", self.room);
        for record in self.case.chunks(CASE_RECORD).take(SHOWN) {
            let _ = writeln!(text, "  case {record:02x?}");
        }
        text
    }
}

/// Causes 1 to 5, 13, 6 and 12, in this order.
pub fn answer(request: &Request) -> Answer {
    match stages(request) {
        Ok(stages) => Answer::Stages(stages),
        Err(Refusal { number, place }) => Answer::Refused { number, place },
    }
}

fn stages(request: &Request) -> Result<Vec<u16>, Refusal> {
    let refuse = |number| Refusal { number, place: 0 };
    let case = literal::read_case(&request.case)?;
    if request.room < case.students.len() {
        return Err(refuse(6));
    }
    least(&case).ok_or(refuse(NO_STAGES))
}

/// The least stages; `None` if none agree.
pub fn least(case: &Case) -> Option<Vec<u16>> {
    least_along(case.students.len(), &rows_of_groups(case))
}

/// A workshop's groups, best first, each with its students, counted from 0.
pub type Row = Vec<Vec<usize>>;

/// The rows of the workshops with quota above 0, without students beyond the line group.
pub fn rows_of_groups(case: &Case) -> Vec<Row> {
    rows_where(case, |workshop, pair| {
        (workshop.quota > 0 && pair.workshop_group <= workshop.line).then_some(pair.workshop_group)
    })
}

/// The rows if `group` says in which group a pair counts, if it does.
pub fn rows_where(case: &Case, group: impl Fn(&Workshop, &Pair) -> Option<u16>) -> Vec<Row> {
    let mut rows = vec![BTreeMap::<u16, Vec<usize>>::new(); case.workshops.len()];
    for pair in &case.pairs {
        let w = usize::from(pair.workshop) - 1;
        if let Some(group) = group(&case.workshops[w], pair) {
            let students = rows[w].entry(group).or_default();
            students.push(usize::from(pair.student) - 1);
        }
    }
    rows.into_iter()
        .map(|row| row.into_values().collect())
        .collect()
}

/// The least stages of so many students along these rows.
pub fn least_along(students: usize, rows: &[Row]) -> Option<Vec<u16>> {
    let mut classes = Classes::new(students);
    for group in rows.iter().flatten() {
        for &student in &group[1..] {
            classes.join(group[0], student);
        }
    }
    let mut before = vec![Vec::new(); students];
    for row in rows {
        for two in row.windows(2) {
            let (better, worse) = (classes.of(two[0][0]), classes.of(two[1][0]));
            before[worse].push(better);
        }
    }
    let mut ways = Ways {
        before: &before,
        known: vec![Way::Unknown; students],
    };
    (0..students)
        .map(|student| ways.longest(classes.of(student)))
        .collect()
}

/// Disjoint classes of students; each class goes by the number of one of its students.
struct Classes {
    parent: Vec<usize>,
}

impl Classes {
    fn new(students: usize) -> Classes {
        Classes {
            parent: (0..students).collect(),
        }
    }

    fn of(&mut self, student: usize) -> usize {
        let mut class = student;
        while self.parent[class] != class {
            class = self.parent[class];
        }
        self.parent[student] = class;
        class
    }

    fn join(&mut self, one: usize, other: usize) {
        let (one, other) = (self.of(one), self.of(other));
        self.parent[other] = one;
    }
}

#[derive(Clone, Copy)]
enum Way {
    Unknown,
    /// Asked for, and not yet found: who asks again stands on a way that comes back.
    Asked,
    Longest(u16),
}

struct Ways<'a> {
    /// By class: those that must come before it.
    before: &'a [Vec<usize>],
    known: Vec<Way>,
}

impl Ways<'_> {
    /// How many classes are on the longest way that ends here; `None` if a way comes back.
    fn longest(&mut self, class: usize) -> Option<u16> {
        match self.known[class] {
            Way::Longest(count) => return Some(count),
            Way::Asked => return None,
            Way::Unknown => self.known[class] = Way::Asked,
        }
        let mut longest = 0;
        for &better in &self.before[class] {
            longest = longest.max(self.longest(better)?);
        }
        self.known[class] = Way::Longest(longest + 1);
        Some(longest + 1)
    }
}
