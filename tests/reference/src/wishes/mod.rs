//! Paper 6's two parts: a case written as wish lines, and wish lines read into a copy of the case.
//!
//! The text is cut at its line feeds, a line at the commas outside of braces, and a group at the
//! commas inside. Numbers stay digits: two numbers are equal when their digits are.

pub mod brute;
pub mod causes;
pub mod fast;
pub mod gen;
pub mod kinds;
pub mod lending;
pub mod mutants;
pub mod rows;
pub mod tests;

use crate::literal::{self, Refusal};
use crate::model::*;
use crate::stages::Report;
use std::collections::{BTreeMap, BTreeSet};
use std::fmt::Write;

/// A line departs from the form.
pub const FORM: u16 = 14;
/// A workshop is named twice, is missing, or has no pair.
pub const NAMES: u16 = 15;

/// Stands among the numbers of workshops, as an item, for none.
pub const NONE: u16 = 0;

/// Everything one call gets.
#[derive(Clone, Debug)]
pub struct Request {
    pub case: Vec<u8>,
    pub task: Task,
    /// Bytes of the lent buffer.
    pub room: usize,
}

#[derive(Clone, Debug)]
pub enum Task {
    /// The case becomes lines.
    Write,
    /// These lines are read into a copy of the case.
    Read(Vec<u8>),
}

/// The answer, with what it leaves in the head of the buffer.
#[derive(Clone, Debug, PartialEq, Eq)]
pub enum Answer {
    Done(Vec<u8>),
    Refused { number: u16, place: usize },
}

impl Answer {
    pub fn report(&self) -> Report {
        match *self {
            Answer::Done(ref bytes) => Report::done(bytes.len()),
            Answer::Refused { number, place } => Report::refused(number, place),
        }
    }

    /// What stands in the head of the buffer; a refusal puts nothing there.
    pub fn written(&self) -> &[u8] {
        match self {
            Answer::Done(bytes) => bytes,
            Answer::Refused { .. } => &[],
        }
    }

    pub fn is_refused(&self, cause: u16) -> bool {
        matches!(*self, Answer::Refused { number, .. } if number == cause)
    }
}

/// Room for the text of so many students and pairs.
pub fn room_for_text(students: usize, pairs: usize) -> usize {
    8 * students + 4 * pairs
}

impl Request {
    /// To write a case, with a buffer that just suffices.
    pub fn write(case: &Case) -> Request {
        Request {
            case: case.to_bytes(),
            task: Task::Write,
            room: room_for_text(case.students.len(), case.pairs.len()),
        }
    }

    /// To read a text into a copy of a case, with a buffer that just suffices.
    pub fn read(case: &Case, text: &[u8]) -> Request {
        let case = case.to_bytes();
        Request {
            room: case.len(),
            case,
            task: Task::Read(text.to_vec()),
        }
    }

    /// The text to read; nothing where the case is to be written.
    pub fn text(&self) -> &[u8] {
        match &self.task {
            Task::Write => &[],
            Task::Read(text) => text,
        }
    }

    pub fn writes(&self) -> bool {
        matches!(self.task, Task::Write)
    }

    /// The request for a failure report.
    pub fn describe(&self) -> String {
        const SHOWN: usize = 40;
        let mut told = match &self.task {
            Task::Write => format!("write, room for {}\n", self.room),
            Task::Read(text) => {
                let shown = &text[..text.len().min(1000)];
                format!("read {}, room for {}\n", shown.escape_ascii(), self.room)
            }
        };
        for record in self.case.chunks(CASE_RECORD).take(SHOWN) {
            let _ = writeln!(told, "  case {record:02x?}");
        }
        told
    }
}

/// Causes 1 to 5, 13, 6, and of a text 14 and 15.
pub fn answer(request: &Request) -> Answer {
    let done = match &request.task {
        Task::Write => text_of(&request.case, request.room),
        Task::Read(text) => copy_of(&request.case, text, request.room),
    };
    match done {
        Ok(bytes) => Answer::Done(bytes),
        Err(Refusal { number, place }) => Answer::Refused { number, place },
    }
}

fn refuse<T>(number: u16, place: usize) -> Result<T, Refusal> {
    Err(Refusal { number, place })
}

// ---- Writing ----

fn text_of(case: &[u8], room: usize) -> Result<Vec<u8>, Refusal> {
    let case = literal::read_case(case)?;
    if room < room_for_text(case.students.len(), case.pairs.len()) {
        return refuse(6, 0);
    }
    Ok(lines(&case).concat().into_bytes())
}

/// The line of each student, with its line feed.
pub fn lines(case: &Case) -> Vec<String> {
    let numbers = 1..=case.students.len() as u16;
    numbers
        .map(|student| line(student, &wishes(case, student)))
        .collect()
}

/// A group of a student: numbers of workshops, and `NONE`.
pub type Group = Vec<u16>;

/// A student's groups, best first, the items of each rising.
pub fn wishes(case: &Case, student: u16) -> Vec<Group> {
    let mut groups = BTreeMap::<u16, Group>::new();
    let line = case.students[usize::from(student) - 1].line;
    groups.entry(line).or_default().push(NONE);
    for pair in case.pairs.iter().filter(|pair| pair.student == student) {
        let group = groups.entry(pair.student_group).or_default();
        group.push(pair.workshop);
    }
    groups
        .into_values()
        .map(|mut group| {
            group.sort_unstable();
            group
        })
        .collect()
}

/// A line with its line feed, the items in the order in which they are given.
pub fn line(student: u16, wishes: &[Group]) -> String {
    let groups: Vec<String> = wishes.iter().map(|group| group_text(group)).collect();
    format!("{student}: {}\n", groups.join(","))
}

fn group_text(group: &[u16]) -> String {
    let items: Vec<String> = group.iter().map(|&item| item_text(item)).collect();
    match &items[..] {
        [alone] => alone.clone(),
        several => format!("{{{}}}", several.join(",")),
    }
}

pub fn item_text(item: u16) -> String {
    match item {
        NONE => "-".to_string(),
        workshop => workshop.to_string(),
    }
}

// ---- Reading ----

fn copy_of(case_bytes: &[u8], text: &[u8], room: usize) -> Result<Vec<u8>, Refusal> {
    let case = literal::read_case(case_bytes)?;
    if room < case_bytes.len() {
        return refuse(6, 0);
    }
    let mut rest = text;
    let mut all = Vec::new();
    for place in 0..case.students.len() {
        let student = place as u16 + 1;
        let Some((line, behind)) = cut_line(rest) else {
            return refuse(FORM, place);
        };
        let Some(named) = named_in(line, student) else {
            return refuse(FORM, place);
        };
        if misnames(&case, student, &named) {
            return refuse(NAMES, place);
        }
        all.push(named);
        rest = behind;
    }
    if !rest.is_empty() {
        return refuse(FORM, case.students.len());
    }
    Ok(with_groups(case_bytes, &all))
}

/// An item of a line: `None`, or a workshop by its digits.
pub type Item<'a> = Option<&'a [u8]>;

/// The groups of a line, best first.
pub type Named<'a> = Vec<Vec<Item<'a>>>;

/// The text up to its first line feed, and what is behind that.
pub fn cut_line(text: &[u8]) -> Option<(&[u8], &[u8])> {
    let end = text.iter().position(|&byte| byte == b'\n')?;
    Some((&text[..end], &text[end + 1..]))
}

/// What a student's line says; `None` if it departs from the form.
pub fn named_in(line: &[u8], student: u16) -> Option<Named<'_>> {
    let number = student.to_string();
    let behind = line.strip_prefix(number.as_bytes())?;
    let groups = behind.strip_prefix(b": ")?;
    let named: Named = cut_outside_braces(groups)
        .into_iter()
        .map(group_in)
        .collect::<Option<_>>()?;
    let nones = named.iter().flatten().filter(|item| item.is_none());
    (nones.count() == 1).then_some(named)
}

/// The pieces between the commas that are not between an opening and the next closing brace.
fn cut_outside_braces(text: &[u8]) -> Vec<&[u8]> {
    let mut inside = false;
    let pieces = text.split(|&byte| {
        match byte {
            b'{' => inside = true,
            b'}' => inside = false,
            _ => (),
        }
        byte == b',' && !inside
    });
    pieces.collect()
}

/// One item, or two or more in braces.
fn group_in(piece: &[u8]) -> Option<Vec<Item<'_>>> {
    let Some(opened) = piece.strip_prefix(b"{") else {
        return Some(vec![item_in(piece)?]);
    };
    let items = opened.strip_suffix(b"}")?;
    let items: Vec<Item> = items
        .split(|&byte| byte == b',')
        .map(item_in)
        .collect::<Option<_>>()?;
    (items.len() >= 2).then_some(items)
}

/// `-`, or a number that begins with 1 to 9.
fn item_in(text: &[u8]) -> Option<Item<'_>> {
    match text {
        b"-" => Some(None),
        [b'1'..=b'9', others @ ..] if others.iter().all(u8::is_ascii_digit) => Some(Some(text)),
        _ => None,
    }
}

/// Cause 15: a workshop is named twice, is missing, or has no pair with the student.
pub fn misnames(case: &Case, student: u16, named: &Named) -> bool {
    let hers = case.pairs.iter().filter(|pair| pair.student == student);
    let hers: Vec<String> = hers.map(|pair| pair.workshop.to_string()).collect();
    let hers: BTreeSet<&[u8]> = hers.iter().map(|digits| digits.as_bytes()).collect();
    let mut seen = BTreeSet::new();
    let twice = named.iter().flatten().flatten().any(|w| !seen.insert(*w));
    let missing = hers.iter().any(|workshop| !seen.contains(workshop));
    let no_pair = seen.iter().any(|workshop| !hers.contains(workshop));
    twice || missing || no_pair
}

/// The case with the groups of these lines, counted from 1.
fn with_groups(case: &[u8], lines: &[Named]) -> Vec<u8> {
    let mut copy = case.to_vec();
    for record in copy.chunks_exact_mut(CASE_RECORD) {
        let field = |at: usize| u16::from_le_bytes([record[at], record[at + 1]]);
        let workshop = field(4).to_string();
        let item = match record[0] {
            1 => None,
            3 => Some(workshop.as_bytes()),
            _ => continue,
        };
        let named = &lines[usize::from(field(2)) - 1];
        let group = named.iter().position(|group| group.contains(&item));
        let group = group.expect("everything is named") as u16 + 1;
        record[6..8].copy_from_slice(&group.to_le_bytes());
    }
    copy
}
