//! The same job done fast, from the bytes; the benchmark's opponent.
//!
//! One pass over the case tests it. To write, a second pass puts the workshops of one student into a
//! set of 64 bits for each group and takes them out in order. To read, one pass over the text notes
//! the group of each workshop in a table, and one over the copy puts the groups in. The time grows
//! with the case and the text.

use super::{room_for_text, Answer, Request, Task, FORM, NAMES};
use crate::fast::{case_refusal, CaseFields, Lots};
use crate::model::*;
use crate::stages::Report;

type Records = [[u8; CASE_RECORD]];

const GROUPS: usize = MAX_STUDENT_GROUP as usize + 1;

/// Tables that are kept from call to call, so that their memory is reused.
pub struct Fast {
    /// By student: the workshops she has a pair with.
    hers: [u64; MAX_STUDENTS],
    /// By student, then workshop: the group that her line gives it.
    groups: Vec<[u8; MAX_WORKSHOPS]>,
    /// By student: the group that her line gives to none.
    lines: [u8; MAX_STUDENTS],
}

impl Default for Fast {
    fn default() -> Fast {
        Fast {
            hers: [0; MAX_STUDENTS],
            groups: vec![[0; MAX_WORKSHOPS]; MAX_STUDENTS],
            lines: [0; MAX_STUDENTS],
        }
    }
}

/// What a good case has.
struct Counts {
    students: usize,
    workshops: usize,
    pairs: usize,
}

impl Fast {
    /// Makes a call with a buffer of its own and collects what it holds afterwards.
    pub fn answer(&mut self, request: &Request) -> Answer {
        let mut buffer = vec![0; request.room];
        let report = match &request.task {
            Task::Write => self.write(&request.case, &mut buffer),
            Task::Read(text) => self.read(&request.case, text, &mut buffer),
        };
        if report.kind == 0 {
            buffer.truncate(report.first as usize);
            return Answer::Done(buffer);
        }
        Answer::Refused {
            number: report.first as u16,
            place: report.second as usize,
        }
    }

    /// One call that writes the case as lines.
    pub fn write(&mut self, case: &[u8], text: &mut [u8]) -> Report {
        let (records, []) = case.as_chunks() else {
            return Report::refused(1, 0);
        };
        let Some(counts) = self.test(records) else {
            let (number, place) = case_refusal(records);
            return Report::refused(number, place);
        };
        if text.len() < room_for_text(counts.students, counts.pairs) {
            return Report::refused(6, 0);
        }
        Report::done(write_lines(records, &counts, text))
    }

    /// One call that reads lines into a copy of the case.
    pub fn read(&mut self, case: &[u8], text: &[u8], copy: &mut [u8]) -> Report {
        let (records, []) = case.as_chunks() else {
            return Report::refused(1, 0);
        };
        let Some(counts) = self.test(records) else {
            let (number, place) = case_refusal(records);
            return Report::refused(number, place);
        };
        let Some(copy) = copy.get_mut(..case.len()) else {
            return Report::refused(6, 0);
        };
        if let Some((number, place)) = self.refusal_of(text, counts.students) {
            return Report::refused(number, place);
        }
        copy.copy_from_slice(case);
        self.put_groups(copy, &counts);
        Report::done(case.len())
    }

    /// The counts, or `None` if anything is wrong with the case.
    fn test(&mut self, records: &Records) -> Option<Counts> {
        let students = self.test_students(records)?;
        let records = &records[students..];
        let workshops = test_workshops(records)?;
        let pairs = &records[workshops..];
        let mut last = 0;
        for record in pairs {
            let (key, s, w) = CaseFields::of(record).pair_after(last, students, workshops)?;
            last = key;
            self.hers[s] |= 1 << w;
        }
        Some(Counts {
            students,
            workshops,
            pairs: pairs.len(),
        })
    }

    fn test_students(&mut self, records: &Records) -> Option<usize> {
        let mut lots = Lots::default();
        for (index, record) in records.iter().enumerate() {
            let fields = CaseFields::of(record);
            if fields.kind() != 1 {
                return (index > 0).then_some(index);
            }
            let [number, _, _, lot] = fields.all();
            let good = fields.well_formed() && fields.in_range() && lots.take(lot);
            if index == MAX_STUDENTS || !good || usize::from(number) != index + 1 {
                return None;
            }
            self.hers[index] = 0;
        }
        None
    }

    /// The first line that departs or misnames, or what is left over.
    fn refusal_of(&mut self, text: &[u8], students: usize) -> Option<(u16, usize)> {
        let mut rest = text;
        for s in 0..students {
            let line = Line {
                rest,
                hers: self.hers[s],
                named: 0,
                good_names: true,
                nones: 0,
                groups: &mut self.groups[s],
                none_at: &mut self.lines[s],
            };
            match line.read(s as u16 + 1) {
                None => return Some((FORM, s)),
                Some((_, false)) => return Some((NAMES, s)),
                Some((behind, true)) => rest = behind,
            }
        }
        (!rest.is_empty()).then_some((FORM, students))
    }

    fn put_groups(&self, copy: &mut [u8], counts: &Counts) {
        let (records, _) = copy.as_chunks_mut::<CASE_RECORD>();
        let (students, others) = records.split_at_mut(counts.students);
        for (record, &group) in students.iter_mut().zip(&self.lines) {
            record[6..8].copy_from_slice(&[group, 0]);
        }
        for record in &mut others[counts.workshops..] {
            let [student, workshop, ..] = CaseFields::of(record).all();
            let of_student = &self.groups[usize::from(student) - 1];
            record[6..8].copy_from_slice(&[of_student[usize::from(workshop) - 1], 0]);
        }
    }
}

fn test_workshops(records: &Records) -> Option<usize> {
    let mut count = 0;
    for record in records {
        let fields = CaseFields::of(record);
        if fields.kind() != 2 {
            break;
        }
        let good = fields.well_formed() && fields.in_range();
        if count == MAX_WORKSHOPS || !good || usize::from(fields.all()[0]) != count + 1 {
            return None;
        }
        count += 1;
    }
    (count > 0).then_some(count)
}

// ---- Reading ----

/// A line that is being read.
struct Line<'t, 'f> {
    rest: &'t [u8],
    /// The workshops that it has to name.
    hers: u64,
    named: u64,
    /// No name so far was wrong.
    good_names: bool,
    nones: usize,
    groups: &'f mut [u8; MAX_WORKSHOPS],
    none_at: &'f mut u8,
}

impl<'t> Line<'t, '_> {
    /// What is behind the line, and whether it names each of hers once and no other; `None` if it
    /// departs from the form.
    fn read(mut self, student: u16) -> Option<(&'t [u8], bool)> {
        self.head(student)?;
        let mut group = 1;
        loop {
            self.group(group)?;
            match self.next()? {
                b',' => group += 1,
                b'\n' => break,
                _ => return None,
            }
        }
        let right = self.good_names && self.named == self.hers;
        (self.nones == 1).then_some((self.rest, right))
    }

    fn next(&mut self) -> Option<u8> {
        let (&byte, rest) = self.rest.split_first()?;
        self.rest = rest;
        Some(byte)
    }

    fn head(&mut self, student: u16) -> Option<()> {
        let mut digits = [0; 5];
        let length = put_number(&mut digits, 0, student);
        let rest = self.rest.strip_prefix(&digits[..length])?;
        self.rest = rest.strip_prefix(b": ")?;
        Some(())
    }

    fn group(&mut self, group: usize) -> Option<()> {
        let first = self.next()?;
        if first != b'{' {
            return self.item(first, group);
        }
        let first = self.next()?;
        self.item(first, group)?;
        let mut more = false;
        loop {
            match self.next()? {
                b',' => more = true,
                b'}' if more => return Some(()),
                _ => return None,
            }
            let first = self.next()?;
            self.item(first, group)?;
        }
    }

    /// An item that starts with this byte.
    fn item(&mut self, first: u8, group: usize) -> Option<()> {
        if first == b'-' {
            self.nones += 1;
            *self.none_at = group as u8;
            return Some(());
        }
        if !(b'1'..=b'9').contains(&first) {
            return None;
        }
        let mut number = usize::from(first - b'0');
        while let [digit @ b'0'..=b'9', rest @ ..] = self.rest {
            // A number that is too high stays so.
            number = (number * 10 + usize::from(digit - b'0')).min(1000);
            self.rest = rest;
        }
        let w = number - 1;
        let bit = if w < MAX_WORKSHOPS { 1 << w } else { 0 };
        self.good_names &= self.hers & !self.named & bit != 0;
        self.named |= bit;
        if w < MAX_WORKSHOPS {
            self.groups[w] = group as u8;
        }
        Some(())
    }
}

// ---- Writing ----

fn write_lines(records: &Records, counts: &Counts, text: &mut [u8]) -> usize {
    let (students, others) = records.split_at(counts.students);
    let mut pairs = others[counts.workshops..].iter().peekable();
    let mut members = [0u64; GROUPS];
    let mut at = 0;
    for record in students {
        let [student, _, line, _] = CaseFields::of(record).all();
        let mut used = 1u128 << line;
        while let Some(record) = pairs.peek() {
            let [owner, workshop, group, _] = CaseFields::of(record).all();
            if owner != student {
                break;
            }
            members[usize::from(group)] |= 1 << (workshop - 1);
            used |= 1 << group;
            pairs.next();
        }
        at = put_number(text, at, student);
        at = put(text, at, b": ");
        while used != 0 {
            let group = used.trailing_zeros() as usize;
            used &= used - 1;
            let workshops = std::mem::take(&mut members[group]);
            at = put_group(text, at, workshops, group == usize::from(line));
            at = put(text, at, b",");
        }
        // The comma behind the last group becomes the line feed.
        text[at - 1] = b'\n';
    }
    at
}

fn put_group(text: &mut [u8], mut at: usize, mut workshops: u64, none: bool) -> usize {
    let braces = workshops.count_ones() + u32::from(none) > 1;
    if braces {
        at = put(text, at, b"{");
    }
    if none {
        at = put(text, at, if workshops == 0 { b"-" } else { b"-," });
    }
    while workshops != 0 {
        let workshop = workshops.trailing_zeros() as u16 + 1;
        workshops &= workshops - 1;
        at = put_number(text, at, workshop);
        if workshops != 0 {
            at = put(text, at, b",");
        }
    }
    if braces {
        at = put(text, at, b"}");
    }
    at
}

fn put(text: &mut [u8], at: usize, bytes: &[u8]) -> usize {
    text[at..at + bytes.len()].copy_from_slice(bytes);
    at + bytes.len()
}

/// A number below 1000.
fn put_number(text: &mut [u8], mut at: usize, number: u16) -> usize {
    let digit = |number: u16| b'0' + (number % 10) as u8;
    if number >= 100 {
        text[at] = digit(number / 100);
        at += 1;
    }
    if number >= 10 {
        text[at] = digit(number / 10);
        at += 1;
    }
    text[at] = digit(number);
    at + 1
}
