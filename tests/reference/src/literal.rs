//! The literal reference: the specification read aloud, with plain tables.
//!
//! Tables of people are indexed by number, so entry 0 is not used.

use crate::model::*;
use std::collections::HashSet;

/// A cause's number and its record.
#[derive(Clone, Copy, Debug, PartialEq, Eq)]
pub struct Refusal {
    pub number: u16,
    pub place: usize,
}

pub fn answer(input: &Input) -> Answer {
    answer_with_events(input).0
}

pub fn answer_with_events(input: &Input) -> (Answer, Vec<Event>) {
    match read(input) {
        Ok((case, book)) => run_with_events(&case, &book),
        Err(Refusal { number, place }) => (Answer::Refused { number, place }, Vec::new()),
    }
}

/// Tests the twelve causes in their order and decodes what passes.
pub fn read(input: &Input) -> Result<(Case, Vec<Record>), Refusal> {
    let (case, book) = read_before_ties(input)?;
    refuse_at(11, first_equal_mark(&PairTable::new(&case), &book))?;
    Ok((case, book))
}

/// Tests the causes before 11.
pub fn read_before_ties(input: &Input) -> Result<(Case, Vec<Record>), Refusal> {
    let case = read_case(&input.case)?;
    if !input.lent.suffice(&case.needed()) {
        return refuse(6, 0);
    }
    let book = read_book(&case, &input.book)?;
    Ok((case, book))
}

fn refuse<T>(number: u16, place: usize) -> Result<T, Refusal> {
    Err(Refusal { number, place })
}

fn refuse_at(number: u16, place: Option<usize>) -> Result<(), Refusal> {
    match place {
        Some(place) => refuse(number, place),
        None => Ok(()),
    }
}

// ---- The case ----

pub fn read_case(bytes: &[u8]) -> Result<Case, Refusal> {
    if !bytes.len().is_multiple_of(CASE_RECORD) {
        return refuse(1, 0);
    }
    let records: Vec<&[u8]> = bytes.chunks(CASE_RECORD).collect();
    refuse_at(2, first_misformed(&records))?;
    refuse_at(3, first_out_of_order(&records))?;
    let case = decode_case(&records);
    if !counts_allowed(&case) {
        return refuse(4, 0);
    }
    refuse_at(5, first_out_of_range(&records))?;
    refuse_at(13, first_bad_lot(&records))?;
    Ok(case)
}

/// The 16-bit field that starts at byte `2 * position`.
fn field(record: &[u8], position: usize) -> u16 {
    u16::from_le_bytes([record[2 * position], record[2 * position + 1]])
}

/// Cause 2: a kind that is not 1 to 3, or a byte that should be zero.
pub fn first_misformed(records: &[&[u8]]) -> Option<usize> {
    records.iter().position(|record| {
        let named_end = match record[0] {
            1 => 10,
            2 => 8,
            3 => 12,
            _ => return true,
        };
        record[1] != 0 || record[named_end..].iter().any(|&byte| byte != 0)
    })
}

/// Cause 3: the kinds fall, a number is out of sequence, the pairs do not rise, or a pair
/// names somebody who has no earlier record.
pub fn first_out_of_order(records: &[&[u8]]) -> Option<usize> {
    let mut students = 0;
    let mut workshops = 0;
    let mut last_kind = 1;
    let mut last_pair = (0, 0);
    for (place, record) in records.iter().enumerate() {
        let kind = record[0];
        let first = usize::from(field(record, 1));
        let second = usize::from(field(record, 2));
        let in_order = match kind {
            1 => first == students + 1,
            2 => first == workshops + 1,
            _ => {
                let both_known =
                    (1..=students).contains(&first) && (1..=workshops).contains(&second);
                both_known && (first, second) > last_pair
            }
        };
        if kind < last_kind || !in_order {
            return Some(place);
        }
        match kind {
            1 => students += 1,
            2 => workshops += 1,
            _ => last_pair = (first, second),
        }
        last_kind = kind;
    }
    None
}

/// Cause 5: a stage, quota, group or line out of its range.
pub fn first_out_of_range(records: &[&[u8]]) -> Option<usize> {
    records.iter().position(|record| {
        let second = field(record, 2);
        let third = field(record, 3);
        let fourth = field(record, 4);
        let in_range = match record[0] {
            1 => (1..=512).contains(&second) && (1..=65).contains(&third),
            2 => (0..=512).contains(&second) && (1..=513).contains(&third),
            _ => (1..=65).contains(&third) && (1..=513).contains(&fourth),
        };
        !in_range
    })
}

/// Cause 13: a lot out of its range, or one that an earlier student has.
pub fn first_bad_lot(records: &[&[u8]]) -> Option<usize> {
    let mut earlier = Vec::new();
    records.iter().position(|record| {
        if record[0] != 1 {
            return false;
        }
        let lot = field(record, 4);
        let bad = !(1..=512).contains(&lot) || earlier.contains(&lot);
        earlier.push(lot);
        bad
    })
}

/// Cause 4 is that this fails.
fn counts_allowed(case: &Case) -> bool {
    (1..=512).contains(&case.students.len()) && (1..=64).contains(&case.workshops.len())
}

pub fn decode_case(records: &[&[u8]]) -> Case {
    let mut case = Case::default();
    for record in records {
        match record[0] {
            1 => case.students.push(Student {
                stage: field(record, 2),
                line: field(record, 3),
                lot: field(record, 4),
            }),
            2 => case.workshops.push(Workshop {
                quota: field(record, 2),
                line: field(record, 3),
            }),
            _ => case.pairs.push(Pair {
                student: field(record, 1),
                workshop: field(record, 2),
                student_group: field(record, 3),
                workshop_group: field(record, 4),
                fare: field(record, 5),
            }),
        }
    }
    case
}

// ---- The book ----

fn read_book(case: &Case, bytes: &[u8]) -> Result<Vec<Record>, Refusal> {
    if !bytes.len().is_multiple_of(BOOK_RECORD) {
        return refuse(7, 0);
    }
    let book: Vec<Record> = bytes.chunks(BOOK_RECORD).map(decode_record).collect();
    refuse_at(8, first_without_pair(&PairTable::new(case), &book))?;
    refuse_at(9, first_bad_mark(&book))?;
    refuse_at(10, first_repeated_pair(&book))?;
    Ok(book)
}

pub fn decode_record(bytes: &[u8]) -> Record {
    Record {
        student: field(bytes, 0),
        workshop: field(bytes, 1),
        student_mark: field(bytes, 2) as i16,
        workshop_mark: field(bytes, 3) as i16,
    }
}

fn first_without_pair(pairs: &PairTable, book: &[Record]) -> Option<usize> {
    book.iter()
        .position(|record| pairs.get(record.student, record.workshop).is_none())
}

fn first_bad_mark(book: &[Record]) -> Option<usize> {
    let bad = |mark: i16| mark == 0 || !(-1000..=1000).contains(&mark);
    book.iter()
        .position(|record| bad(record.student_mark) || bad(record.workshop_mark))
}

fn first_repeated_pair(book: &[Record]) -> Option<usize> {
    let mut earlier = HashSet::new();
    book.iter()
        .position(|record| !earlier.insert((record.student, record.workshop)))
}

/// Cause 11 is of students' marks, and passes over those of -1000.
fn first_equal_mark(pairs: &PairTable, book: &[Record]) -> Option<usize> {
    let mut earlier = HashSet::new();
    book.iter().position(|record| {
        let (student_group, _) = pairs
            .get(record.student, record.workshop)
            .expect("cause 8 comes first");
        let mark = record.student_mark;
        mark != NEVER && !earlier.insert((record.student, student_group, mark))
    })
}

/// For each student and workshop the two groups of their pair, if they have one.
pub struct PairTable(Vec<Vec<Option<(u16, u16)>>>);

impl PairTable {
    pub fn new(case: &Case) -> PairTable {
        let mut table = square(case, None);
        for pair in &case.pairs {
            table[usize::from(pair.student)][usize::from(pair.workshop)] =
                Some((pair.student_group, pair.workshop_group));
        }
        PairTable(table)
    }

    /// The student's group and the workshop's group.
    pub fn get(&self, student: u16, workshop: u16) -> Option<(u16, u16)> {
        let row = self.0.get(usize::from(student))?;
        *row.get(usize::from(workshop))?
    }
}

/// A table by student and workshop.
fn square<T: Clone>(case: &Case, value: T) -> Vec<Vec<T>> {
    vec![vec![value; case.workshops.len() + 1]; case.students.len() + 1]
}

// ---- The staged rule ----

/// What happens at a workshop.
#[derive(Clone, Copy, Debug, PartialEq, Eq)]
pub enum Event {
    /// Steps 2 and 3: somebody applies, and somebody, perhaps she herself, may be dropped.
    Applied {
        workshop: usize,
        newcomer: usize,
        dropped: Option<usize>,
    },
    /// Step 4: it closes to a student to whom it was open, for she is below its lowest holder.
    Closed {
        workshop: usize,
        student: usize,
        lowest: usize,
    },
}

/// The pair whose visit has no result in the book.
struct Unanswered {
    student: usize,
    workshop: usize,
}

struct Run<'a> {
    case: &'a Case,
    /// Student's group and workshop's group of each pair.
    groups: Vec<Vec<Option<(u16, u16)>>>,
    /// Student's mark and workshop's mark of each pair in the book.
    marks: Vec<Vec<Option<(i16, i16)>>>,
    deleted: Vec<Vec<bool>>,
    visited: Vec<Vec<bool>>,
    open: Vec<Vec<bool>>,
    none_open: Vec<bool>,
    /// The group each student has reached, 0 before the first.
    reached: Vec<u16>,
    /// Who each workshop holds.
    holders: Vec<Vec<usize>>,
    visits: Vec<(u16, u16)>,
    events: Vec<Event>,
}

pub fn run(case: &Case, book: &[Record]) -> Answer {
    run_with_events(case, book).0
}

pub fn run_with_events(case: &Case, book: &[Record]) -> (Answer, Vec<Event>) {
    let mut run = Run::new(case, book);
    run.delete_hopeless_pairs();
    let mut turns = students_by_stage(case).into_iter();
    let answer = match turns.try_for_each(|student| run.settle(student)) {
        Err(Unanswered { student, workshop }) => Answer::Next {
            student: student as u16,
            workshop: workshop as u16,
            fares: fares_of(case, &run.visits),
            visits: run.visits,
        },
        Ok(()) => Answer::Placed {
            places: run.places(),
            fares: fares_of(case, &run.visits),
            visits: run.visits,
        },
    };
    (answer, run.events)
}

/// The sum of the fares of exactly the listed pairs, read from the case.
pub fn fares_of(case: &Case, visits: &[(u16, u16)]) -> u64 {
    let fares = visits.iter().map(|&pair| case.fare(pair));
    fares.map(u64::from).sum()
}

/// Stages in rising number, students inside one in rising number.
pub fn students_by_stage(case: &Case) -> Vec<usize> {
    let mut order: Vec<usize> = (1..=case.students.len()).collect();
    order.sort_by_key(|&student| (case.students[student - 1].stage, student));
    order
}

impl<'a> Run<'a> {
    fn new(case: &'a Case, book: &[Record]) -> Run<'a> {
        let mut marks = square(case, None);
        for record in book {
            marks[usize::from(record.student)][usize::from(record.workshop)] =
                Some((record.student_mark, record.workshop_mark));
        }
        Run {
            case,
            groups: PairTable::new(case).0,
            marks,
            deleted: square(case, false),
            visited: square(case, false),
            open: square(case, false),
            none_open: vec![false; case.students.len() + 1],
            reached: vec![0; case.students.len() + 1],
            holders: vec![Vec::new(); case.workshops.len() + 1],
            visits: Vec::new(),
            events: Vec::new(),
        }
    }

    fn students(&self) -> std::ops::RangeInclusive<usize> {
        1..=self.case.students.len()
    }

    fn workshops(&self) -> std::ops::RangeInclusive<usize> {
        1..=self.case.workshops.len()
    }

    fn student_line(&self, student: usize) -> u16 {
        self.case.students[student - 1].line
    }

    fn workshop_line(&self, workshop: usize) -> u16 {
        self.case.workshops[workshop - 1].line
    }

    fn quota(&self, workshop: usize) -> usize {
        usize::from(self.case.workshops[workshop - 1].quota)
    }

    fn lot(&self, student: usize) -> u16 {
        self.case.students[student - 1].lot
    }

    fn student_group(&self, student: usize, workshop: usize) -> Option<u16> {
        self.groups[student][workshop].map(|(student_group, _)| student_group)
    }

    fn workshop_group(&self, student: usize, workshop: usize) -> Option<u16> {
        self.groups[student][workshop].map(|(_, workshop_group)| workshop_group)
    }

    /// The student's mark for a workshop she has visited.
    fn student_mark(&self, student: usize, workshop: usize) -> i16 {
        self.marks[student][workshop].expect("visited").0
    }

    /// The workshop's mark for a student who has visited it.
    fn workshop_mark(&self, student: usize, workshop: usize) -> i16 {
        self.marks[student][workshop].expect("visited").1
    }

    /// Before stage 1.
    fn delete_hopeless_pairs(&mut self) {
        for student in self.students() {
            for workshop in self.workshops() {
                if let Some(group) = self.workshop_group(student, workshop) {
                    self.deleted[student][workshop] =
                        self.quota(workshop) == 0 || group > self.workshop_line(workshop);
                }
            }
        }
    }

    /// Takes a student in hand, and after her whoever is dropped.
    fn settle(&mut self, student: usize) -> Result<(), Unanswered> {
        let mut in_hand = Some(student);
        while let Some(student) = in_hand {
            self.open_groups(student)?;
            in_hand = match self.best_open(student) {
                Some(workshop) => self.apply(student, workshop),
                None => None,
            };
        }
        Ok(())
    }

    /// Step 1.
    fn open_groups(&mut self, student: usize) -> Result<(), Unanswered> {
        while !self.has_open(student) {
            let group = self.next_group(student);
            self.reached[student] = group;
            for workshop in self.workshops() {
                let in_group = self.student_group(student, workshop) == Some(group);
                if in_group && !self.deleted[student][workshop] {
                    self.visit(student, workshop)?;
                }
            }
            if group == self.student_line(student) {
                self.none_open[student] = true;
            }
        }
        Ok(())
    }

    fn has_open(&self, student: usize) -> bool {
        self.none_open[student]
            || self
                .workshops()
                .any(|workshop| self.open[student][workshop])
    }

    /// Her next group that has pairs or her line.
    fn next_group(&self, student: usize) -> u16 {
        self.workshops()
            .filter_map(|workshop| self.student_group(student, workshop))
            .chain([self.student_line(student)])
            .filter(|&group| group > self.reached[student])
            .min()
            .expect("none is open once the line is reached")
    }

    fn visit(&mut self, student: usize, workshop: usize) -> Result<(), Unanswered> {
        if self.marks[student][workshop].is_none() {
            return Err(Unanswered { student, workshop });
        }
        self.visits.push((student as u16, workshop as u16));
        self.visited[student][workshop] = true;
        let in_line_group =
            self.workshop_group(student, workshop) == Some(self.workshop_line(workshop));
        let turned_away = in_line_group && self.workshop_mark(student, workshop) < 0;
        let never = self.student_mark(student, workshop) == NEVER
            || self.workshop_mark(student, workshop) == NEVER;
        self.open[student][workshop] = !turned_away && !never;
        Ok(())
    }

    /// Step 2: the best of what is open, or `None` if none is the best.
    fn best_open(&self, student: usize) -> Option<usize> {
        let best = self
            .workshops()
            .filter(|&workshop| self.open[student][workshop])
            .max_by_key(|&workshop| self.student_mark(student, workshop))?;
        let none_is_better = self.none_open[student] && self.student_mark(student, best) < 0;
        (!none_is_better).then_some(best)
    }

    /// Steps 3 and 4; gives the student who was dropped.
    fn apply(&mut self, student: usize, workshop: usize) -> Option<usize> {
        self.holders[workshop].push(student);
        let mut dropped = None;
        if self.holders[workshop].len() > self.quota(workshop) {
            let lowest = self.lowest_holder(workshop);
            self.holders[workshop].retain(|&holder| holder != lowest);
            dropped = Some(lowest);
        }
        self.events.push(Event::Applied {
            workshop,
            newcomer: student,
            dropped,
        });
        if self.holders[workshop].len() == self.quota(workshop) {
            self.delete_below(workshop, self.lowest_holder(workshop));
        }
        dropped
    }

    fn lowest_holder(&self, workshop: usize) -> usize {
        let holders = self.holders[workshop].iter().copied();
        holders
            .reduce(|lowest, holder| {
                if self.strictly_below(workshop, holder, lowest) {
                    holder
                } else {
                    lowest
                }
            })
            .expect("it holds somebody")
    }

    fn delete_below(&mut self, workshop: usize, lowest: usize) {
        for student in self.students() {
            if self.strictly_below(workshop, student, lowest) {
                if self.open[student][workshop] {
                    self.events.push(Event::Closed {
                        workshop,
                        student,
                        lowest,
                    });
                }
                self.deleted[student][workshop] = true;
                self.open[student][workshop] = false;
            }
        }
    }

    /// By group, or in the same group, where both have visited, by mark, and where their marks are
    /// equal, by lot.
    fn strictly_below(&self, workshop: usize, student: usize, other: usize) -> bool {
        let other_group = self.workshop_group(other, workshop);
        match self.workshop_group(student, workshop) {
            None => false,
            group if group == other_group => {
                let visited = |one: usize| self.visited[one][workshop];
                visited(student) && visited(other) && self.met_below(workshop, student, other)
            }
            group => group > other_group,
        }
    }

    /// Of two in one group who have visited: a lower mark, or an equal one and the higher lot.
    fn met_below(&self, workshop: usize, student: usize, other: usize) -> bool {
        let mark = self.workshop_mark(student, workshop);
        let other_mark = self.workshop_mark(other, workshop);
        if mark == other_mark {
            return self.lot(student) > self.lot(other);
        }
        mark < other_mark
    }

    fn places(&self) -> Vec<u16> {
        let mut places = vec![0; self.case.students.len()];
        for workshop in self.workshops() {
            for &student in &self.holders[workshop] {
                places[student - 1] = workshop as u16;
            }
        }
        places
    }
}
