//! The fast reference: one pass over the case, one over the book, then the run.
//!
//! Instead of deleting pairs one by one, each workshop keeps the last group it still
//! welcomes, and a student it would not keep is turned away when she applies. People are
//! counted from 0 here.

use crate::model::*;
use std::collections::{BinaryHeap, HashSet};

/// Groups of a student, with group 0 for "not started".
const STUDENT_GROUPS: usize = MAX_STUDENT_GROUP as usize + 1;
/// Mark of a workshop that is not open to a student.
const CLOSED: i16 = i16::MIN;
/// Mark keys of one group.
const GROUP_KEYS: u32 = 1 << 11;
/// Who has a lot that no student has.
const NOBODY: u16 = u16::MAX;
const LOTS: usize = MAX_LOT as usize;

/// What is known of one student and one workshop. Group 0: no pair. Mark 0: not in the book.
#[derive(Clone, Copy, Default)]
struct Cell {
    student_group: u16,
    workshop_group: u16,
    student_mark: i16,
    workshop_mark: i16,
}

#[derive(Clone, Copy)]
struct StudentCard {
    stage: u16,
    line: u16,
    lot: u16,
    reached: u16,
    held: u16,
}

#[derive(Default)]
struct WorkshopCard {
    quota: usize,
    line: u16,
    /// Students in groups above this are out of the question.
    last_welcome: u16,
    /// Rank keys of the holders, the lowest holder on top.
    holders: BinaryHeap<u32>,
}

/// Tables that are kept from call to call, so that their memory is reused.
pub struct Fast {
    students: Vec<StudentCard>,
    /// By lot from 0: who has it.
    by_lot: [u16; LOTS],
    workshops: Vec<WorkshopCard>,
    workshop_count: usize,
    /// By student, then workshop.
    cells: Vec<Cell>,
    /// By student, then workshop; where there is no pair, anything.
    fares: Vec<u16>,
    /// By student, then group: the workshops she has there.
    members: Vec<u64>,
    /// By student: her marks for the workshops open to her.
    open: Vec<[i16; MAX_WORKSHOPS]>,
    seen: SeenMarks,
    order: Vec<u16>,
}

impl Default for Fast {
    fn default() -> Fast {
        Fast {
            students: Vec::new(),
            by_lot: [NOBODY; LOTS],
            workshops: Vec::new(),
            workshop_count: 0,
            cells: Vec::new(),
            fares: Vec::new(),
            members: Vec::new(),
            open: Vec::new(),
            seen: SeenMarks::default(),
            order: Vec::new(),
        }
    }
}

/// The answer of a single call.
pub fn answer(input: &Input) -> Answer {
    Fast::default().answer(input)
}

impl Fast {
    /// Makes a call with buffers of its own and collects what they hold afterwards.
    pub fn answer(&mut self, input: &Input) -> Answer {
        let mut places = vec![0; input.lent.places];
        let mut visits = vec![0; input.lent.visits];
        let outcome = self.place(
            &input.case,
            &input.book,
            &input.lent,
            &mut places,
            &mut visits,
        );
        let listed = |count: usize| {
            visits[..2 * count]
                .chunks(2)
                .map(|v| (v[0], v[1]))
                .collect()
        };
        match outcome {
            Outcome::Placed {
                visits: count,
                fares,
            } => Answer::Placed {
                places: places[..self.students.len()].to_vec(),
                visits: listed(count),
                fares,
            },
            Outcome::Next {
                student,
                workshop,
                visits: count,
                fares,
            } => Answer::Next {
                student,
                workshop,
                visits: listed(count),
                fares,
            },
            Outcome::Refused { number, place } => Answer::Refused { number, place },
        }
    }

    /// One call: `lent` has the lengths of all buffers, `places` and `visits` are two of them.
    pub fn place(
        &mut self,
        case: &[u8],
        book: &[u8],
        lent: &Lengths,
        places: &mut [u16],
        visits: &mut [u16],
    ) -> Outcome {
        match self.load(case, book, lent) {
            Ok(()) => self.run(places, visits),
            Err((number, place)) => Outcome::Refused { number, place },
        }
    }

    fn load(&mut self, case: &[u8], book: &[u8], lent: &Lengths) -> Result<(), (u16, usize)> {
        let (records, []) = case.as_chunks() else {
            return Err((1, 0));
        };
        self.load_case(records)
            .ok_or_else(|| case_refusal(records))?;
        if !lent.suffice(&self.needed(records.len())) {
            return Err((6, 0));
        }
        let (records, []) = book.as_chunks() else {
            return Err((7, 0));
        };
        self.load_book(records)
    }

    /// Fills the tables; `None` if anything is wrong with the case.
    fn load_case(&mut self, records: &[[u8; CASE_RECORD]]) -> Option<()> {
        let rest = self.load_students(records)?;
        let rest = self.load_workshops(rest)?;
        self.load_pairs(rest)
    }

    fn load_students<'a>(
        &mut self,
        records: &'a [[u8; CASE_RECORD]],
    ) -> Option<&'a [[u8; CASE_RECORD]]> {
        self.students.clear();
        self.by_lot.fill(NOBODY);
        for (index, record) in records.iter().enumerate() {
            let fields = CaseFields::of(record);
            if fields.kind() != 1 {
                return (index > 0).then(|| &records[index..]);
            }
            let [number, stage, line, lot] = fields.all();
            // Lot 0 wraps to one that is too high.
            let owner = self.by_lot.get_mut(usize::from(lot.wrapping_sub(1)))?;
            if index == MAX_STUDENTS
                || !fields.well_formed()
                || usize::from(number) != index + 1
                || !(1..=MAX_STAGE).contains(&stage)
                || !(1..=MAX_STUDENT_GROUP).contains(&line)
                || *owner != NOBODY
            {
                return None;
            }
            *owner = index as u16;
            self.students.push(StudentCard {
                stage,
                line,
                lot: lot - 1,
                reached: 0,
                held: 0,
            });
        }
        None
    }

    fn load_workshops<'a>(
        &mut self,
        records: &'a [[u8; CASE_RECORD]],
    ) -> Option<&'a [[u8; CASE_RECORD]]> {
        self.workshops
            .resize_with(MAX_WORKSHOPS, WorkshopCard::default);
        self.workshop_count = 0;
        for (index, record) in records.iter().enumerate() {
            let fields = CaseFields::of(record);
            if fields.kind() != 2 {
                break;
            }
            let [number, quota, line, _] = fields.all();
            if index == MAX_WORKSHOPS
                || !fields.well_formed()
                || usize::from(number) != index + 1
                || quota > MAX_QUOTA
                || !(1..=MAX_WORKSHOP_GROUP).contains(&line)
            {
                return None;
            }
            let workshop = &mut self.workshops[index];
            workshop.quota = usize::from(quota);
            workshop.line = line;
            workshop.last_welcome = if quota == 0 { 0 } else { line };
            workshop.holders.clear();
            self.workshop_count += 1;
        }
        (self.workshop_count > 0).then(|| &records[self.workshop_count..])
    }

    fn load_pairs(&mut self, records: &[[u8; CASE_RECORD]]) -> Option<()> {
        let students = self.students.len();
        let workshops = self.workshop_count;
        self.cells.clear();
        self.cells.resize(students * workshops, Cell::default());
        self.fares.resize(students * workshops, 0);
        self.members.clear();
        self.members.resize(students * STUDENT_GROUPS, 0);
        let mut last = 0;
        for record in records {
            let fields = CaseFields::of(record);
            let [_, _, student_group, workshop_group] = fields.all();
            let (key, s, w) = fields.pair_after(last, students, workshops)?;
            last = key;
            let at = s * workshops + w;
            let cell = &mut self.cells[at];
            cell.student_group = student_group;
            cell.workshop_group = workshop_group;
            self.fares[at] = fields.fare();
            self.members[s * STUDENT_GROUPS + usize::from(student_group)] |= 1 << w;
        }
        Some(())
    }

    fn needed(&self, records: usize) -> Lengths {
        let students = self.students.len();
        let workshops = &self.workshops[..self.workshop_count];
        let pairs = records - students - workshops.len();
        Lengths {
            places: students,
            visits: 2 * pairs,
            seats: workshops.iter().map(|workshop| workshop.quota).sum(),
            index: pairs,
            cards: students,
        }
    }

    fn load_book(&mut self, records: &[[u8; BOOK_RECORD]]) -> Result<(), (u16, usize)> {
        for (place, record) in records.iter().enumerate() {
            if let Err(number) = self.enter(record) {
                return Err(self.earlier_cause(records, number, place));
            }
        }
        if self.some_student_repeats_a_mark() {
            return Err((11, self.first_repeated_mark(records)));
        }
        Ok(())
    }

    /// Enters one record, or gives the first cause against it, cause 11 left aside.
    fn enter(&mut self, record: &[u8; BOOK_RECORD]) -> Result<(), u16> {
        let (s, w, student_mark, workshop_mark) = book_fields(record);
        let at = self.cell_index(s, w).ok_or(8u16)?;
        if bad_mark(student_mark) || bad_mark(workshop_mark) {
            return Err(9);
        }
        let cell = &mut self.cells[at];
        if cell.student_mark != 0 {
            return Err(10);
        }
        cell.student_mark = student_mark;
        cell.workshop_mark = workshop_mark;
        Ok(())
    }

    /// Where the pair's cell is, if they have a pair.
    fn cell_index(&self, s: usize, w: usize) -> Option<usize> {
        if s >= self.students.len() || w >= self.workshop_count {
            return None;
        }
        let at = s * self.workshop_count + w;
        (self.cells[at].student_group != 0).then_some(at)
    }

    /// The refusal when cause `number` at `place` is the first fault met: an earlier cause
    /// may still stand against a later record.
    #[cold]
    fn earlier_cause(
        &self,
        records: &[[u8; BOOK_RECORD]],
        number: u16,
        place: usize,
    ) -> (u16, usize) {
        let first_later = |bad: &dyn Fn((usize, usize, i16, i16)) -> bool| {
            let later = records.iter().map(book_fields).enumerate().skip(place);
            later
                .filter(|&(_, fields)| bad(fields))
                .map(|(at, _)| at)
                .next()
        };
        if let Some(at) = first_later(&|(s, w, ..)| self.cell_index(s, w).is_none()) {
            return (8, at);
        }
        if let Some(at) = first_later(&|(.., first, second)| bad_mark(first) || bad_mark(second)) {
            return (9, at);
        }
        (number, place)
    }

    /// Whether some student gave one mark twice in a group, never aside.
    fn some_student_repeats_a_mark(&mut self) -> bool {
        self.cells.chunks_exact(self.workshop_count).any(|row| {
            let in_book = row.iter().filter(|cell| cell.student_mark != 0);
            self.seen
                .any_twice(in_book.map(|cell| mark_key(cell.student_group, cell.student_mark)))
        })
    }

    #[cold]
    fn first_repeated_mark(&self, records: &[[u8; BOOK_RECORD]]) -> usize {
        let mut given = HashSet::new();
        let first = records.iter().map(book_fields).position(|(s, w, ..)| {
            let cell = &self.cells[s * self.workshop_count + w];
            let key = mark_key(cell.student_group, cell.student_mark);
            may_tie(key) && !given.insert((s, key))
        });
        first.expect("some mark repeats")
    }

    fn run(&mut self, places: &mut [u16], visits: &mut [u16]) -> Outcome {
        self.open.clear();
        self.open
            .resize(self.students.len(), [CLOSED; MAX_WORKSHOPS]);
        self.sort_by_stage();
        let mut list = List {
            visits,
            count: 0,
            fares: 0,
        };
        for turn in 0..self.order.len() {
            let mut in_hand = Some(usize::from(self.order[turn]));
            while let Some(s) = in_hand {
                match self.best_open(s, &mut list) {
                    Ok(Some(w)) => in_hand = self.apply(s, w),
                    Ok(None) => in_hand = None,
                    Err(w) => {
                        return Outcome::Next {
                            student: s as u16 + 1,
                            workshop: w as u16 + 1,
                            visits: list.count,
                            fares: list.fares,
                        }
                    }
                }
            }
        }
        for (place, student) in places.iter_mut().zip(&self.students) {
            *place = student.held;
        }
        Outcome::Placed {
            visits: list.count,
            fares: list.fares,
        }
    }

    fn sort_by_stage(&mut self) {
        let mut next = [0u16; MAX_STAGE as usize + 2];
        for student in &self.students {
            next[usize::from(student.stage) + 1] += 1;
        }
        for stage in 1..next.len() {
            next[stage] += next[stage - 1];
        }
        self.order.clear();
        self.order.resize(self.students.len(), 0);
        for (s, student) in self.students.iter().enumerate() {
            let turn = &mut next[usize::from(student.stage)];
            self.order[usize::from(*turn)] = s as u16;
            *turn += 1;
        }
    }

    /// Opens groups while nothing is open and gives the best open workshop, or `None` if
    /// none is the best. An unanswered visit is the error.
    fn best_open(&mut self, s: usize, list: &mut List) -> Result<Option<usize>, usize> {
        loop {
            let row = &self.open[s];
            let best = row.iter().copied().fold(CLOSED, i16::max);
            let student = &mut self.students[s];
            if student.reached == student.line && best < 0 {
                return Ok(None);
            }
            if best != CLOSED {
                return Ok(row.iter().position(|&mark| mark == best));
            }
            student.reached += 1;
            let group = usize::from(student.reached);
            let members = self.members[s * STUDENT_GROUPS + group];
            self.visit_all(s, members, list)?;
        }
    }

    fn visit_all(&mut self, s: usize, mut members: u64, list: &mut List) -> Result<(), usize> {
        let row = &self.cells[s * self.workshop_count..][..self.workshop_count];
        let fares = &self.fares[s * self.workshop_count..][..self.workshop_count];
        while members != 0 {
            let w = members.trailing_zeros() as usize;
            members &= members - 1;
            let cell = row[w];
            let workshop = &self.workshops[w];
            if cell.workshop_group > workshop.last_welcome {
                continue;
            }
            if cell.student_mark == 0 {
                return Err(w);
            }
            list.add(s, w, fares[w]);
            let welcome = cell.workshop_group != workshop.line || cell.workshop_mark > 0;
            if welcome && cell.student_mark.min(cell.workshop_mark) > NEVER {
                self.open[s][w] = cell.student_mark;
            }
        }
        Ok(())
    }

    /// Seats the student and gives whoever is dropped or turned away.
    fn apply(&mut self, s: usize, w: usize) -> Option<usize> {
        self.open[s][w] = CLOSED;
        let cell = &self.cells[s * self.workshop_count + w];
        let key = rank_key(
            cell.workshop_group,
            cell.workshop_mark,
            self.students[s].lot,
        );
        let workshop = &mut self.workshops[w];
        let dropped = if workshop.holders.len() < workshop.quota {
            workshop.holders.push(key);
            None
        } else {
            let mut lowest = workshop.holders.peek_mut()?;
            if key > *lowest {
                return Some(s);
            }
            let dropped = std::mem::replace(&mut *lowest, key);
            Some(usize::from(self.by_lot[lot_of(dropped)]))
        };
        self.students[s].held = w as u16 + 1;
        if let Some(dropped) = dropped {
            self.students[dropped].held = 0;
        }
        if workshop.holders.len() == workshop.quota {
            let lowest = *workshop.holders.peek()?;
            workshop.last_welcome = group_of(lowest);
        }
        dropped
    }
}

/// The visits so far, in the lent buffer, and what they cost.
struct List<'a> {
    visits: &'a mut [u16],
    count: usize,
    fares: u64,
}

impl List<'_> {
    #[inline(always)]
    fn add(&mut self, s: usize, w: usize, fare: u16) {
        self.visits[2 * self.count] = s as u16 + 1;
        self.visits[2 * self.count + 1] = w as u16 + 1;
        self.count += 1;
        self.fares += u64::from(fare);
    }
}

/// A key that is higher for a student the workshop ranks lower: group, mark from the top down, and
/// lot from 0.
fn rank_key(group: u16, mark: i16, lot: u16) -> u32 {
    let below_top = (MAX_MARK - mark) as u32;
    u32::from(group) << 20 | below_top << 9 | u32::from(lot)
}

fn lot_of(key: u32) -> usize {
    key as usize % LOTS
}

fn group_of(key: u32) -> u16 {
    (key >> 20) as u16
}

fn bad_mark(mark: i16) -> bool {
    mark == 0 || !(-MAX_MARK..=MAX_MARK).contains(&mark)
}

/// Student and workshop from 0 (number 0 wraps to one that is too high), and their marks.
fn book_fields(record: &[u8; BOOK_RECORD]) -> (usize, usize, i16, i16) {
    let word = u64::from_le_bytes(*record);
    (
        usize::from((word as u16).wrapping_sub(1)),
        usize::from(((word >> 16) as u16).wrapping_sub(1)),
        (word >> 32) as i16,
        (word >> 48) as i16,
    )
}

/// A case record as two 64-bit numbers.
#[derive(Clone, Copy)]
pub(crate) struct CaseFields {
    low: u64,
    high: u64,
}

impl CaseFields {
    pub(crate) fn of(record: &[u8; CASE_RECORD]) -> CaseFields {
        let word = u128::from_le_bytes(*record);
        CaseFields {
            low: word as u64,
            high: (word >> 64) as u64,
        }
    }

    pub(crate) fn kind(self) -> u8 {
        self.low as u8
    }

    pub(crate) fn all(self) -> [u16; 4] {
        [
            (self.low >> 16) as u16,
            (self.low >> 32) as u16,
            (self.low >> 48) as u16,
            self.high as u16,
        ]
    }

    /// The fare of a pair.
    fn fare(self) -> u16 {
        (self.high >> 16) as u16
    }

    /// The kind is known and every byte that should be zero is zero.
    pub(crate) fn well_formed(self) -> bool {
        match self.low as u16 {
            1 => self.high >> 16 == 0,
            2 => self.high == 0,
            _ => self.is_pair(),
        }
    }

    /// A well-formed record of kind 3.
    pub(crate) fn is_pair(self) -> bool {
        (self.low as u16 == 3) & (self.high >> 32 == 0)
    }

    /// A good pair that comes after the one with the key `last`: its own key, and its student and
    /// workshop from 0.
    #[inline(always)]
    pub(crate) fn pair_after(
        self,
        last: u32,
        students: usize,
        workshops: usize,
    ) -> Option<(u32, usize, usize)> {
        let [student, workshop, student_group, workshop_group] = self.all();
        let key = u32::from(student) << 16 | u32::from(workshop);
        // Number 0 wraps to a number that is too high.
        let s = usize::from(student.wrapping_sub(1));
        let w = usize::from(workshop.wrapping_sub(1));
        // One branch for all causes.
        let bad = !self.is_pair()
            | (key <= last)
            | (s >= students)
            | (w >= workshops)
            | !(1..=MAX_STUDENT_GROUP).contains(&student_group)
            | !(1..=MAX_WORKSHOP_GROUP).contains(&workshop_group);
        (!bad).then_some((key, s, w))
    }

    pub(crate) fn in_range(self) -> bool {
        let [_, second, third, fourth] = self.all();
        let student_group = (1..=MAX_STUDENT_GROUP).contains(&third);
        match self.kind() {
            1 => (1..=MAX_STAGE).contains(&second) && student_group,
            2 => second <= MAX_QUOTA && (1..=MAX_WORKSHOP_GROUP).contains(&third),
            _ => student_group && (1..=MAX_WORKSHOP_GROUP).contains(&fourth),
        }
    }
}

/// Finds the refusal of a case that is known to be wrong.
#[cold]
pub(crate) fn case_refusal(records: &[[u8; CASE_RECORD]]) -> (u16, usize) {
    let fields: Vec<CaseFields> = records.iter().map(CaseFields::of).collect();
    if let Some(place) = fields.iter().position(|fields| !fields.well_formed()) {
        return (2, place);
    }
    let of_kind = |kind| {
        fields
            .iter()
            .take_while(move |fields| fields.kind() == kind)
    };
    let students = of_kind(1).count();
    let workshops = fields[students..]
        .iter()
        .take_while(|fields| fields.kind() == 2)
        .count();
    if let Some(place) = first_disorder(&fields, students, workshops) {
        return (3, place);
    }
    if !(1..=MAX_STUDENTS).contains(&students) || !(1..=MAX_WORKSHOPS).contains(&workshops) {
        return (4, 0);
    }
    if let Some(place) = fields.iter().position(|fields| !fields.in_range()) {
        return (5, place);
    }
    let mut lots = Lots::default();
    let place = of_kind(1).position(|fields| !lots.take(fields.all()[3]));
    (13, place.expect("no other cause is left"))
}

/// The lots that are taken, one bit for each.
#[derive(Default)]
pub(crate) struct Lots([u64; LOTS / 64]);

impl Lots {
    /// Takes a lot; false if there is none such or it is taken already.
    pub(crate) fn take(&mut self, lot: u16) -> bool {
        // Lot 0 wraps to one that is too high.
        let at = usize::from(lot.wrapping_sub(1));
        let Some(word) = self.0.get_mut(at / 64) else {
            return false;
        };
        let bit = 1 << (at % 64);
        let free = *word & bit == 0;
        *word |= bit;
        free
    }
}

/// The case must be a run of students, one of workshops, and then rising pairs only.
fn first_disorder(fields: &[CaseFields], students: usize, workshops: usize) -> Option<usize> {
    let mut last = (0, 0);
    fields.iter().enumerate().position(|(place, fields)| {
        let [first, second, ..] = fields.all().map(usize::from);
        if place < students {
            return first != place + 1;
        }
        if place < students + workshops {
            return first != place - students + 1;
        }
        let good = fields.kind() == 3
            && (first, second) > last
            && (1..=students).contains(&first)
            && (1..=workshops).contains(&second);
        last = (first, second);
        !good
    })
}

/// One number for a group and a mark; never has the first number of its group.
fn mark_key(group: u16, mark: i16) -> u32 {
    u32::from(group) * GROUP_KEYS + (mark - NEVER) as u32
}

/// Whether an equal key is an equal mark; never is equal to nothing.
fn may_tie(key: u32) -> bool {
    !key.is_multiple_of(GROUP_KEYS)
}

/// One bit for every mark key, all zero between uses.
struct SeenMarks(Vec<u64>);

impl Default for SeenMarks {
    fn default() -> SeenMarks {
        let keys = u32::from(MAX_STUDENT_GROUP + 1) * GROUP_KEYS;
        SeenMarks(vec![0; keys as usize / 64])
    }
}

impl SeenMarks {
    fn any_twice(&mut self, keys: impl Iterator<Item = u32> + Clone) -> bool {
        let mut twice = 0;
        for key in keys.clone() {
            let word = &mut self.0[(key / 64) as usize];
            twice |= *word >> (key % 64) & 1;
            *word |= u64::from(may_tie(key)) << (key % 64);
        }
        for key in keys {
            self.0[(key / 64) as usize] = 0;
        }
        twice != 0
    }
}
