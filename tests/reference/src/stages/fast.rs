//! The same job done fast; the benchmark's opponent.
//!
//! One pass over the case reads it and joins students in equal groups. Then the rows of classes are
//! walked together: a class gets its stage, and leaves all its rows, when it stands in front of
//! each of them. If nobody can leave while somebody is left, no stages agree. The time grows with
//! the pairs, and with the groups in use of all workshops.

use super::{Answer, Report, Request, NO_STAGES};
use crate::fast::{case_refusal, CaseFields, Lots};
use crate::model::*;

const GROUPS: usize = MAX_WORKSHOP_GROUP as usize + 1;
const GROUP_WORDS: usize = GROUPS.div_ceil(64);
const NOBODY: u16 = u16::MAX;

type Records = [[u8; CASE_RECORD]];

/// Tables that are kept from call to call, so that their memory is reused.
pub struct Fast {
    /// By group, then workshop: the first student there. Nobody between calls.
    first: Vec<u16>,
    /// By workshop: one bit for each group in use. No bits between calls.
    used: [[u64; GROUP_WORDS]; MAX_WORKSHOPS],
    /// By workshop: groups above this do not count.
    last_counted: [u16; MAX_WORKSHOPS],
    /// By student: another of her class, or herself.
    parent: [u16; MAX_STUDENTS],
    /// By class: the workshops in whose rows it stands.
    rows: [u64; MAX_STUDENTS],
    /// By class: those of them in whose rows it stands in front.
    fronts: [u64; MAX_STUDENTS],
    /// By class.
    stage: [u16; MAX_STUDENTS],
    /// The rows of all workshops, one after the other.
    row: Vec<u16>,
    /// By workshop: the rest of its row.
    rest: [(u16, u16); MAX_WORKSHOPS],
    ready: Vec<u16>,
}

impl Default for Fast {
    fn default() -> Fast {
        Fast {
            first: vec![NOBODY; GROUPS * MAX_WORKSHOPS],
            used: [[0; GROUP_WORDS]; MAX_WORKSHOPS],
            last_counted: [0; MAX_WORKSHOPS],
            parent: [0; MAX_STUDENTS],
            rows: [0; MAX_STUDENTS],
            fronts: [0; MAX_STUDENTS],
            stage: [0; MAX_STUDENTS],
            row: Vec::with_capacity(MAX_STUDENTS * MAX_WORKSHOPS),
            rest: [(0, 0); MAX_WORKSHOPS],
            ready: Vec::with_capacity(MAX_STUDENTS),
        }
    }
}

impl Fast {
    /// Makes a call with a buffer of its own and collects what it holds afterwards.
    pub fn answer(&mut self, request: &Request) -> Answer {
        let mut stages = vec![0; request.room];
        let report = self.stages(&request.case, &mut stages);
        if report.kind == 0 {
            stages.truncate(report.first as usize);
            return Answer::Stages(stages);
        }
        Answer::Refused {
            number: report.first as u16,
            place: report.second as usize,
        }
    }

    /// One call.
    pub fn stages(&mut self, case: &[u8], stages: &mut [u16]) -> Report {
        let (records, []) = case.as_chunks() else {
            return Report::refused(1, 0);
        };
        let Some((students, workshops)) = self.read(records) else {
            self.forget();
            let (number, place) = case_refusal(records);
            return Report::refused(number, place);
        };
        if stages.len() < students {
            self.forget();
            return Report::refused(6, 0);
        }
        if !self.line_up(students, workshops) || !self.walk(workshops) {
            return Report::refused(NO_STAGES, 0);
        }
        for (s, stage) in stages[..students].iter_mut().enumerate() {
            *stage = self.stage[usize::from(self.parent[s])];
        }
        Report::done(students)
    }

    /// After a refusal in the middle.
    #[cold]
    fn forget(&mut self) {
        self.first.fill(NOBODY);
        self.used = [[0; GROUP_WORDS]; MAX_WORKSHOPS];
    }

    /// Students and workshops, or `None` if anything is wrong with the case.
    fn read(&mut self, records: &Records) -> Option<(usize, usize)> {
        let students = self.read_students(records)?;
        let records = &records[students..];
        let workshops = self.read_workshops(records)?;
        self.read_pairs(&records[workshops..], students, workshops)?;
        Some((students, workshops))
    }

    fn read_students(&mut self, records: &Records) -> Option<usize> {
        let mut lots = Lots::default();
        for (index, record) in records.iter().enumerate() {
            let fields = CaseFields::of(record);
            if fields.kind() != 1 {
                return (index > 0).then_some(index);
            }
            let [number, _, _, lot] = fields.all();
            let good = fields.well_formed() && fields.in_range() && lots.take(lot);
            if index == MAX_STUDENTS || !good || usize::from(number) != index + 1 {
                return None;
            }
            self.parent[index] = index as u16;
        }
        None
    }

    fn read_workshops(&mut self, records: &Records) -> Option<usize> {
        let mut count = 0;
        for record in records {
            let fields = CaseFields::of(record);
            if fields.kind() != 2 {
                break;
            }
            let [number, quota, line, _] = fields.all();
            let good = fields.well_formed() && fields.in_range();
            if count == MAX_WORKSHOPS || !good || usize::from(number) != count + 1 {
                return None;
            }
            self.last_counted[count] = if quota == 0 { 0 } else { line };
            count += 1;
        }
        (count > 0).then_some(count)
    }

    /// Reads the pairs and joins those in equal groups.
    fn read_pairs(&mut self, records: &Records, students: usize, workshops: usize) -> Option<()> {
        let mut last = 0;
        for record in records {
            let fields = CaseFields::of(record);
            let [_, _, _, group] = fields.all();
            let (key, s, w) = fields.pair_after(last, students, workshops)?;
            last = key;
            if group > self.last_counted[w] {
                continue;
            }
            let group = usize::from(group);
            let first = &mut self.first[group * MAX_WORKSHOPS + w];
            if *first == NOBODY {
                *first = s as u16;
                self.used[w][group / 64] |= 1 << (group % 64);
            } else {
                let first = *first;
                self.join(first, s as u16);
            }
        }
        Some(())
    }

    fn class(&mut self, mut student: u16) -> u16 {
        loop {
            let parent = self.parent[usize::from(student)];
            if parent == student {
                return student;
            }
            let above = self.parent[usize::from(parent)];
            self.parent[usize::from(student)] = above;
            student = above;
        }
    }

    fn join(&mut self, one: u16, other: u16) {
        if self.parent[usize::from(one)] == self.parent[usize::from(other)] {
            return;
        }
        let (one, other) = (self.class(one), self.class(other));
        self.parent[usize::from(one.max(other))] = one.min(other);
    }

    /// Makes the rows; false if a class stands in one row twice.
    fn line_up(&mut self, students: usize, workshops: usize) -> bool {
        for s in 0..students {
            // Her parent has a lower number and is already below its class itself.
            let parent = usize::from(self.parent[s]);
            self.parent[s] = self.parent[parent];
            self.rows[s] = 0;
            self.fronts[s] = 0;
            self.stage[s] = 1;
        }
        self.row.clear();
        let mut twice = false;
        for w in 0..workshops {
            let start = self.row.len() as u16;
            for word in 0..GROUP_WORDS {
                let mut bits = std::mem::take(&mut self.used[w][word]);
                while bits != 0 {
                    let group = word * 64 + bits.trailing_zeros() as usize;
                    bits &= bits - 1;
                    let first = &mut self.first[group * MAX_WORKSHOPS + w];
                    let first = std::mem::replace(first, NOBODY);
                    let class = self.parent[usize::from(first)];
                    let rows = &mut self.rows[usize::from(class)];
                    twice |= *rows >> w & 1 != 0;
                    *rows |= 1 << w;
                    self.row.push(class);
                }
            }
            self.rest[w] = (start, self.row.len() as u16);
        }
        !twice
    }

    /// Gives the classes their stages; false if some never get one.
    fn walk(&mut self, workshops: usize) -> bool {
        self.ready.clear();
        let mut left = self.row.len();
        for w in 0..workshops {
            self.step_to_front(w, 1);
        }
        while let Some(class) = self.ready.pop() {
            let mut rows = self.rows[usize::from(class)];
            let next = self.stage[usize::from(class)] + 1;
            left -= rows.count_ones() as usize;
            while rows != 0 {
                let w = rows.trailing_zeros() as usize;
                rows &= rows - 1;
                self.rest[w].0 += 1;
                self.step_to_front(w, next);
            }
        }
        left == 0
    }

    /// Whoever now stands in front of a row has this stage or a later one.
    fn step_to_front(&mut self, w: usize, stage: u16) {
        let (start, end) = self.rest[w];
        if start == end {
            return;
        }
        let class = usize::from(self.row[usize::from(start)]);
        self.stage[class] = self.stage[class].max(stage);
        self.fronts[class] |= 1 << w;
        if self.fronts[class] == self.rows[class] {
            self.ready.push(class as u16);
        }
    }
}
