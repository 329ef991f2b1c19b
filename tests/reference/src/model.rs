//! The case, the book, the answers, and how they are stored as bytes.

use std::fmt::Write;

pub const CASE_RECORD: usize = 16;
pub const BOOK_RECORD: usize = 8;

pub const MAX_STUDENTS: usize = 512;
pub const MAX_WORKSHOPS: usize = 64;
pub const MAX_STAGE: u16 = 512;
pub const MAX_QUOTA: u16 = 512;
pub const MAX_LOT: u16 = 512;
/// Largest group or line a student may use.
pub const MAX_STUDENT_GROUP: u16 = 65;
/// Largest group or line a workshop may use.
pub const MAX_WORKSHOP_GROUP: u16 = 513;
pub const MAX_MARK: i16 = 1000;
/// The mark that means never: the two cannot be placed together.
pub const NEVER: i16 = -1000;

#[derive(Clone, Copy, Debug, PartialEq, Eq)]
pub struct Student {
    pub stage: u16,
    pub line: u16,
    /// Of two students with equal marks in one group of a workshop, the lower lot is better.
    pub lot: u16,
}

#[derive(Clone, Copy, Debug, PartialEq, Eq)]
pub struct Workshop {
    pub quota: u16,
    pub line: u16,
}

#[derive(Clone, Copy, Debug, PartialEq, Eq)]
pub struct Pair {
    pub student: u16,
    pub workshop: u16,
    /// The student's group for the workshop.
    pub student_group: u16,
    /// The workshop's group for the student.
    pub workshop_group: u16,
    /// What a visit costs, in pence.
    pub fare: u16,
}

/// One result in the book.
#[derive(Clone, Copy, Debug, PartialEq, Eq)]
pub struct Record {
    pub student: u16,
    pub workshop: u16,
    /// The student's mark for the workshop.
    pub student_mark: i16,
    /// The workshop's mark for the student.
    pub workshop_mark: i16,
}

/// Students and workshops are numbered from 1, so number `k` is at index `k - 1`.
#[derive(Clone, Debug, Default, PartialEq, Eq)]
pub struct Case {
    pub students: Vec<Student>,
    pub workshops: Vec<Workshop>,
    pub pairs: Vec<Pair>,
}

/// Lengths of the lent buffers, in entries.
#[derive(Clone, Copy, Debug, PartialEq, Eq)]
pub struct Lengths {
    pub places: usize,
    pub visits: usize,
    pub seats: usize,
    pub index: usize,
    pub cards: usize,
}

/// The whole answer, with what it leaves in the places and the visits.
#[derive(Clone, Debug, PartialEq, Eq)]
pub enum Answer {
    Placed {
        places: Vec<u16>,
        visits: Vec<(u16, u16)>,
        /// What the listed visits cost.
        fares: u64,
    },
    Next {
        student: u16,
        workshop: u16,
        visits: Vec<(u16, u16)>,
        /// What the listed visits cost; the next visit is not among them.
        fares: u64,
    },
    Refused {
        number: u16,
        place: usize,
    },
}

/// The answer as a call returns it, when the lists are in lent buffers.
#[derive(Clone, Copy, Debug, PartialEq, Eq)]
pub enum Outcome {
    Placed {
        visits: usize,
        fares: u64,
    },
    Next {
        student: u16,
        workshop: u16,
        visits: usize,
        fares: u64,
    },
    Refused {
        number: u16,
        place: usize,
    },
}

/// Everything one call gets.
#[derive(Clone, Debug)]
pub struct Input {
    pub case: Vec<u8>,
    pub book: Vec<u8>,
    pub lent: Lengths,
}

impl Case {
    pub fn to_bytes(&self) -> Vec<u8> {
        let mut bytes = Vec::new();
        for (index, student) in self.students.iter().enumerate() {
            let number = index as u16 + 1;
            let Student { stage, line, lot } = *student;
            push_case_record(&mut bytes, 1, &[number, stage, line, lot]);
        }
        for (index, workshop) in self.workshops.iter().enumerate() {
            let number = index as u16 + 1;
            push_case_record(&mut bytes, 2, &[number, workshop.quota, workshop.line]);
        }
        for pair in &self.pairs {
            push_case_record(&mut bytes, 3, &pair.fields());
        }
        bytes
    }

    /// The least lengths that this case needs.
    pub fn needed(&self) -> Lengths {
        Lengths {
            places: self.students.len(),
            visits: 2 * self.pairs.len(),
            seats: self.workshops.iter().map(|w| usize::from(w.quota)).sum(),
            index: self.pairs.len(),
            cards: self.students.len(),
        }
    }

    /// The input made of this case, a book and buffers that just suffice.
    pub fn input(&self, book: &[Record]) -> Input {
        Input {
            case: self.to_bytes(),
            book: book_bytes(book),
            lent: self.needed(),
        }
    }

    /// The fare of two who have a pair.
    pub fn fare(&self, pair: (u16, u16)) -> u16 {
        let key = |pair: &Pair| (pair.student, pair.workshop);
        let at = self.pairs.binary_search_by_key(&pair, key);
        self.pairs[at.expect("they have a pair")].fare
    }

    /// Whether the stages agree with every workshop's groups.
    pub fn stages_agree(&self) -> bool {
        self.pairs.iter().all(|a| {
            let workshop = self.workshops[usize::from(a.workshop) - 1];
            let counts = |p: &Pair| {
                p.workshop == a.workshop && p.workshop_group <= workshop.line && workshop.quota > 0
            };
            let stage = |p: &Pair| self.students[usize::from(p.student) - 1].stage;
            !counts(a)
                || self
                    .pairs
                    .iter()
                    .filter(|b| counts(b))
                    .all(|b| a.workshop_group.cmp(&b.workshop_group) == stage(a).cmp(&stage(b)))
        })
    }
}

impl Pair {
    fn fields(&self) -> [u16; 5] {
        [
            self.student,
            self.workshop,
            self.student_group,
            self.workshop_group,
            self.fare,
        ]
    }
}

impl Lengths {
    /// Whether no buffer is shorter than needed.
    pub fn suffice(&self, needed: &Lengths) -> bool {
        self.places >= needed.places
            && self.visits >= needed.visits
            && self.seats >= needed.seats
            && self.index >= needed.index
            && self.cards >= needed.cards
    }

    /// Lengths that suffice for every case.
    pub fn ample() -> Lengths {
        let pairs = MAX_STUDENTS * MAX_WORKSHOPS;
        Lengths {
            places: MAX_STUDENTS,
            visits: 2 * pairs,
            seats: usize::from(MAX_QUOTA) * MAX_WORKSHOPS,
            index: pairs,
            cards: MAX_STUDENTS,
        }
    }
}

impl Answer {
    /// What the program prints for this answer.
    pub fn text(&self) -> String {
        let mut text = String::new();
        match self {
            Answer::Placed {
                places,
                visits,
                fares,
            } => {
                for (index, workshop) in places.iter().enumerate() {
                    let _ = writeln!(text, "place {} {workshop}", index + 1);
                }
                push_visits(&mut text, visits, *fares);
            }
            Answer::Next {
                student,
                workshop,
                visits,
                fares,
            } => {
                let _ = writeln!(text, "next {student} {workshop}");
                push_visits(&mut text, visits, *fares);
            }
            Answer::Refused { number, place } => {
                let _ = writeln!(text, "refused {number} {place}");
            }
        }
        text
    }

    pub fn outcome(&self) -> Outcome {
        match *self {
            Answer::Placed {
                ref visits, fares, ..
            } => Outcome::Placed {
                visits: visits.len(),
                fares,
            },
            Answer::Next {
                student,
                workshop,
                ref visits,
                fares,
            } => Outcome::Next {
                student,
                workshop,
                visits: visits.len(),
                fares,
            },
            Answer::Refused { number, place } => Outcome::Refused { number, place },
        }
    }

    /// The visits listed; a refusal lists none.
    pub fn visits(&self) -> &[(u16, u16)] {
        match self {
            Answer::Placed { visits, .. } | Answer::Next { visits, .. } => visits,
            Answer::Refused { .. } => &[],
        }
    }

    /// What the listed visits cost; a refusal has no total.
    pub fn fares(&self) -> Option<u64> {
        match *self {
            Answer::Placed { fares, .. } | Answer::Next { fares, .. } => Some(fares),
            Answer::Refused { .. } => None,
        }
    }

    /// The same answer with another total, if it has one.
    pub fn costing(mut self, total: u64) -> Answer {
        if let Answer::Placed { fares, .. } | Answer::Next { fares, .. } = &mut self {
            *fares = total;
        }
        self
    }
}

impl Input {
    /// The case and the book as fields, for a failure report.
    pub fn describe(&self) -> String {
        const SHOWN: usize = 80;
        let mut text = format!("lent {:?}\n", self.lent);
        for record in self.case.chunks(CASE_RECORD).take(SHOWN) {
            let _ = writeln!(text, "  case {}", hex(record));
        }
        for record in self.book.chunks(BOOK_RECORD).take(SHOWN) {
            let _ = writeln!(text, "  book {}", hex(record));
        }
        text
    }
}

pub fn push_case_record(bytes: &mut Vec<u8>, kind: u8, fields: &[u16]) {
    let start = bytes.len();
    bytes.extend([kind, 0]);
    for field in fields {
        bytes.extend(field.to_le_bytes());
    }
    bytes.resize(start + CASE_RECORD, 0);
}

pub fn book_bytes(book: &[Record]) -> Vec<u8> {
    let mut bytes = Vec::with_capacity(book.len() * BOOK_RECORD);
    for record in book {
        bytes.extend(record.student.to_le_bytes());
        bytes.extend(record.workshop.to_le_bytes());
        bytes.extend(record.student_mark.to_le_bytes());
        bytes.extend(record.workshop_mark.to_le_bytes());
    }
    bytes
}

fn push_visits(text: &mut String, visits: &[(u16, u16)], fares: u64) {
    let _ = writeln!(text, "visits {}", visits.len());
    for (student, workshop) in visits {
        let _ = writeln!(text, "visit {student} {workshop}");
    }
    let _ = writeln!(text, "fares {fares}");
}

fn hex(bytes: &[u8]) -> String {
    bytes.iter().map(|byte| format!("{byte:02x} ")).collect()
}
