//! The kinds of fares and totals that runs meet, and of refusals by cause 2 beside fares: a part
//! counts them, and fails where one is missing.

use crate::literal;
use crate::model::*;
use crate::tally::{Counts, Tally};
use std::collections::HashSet;

const NAMES: [&str; 24] = [
    "no fare anywhere",
    "total 0 of some visits, a fare elsewhere",
    "total above 0, a fare elsewhere too",
    "total above 0, no fare elsewhere",
    "fare at the first listed pair",
    "fare at the last listed pair",
    "fare at a listed pair that is not placed",
    "fare at a listed pair that ended in never",
    "listed fare in the low byte only",
    "listed fare in the high byte only",
    "listed fare with two other bytes",
    "listed fare of 65,535",
    "one fare twice in the list",
    "listed fare that is the workshop's group",
    "fare not listed, deleted before stage 1",
    "fare not listed, in the book",
    "total of 256 to 65,535",
    "total above 65,535",
    "total above 16,777,215",
    "next visit with a fare, total above 0",
    "next visit with a fare, visits listed, total 0",
    "next visit without a fare, total above 0",
    "stopped at once, a fare at the next visit",
    "stopped at once, fares elsewhere only",
];

/// The total that needs a fourth byte; the kinds after it are of stopped runs.
const LARGEST: usize = 18;

/// Which runs a part counts; some kinds are due of some only.
#[derive(Clone, Copy, PartialEq, Eq)]
pub enum Runs {
    /// Of few people, stopped and finished ones.
    Small,
    /// Of few people, finished ones only.
    Finished,
    /// Of many people too.
    Large,
}

/// How many runs have met each kind.
#[derive(Default)]
pub struct Kinds(Counts<{ NAMES.len() }>);

impl Kinds {
    /// Counts a run by its fares and its total.
    pub fn count(&mut self, case: &Case, book: &[Record], answer: &Answer) {
        if let Some(total) = answer.fares() {
            let scene = Scene::new(case, book, answer, total);
            let mut met = [false; NAMES.len()];
            met[..16].copy_from_slice(&scene.of_fares());
            met[16..].copy_from_slice(&scene.of_total());
            self.0.add(met);
        }
    }

    /// Tells the counts of these runs; every kind that they can meet must have been met.
    pub fn check(&self, tally: &mut Tally, what: &str, runs: Runs) {
        let what = format!("{what} that met");
        self.0.check(tally, &what, NAMES, |kind| match runs {
            Runs::Small => kind != LARGEST,
            Runs::Finished => kind < LARGEST,
            Runs::Large => true,
        });
    }
}

/// A run with its pairs that have a fare.
struct Scene<'a> {
    case: &'a Case,
    book: &'a [Record],
    answer: &'a Answer,
    total: u64,
    listed: Vec<&'a Pair>,
    other: Vec<&'a Pair>,
}

fn key(pair: &Pair) -> (u16, u16) {
    (pair.student, pair.workshop)
}

impl<'a> Scene<'a> {
    fn new(case: &'a Case, book: &'a [Record], answer: &'a Answer, total: u64) -> Scene<'a> {
        let visited: HashSet<_> = answer.visits().iter().collect();
        let with_fare = case.pairs.iter().filter(|pair| pair.fare > 0);
        let (listed, other) = with_fare.partition(|pair| visited.contains(&key(pair)));
        Scene {
            case,
            book,
            answer,
            total,
            listed,
            other,
        }
    }

    /// Some listed pair with a fare is so.
    fn paid(&self, test: impl Fn(&Pair) -> bool) -> bool {
        self.listed.iter().any(|pair| test(pair))
    }

    /// Some other pair with a fare is so.
    fn unpaid(&self, test: impl Fn(&Pair) -> bool) -> bool {
        self.other.iter().any(|pair| test(pair))
    }

    /// The pairs of the records of which this holds.
    fn in_book(&self, test: impl Fn(&Record) -> bool) -> HashSet<(u16, u16)> {
        let records = self.book.iter().filter(|record| test(record));
        records.map(|r| (r.student, r.workshop)).collect()
    }

    /// Beyond its workshop's line group, or at a workshop without seats.
    fn hopeless(&self, pair: &Pair) -> bool {
        let workshop = self.case.workshops[usize::from(pair.workshop) - 1];
        workshop.quota == 0 || pair.workshop_group > workshop.line
    }

    /// The first kinds, down to the fares that are not listed.
    fn of_fares(&self) -> [bool; 16] {
        let (visits, elsewhere) = (self.answer.visits(), !self.other.is_empty());
        let places: &[u16] = match self.answer {
            Answer::Placed { places, .. } => places,
            _ => &[],
        };
        let has_other = |pair: &Pair| {
            let place = places.get(usize::from(pair.student) - 1);
            place.is_some_and(|place| *place != pair.workshop)
        };
        let never = self.in_book(|r| [r.student_mark, r.workshop_mark].contains(&NEVER));
        let in_book = self.in_book(|_| true);
        let bytes = |pair: &Pair| pair.fare.to_le_bytes();
        let different: HashSet<u16> = self.listed.iter().map(|pair| pair.fare).collect();
        [
            self.listed.is_empty() && !elsewhere,
            self.total == 0 && !visits.is_empty() && elsewhere,
            self.total > 0 && elsewhere,
            self.total > 0 && !elsewhere,
            self.paid(|pair| visits.first() == Some(&key(pair))),
            self.paid(|pair| visits.last() == Some(&key(pair))),
            self.paid(has_other),
            self.paid(|pair| never.contains(&key(pair))),
            self.paid(|pair| bytes(pair)[1] == 0),
            self.paid(|pair| bytes(pair)[0] == 0),
            self.paid(|pair| !bytes(pair).contains(&0) && bytes(pair)[0] != bytes(pair)[1]),
            different.contains(&u16::MAX),
            different.len() < self.listed.len(),
            self.paid(|pair| pair.fare == pair.workshop_group),
            self.unpaid(|pair| self.hopeless(pair)),
            self.unpaid(|pair| in_book.contains(&key(pair))),
        ]
    }

    /// The other kinds: the size of the total, and what a stopped run has.
    fn of_total(&self) -> [bool; 8] {
        let next = match *self.answer {
            Answer::Next {
                student, workshop, ..
            } => Some((student, workshop)),
            _ => None,
        };
        let (stopped, total) = (next.is_some(), self.total);
        let costs = self.unpaid(|pair| Some(key(pair)) == next);
        let at_once = stopped && self.answer.visits().is_empty();
        [
            (256..=65_535).contains(&total),
            total > 65_535,
            total > 16_777_215,
            costs && total > 0,
            costs && !at_once && total == 0,
            stopped && !costs && total > 0,
            costs && at_once,
            at_once && !costs && !self.other.is_empty(),
        ]
    }
}

const NAMES_OF_FAULTS: [&str; 9] = [
    "byte 10 of a student alone",
    "byte 11 of a student alone",
    "byte 10 of a workshop alone",
    "byte 11 of a workshop alone",
    "byte 12 of a pair alone",
    "byte 13 of a pair alone",
    "byte 14 or 15 of a pair alone",
    "a fare in an earlier record",
    "a fare in the same record",
];

/// How many refusals by cause 2 there were of each kind.
#[derive(Default)]
pub struct Faults(Counts<{ NAMES_OF_FAULTS.len() }>);

impl Faults {
    /// Counts a case that was refused by cause 2 at this place.
    pub fn count(&mut self, case: &[u8], place: usize) {
        let records: Vec<&[u8]> = case.chunks_exact(CASE_RECORD).collect();
        let record = records[place];
        let alone = |kind: u8, byte: usize| {
            let mut mended = record.to_vec();
            mended[byte] = 0;
            record[0] == kind && literal::first_misformed(&[&mended]).is_none()
        };
        self.0.add([
            alone(1, 10),
            alone(1, 11),
            alone(2, 10),
            alone(2, 11),
            alone(3, 12),
            alone(3, 13),
            alone(3, 14) || alone(3, 15),
            records[..place].iter().any(|record| has_fare(record)),
            has_fare(record),
        ]);
    }

    /// Tells the counts; every kind must have been met.
    pub fn check(&self, tally: &mut Tally) {
        self.0
            .check(tally, "refusals 2 with", NAMES_OF_FAULTS, |_| true);
    }
}

fn has_fare(record: &[u8]) -> bool {
    record[0] == 3 && record[10..12] != [0, 0]
}

/// The causes of refusal.
const CAUSES: [u16; 12] = [1, 2, 3, 4, 5, 13, 6, 7, 8, 9, 10, 11];

/// The faults, and how many inputs with a fare were refused by each cause.
#[derive(Default)]
pub struct Refusals {
    faults: Faults,
    beside: Counts<{ CAUSES.len() }>,
}

impl Refusals {
    /// Counts a case that was refused by this cause.
    pub fn count(&mut self, case: &[u8], number: u16, place: usize) {
        if number == 2 {
            self.faults.count(case, place);
        }
        let fares = case.chunks_exact(CASE_RECORD).any(has_fare);
        self.beside
            .add(CAUSES.map(|cause| cause == number && fares));
    }

    /// Tells the counts; every fault must have been met, and every cause beside a fare.
    pub fn check(&self, tally: &mut Tally) {
        self.faults.check(tally);
        let names = CAUSES.map(|cause| cause.to_string());
        let names = names.each_ref().map(String::as_str);
        let what = "inputs with a fare, refused by";
        self.beside.check(tally, what, names, |_| true);
    }
}
