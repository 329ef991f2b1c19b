//! The kinds of equal marks and lots that runs meet, and of refusals by cause 13: a part counts
//! them, and fails where one is missing.

use crate::literal::{self, Event, PairTable};
use crate::model::*;
use crate::mutants::with_good_lots;
use crate::tally::{Counts, Tally};
use std::collections::{HashMap, HashSet};

const NAMES: [&str; 19] = [
    "newcomer with the lower lot takes a holder's seat",
    "newcomer with the higher lot is turned away",
    "of two equal holders the higher lot is dropped",
    "workshop held open is closed by a lot",
    "three equal marks or more, the highest lot goes",
    "the lot decides against the numbers",
    "the lot decides along with the numbers",
    "the lot decides against its low byte",
    "the lot decides, only one above 256",
    "the lot decides against 512",
    "the lot decides above none in the line group",
    "the lot decides equal negative marks",
    "equal marks, the group decides against the lot",
    "the mark decides against the lot",
    "equal marks, all of them with seats",
    "equal marks, one of a student who has not come",
    "equal marks of -1000",
    "the lot decides equal marks of -999",
    "lots that are the numbers",
];

/// Which kinds a run has met.
type Met = [bool; NAMES.len()];

/// How many runs have met each kind.
#[derive(Default)]
pub struct Kinds(Counts<{ NAMES.len() }>);

impl Kinds {
    /// Counts a run by its visits and by what happened at the workshops.
    pub fn count(&mut self, case: &Case, book: &[Record], answer: &Answer, events: &[Event]) {
        let scene = Scene::new(case, book, answer.visits());
        let mut met = [false; NAMES.len()];
        scene.watch(&mut met, events);
        scene.look_back(&mut met, answer);
        self.0.add(met);
    }

    /// Tells the counts of these runs; every kind must have been met.
    pub fn check(&self, tally: &mut Tally, runs: &str) {
        let what = format!("{runs} that met");
        self.0.check(tally, &what, NAMES, |_| true);
    }
}

/// A run with its visits' results; people are counted from 1.
struct Scene<'a> {
    case: &'a Case,
    /// By workshop and student: the workshop's group and mark, of those who have visited.
    met: HashMap<(usize, usize), (u16, i16)>,
    /// By workshop, group and mark: who has visited.
    equal: HashMap<(usize, u16, i16), Vec<usize>>,
    /// Workshop, group and mark of the other records.
    unvisited: HashSet<(usize, u16, i16)>,
}

impl<'a> Scene<'a> {
    fn new(case: &'a Case, book: &[Record], visits: &[(u16, u16)]) -> Scene<'a> {
        let visited: HashSet<_> = visits.iter().collect();
        let pairs = PairTable::new(case);
        let mut scene = Scene {
            case,
            met: HashMap::new(),
            equal: HashMap::new(),
            unvisited: HashSet::new(),
        };
        for record in book {
            let (s, w) = (usize::from(record.student), usize::from(record.workshop));
            let groups = pairs.get(record.student, record.workshop);
            let (_, group) = groups.expect("the book was checked");
            let key = (w, group, record.workshop_mark);
            if visited.contains(&(record.student, record.workshop)) {
                scene.met.insert((w, s), (group, record.workshop_mark));
                scene.equal.entry(key).or_default().push(s);
            } else {
                scene.unvisited.insert(key);
            }
        }
        scene
    }

    fn lot(&self, student: usize) -> u16 {
        self.case.students[student - 1].lot
    }

    /// Goes through the events, with the holders of each workshop.
    fn watch(&self, met: &mut Met, events: &[Event]) {
        let mut holders = vec![Vec::new(); self.case.workshops.len() + 1];
        let mut last_dropped = None;
        for event in events {
            match *event {
                Event::Applied {
                    workshop,
                    newcomer,
                    dropped,
                } => {
                    last_dropped = dropped;
                    let kept = &mut holders[workshop];
                    kept.push(newcomer);
                    if let Some(dropped) = dropped {
                        kept.retain(|&holder| holder != dropped);
                        self.dropped(met, workshop, newcomer, dropped, kept);
                    }
                }
                Event::Closed {
                    workshop,
                    student,
                    lowest,
                } => {
                    // Who was just dropped is told above.
                    let other = last_dropped != Some(student);
                    met[3] |= other && self.by_lot(met, workshop, student, lowest);
                }
            }
        }
    }

    /// Whether only the lot puts the one below the other; if so, how.
    fn by_lot(&self, met: &mut Met, workshop: usize, low: usize, high: usize) -> bool {
        let (group, mark) = self.met[&(workshop, low)];
        if (group, mark) != self.met[&(workshop, high)] {
            return false;
        }
        let (lower, higher) = (self.lot(high), self.lot(low));
        met[5] |= high > low;
        met[6] |= high < low;
        met[7] |= lower & 255 > higher & 255;
        met[8] |= lower <= 256 && higher > 256;
        met[9] |= higher == MAX_LOT;
        met[10] |= mark > 0 && group == self.case.workshops[workshop - 1].line;
        met[11] |= mark < 0;
        met[17] |= mark == NEVER + 1;
        true
    }

    /// Somebody was dropped, and these were kept.
    fn dropped(&self, met: &mut Met, w: usize, newcomer: usize, dropped: usize, kept: &[usize]) {
        let (group, mark) = self.met[&(w, dropped)];
        let mut equal = 1;
        for &other in kept {
            let (other_group, other_mark) = self.met[&(w, other)];
            let against = self.lot(other) > self.lot(dropped);
            met[12] |= other_mark == mark && other_group < group && against;
            met[13] |= other_mark > mark && other_group == group && against;
            if self.by_lot(met, w, dropped, other) {
                equal += 1;
                met[0] |= other == newcomer;
                met[1] |= dropped == newcomer;
                met[2] |= dropped != newcomer && other != newcomer;
            }
        }
        met[4] |= equal >= 3;
    }

    /// What all visits and the placement show.
    fn look_back(&self, met: &mut Met, answer: &Answer) {
        let places: &[u16] = match answer {
            Answer::Placed { places, .. } => places,
            _ => &[],
        };
        for (key, students) in &self.equal {
            let &(w, _, mark) = key;
            let equal = students.len() >= 2;
            let seated = |s: &usize| places.get(s - 1) == Some(&(w as u16));
            met[14] |= equal && students.iter().all(seated);
            met[15] |= self.unvisited.contains(key);
            met[16] |= equal && mark == NEVER;
        }
        let mut numbers = self.case.students.iter().zip(1..);
        met[18] |= self.case.students.len() > 1 && numbers.all(|(s, number)| s.lot == number);
    }
}

const NAMES_OF_FAULTS: [&str; 9] = [
    "lot 0",
    "lot 513",
    "lot above 513 whose low byte alone is in range",
    "lot 65535",
    "lot of the student just before",
    "lot of a student farther before",
    "lot of the first student at the last",
    "lot used again, and a later one out of range",
    "lot out of range, and a later one used again",
];

/// How many refusals by cause 13 there were of each kind.
#[derive(Default)]
pub struct Faults(Counts<{ NAMES_OF_FAULTS.len() }>);

impl Faults {
    /// Counts a case that was refused by cause 13 at this place.
    pub fn count(&mut self, case: &[u8], place: usize) {
        let records: Vec<&[u8]> = case.chunks_exact(CASE_RECORD).collect();
        let students = literal::decode_case(&records).students;
        let lots: Vec<u16> = students.iter().map(|student| student.lot).collect();
        let lot = lots[place];
        let in_range = |lot: &u16| (1..=MAX_LOT).contains(lot);
        let earlier = lots[..place].iter().position(|other| *other == lot);
        let again = |at: usize| in_range(&lots[at]) && lots[..at].contains(&lots[at]);
        self.0.add([
            lot == 0,
            lot == MAX_LOT + 1,
            lot > MAX_LOT + 1 && lot & 255 > 0,
            lot == u16::MAX,
            earlier.is_some_and(|at| at + 1 == place),
            earlier.is_some_and(|at| at + 1 < place),
            earlier == Some(0) && place > 1 && place + 1 == lots.len(),
            earlier.is_some() && !lots[place..].iter().all(in_range),
            earlier.is_none() && (place + 1..lots.len()).any(again),
        ]);
    }

    /// Tells the counts; every kind must have been met.
    pub fn check(&self, tally: &mut Tally) {
        let what = "refusals 13 with";
        self.0.check(tally, what, NAMES_OF_FAULTS, |_| true);
    }
}

/// The causes that come before 13, and those after it.
const BEFORE: [u16; 5] = [1, 2, 3, 4, 5];
const AFTER: [u16; 6] = [6, 7, 8, 9, 10, 11];

/// The faults, and how many inputs had a bad lot beside each other cause.
#[derive(Default)]
pub struct Refusals {
    faults: Faults,
    beside: HashMap<u16, usize>,
}

impl Refusals {
    /// Counts an input that was refused by this cause.
    pub fn count(&mut self, input: &Input, number: u16, place: usize) {
        let mut beside = |number: u16| *self.beside.entry(number).or_default() += 1;
        if number == 13 {
            self.faults.count(&input.case, place);
            if let Answer::Refused { number, .. } = literal::answer(&with_good_lots(input)) {
                beside(number);
            }
        } else if BEFORE.contains(&number) {
            let records: Vec<&[u8]> = input.case.chunks_exact(CASE_RECORD).collect();
            if literal::first_bad_lot(&records).is_some() {
                beside(number);
            }
        }
    }

    /// Tells the counts; every fault must have been met, and every other cause beside 13.
    pub fn check(&self, tally: &mut Tally) {
        self.faults.check(tally);
        for (causes, which) in [(&BEFORE[..], "before"), (&AFTER, "after")] {
            let counts = causes.iter().map(|cause| self.beside.get(cause).copied());
            let counts: Vec<usize> = counts.map(Option::unwrap_or_default).collect();
            tally.note(&format!(
                "bad lots beside {causes:?}, tested {which} 13: {counts:?}"
            ));
            tally.check(counts.iter().all(|count| *count > 0), || {
                format!("no bad lot beside a cause {which} 13: {counts:?}")
            });
        }
    }
}
