//! The kinds of never that runs meet: a part counts them, and fails where one is missing.

use crate::literal::PairTable;
use crate::model::*;
use crate::tally::{Counts, Tally};
use std::collections::HashSet;

const NAMES: [&str; 8] = [
    "student's -1000 in her line group",
    "student's -1000 in another group",
    "workshop's -1000 in its line group",
    "workshop's -1000 in another group",
    "-1000 from both",
    "two -1000 of a student in one group",
    "two -1000 of a workshop in one group",
    "-999",
];

/// How many runs have met each kind.
#[derive(Default)]
pub struct Kinds(Counts<{ NAMES.len() }>);

impl Kinds {
    /// Counts a run by the records of its visits.
    pub fn count(&mut self, case: &Case, book: &[Record], visits: &[(u16, u16)]) {
        let visited: HashSet<_> = visits.iter().collect();
        let pairs = PairTable::new(case);
        let mut nevers = HashSet::new();
        let mut met = [false; NAMES.len()];
        for record in book {
            if !visited.contains(&(record.student, record.workshop)) {
                continue;
            }
            let (s, w) = (usize::from(record.student), usize::from(record.workshop));
            let (student_group, workshop_group) = pairs
                .get(record.student, record.workshop)
                .expect("the book was checked");
            let marks = [record.student_mark, record.workshop_mark];
            let in_line_group = [
                student_group == case.students[s - 1].line,
                workshop_group == case.workshops[w - 1].line,
            ];
            let tiers = [(s, student_group), (w, workshop_group)];
            for side in 0..2 {
                if marks[side] == NEVER {
                    met[2 * side + usize::from(!in_line_group[side])] = true;
                    met[5 + side] |= !nevers.insert((side, tiers[side]));
                }
            }
            met[4] |= marks == [NEVER; 2];
            met[7] |= marks.contains(&(NEVER + 1));
        }
        self.0.add(met);
    }

    /// Tells the counts of these runs; every kind must have been met.
    pub fn check(&self, tally: &mut Tally, runs: &str) {
        let what = format!("{runs} that met");
        self.0.check(tally, &what, NAMES, |_| true);
    }
}

/// How many refusals by cause 11 stand beside a -1000, which cause 11 passes over.
#[derive(Default)]
pub struct Ties {
    /// The other mark of the refused record is -1000.
    own: usize,
    /// The student gave a -1000 earlier in the same group.
    earlier: usize,
}

impl Ties {
    pub fn count(&mut self, case: &Case, book: &[Record], place: usize) {
        let pairs = PairTable::new(case);
        let groups = |record: &Record| pairs.get(record.student, record.workshop);
        let refused = book[place];
        let (student_group, _) = groups(&refused).expect("cause 8 comes first");
        let beside = |record: &Record| {
            record.student_mark == NEVER
                && record.student == refused.student
                && groups(record).is_some_and(|(group, _)| group == student_group)
        };
        self.own += usize::from(refused.workshop_mark == NEVER);
        self.earlier += usize::from(book[..place].iter().any(beside));
    }

    pub fn check(&self, tally: &mut Tally) {
        let Ties { own, earlier } = self;
        tally.note(&format!(
            "refusals 11 beside a -1000: in the record itself {own}, earlier in the group {earlier}"
        ));
        tally.check(*own > 0 && *earlier > 0, || {
            "no tie beside never".to_string()
        });
    }
}
