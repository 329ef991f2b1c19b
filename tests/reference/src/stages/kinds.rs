//! The kinds of cases that a part meets: it counts them, and fails where one is missing.

use super::mutants::equal_groups_ignored;
use super::{least, rows_of_groups};
use crate::model::*;
use crate::tally::{Counts, Tally};

const NAMES: [&str; 23] = [
    "one stage for all",
    "2 to 8 stages",
    "9 to 511 stages",
    "512 stages, 512 x 64 with all pairs",
    "12, and two workshops suffice for it",
    "12 that needs three workshops or more",
    "12, also without the equal groups",
    "12 that needs an equal group",
    "few pairs",
    "no pairs",
    "a student without pairs, others with",
    "gaps in the groups",
    "quota 0 that keeps it from 12",
    "quota 0 that keeps a stage lower",
    "a line that keeps it from 12",
    "a line that keeps a stage lower",
    "students in a line group who make it 12",
    "students in a line group who raise a stage",
    "equal groups that raise a stage",
    "stages in the file unlike the answer",
    "lots that are the numbers",
    "other lots",
    "lot 512",
];

/// Which cases a part draws; some kinds are due of the small ones only, some of the large ones.
#[derive(Clone, Copy, PartialEq, Eq)]
pub enum Size {
    Small,
    Large,
}

/// How many cases were of each kind.
#[derive(Default)]
pub struct Kinds(Counts<{ NAMES.len() }>);

impl Kinds {
    /// Counts a case by what it is, not by how it was made.
    pub fn count(&mut self, case: &Case, found: Option<&[u16]>) {
        self.0.add(kinds(case, found));
    }

    /// Tells the counts; every kind of this size must have been met.
    pub fn check(&self, tally: &mut Tally, size: Size) {
        self.0.check(tally, "cases with", NAMES, |kind| match size {
            Size::Small => !matches!(kind, 2 | 3),
            Size::Large => kind != 5,
        });
    }
}

fn kinds(case: &Case, found: Option<&[u16]>) -> [bool; NAMES.len()] {
    let (n, m, p) = (case.students.len(), case.workshops.len(), case.pairs.len());
    let stages = found.map_or(0, |stages| stages.iter().copied().max().unwrap_or(0));
    let refused = found.is_none();
    let all = p == n * m;
    let numbered = case
        .students
        .iter()
        .zip(1..)
        .all(|(s, number)| s.lot == number);

    // Of many workshops it is not asked how many suffice.
    let few = m <= 8;
    let two_suffice = refused && few && two_workshops_suffice(case);
    let strict = equal_groups_ignored(case);
    let strict = strict.as_deref();

    let opened = changed(case, |case| {
        case.workshops
            .iter_mut()
            .for_each(|w| w.quota = w.quota.max(1));
    });
    let lifted = changed(case, |case| {
        let lines = case.workshops.iter_mut().filter(|w| w.quota > 0);
        lines.for_each(|w| w.line = MAX_WORKSHOP_GROUP);
    });
    let without_line_groups = changed(case, |case| {
        let lines: Vec<u16> = case.workshops.iter().map(|w| w.line).collect();
        let off = |pair: &Pair| pair.workshop_group != lines[usize::from(pair.workshop) - 1];
        case.pairs.retain(off);
    });
    let differs = |other: &Option<Vec<u16>>| other.is_some() && other.as_deref() != found;
    [
        stages == 1 && p > 0,
        (2..=8).contains(&stages),
        (9..=511).contains(&stages),
        stages == 512 && all && (n, m) == (512, 64),
        two_suffice,
        refused && few && !two_suffice,
        refused && strict.is_none(),
        refused && strict.is_some(),
        p > 0 && 3 * p < n * m,
        p == 0,
        p > 0 && (1..=n as u16).any(|s| case.pairs.iter().all(|pair| pair.student != s)),
        has_gaps(case),
        !refused && opened.is_none(),
        !refused && differs(&opened),
        !refused && lifted.is_none(),
        !refused && differs(&lifted),
        refused && without_line_groups.is_some(),
        !refused && differs(&without_line_groups),
        !refused && strict.is_some() && strict != found,
        found.is_some_and(|found| case.students.iter().zip(found).any(|(s, f)| s.stage != *f)),
        numbered,
        !numbered,
        case.students.iter().any(|student| student.lot == MAX_LOT),
    ]
}

/// The least stages of the case after a change.
fn changed(case: &Case, change: impl FnOnce(&mut Case)) -> Option<Vec<u16>> {
    let mut case = case.clone();
    change(&mut case);
    least(&case)
}

/// Whether some two workshops alone permit no stages.
fn two_workshops_suffice(case: &Case) -> bool {
    let numbers = 1..=case.workshops.len() as u16;
    let mut twos = numbers
        .clone()
        .flat_map(|one| numbers.clone().map(move |other| (one, other)))
        .filter(|(one, other)| one < other);
    twos.any(|(one, other)| {
        let two = changed(case, |case| {
            case.pairs
                .retain(|p| p.workshop == one || p.workshop == other)
        });
        two.is_none()
    })
}

/// A group number of a workshop that counts has no students, and a later one has.
fn has_gaps(case: &Case) -> bool {
    let rows = rows_of_groups(case);
    let last_groups = (1..=case.workshops.len() as u16).map(|number| {
        let workshop = case.workshops[usize::from(number) - 1];
        let own = case.pairs.iter().filter(|pair| pair.workshop == number);
        let counted = own.filter(|p| workshop.quota > 0 && p.workshop_group <= workshop.line);
        counted.map(|pair| usize::from(pair.workshop_group)).max()
    });
    rows.iter()
        .zip(last_groups)
        .any(|(row, last)| last.is_some_and(|last| last > row.len()))
}
