//! Broken references. The suite must tell each of them from the literal one.

use crate::literal::{self, PairTable};
use crate::model::*;
use crate::proved;
use std::cmp::Ordering;
use std::collections::HashSet;
use std::ops::Range;

pub struct Mutant {
    pub name: &'static str,
    pub answer: Box<dyn Fn(&Input) -> Answer>,
}

/// Slips inside the staged rule.
#[derive(Clone, Copy, PartialEq, Eq)]
enum Slip {
    /// No slip: the control, which must agree with the literal reference.
    Nothing,
    DeleteOnlyVisited,
    OpenWhileOpen,
    MarksAcrossGroups,
    StudentNegativeIsNo,
    WorkshopNegativeIsNo,
    DeleteBeforeFull,
    UnsignedMarks,
    QuotaOneMore,
    QuotaOneLess,
    FallingVisits,
    StagesIgnored,
    FirstStageOnly,
    DroppedWaits,
    StudentLineIgnored,
    WorkshopLineIgnored,
    ClosedVisited,
    BeyondLineVisited,
    DeleteByUnvisitedMarks,
    DeleteWholeGroup,
    PastOwnLine,
    NeverFromStudentOnly,
    NeverFromWorkshopOnly,
    NeverInLineGroupOnly,
    NeverNotListed,
    LowestIsNever,
    HigherLotWins,
    LotBeforeMark,
    LotsAcrossGroups,
    NumberForLot,
    LowByteOfLot,
    LotOfUnvisited,
    EqualIsNotBelow,
}

/// Without a slip; they must agree with the literal reference.
pub fn controls() -> Vec<Mutant> {
    vec![
        rule("no slip", Slip::Nothing),
        on_ties("no slip in cause 11", |given| {
            (given.by_student && given.mark != NEVER).then_some((given.group, given.mark))
        }),
        on_bytes("no slip in the bytes", |_| ()),
        on_total("no slip in the total", |run| run.sum(|_| true)),
        on_fare("no slip in the fares", |pair| pair.fare),
        on_length("no slip in the length", |length| length),
    ]
}

/// Slips that small cases show; those around fares, which are more often seen, are apart.
pub fn all() -> Vec<Mutant> {
    let mut mutants = rules(|_| true);
    mutants.extend(bad_engines());
    mutants.extend(slips_of_refusal());
    mutants.extend(slips_of_length());
    mutants.extend(refusals_of_never());
    mutants.extend(refusals_of_lots());
    mutants
}

/// The slips around never.
pub fn about_never() -> Vec<Mutant> {
    let mut mutants = rules(Slip::about_never);
    mutants.extend(refusals_of_never());
    mutants
}

/// The slips around lots.
pub fn about_lots() -> Vec<Mutant> {
    let mut mutants = rules(Slip::about_lots);
    mutants.extend(refusals_of_lots());
    mutants
}

/// The slips around fares.
pub fn about_fares() -> Vec<Mutant> {
    let mut mutants = slips_of_totals();
    mutants.extend(SLIPS_OF_READING.map(|(name, fare)| on_fare(name, fare)));
    mutants.extend(SLIPS_OF_FARES.map(|(name, change)| on_bytes(name, change)));
    mutants
}

/// The slips that document 01 lists, those around never and those around lots; each of them breaks
/// demand 2 or demand 3.
pub fn that_break_demands() -> Vec<Mutant> {
    rules(|slip| slip.of_a_careful_hand() || slip.about_never() || slip.about_lots())
}

fn rules(chosen: fn(Slip) -> bool) -> Vec<Mutant> {
    let slips = SLIPS.iter().filter(|(slip, _)| chosen(*slip));
    slips.map(|&(slip, name)| rule(name, slip)).collect()
}

impl Slip {
    fn of_a_careful_hand(self) -> bool {
        matches!(
            self,
            Slip::DeleteOnlyVisited
                | Slip::OpenWhileOpen
                | Slip::MarksAcrossGroups
                | Slip::StudentNegativeIsNo
                | Slip::WorkshopNegativeIsNo
                | Slip::DeleteBeforeFull
        )
    }

    fn about_never(self) -> bool {
        matches!(
            self,
            Slip::NeverFromStudentOnly
                | Slip::NeverFromWorkshopOnly
                | Slip::NeverInLineGroupOnly
                | Slip::NeverNotListed
                | Slip::LowestIsNever
        )
    }

    /// The lot of student `s`, counted from 0, as a run with this slip takes it.
    fn lot(self, s: usize, lot: u16) -> i32 {
        match self {
            Slip::HigherLotWins => -i32::from(lot),
            Slip::NumberForLot => s as i32,
            Slip::LowByteOfLot => i32::from(lot & 255),
            Slip::EqualIsNotBelow => 0,
            _ => i32::from(lot),
        }
    }

    /// Greater is lower at a workshop that both have visited.
    fn compare(self, one: &Cell, other: &Cell) -> Ordering {
        let mark = |cell: &Cell| -cell.marks.map_or(0, |marks| marks.1);
        let by_group = one.workshop_group.cmp(&other.workshop_group);
        let by_mark = mark(one).cmp(&mark(other));
        let by_lot = one.lot.cmp(&other.lot);
        match self {
            Slip::MarksAcrossGroups => by_mark.then(by_lot),
            Slip::LotBeforeMark => by_group.then(by_lot).then(by_mark),
            Slip::LotsAcrossGroups if by_mark == Ordering::Equal => by_lot,
            _ => by_group.then(by_mark).then(by_lot),
        }
    }

    fn about_lots(self) -> bool {
        matches!(
            self,
            Slip::HigherLotWins
                | Slip::LotBeforeMark
                | Slip::LotsAcrossGroups
                | Slip::NumberForLot
                | Slip::LowByteOfLot
                | Slip::LotOfUnvisited
                | Slip::EqualIsNotBelow
        )
    }

    /// `in_line_groups`: whether the workshop is in the student's line group, and she in its.
    fn takes_for_never(self, record: &Record, in_line_groups: (bool, bool)) -> bool {
        let last = match self {
            Slip::LowestIsNever => NEVER + 1,
            _ => NEVER,
        };
        let from_student = record.student_mark <= last;
        let from_workshop = record.workshop_mark <= last;
        match self {
            Slip::NeverFromStudentOnly => from_student,
            Slip::NeverFromWorkshopOnly => from_workshop,
            Slip::NeverInLineGroupOnly => {
                from_student && in_line_groups.0 || from_workshop && in_line_groups.1
            }
            _ => from_student || from_workshop,
        }
    }
}

const SLIPS: [(Slip, &str); 32] = [
    (Slip::DeleteOnlyVisited, "deletes only visited students"),
    (Slip::OpenWhileOpen, "opens a group while one is open"),
    (Slip::MarksAcrossGroups, "compares marks across groups"),
    (Slip::StudentNegativeIsNo, "student's negative mark is a no"),
    (
        Slip::WorkshopNegativeIsNo,
        "workshop's negative mark is a no",
    ),
    (Slip::DeleteBeforeFull, "deletes before full"),
    (Slip::UnsignedMarks, "compares marks unsigned"),
    (Slip::QuotaOneMore, "quota one more"),
    (Slip::QuotaOneLess, "quota one less"),
    (Slip::FallingVisits, "visits in falling number"),
    (Slip::StagesIgnored, "ignores the stages"),
    (Slip::FirstStageOnly, "runs the first stage only"),
    (Slip::DroppedWaits, "dropped student waits"),
    (Slip::StudentLineIgnored, "ignores the student's line mark"),
    (
        Slip::WorkshopLineIgnored,
        "ignores the workshop's line mark",
    ),
    (Slip::ClosedVisited, "visits where the quota is 0"),
    (Slip::BeyondLineVisited, "visits beyond the workshop's line"),
    (Slip::DeleteByUnvisitedMarks, "deletes by unvisited marks"),
    (Slip::DeleteWholeGroup, "deletes the whole last group"),
    (Slip::PastOwnLine, "goes past the student's line"),
    (
        Slip::NeverFromStudentOnly,
        "never from the student's side only",
    ),
    (
        Slip::NeverFromWorkshopOnly,
        "never from the workshop's side only",
    ),
    (Slip::NeverInLineGroupOnly, "never in the line group only"),
    (Slip::NeverNotListed, "a never visit is not listed"),
    (Slip::LowestIsNever, "-999 is never too"),
    (Slip::HigherLotWins, "the higher lot wins"),
    (Slip::LotBeforeMark, "lots before marks"),
    (Slip::LotsAcrossGroups, "lots across groups"),
    (Slip::NumberForLot, "the student's number for her lot"),
    (Slip::LowByteOfLot, "only the lots' low bytes compared"),
    (Slip::LotOfUnvisited, "lots of students who have not come"),
    (Slip::EqualIsNotBelow, "the first of equal marks stays"),
];

/// Slips that show only where there are many people or records.
pub fn of_size() -> Vec<Mutant> {
    vec![
        mutant("forgets workshop 64", |input| match literal::read(input) {
            Ok((mut case, mut book)) => {
                case.pairs.retain(|pair| pair.workshop < 64);
                book.retain(|record| record.workshop < 64);
                literal::run(&case, &book)
            }
            Err(_) => literal::answer(input),
        }),
        on_total("total in 24 bits", |run| run.total & 0xff_ffff),
        on_total("total in a 32-bit float", |run| run.total as f32 as u64),
        on_placed("student numbers in a byte", |_, (places, visits)| {
            let visits = visits.into_iter().map(|(s, w)| (s & 255, w));
            (places, visits.collect())
        }),
        on_placed("places of 256 students", |_, (mut places, visits)| {
            places.iter_mut().skip(256).for_each(|place| *place = 0);
            (places, visits)
        }),
        mutant("seats counted in 15 bits", |input| {
            match (refusal_of(input), with_ample_buffers(input)) {
                ((6, _), ample) if input.lent.seats == (1 << 15) - 1 => literal::answer(&ample),
                _ => literal::answer(input),
            }
        }),
        on_refused("record numbers in 16 bits", |_, number, place| {
            (number, place & 0xffff)
        }),
        on_bytes("lots used again by 256 students", |case| {
            mend_repeats(case, |_, at| at >= 256)
        }),
        on_length("the book's length in 16 bits", |length| length & 0xffff),
    ]
}

fn bad_engines() -> Vec<Mutant> {
    vec![
        on_placed("made-up visits", |case, (places, visits)| {
            let pairs = case.pairs.iter().rev().take(visits.len());
            let made_up = pairs.map(|pair| (pair.student, pair.workshop)).collect();
            (places, made_up)
        }),
        on_placed("one visit too few", |_, (places, mut visits)| {
            visits.pop();
            (places, visits)
        }),
        on_placed("writes no placement", |_, (places, visits)| {
            (vec![0; places.len()], visits)
        }),
        mutant("next visit before running", next_before_running),
        mutant("one placement for all cases", |_| {
            let (case, book) = proved::example();
            literal::run(&case, &book)
        }),
        mutant("refuses all cases", |_| Answer::Refused {
            number: 1,
            place: 0,
        }),
    ]
}

fn slips_of_refusal() -> Vec<Mutant> {
    vec![
        on_refused("swaps causes 10 and 11", |_, number, place| {
            let number = match number {
                10 => 11,
                11 => 10,
                other => other,
            };
            (number, place)
        }),
        on_refused("counts records from 1", |_, number, place| {
            let of_record = matches!(number, 2 | 3 | 5 | 8..=11 | 13);
            (number, place + usize::from(of_record))
        }),
        on_refused("all causes record by record", first_bad_record),
        on_refused("ranges before counts", |input, number, place| {
            let records = input.case.chunks_exact(CASE_RECORD).collect::<Vec<_>>();
            match literal::first_out_of_range(&records) {
                Some(bad) if number == 4 => (5, bad),
                _ => (number, place),
            }
        }),
        on_refused("gives the earlier of two records", earlier_record),
        mutant("tests the buffers last", buffers_last),
        mutant("forgets the buffers", |input| {
            literal::answer(&with_ample_buffers(input))
        }),
        on_ties("forgets equal marks", |_| None),
        on_ties("equal marks across groups", |given| {
            (given.by_student && given.mark != NEVER).then_some((0, given.mark))
        }),
    ]
}

/// Slips in the number of the book's records.
fn slips_of_length() -> Vec<Mutant> {
    vec![
        on_length("counts half of the book's records", |length| {
            if length % BOOK_RECORD == 0 {
                length / (2 * BOOK_RECORD) * BOOK_RECORD
            } else {
                length
            }
        }),
        on_length("counts the book's records twice", |length| 2 * length),
        on_length("counts a part of a record as one", |length| {
            length.next_multiple_of(BOOK_RECORD)
        }),
        on_length("passes over a part of a record", |length| {
            length - length % BOOK_RECORD
        }),
        on_length("passes over half a record", |length| {
            if length % BOOK_RECORD == BOOK_RECORD / 2 {
                length - BOOK_RECORD / 2
            } else {
                length
            }
        }),
    ]
}

fn refusals_of_never() -> Vec<Mutant> {
    vec![
        on_ties("-1000 is an equal mark", |given| {
            given.by_student.then_some((given.group, given.mark))
        }),
        on_ties("passes over both marks of a never", |given| {
            let never = given.mark == NEVER || given.other == NEVER;
            (given.by_student && !never).then_some((given.group, given.mark))
        }),
        mutant("-1000 is out of range", never_out_of_range),
    ]
}

fn refusals_of_lots() -> Vec<Mutant> {
    let mut mutants = Vec::from(SLIPS_OF_LOTS.map(|(name, change)| on_bytes(name, change)));
    mutants.extend([
        on_ties("a workshop's equal marks are refused", |given| {
            (given.mark != NEVER).then_some((given.group, given.mark))
        }),
        on_ties("11 of a workshop's marks only", |given| {
            (!given.by_student && given.mark != NEVER).then_some((given.group, given.mark))
        }),
        mutant(
            "a student's equal marks are parted",
            |input| match literal::read_before_ties(input) {
                Ok((case, book)) => literal::run(&case, &book),
                Err(_) => literal::answer(input),
            },
        ),
        mutant("13 forgotten", |input| match refusal_of(input) {
            (13, _) => literal::answer(&with_good_lots(input)),
            _ => literal::answer(input),
        }),
        on_refused("13 names the earlier student", |input, number, place| {
            (number, earlier_lot(&input.case, number, place))
        }),
        on_refused("13 without its place", |_, number, place| {
            (number, if number == 13 { 0 } else { place })
        }),
        on_refused("13 before 5", |input, number, place| {
            lots_before(5, &input.case, (number, place))
        }),
        on_refused("13 before 4", |input, number, place| {
            lots_before(4, &input.case, (number, place))
        }),
        on_refused("13 before 3", |input, number, place| {
            lots_before(3, &input.case, (number, place))
        }),
        on_refused("13 after 6", |input, number, place| {
            match (number, refusal_of(&with_good_lots(input))) {
                (13, (6, _)) => (6, 0),
                _ => (number, place),
            }
        }),
        on_refused("13 last", |input, number, place| {
            match (number, refusal_of(&with_good_lots(input))) {
                (13, other @ (1.., _)) => other,
                _ => (number, place),
            }
        }),
        on_refused("5 for 13", |_, number, place| {
            (if number == 13 { 5 } else { number }, place)
        }),
        on_refused(
            "all lots' ranges before their repeats",
            |input, number, place| {
                let far = first_lot_out_of_range(&input.case).filter(|_| number == 13);
                (number, far.unwrap_or(place))
            },
        ),
    ]);
    mutants
}

fn mutant(name: &'static str, answer: impl Fn(&Input) -> Answer + 'static) -> Mutant {
    Mutant {
        name,
        answer: Box::new(answer),
    }
}

fn rule(name: &'static str, slip: Slip) -> Mutant {
    mutant(name, move |input| match literal::read(input) {
        Ok((case, book)) => Sloppy::new(&case, &book, slip).run(),
        Err(_) => literal::answer(input),
    })
}

/// Places and visits.
type Placing = (Vec<u16>, Vec<(u16, u16)>);

/// The right answer with its placement changed.
fn on_placed(name: &'static str, change: fn(&Case, Placing) -> Placing) -> Mutant {
    mutant(name, move |input| match literal::answer(input) {
        Answer::Placed {
            places,
            visits,
            fares,
        } => {
            let (case, _) = literal::read(input).expect("it was placed");
            let (places, visits) = change(&case, (places, visits));
            Answer::Placed {
                places,
                visits,
                fares,
            }
        }
        other => other,
    })
}

/// The right answer with its refusal changed.
fn on_refused(name: &'static str, change: fn(&Input, u16, usize) -> (u16, usize)) -> Mutant {
    mutant(name, move |input| match literal::answer(input) {
        Answer::Refused { number, place } => {
            let (number, place) = change(input, number, place);
            Answer::Refused { number, place }
        }
        other => other,
    })
}

/// The answer if the book were cut to this length, or longer by bytes that are zero.
fn on_length(name: &'static str, change: fn(usize) -> usize) -> Mutant {
    mutant(name, move |input| {
        let mut input = input.clone();
        input.book.resize(change(input.book.len()), 0);
        literal::answer(&input)
    })
}

/// A mark as cause 11 meets it.
struct Given {
    by_student: bool,
    group: u16,
    mark: i16,
    /// The other mark of the record.
    other: i16,
}

/// The answer if two marks of one person are equal when their keys are; without a key a mark is
/// passed over. A record that repeats a mark and is not refused is left out of the run.
fn on_ties(name: &'static str, key: fn(Given) -> Option<(u16, i16)>) -> Mutant {
    mutant(name, move |input| {
        let Ok((case, book)) = literal::read_before_ties(input) else {
            return literal::answer(input);
        };
        let pairs = PairTable::new(&case);
        let mut earlier = HashSet::new();
        let tie = book.iter().position(|record| {
            let (student_group, workshop_group) = pairs
                .get(record.student, record.workshop)
                .expect("cause 8 comes first");
            let (mark, other) = (record.student_mark, record.workshop_mark);
            let by_student = key(Given {
                by_student: true,
                group: student_group,
                mark,
                other,
            });
            let by_workshop = key(Given {
                by_student: false,
                group: workshop_group,
                mark: other,
                other: mark,
            });
            let student_ties =
                by_student.is_some_and(|key| !earlier.insert((0, record.student, key)));
            let workshop_ties =
                by_workshop.is_some_and(|key| !earlier.insert((1, record.workshop, key)));
            student_ties || workshop_ties
        });
        if let Some(place) = tie {
            return Answer::Refused { number: 11, place };
        }
        match literal::answer(input) {
            Answer::Refused { .. } => literal::answer(&without_equal_marks(input)),
            answer => answer,
        }
    })
}

/// Takes -1000 for a mark outside the range.
fn never_out_of_range(input: &Input) -> Answer {
    let bad = |mark: i16| mark == 0 || !(NEVER + 1..=MAX_MARK).contains(&mark);
    let mut records = input
        .book
        .chunks_exact(BOOK_RECORD)
        .map(literal::decode_record);
    let first = records.position(|record| bad(record.student_mark) || bad(record.workshop_mark));
    match (literal::answer(input), first) {
        (Answer::Refused { number, place }, _) if number < 9 => Answer::Refused { number, place },
        (_, Some(place)) => Answer::Refused { number: 9, place },
        (answer, None) => answer,
    }
}

/// Names the first pair of the file that has no result, before running.
fn next_before_running(input: &Input) -> Answer {
    let Ok((case, book)) = literal::read(input) else {
        return literal::answer(input);
    };
    let unanswered = case.pairs.iter().find(|pair| {
        !book
            .iter()
            .any(|record| (record.student, record.workshop) == (pair.student, pair.workshop))
    });
    match unanswered {
        Some(pair) => Answer::Next {
            student: pair.student,
            workshop: pair.workshop,
            visits: Vec::new(),
            fares: 0,
        },
        None => literal::run(&case, &book),
    }
}

/// The first record with any fault of form, order or range.
fn first_bad_record(input: &Input, number: u16, place: usize) -> (u16, usize) {
    if !matches!(number, 2 | 3 | 5 | 13) {
        return (number, place);
    }
    let records: Vec<&[u8]> = input.case.chunks(CASE_RECORD).collect();
    [
        (literal::first_misformed(&records), 2),
        (literal::first_out_of_order(&records), 3),
        (literal::first_out_of_range(&records), 5),
        (literal::first_bad_lot(&records), 13),
    ]
    .into_iter()
    .filter_map(|(bad, cause)| Some((bad?, cause)))
    .min()
    .map_or((number, place), |(bad, cause)| (cause, bad))
}

fn earlier_record(input: &Input, number: u16, place: usize) -> (u16, usize) {
    if number != 10 {
        return (number, place);
    }
    let pair_at = |at: usize| &input.book[at * BOOK_RECORD..][..4];
    let earlier = (0..place).find(|&at| pair_at(at) == pair_at(place));
    (number, earlier.unwrap_or(place))
}

fn refusal_of(input: &Input) -> (u16, usize) {
    match literal::answer(input) {
        Answer::Refused { number, place } => (number, place),
        _ => (0, 0),
    }
}

fn with_ample_buffers(input: &Input) -> Input {
    Input {
        lent: Lengths::ample(),
        ..input.clone()
    }
}

fn buffers_last(input: &Input) -> Answer {
    match literal::answer(&with_ample_buffers(input)) {
        refused @ Answer::Refused { .. } => refused,
        _ => literal::answer(input),
    }
}

/// The input without the records that repeat a mark.
fn without_equal_marks(input: &Input) -> Input {
    let mut input = input.clone();
    while let (11, place) = refusal_of(&input) {
        input
            .book
            .drain(place * BOOK_RECORD..(place + 1) * BOOK_RECORD);
    }
    input
}

// ---- Fares with a slip ----

/// A run that gave an answer with a total.
struct Paid {
    case: Case,
    book: Vec<Record>,
    answer: Answer,
    total: u64,
}

impl Paid {
    /// The fares of the listed pairs, one by one.
    fn fares(&self) -> impl Iterator<Item = u16> + '_ {
        let listed = self.answer.visits().iter();
        listed.map(|&pair| self.case.fare(pair))
    }

    /// The fares of the listed pairs for which this holds.
    fn sum(&self, counts: impl Fn((u16, u16)) -> bool) -> u64 {
        let listed = self.answer.visits().iter().copied();
        let counted: Vec<(u16, u16)> = listed.filter(|&pair| counts(pair)).collect();
        literal::fares_of(&self.case, &counted)
    }

    fn next(&self) -> Option<(u16, u16)> {
        match self.answer {
            Answer::Next {
                student, workshop, ..
            } => Some((student, workshop)),
            _ => None,
        }
    }

    /// Whether the pair is placed; a stopped run has no places yet.
    fn is_placed(&self, (student, workshop): (u16, u16)) -> bool {
        match &self.answer {
            Answer::Placed { places, .. } => places[usize::from(student) - 1] == workshop,
            _ => false,
        }
    }

    /// Whether the visit of this pair ended in never.
    fn is_never(&self, pair: (u16, u16)) -> bool {
        self.book.iter().any(|record| {
            (record.student, record.workshop) == pair
                && [record.student_mark, record.workshop_mark].contains(&NEVER)
        })
    }
}

/// The right answer with another total.
fn on_total(name: &'static str, total: fn(&Paid) -> u64) -> Mutant {
    mutant(name, move |input| {
        let answer = literal::answer(input);
        let (Ok((case, book)), Some(right)) = (literal::read(input), answer.fares()) else {
            return answer;
        };
        let paid = Paid {
            case,
            book,
            answer: answer.clone(),
            total: right,
        };
        answer.costing(total(&paid))
    })
}

/// The right answer if each fare were read so.
fn on_fare(name: &'static str, fare: fn(&Pair) -> u16) -> Mutant {
    mutant(name, move |input| match literal::read(input) {
        Ok((mut case, book)) => {
            for pair in &mut case.pairs {
                pair.fare = fare(pair);
            }
            literal::run(&case, &book)
        }
        Err(_) => literal::answer(input),
    })
}

fn slips_of_totals() -> Vec<Mutant> {
    vec![
        on_total("the first fare left out", |run| {
            run.total - run.fares().next().map_or(0, u64::from)
        }),
        on_total("the last fare left out", |run| {
            run.total - run.fares().last().map_or(0, u64::from)
        }),
        on_total("the first fare twice", |run| {
            run.total + run.fares().next().map_or(0, u64::from)
        }),
        on_total("the next visit's fare counted", |run| {
            let next = run.next().map(|pair| run.case.fare(pair));
            run.total + next.map_or(0, u64::from)
        }),
        on_total("no total with a next visit", |run| {
            run.next().map_or(run.total, |_| 0)
        }),
        on_total("no total with a placement", |run| {
            run.next().map_or(0, |_| run.total)
        }),
        on_total("total of all pairs", |run| {
            let fares = run.case.pairs.iter().map(|pair| u64::from(pair.fare));
            fares.sum()
        }),
        on_total("total of the book's pairs", |run| {
            let pairs = run.book.iter();
            let pairs: Vec<_> = pairs.map(|r| (r.student, r.workshop)).collect();
            literal::fares_of(&run.case, &pairs)
        }),
        on_total("total of the first pairs of the case", |run| {
            let pairs = run.case.pairs.iter().take(run.answer.visits().len());
            pairs.map(|pair| u64::from(pair.fare)).sum()
        }),
        on_total("only placed pairs counted", |run| {
            run.sum(|pair| run.is_placed(pair))
        }),
        on_total("placed pairs not counted", |run| {
            run.sum(|pair| !run.is_placed(pair))
        }),
        on_total("visits that ended in never not counted", |run| {
            run.sum(|pair| !run.is_never(pair))
        }),
        on_total("equal fares counted once", |run| {
            let different: HashSet<u16> = run.fares().collect();
            different.into_iter().map(u64::from).sum()
        }),
        on_total("the dearest fare only", |run| {
            run.fares().max().map_or(0, u64::from)
        }),
        on_total("total in 16 bits", |run| run.total & 0xffff),
        on_total("total of 65,535 at most", |run| run.total.min(65_535)),
        on_total("signed fares", |run| {
            let fares = run.fares().map(|fare| i64::from(fare as i16));
            fares.sum::<i64>() as u64
        }),
        on_total("visits for fares", |run| run.answer.visits().len() as u64),
    ]
}

type Reading = fn(&Pair) -> u16;

/// Fares read from other bytes.
const SLIPS_OF_READING: [(&str, Reading); 9] = [
    ("fare from bytes 6 and 7", |pair| pair.student_group),
    ("fare from bytes 8 and 9", |pair| pair.workshop_group),
    ("fare from bytes 9 and 10", |pair| {
        pair.workshop_group >> 8 | pair.fare << 8
    }),
    ("fare from bytes 11 and 12", |pair| pair.fare >> 8),
    ("fare from bytes 12 and 13", |_| 0),
    ("fare from byte 10 only", |pair| pair.fare & 0xff),
    ("fare from byte 11 only", |pair| pair.fare & 0xff00),
    ("fare with the high byte first", |pair| {
        pair.fare.swap_bytes()
    }),
    ("fare in 15 bits", |pair| pair.fare & 0x7fff),
];

/// What number 2 tests around the fares; slips of the engine and of the stages alike.
pub(crate) const SLIPS_OF_FARES: [(&str, ByteSlip); 7] = [
    ("2 tests bytes 10 and 11 of a pair", |case| {
        spoil(case, |record| record[0] == 3 && record[10..12] != [0, 0])
    }),
    ("2 tests byte 10 of a pair", |case| {
        spoil(case, |record| record[0] == 3 && record[10] != 0)
    }),
    ("2 tests byte 11 of a pair", |case| {
        spoil(case, |record| record[0] == 3 && record[11] != 0)
    }),
    ("2 passes over bytes 10 and 11 of a student", |case| {
        clear(case, 1, 10..12)
    }),
    ("2 passes over bytes 10 and 11 of a workshop", |case| {
        clear(case, 2, 10..12)
    }),
    ("2 passes over bytes 12 and 13 of a pair", |case| {
        clear(case, 3, 12..14)
    }),
    ("2 passes over bytes 14 and 15 of a pair", |case| {
        clear(case, 3, 14..16)
    }),
];

// ---- Bytes read with a slip ----

/// A slip that is as good as reading other bytes.
pub(crate) type ByteSlip = fn(&mut [u8]);

fn on_bytes(name: &'static str, change: ByteSlip) -> Mutant {
    mutant(name, move |input| {
        let mut input = input.clone();
        change(&mut input.case);
        literal::answer(&input)
    })
}

/// The records of which this holds get a byte that number 2 refuses.
fn spoil(case: &mut [u8], bad: fn(&[u8]) -> bool) {
    for record in case.chunks_exact_mut(CASE_RECORD) {
        if bad(record) {
            record[15] = 1;
        }
    }
}

/// Bytes of the records of one kind become zero.
fn clear(case: &mut [u8], kind: u8, bytes: Range<usize>) {
    for record in case.chunks_exact_mut(CASE_RECORD) {
        if record[0] == kind {
            record[bytes.clone()].fill(0);
        }
    }
}

// ---- Lots with a slip ----

/// Slips of the engine and of the stages alike.
pub(crate) const SLIPS_OF_LOTS: [(&str, ByteSlip); 12] = [
    ("lot 512 is refused", |case| {
        each_lot(case, |lot, _| if lot == 512 { 513 } else { lot })
    }),
    ("lot 513 is allowed", |case| {
        each_lot(case, |lot, free| if lot == 513 { free } else { lot })
    }),
    ("lot 0 is allowed", |case| {
        each_lot(case, |lot, free| if lot == 0 { free } else { lot })
    }),
    ("lots above 512 are allowed", |case| {
        each_lot(case, |lot, free| if lot > 512 { free } else { lot })
    }),
    ("lots have 15 bits", |case| {
        each_lot(case, |lot, _| lot & 0x7fff)
    }),
    ("lots without their high byte", |case| {
        each_lot(case, |lot, _| lot & 0xff)
    }),
    ("lots with the high byte first", |case| {
        each_lot(case, |lot, _| lot.swap_bytes())
    }),
    ("a lot may be used again", |case| {
        mend_repeats(case, |_, _| true)
    }),
    ("a lot used again is seen in the next record only", |case| {
        mend_repeats(case, |lots, at| lots[at - 1] != lots[at])
    }),
    ("a lot used again is not seen in the next record", |case| {
        mend_repeats(case, |lots, at| lots[at - 1] == lots[at])
    }),
    ("2 tests bytes 8 and 9 of a student", |case| {
        spoil(case, |record| record[0] == 1 && record[8..10] != [0, 0])
    }),
    ("2 passes over bytes 8 and 9 of a workshop", |case| {
        clear(case, 2, 8..10)
    }),
];

/// The lots of the records of kind 1.
fn lots_of(case: &[u8]) -> Vec<u16> {
    let records = case.chunks_exact(CASE_RECORD);
    let students = records.filter(|record| record[0] == 1);
    students
        .map(|record| u16::from_le_bytes([record[8], record[9]]))
        .collect()
}

fn put_lots(case: &mut [u8], lots: &[u16]) {
    let records = case.chunks_exact_mut(CASE_RECORD);
    let students = records.filter(|record| record[0] == 1);
    for (record, lot) in students.zip(lots) {
        record[8..10].copy_from_slice(&lot.to_le_bytes());
    }
}

/// Changes each lot, knowing one that nobody has.
fn each_lot(case: &mut [u8], change: fn(u16, u16) -> u16) {
    let mut lots = lots_of(case);
    let free = (1..=MAX_LOT).rev().find(|lot| !lots.contains(lot));
    for lot in &mut lots {
        *lot = change(*lot, free.unwrap_or(1));
    }
    put_lots(case, &lots);
}

/// A lot that an earlier student has becomes one that nobody has, where this is chosen.
fn mend_repeats(case: &mut [u8], chosen: fn(&[u16], usize) -> bool) {
    let lots = lots_of(case);
    let mut mended = lots.clone();
    for at in 1..lots.len() {
        if lots[..at].contains(&lots[at]) && chosen(&lots, at) {
            let free = (1..=MAX_LOT).find(|lot| !lots.contains(lot) && !mended.contains(lot));
            mended[at] = free.unwrap_or(lots[at]);
        }
    }
    put_lots(case, &mended);
}

/// Gives the students their numbers for lots.
pub(crate) fn number_lots(case: &mut [u8]) {
    let numbers: Vec<u16> = (1..=MAX_LOT).collect();
    put_lots(case, &numbers);
}

pub fn with_good_lots(input: &Input) -> Input {
    let mut input = input.clone();
    number_lots(&mut input.case);
    input
}

/// The refusal if cause 13 came before this cause.
pub(crate) fn lots_before(cause: u16, case: &[u8], (number, place): (u16, usize)) -> (u16, usize) {
    let records: Vec<&[u8]> = case.chunks_exact(CASE_RECORD).collect();
    match literal::first_bad_lot(&records) {
        Some(bad) if (cause..=5).contains(&number) => (13, bad),
        _ => (number, place),
    }
}

/// The place of the earlier student with the same lot, for cause 13.
pub(crate) fn earlier_lot(case: &[u8], number: u16, place: usize) -> usize {
    if number != 13 {
        return place;
    }
    let lots = lots_of(case);
    let earlier = lots[..place].iter().position(|lot| *lot == lots[place]);
    earlier.unwrap_or(place)
}

fn first_lot_out_of_range(case: &[u8]) -> Option<usize> {
    let lots = lots_of(case);
    lots.iter().position(|lot| !(1..=MAX_LOT).contains(lot))
}

// ---- The rule with a slip ----

#[derive(Clone, Default)]
struct Cell {
    /// The student's lot, as this run takes it.
    lot: i32,
    student_group: u16,
    workshop_group: u16,
    /// The two marks, if the book has them.
    marks: Option<(i32, i32)>,
    never: bool,
    deleted: bool,
    visited: bool,
    open: bool,
}

struct Sloppy<'a> {
    slip: Slip,
    case: &'a Case,
    /// By student and workshop from 0; `None` where there is no pair.
    cells: Vec<Vec<Option<Cell>>>,
    none_open: Vec<bool>,
    reached: Vec<u16>,
    holders: Vec<Vec<usize>>,
    visits: Vec<(u16, u16)>,
}

impl<'a> Sloppy<'a> {
    fn new(case: &'a Case, book: &[Record], slip: Slip) -> Sloppy<'a> {
        let pairs = PairTable::new(case);
        let students = case.students.len();
        let cell = |s: usize, w: usize| {
            let (student_group, workshop_group) = pairs.get(s as u16 + 1, w as u16 + 1)?;
            Some(Cell {
                lot: slip.lot(s, case.students[s].lot),
                student_group,
                workshop_group,
                ..Cell::default()
            })
        };
        let row = |s: usize| (0..case.workshops.len()).map(|w| cell(s, w)).collect();
        let mut run = Sloppy {
            slip,
            case,
            cells: (0..students).map(row).collect(),
            none_open: vec![false; students],
            reached: vec![0; students],
            holders: vec![Vec::new(); case.workshops.len()],
            visits: Vec::new(),
        };
        run.enter(book);
        run.delete_hopeless();
        run
    }

    fn has(&self, slip: Slip) -> bool {
        self.slip == slip
    }

    fn enter(&mut self, book: &[Record]) {
        let unsigned = self.has(Slip::UnsignedMarks);
        let read = |mark: i16| {
            if unsigned {
                i32::from(mark as u16)
            } else {
                i32::from(mark)
            }
        };
        for record in book {
            let marks = (read(record.student_mark), read(record.workshop_mark));
            let (s, w) = (usize::from(record.student), usize::from(record.workshop));
            let cell = self.cells[s - 1][w - 1].as_mut();
            let cell = cell.expect("the book was checked");
            let in_line_groups = (
                cell.student_group == self.case.students[s - 1].line,
                cell.workshop_group == self.case.workshops[w - 1].line,
            );
            cell.marks = Some(marks);
            cell.never = self.slip.takes_for_never(record, in_line_groups);
        }
    }

    fn delete_hopeless(&mut self) {
        let closed_too = !self.has(Slip::ClosedVisited);
        let beyond_too = !self.has(Slip::BeyondLineVisited);
        for row in &mut self.cells {
            for (cell, workshop) in row.iter_mut().zip(&self.case.workshops) {
                if let Some(cell) = cell {
                    cell.deleted = (closed_too && workshop.quota == 0)
                        || (beyond_too && cell.workshop_group > workshop.line);
                }
            }
        }
    }

    fn run(mut self) -> Answer {
        let mut queue = self.turns();
        queue.reverse();
        while let Some(s) = queue.pop() {
            match self.take_in_hand(s) {
                Ok(None) => (),
                Ok(Some(dropped)) if self.has(Slip::DroppedWaits) => queue.insert(0, dropped),
                Ok(Some(dropped)) => queue.push(dropped),
                Err(w) => {
                    return Answer::Next {
                        student: s as u16 + 1,
                        workshop: w as u16 + 1,
                        fares: literal::fares_of(self.case, &self.visits),
                        visits: self.visits,
                    }
                }
            }
        }
        let mut places = vec![0; self.case.students.len()];
        for (w, holders) in self.holders.iter().enumerate() {
            for &s in holders {
                places[s] = w as u16 + 1;
            }
        }
        Answer::Placed {
            places,
            fares: literal::fares_of(self.case, &self.visits),
            visits: self.visits,
        }
    }

    fn turns(&self) -> Vec<usize> {
        let mut turns: Vec<usize> = (0..self.case.students.len()).collect();
        let stage = |s: usize| self.case.students[s].stage;
        if !self.has(Slip::StagesIgnored) {
            turns.sort_by_key(|&s| stage(s));
        }
        if self.has(Slip::FirstStageOnly) {
            let first = stage(turns[0]);
            turns.retain(|&s| stage(s) == first);
        }
        turns
    }

    /// Steps 1 to 4; gives the dropped student, or the unanswered workshop as the error.
    fn take_in_hand(&mut self, s: usize) -> Result<Option<usize>, usize> {
        let mut must_open = self.has(Slip::OpenWhileOpen) && !self.none_open[s];
        while must_open || !self.has_open(s) {
            must_open = false;
            let Some(group) = self.next_group(s) else {
                return Ok(None);
            };
            self.open_group(s, group)?;
        }
        match self.best_open(s) {
            Some(w) => Ok(self.apply(s, w)),
            None => Ok(None),
        }
    }

    fn has_open(&self, s: usize) -> bool {
        self.none_open[s] || self.cells[s].iter().flatten().any(|cell| cell.open)
    }

    fn next_group(&self, s: usize) -> Option<u16> {
        let groups = self.cells[s]
            .iter()
            .flatten()
            .map(|cell| cell.student_group);
        groups
            .chain([self.case.students[s].line])
            .filter(|&group| group > self.reached[s])
            .min()
    }

    fn open_group(&mut self, s: usize, group: u16) -> Result<(), usize> {
        self.reached[s] = group;
        let mut workshops: Vec<usize> = (0..self.case.workshops.len()).collect();
        if self.has(Slip::FallingVisits) {
            workshops.reverse();
        }
        for w in workshops {
            let visited = |cell: &Cell| cell.student_group == group && !cell.deleted;
            if self.cells[s][w].as_ref().is_some_and(visited) {
                self.visit(s, w)?;
            }
        }
        if group == self.case.students[s].line && !self.has(Slip::PastOwnLine) {
            self.none_open[s] = true;
        }
        Ok(())
    }

    fn visit(&mut self, s: usize, w: usize) -> Result<(), usize> {
        let line = self.case.workshops[w].line;
        let anywhere = self.has(Slip::WorkshopNegativeIsNo);
        let nowhere = self.has(Slip::WorkshopLineIgnored);
        let student_too = self.has(Slip::StudentNegativeIsNo);
        let nevers_listed = !self.has(Slip::NeverNotListed);
        let cell = self.cells[s][w].as_mut().expect("they have a pair");
        let (student_mark, workshop_mark) = cell.marks.ok_or(w)?;
        let decides = (cell.workshop_group == line || anywhere) && !nowhere;
        let refused = decides && workshop_mark < 0;
        let declined = student_too && student_mark < 0;
        cell.open = !refused && !declined && !cell.never;
        cell.visited = true;
        if !cell.never || nevers_listed {
            self.visits.push((s as u16 + 1, w as u16 + 1));
        }
        Ok(())
    }

    fn best_open(&self, s: usize) -> Option<usize> {
        let row = self.cells[s].iter().enumerate();
        let open = row.filter_map(|(w, cell)| Some((w, cell.as_ref().filter(|cell| cell.open)?)));
        let (best, group, mark) = open
            .map(|(w, cell)| (w, cell.student_group, cell.marks.map_or(0, |marks| marks.0)))
            .max_by_key(|&(_, group, mark)| (std::cmp::Reverse(group), mark))?;
        let in_line_group = group == self.case.students[s].line && self.none_open[s];
        let none_is_better = in_line_group && mark < 0 && !self.has(Slip::StudentLineIgnored);
        (!none_is_better).then_some(best)
    }

    fn quota(&self, w: usize) -> usize {
        let quota = usize::from(self.case.workshops[w].quota);
        match self.slip {
            Slip::QuotaOneMore => quota + 1,
            Slip::QuotaOneLess => quota.saturating_sub(1),
            _ => quota,
        }
    }

    fn apply(&mut self, s: usize, w: usize) -> Option<usize> {
        self.holders[w].push(s);
        let mut dropped = None;
        if self.holders[w].len() > self.quota(w) {
            let lowest = self.lowest(w)?;
            self.holders[w].retain(|&holder| holder != lowest);
            self.close(lowest, w);
            dropped = Some(lowest);
        }
        if self.holders[w].len() == self.quota(w) || self.has(Slip::DeleteBeforeFull) {
            if let Some(lowest) = self.lowest(w) {
                self.delete_below(w, lowest);
            }
        }
        dropped
    }

    fn close(&mut self, s: usize, w: usize) {
        let cell = self.cells[s][w].as_mut().expect("they have a pair");
        cell.deleted = true;
        cell.open = false;
    }

    /// The last of the lowest.
    fn lowest(&self, w: usize) -> Option<usize> {
        let cell = |s: usize| self.cells[s][w].as_ref().expect("they have a pair");
        let holders = self.holders[w].iter().copied();
        holders.max_by(|&one, &other| self.slip.compare(cell(one), cell(other)))
    }

    fn delete_below(&mut self, w: usize, lowest: usize) {
        let lowest = self.cells[lowest][w].clone().expect("they have a pair");
        for s in 0..self.case.students.len() {
            if self.cells[s][w]
                .as_ref()
                .is_some_and(|cell| self.below(cell, &lowest))
            {
                self.close(s, w);
            }
        }
    }

    fn below(&self, cell: &Cell, lowest: &Cell) -> bool {
        let equal_mark = cell.marks.map(|marks| marks.1) == lowest.marks.map(|marks| marks.1);
        let lower_mark = match (cell.marks, lowest.marks) {
            (Some(mine), Some(its)) => mine.1 < its.1 || equal_mark && cell.lot > lowest.lot,
            _ => false,
        };
        let by_mark = cell.visited && lower_mark;
        let by_group = cell.workshop_group > lowest.workshop_group;
        let same_group = cell.workshop_group == lowest.workshop_group;
        match self.slip {
            Slip::DeleteOnlyVisited => cell.visited && (by_group || same_group && by_mark),
            Slip::MarksAcrossGroups if cell.visited => by_mark,
            Slip::DeleteByUnvisitedMarks => by_group || same_group && lower_mark,
            Slip::DeleteWholeGroup => by_group || same_group && (by_mark || !cell.visited),
            Slip::LotOfUnvisited => by_group || same_group && (by_mark || equal_mark && lower_mark),
            _ if cell.visited => self.slip.compare(cell, lowest) == Ordering::Greater,
            _ => by_group,
        }
    }
}
