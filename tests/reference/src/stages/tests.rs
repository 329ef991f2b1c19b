//! The tests of the stages. Each is one part of the runner.

use super::fast::Fast;
use super::kinds::{Kinds, Size};
use super::lending::{self, Call, Loan};
use super::mutants::{self, Mutant};
use super::rows::{self, HandRow};
use super::{answer, brute, gen, Answer, Request, NO_STAGES};
use crate::gen::{self as engine_gen, Rng};
use crate::model::*;
use crate::tally::Tally;
use crate::{fares, lots};

/// Compares the fast one, and the real part if it is linked, with the plain one.
pub struct Comparison {
    fast: Fast,
    part: Option<Call<'static>>,
    rng: Rng,
}

impl Comparison {
    pub fn new(rng: Rng) -> Comparison {
        Comparison {
            fast: Fast::default(),
            part: lending::under_test(),
            rng,
        }
    }

    /// Gives the plain answer.
    pub fn check(&mut self, tally: &mut Tally, request: &Request) -> Answer {
        let expected = answer(request);
        self.compare(tally, request, &expected);
        expected
    }

    fn compare(&mut self, tally: &mut Tally, request: &Request, expected: &Answer) {
        let got = self.fast.answer(request);
        tally.check(got == *expected, || {
            let request = request.describe();
            format!("fast: {got:?}\nplain: {expected:?}\n{request}")
        });
        if let Some(part) = self.part {
            let found = lending::check(part, request, expected, &mut self.rng);
            tally.check(found.is_ok(), || {
                let request = request.describe();
                format!("lgs_stages: {found:?}\nplain: {expected:?}\n{request}")
            });
        }
    }

    /// A good case with buffers of several lengths and with other stages, lots and fares in it.
    fn check_case(&mut self, tally: &mut Tally, case: &Case, rng: &mut Rng) -> Option<Vec<u16>> {
        let mut request = Request::of(case);
        let n = request.room;
        let expected = self.check(tally, &request);
        request.room = gen::room(rng, n);
        let with_room = self.check(tally, &request);
        let short = request.room < n;
        tally.check(short == with_room.is_refused(6), || {
            format!("room {}: {with_room:?}", request.room)
        });
        let other = Request::of(&gen::other_unused(rng, case));
        self.compare(tally, &other, &expected);
        match expected {
            Answer::Stages(stages) => Some(stages),
            Answer::Refused {
                number: NO_STAGES,
                place: 0,
            } => None,
            refused => {
                tally.check(false, || format!("a good case: {refused:?}"));
                None
            }
        }
    }
}

/// The rows worked out by hand, and which of them each slip fails.
pub fn by_hand(tally: &mut Tally, rng: Rng) {
    let mut comparison = Comparison::new(rng);
    let rows = rows::rows();
    for row in &rows {
        let answer = comparison.check(tally, &row.request);
        tally.check(answer == row.expected, || {
            format!("{}: {answer:?}", row.name)
        });
    }
    tally.note(&format!("{} rows, failed by:", rows.len()));
    for mutant in mutants::all() {
        let fails = |row: &&HandRow| (mutant.answer)(&row.request) != row.expected;
        let count = rows.iter().filter(fails).count();
        tally.note(&format!("{count:6} {}", mutant.name));
        tally.check(count > 0, || format!("fails no row: {}", mutant.name));
    }
}

/// Small cases of all kinds.
pub fn small_cases(tally: &mut Tally, mut rng: Rng, own: Rng, count: usize) {
    let mut comparison = Comparison::new(own);
    let mut kinds = Kinds::default();
    for _ in 0..count {
        let case = gen::small(&mut rng);
        let found = comparison.check_case(tally, &case, &mut rng);
        kinds.count(&case, found.as_deref());
        if let Some(stages) = &found {
            tally.check(brute::stages_agree(&case, stages), || {
                format!("{stages:?} do not agree: {case:?}")
            });
        }
    }
    kinds.check(tally, Size::Small);
}

/// Middle and large cases, up to 512 students and 64 workshops with all pairs.
pub fn large_cases(tally: &mut Tally, mut rng: Rng, own: Rng, random: usize) {
    let mut comparison = Comparison::new(own);
    let mut kinds = Kinds::default();
    for case in gen::large(&mut rng, random) {
        let found = comparison.check_case(tally, &case, &mut rng);
        kinds.count(&case, found.as_deref());
    }
    for _ in 0..random * 10 {
        let shape = engine_gen::Shape {
            workshop_groups: rng.range(1, 60),
            agreeing: rng.chance(70),
            ..engine_gen::Shape::middle(&mut rng)
        };
        let mut case = engine_gen::case(&mut rng, &shape);
        if rng.chance(20) {
            gen::turn_two(&mut case, rng.below(3));
        }
        let found = comparison.check_case(tally, &case, &mut rng);
        kinds.count(&case, found.as_deref());
    }
    kinds.check(tally, Size::Large);
}

/// All stage numbers of tiny cases, up to a few more than there are students.
pub fn all_numbers(tally: &mut Tally, mut rng: Rng, own: Rng, count: usize) {
    let mut comparison = Comparison::new(own);
    let (mut none, mut ways) = (0, 0);
    for index in 0..count {
        let students = if index % 4 == 0 { 5 } else { 4 };
        let case = gen::tiny(&mut rng, students);
        let found = match comparison.check(tally, &Request::of(&case)) {
            Answer::Stages(stages) => Some(stages),
            Answer::Refused { .. } => None,
        };
        none += usize::from(found.is_none());
        let tried = brute::check(&case, found.as_deref());
        tally.check(tried.is_ok(), || format!("{tried:?} {found:?} {case:?}"));
        ways += tried.unwrap_or(0);
        for wrong in wrong_stages(found.as_deref(), case.students.len()) {
            let caught = brute::check(&case, wrong.as_deref()).is_err();
            tally.check(caught, || format!("{wrong:?} pass for {case:?}"));
        }
    }
    tally.note(&format!(
        "{count} cases, {none} without stages, {ways} ways agree"
    ));
    tally.check(none * 20 > count && none * 2 < count, || {
        "one kind is rare".to_string()
    });
}

/// Answers that must not pass instead of this one.
fn wrong_stages(found: Option<&[u16]>, students: usize) -> Vec<Option<Vec<u16>>> {
    let Some(found) = found else {
        return vec![Some(vec![1; students])];
    };
    let mut one_higher = found.to_vec();
    one_higher[students - 1] += 1;
    let all_higher = found.iter().map(|stage| stage + 1).collect();
    vec![None, Some(one_higher), Some(all_higher)]
}

/// Cases with one to three damages, and two causes at once.
pub fn damaged_cases(tally: &mut Tally, mut rng: Rng, own: Rng, count: usize) {
    let mut comparison = Comparison::new(own);
    let mut seen = [0; 14];
    let mut later_record = [false; 14];
    let mut of_lots = lots::Faults::default();
    let mut of_fares = fares::Faults::default();
    for _ in 0..count {
        let request = gen::damaged(&mut rng);
        let (number, place) = match comparison.check(tally, &request) {
            Answer::Refused { number, place } => (usize::from(number), place),
            Answer::Stages(_) => (0, 0),
        };
        match number {
            2 => of_fares.count(&request.case, place),
            13 => of_lots.count(&request.case, place),
            _ => (),
        }
        seen[number] += 1;
        later_record[number] |= place > 0;
    }
    of_lots.check(tally);
    of_fares.check(tally);
    tally.note(&format!(
        "good cases {}, refusals 1 to 6 {:?}, 12 and 13 {:?}",
        seen[0],
        &seen[1..7],
        &seen[12..]
    ));
    for number in [1, 2, 3, 4, 5, 6, 12, 13] {
        let of_record = matches!(number, 2 | 3 | 5 | 13);
        tally.check(seen[number] >= 20, || format!("refusal {number} is rare"));
        tally.check(later_record[number] == of_record, || {
            format!("places of refusal {number}")
        });
    }
    let mut twice = [[0; 14]; 14];
    for _ in 0..count / 20 {
        two_causes(tally, &mut comparison, &mut rng, &mut twice);
    }
    for (at, first) in ORDER.into_iter().enumerate() {
        for second in [13, 6, NO_STAGES] {
            let count = twice[usize::from(first)][usize::from(second)];
            let later = ORDER[at + 1..].contains(&second);
            tally.check(count >= 20 || !later, || {
                format!("{first} and {second} at once: {count}")
            });
        }
    }
    let beside = |second: usize| {
        let earlier = ORDER.into_iter().take_while(|&c| usize::from(c) != second);
        earlier
            .map(|first| twice[usize::from(first)][second])
            .collect::<Vec<_>>()
    };
    tally.note(&format!(
        "two causes at once, in the order {ORDER:?}: beside 13 {:?}, beside 6 {:?}, beside 12 {:?}",
        beside(13),
        beside(6),
        beside(12),
    ));
}

/// The causes in their order.
const ORDER: [u16; 8] = [1, 2, 3, 4, 5, 13, 6, NO_STAGES];

/// Each damage in a case that has another cause too: the earlier one in the order is given.
fn two_causes(
    tally: &mut Tally,
    comparison: &mut Comparison,
    rng: &mut Rng,
    twice: &mut [[usize; 14]; 14],
) {
    let case = gen::small(rng);
    let n = case.students.len();
    let without = super::least(&case).is_none();
    let mut check = |bytes: &[u8], room: usize, cause: u16, bad_lot: bool| {
        let case = bytes.to_vec();
        let answer = comparison.check(tally, &Request { case, room });
        tally.check(answer.is_refused(cause), || format!("{cause}: {answer:?}"));
        let cause = usize::from(cause);
        twice[cause][13] += usize::from(bad_lot);
        twice[cause][6] += usize::from(room < n);
        twice[cause][12] += usize::from(without);
    };
    for cause in [1, 2, 3, 4, 5, 13] {
        let bytes = gen::with_cause(rng, &case, cause);
        for room in [n, n - 1, 0] {
            check(&bytes, room, cause, cause == 13);
        }
        if cause != 13 {
            let both = gen::with_bad_lot(rng, bytes);
            check(&both, rng.pick(&[n, n - 1]), cause, true);
        }
    }
    check(&case.to_bytes(), n - 1, 6, false);
    check(&case.to_bytes(), 0, 6, false);
}

/// Every byte changed, every length, and every length of the buffer.
pub fn byte_sweeps(tally: &mut Tally, mut rng: Rng, own: Rng, count: usize) {
    let mut comparison = Comparison::new(own);
    let mut bases: Vec<Request> = rows::rows().into_iter().map(|row| row.request).collect();
    bases.extend((0..count).map(|_| Request::of(&gen::small(&mut rng))));
    for base in bases {
        let input = Input {
            case: base.case.clone(),
            book: Vec::new(),
            lent: Lengths::ample(),
        };
        for changed in engine_gen::sweep(&input) {
            let request = Request {
                case: changed.case,
                room: base.room,
            };
            comparison.check(tally, &request);
        }
        for room in (0..=base.room + 2).chain([511, 512, 513, 700]) {
            let case = base.case.clone();
            comparison.check(tally, &Request { case, room });
        }
    }
    for input in engine_gen::oversized_inputs(&mut rng) {
        let (case, room) = (input.case, 512);
        comparison.check(tally, &Request { case, room });
    }
}

/// Each mutant gives another answer than the right one on some request.
pub fn mutants_told_apart(tally: &mut Tally, mut rng: Rng, count: usize) {
    let mut requests: Vec<Request> = (0..count)
        .map(|_| match rng.below(4) {
            0 => gen::damaged(&mut rng),
            1 => {
                let case = gen::small(&mut rng);
                let cause = rng.pick(&[1, 2, 3, 4, 5, 13]);
                let mut bytes = gen::with_cause(&mut rng, &case, cause);
                if rng.chance(20) {
                    bytes = gen::with_bad_lot(&mut rng, bytes);
                }
                Request {
                    case: bytes,
                    room: gen::room(&mut rng, case.students.len()),
                }
            }
            _ => {
                let case = gen::small(&mut rng);
                Request {
                    room: gen::room(&mut rng, case.students.len()),
                    ..Request::of(&case)
                }
            }
        })
        .collect();
    requests.extend(rows::rows().into_iter().map(|row| row.request));
    told_apart(tally, &requests, &mutants::all());

    let large = gen::large(&mut rng, 6);
    let requests: Vec<Request> = large.iter().map(Request::of).collect();
    told_apart(tally, &requests, &mutants::of_size());
}

fn told_apart(tally: &mut Tally, requests: &[Request], mutants: &[Mutant]) {
    let expected: Vec<Answer> = requests.iter().map(answer).collect();
    let differing = |mutant: &Mutant| {
        let both = requests.iter().zip(&expected);
        both.filter(|(request, expected)| (mutant.answer)(request) != **expected)
            .count()
    };
    for control in mutants::controls() {
        let count = differing(&control);
        tally.check(count == 0, || {
            format!("{} differs {count} times", control.name)
        });
    }
    tally.note(&format!("{} requests, told apart by:", requests.len()));
    for mutant in mutants {
        let count = differing(mutant);
        tally.note(&format!("{count:6} {}", mutant.name));
        tally.check(count > 0, || format!("not told apart: {}", mutant.name));
    }
}

/// The check of the lent buffer accepts an honest part and finds every flaw.
pub fn flaws_found(tally: &mut Tally, mut rng: Rng, count: usize) {
    let requests: Vec<Request> = (0..count)
        .map(|_| match rng.chance(30) {
            true => gen::damaged(&mut rng),
            false => {
                let case = gen::small(&mut rng);
                Request {
                    room: gen::room(&mut rng, case.students.len()),
                    ..Request::of(&case)
                }
            }
        })
        .collect();
    let mut count_found = |part: Call| {
        let found = requests.iter().filter(|request| {
            let expected = answer(request);
            lending::check(part, request, &expected, &mut rng).is_err()
        });
        found.count()
    };
    let blamed = count_found(&lending::honest);
    tally.check(blamed == 0, || format!("honest, blamed {blamed} times"));
    tally.note(&format!("{} requests, found by:", requests.len()));
    for flaw in &lending::FLAWS {
        let found = count_found(&|case: &[u8], loan: &Loan| flaw.spoil(case, loan));
        tally.note(&format!("{found:6} {}", flaw.name));
        tally.check(found > 0, || format!("not found: {}", flaw.name));
    }
}
