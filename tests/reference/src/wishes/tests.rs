//! The tests of the wish lines. Each is one part of the runner.

use super::causes::{self, Cause, Sheet};
use super::fast::Fast;
use super::kinds::Kinds;
use super::lending::{self, Call, Loan};
use super::mutants::{self, Mutant};
use super::rows::{self, HandRow};
use super::gen::Large;
use super::{answer, brute, gen, Answer, Request, Task, FORM, NAMES};
use crate::gen::{self as engine_gen, Rng};
use crate::literal;
use crate::model::*;
use crate::tally::Tally;
use std::collections::HashMap;

/// Compares the fast one, and the real part if it is linked, with the plain one.
pub struct Comparison {
    fast: Fast,
    part: Option<Call<'static>>,
    rng: Rng,
}

impl Comparison {
    pub fn new(rng: Rng) -> Comparison {
        Comparison {
            fast: Fast::default(),
            part: lending::under_test(),
            rng,
        }
    }

    /// Gives the plain answer.
    pub fn check(&mut self, tally: &mut Tally, request: &Request) -> Answer {
        let expected = answer(request);
        self.compare(tally, request, &expected);
        expected
    }

    fn compare(&mut self, tally: &mut Tally, request: &Request, expected: &Answer) {
        let got = self.fast.answer(request);
        tally.check(got == *expected, || {
            let request = request.describe();
            format!("fast: {got:?}\nplain: {expected:?}\n{request}")
        });
        if let Some(part) = self.part {
            let found = lending::check(part, request, expected, &mut self.rng);
            tally.check(found.is_ok(), || {
                let request = request.describe();
                format!("lgs: {found:?}\nplain: {expected:?}\n{request}")
            });
        }
    }

    /// The plain answer must be this one.
    fn must_be(&mut self, tally: &mut Tally, request: &Request, expected: &Answer) {
        let answer = self.check(tally, request);
        tally.check(answer == *expected, || {
            format!("{answer:?}, not {expected:?}\n{}", request.describe())
        });
    }

    fn must_refuse(&mut self, tally: &mut Tally, request: &Request, number: u16, place: usize) {
        self.must_be(tally, request, &Answer::Refused { number, place });
    }

    /// The text of a good case.
    fn text_of(&mut self, tally: &mut Tally, case: &Case) -> Vec<u8> {
        self.done(tally, &Request::write(case))
    }

    /// What a request that must not be refused leaves in its buffer.
    fn done(&mut self, tally: &mut Tally, request: &Request) -> Vec<u8> {
        match self.check(tally, request) {
            Answer::Done(bytes) => bytes,
            refused => {
                let told = || format!("{refused:?}\n{}", request.describe());
                tally.check(false, told);
                Vec::new()
            }
        }
    }
}

/// The rows worked out by hand, and which of them each slip fails.
pub fn by_hand(tally: &mut Tally, rng: Rng) {
    let mut comparison = Comparison::new(rng);
    let rows = rows::rows();
    for row in &rows {
        let answer = comparison.check(tally, &row.request);
        tally.check(answer == row.expected, || {
            format!("{}: {answer:?}", row.name)
        });
    }
    tally.note(&format!("{} rows, failed by:", rows.len()));
    for mutant in mutants::all() {
        let fails = |row: &&HandRow| (mutant.answer)(&row.request) != row.expected;
        let count = rows.iter().filter(fails).count();
        tally.note(&format!("{count:6} {}", mutant.name));
        tally.check(count > 0, || format!("fails no row: {}", mutant.name));
    }
}

/// What was written is read as that order, and a second writing gives the same bytes; other wishes
/// are read as they stand, the items of a group in any order; buffers of several lengths.
fn check_case(tally: &mut Tally, comparison: &mut Comparison, case: &Case, rng: &mut Rng) {
    let text = comparison.text_of(tally, case);
    let read = Request::read(case, &text);
    let copy = comparison.done(tally, &read);
    check_copy(tally, case, &copy);
    let again = Request {
        case: copy.clone(),
        ..Request::write(case)
    };
    comparison.must_be(tally, &again, &Answer::Done(text.clone()));
    let same_copy = Request {
        case: copy.clone(),
        ..read.clone()
    };
    comparison.must_be(tally, &same_copy, &Answer::Done(copy));

    let wishes = gen::any_wishes(rng, case);
    let expected = gen::with_wishes(case, &wishes);
    let expected = Answer::Done(expected.to_bytes());
    for wishes in [&wishes, &gen::shuffled(rng, &wishes)] {
        let request = Request::read(case, &gen::text(wishes));
        comparison.must_be(tally, &request, &expected);
    }
    for mut request in [Request::write(case), read] {
        let needed = request.room;
        request.room = gen::room(rng, needed);
        let answer = comparison.check(tally, &request);
        let short = request.room < needed;
        tally.check(short == answer.is_refused(6), || {
            format!("room {} of {needed}: {answer:?}", request.room)
        });
    }
}

/// The copy has the case's order without gaps, and the case's bytes but for groups and lines.
fn check_copy(tally: &mut Tally, case: &Case, copy: &[u8]) {
    let Ok(read) = literal::read_case(copy) else {
        tally.check(false, || format!("a bad copy of {case:?}"));
        return;
    };
    let good = brute::order(&read) == brute::order(case) && brute::without_gaps(&read);
    tally.check(good, || format!("another order: {read:?}\n{case:?}"));
    let mut groups_back = copy.to_vec();
    let original = case.to_bytes();
    for at in (0..copy.len()).step_by(CASE_RECORD) {
        if original[at] != 2 {
            groups_back[at + 6..at + 8].copy_from_slice(&original[at + 6..at + 8]);
        }
    }
    tally.check(groups_back == original, || format!("other bytes: {case:?}"));
}

/// Small cases of all kinds, and what lines do not show.
pub fn small_cases(tally: &mut Tally, mut rng: Rng, own: Rng, count: usize) {
    let mut comparison = Comparison::new(own);
    let mut kinds = Kinds::default();
    for _ in 0..count {
        let case = gen::small(&mut rng);
        kinds.count(&case);
        check_case(tally, &mut comparison, &case, &mut rng);
        let text = comparison.text_of(tally, &case);
        for other in [
            gen::other_unused(&mut rng, &case),
            gen::other_gaps(&mut rng, &case),
        ] {
            let expected = Answer::Done(text.clone());
            comparison.must_be(tally, &Request::write(&other), &expected);
        }
        let other = gen::small(&mut rng);
        let equal = comparison.text_of(tally, &other) == text;
        let same = brute::order(&other) == brute::order(&case);
        tally.check(equal == same, || format!("{case:?}\n{other:?}"));
    }
    kinds.check(tally, false);
}

/// All pairs and few, many groups and one, students without pairs.
const LARGE: [Large; 7] = [
    gen::LARGEST,
    Large {
        groups: 1,
        ..gen::LARGEST
    },
    Large {
        students: 511,
        groups: 33,
        uneven: 20,
        ..gen::LARGEST
    },
    Large {
        workshops: 63,
        pairs: 11,
        groups: 8,
        uneven: 20,
        ..gen::LARGEST
    },
    Large {
        pairs: 2,
        groups: 3,
        ..gen::LARGEST
    },
    Large {
        pairs: 0,
        ..gen::LARGEST
    },
    Large {
        students: 200,
        pairs: 97,
        groups: 16,
        ..gen::LARGEST
    },
];

/// Up to 512 students and 64 workshops.
pub fn large_cases(tally: &mut Tally, mut rng: Rng, own: Rng, count: usize) {
    let mut comparison = Comparison::new(own);
    let mut kinds = Kinds::default();
    for large in LARGE.into_iter().take(count) {
        let case = gen::large(&mut rng, large);
        kinds.count(&case);
        check_case(tally, &mut comparison, &case, &mut rng);
        let text = comparison.text_of(tally, &case);
        for joined in [0, 100] {
            let wishes = gen::wishes_joined(&mut rng, &case, joined);
            let copy = gen::with_wishes(&case, &wishes).to_bytes();
            let mut lines = gen::text(&wishes);
            comparison.must_be(tally, &Request::read(&case, &lines), &Answer::Done(copy));
            gen::damage(&mut rng, &mut lines);
            comparison.check(tally, &Request::read(&case, &lines));
        }
        // The last line without its line feed, one line less, and one more.
        let n = case.students.len();
        let last = text[..text.len() - 1]
            .iter()
            .rposition(|&byte| byte == b'\n');
        let last = last.expect("there are several lines") + 1;
        let more = [&text[..], format!("{}: -\n", n + 1).as_bytes()].concat();
        for (text, place) in [
            (&text[..text.len() - 1], n - 1),
            (&text[..last], n - 1),
            (&more, n),
        ] {
            comparison.must_refuse(tally, &Request::read(&case, text), FORM, place);
        }
    }
    if count >= LARGE.len() {
        kinds.check(tally, true);
    }
}

/// Each cause of 14 and 15 by itself, two in one text, and beside causes of the case and the room.
pub fn each_cause(tally: &mut Tally, mut rng: Rng, own: Rng, count: usize) {
    let mut comparison = Comparison::new(own);
    for cause in causes::all() {
        let (mut met, mut later) = (0, 0);
        for _ in 0..count {
            let case = gen::small(&mut rng);
            let at = rng.below(case.students.len());
            let mut sheet = Sheet::new(&mut rng, &case);
            let Some(place) = (cause.spoil)(&mut rng, &mut sheet, at) else {
                continue;
            };
            let request = Request::read(&case, &sheet.text());
            comparison.must_refuse(tally, &request, cause.number, place);
            met += 1;
            later += usize::from(place > 0);
        }
        tally.note(&format!("{met:6} {}: {}", cause.number, cause.name));
        let everywhere = cause.name == "carriage returns everywhere";
        tally.check(met * 10 > count && (later > 0 || everywhere), || {
            format!("rare: {}", cause.name)
        });
    }
    for _ in 0..count * 4 {
        two_causes(tally, &mut comparison, &mut rng);
        beside_the_case(tally, &mut comparison, &mut rng);
    }
}

/// In one line 14 comes first, in two lines the first line.
fn two_causes(tally: &mut Tally, comparison: &mut Comparison, rng: &mut Rng) {
    let case = gen::small(rng);
    let n = case.students.len();
    let (of_form, of_names) = (causes::local(FORM), causes::local(NAMES));
    let at = rng.below(n);
    let good = Sheet::new(rng, &case);
    let mut spoil = |sheet: &mut Sheet, causes: &[&Cause], at: usize| {
        let cause = rng.pick(causes);
        (cause.spoil)(rng, sheet, at).map(|_| cause.number)
    };
    let mut one_line = good.clone();
    let both = spoil(&mut one_line, &of_names, at).and(spoil(&mut one_line, &of_form, at));
    if both.is_some() {
        let request = Request::read(&case, &one_line.text());
        comparison.must_refuse(tally, &request, FORM, at);
    }
    let any = [of_form, of_names].concat();
    let mut two_lines = good;
    let first = spoil(&mut two_lines, &any, at);
    for later in at + 1..n.min(at + 3) {
        spoil(&mut two_lines, &any, later);
    }
    if let Some(number) = first {
        let request = Request::read(&case, &two_lines.text());
        comparison.must_refuse(tally, &request, number, at);
    }
}

/// Causes 1 to 5, 13 and 6 come before those of the text.
fn beside_the_case(tally: &mut Tally, comparison: &mut Comparison, rng: &mut Rng) {
    let case = gen::small(rng);
    let mut sheet = Sheet::new(rng, &case);
    let causes: Vec<&Cause> = causes::all().collect();
    let at = rng.below(case.students.len());
    if rng.chance(70) {
        (rng.pick(&causes).spoil)(rng, &mut sheet, at);
    }
    let read = Request::read(&case, &sheet.text());
    let write = Request::write(&case);
    for request in [&read, &write] {
        for cause in [1, 2, 3, 4, 5, 13] {
            let request = Request {
                case: gen::with_cause(rng, &case, cause),
                room: gen::room(rng, request.room),
                task: request.task.clone(),
            };
            let answer = comparison.check(tally, &request);
            tally.check(answer.is_refused(cause), || format!("{cause}: {answer:?}"));
        }
        let room = rng.below(request.room);
        let task = request.task.clone();
        let case = request.case.clone();
        comparison.must_refuse(tally, &Request { case, task, room }, 6, 0);
    }
}

/// Texts with one to three damaged characters, and cases with one to three damages.
pub fn damaged(tally: &mut Tally, mut rng: Rng, own: Rng, count: usize) {
    let mut comparison = Comparison::new(own);
    let mut of_texts = [0; 16];
    let mut of_cases = [[0; 16]; 2];
    let mut later = [false; 16];
    for _ in 0..count {
        let request = damaged_text(&mut rng);
        let (number, place) = outcome(&comparison.check(tally, &request));
        of_texts[number] += 1;
        later[number] |= place > 0;
        let request = gen::damaged_case(&mut rng);
        let (number, _) = outcome(&comparison.check(tally, &request));
        of_cases[usize::from(request.writes())][number] += 1;
    }
    tally.note(&format!(
        "damaged texts: {} good, {} with 14, {} with 15",
        of_texts[0], of_texts[14], of_texts[15]
    ));
    tally.note(&format!("damaged cases, read and written: {of_cases:?}"));
    for number in [0, 14, 15] {
        tally.check(of_texts[number] * 50 > count, || {
            format!("{number} is rare")
        });
        tally.check(later[number] == (number > 0), || {
            format!("places of {number}")
        });
    }
    for number in [0, 1, 2, 3, 4, 5, 6, 13] {
        for (seen, what) in of_cases.iter().zip(["read", "written"]) {
            let rare = || format!("{number} is rare where the case is {what}");
            tally.check(seen[number] * 1000 > count, rare);
        }
    }
}

fn outcome(answer: &Answer) -> (usize, usize) {
    match *answer {
        Answer::Done(_) => (0, 0),
        Answer::Refused { number, place } => (usize::from(number), place),
    }
}

fn damaged_text(rng: &mut Rng) -> Request {
    let case = gen::small(rng);
    let mut text = gen::text(&gen::any_wishes(rng, &case));
    gen::damage(rng, &mut text);
    let mut request = Request::read(&case, &text);
    request.room += rng.pick(&[0, 0, 0, 1, 50]);
    request
}

/// Every text of the lines' own characters behind the head of a line, and every head.
pub fn all_lines(tally: &mut Tally, own: Rng, longest: usize) {
    let mut comparison = Comparison::new(own);
    let of_form = brute::all_of_form(longest);
    let texts = brute::all_texts(brute::ALPHABET, longest);
    let (mut accepted, mut departing) = (0, 0);
    for case in brute::all_cases(1, 2, 1) {
        let hers: Vec<u16> = case.pairs.iter().map(|pair| pair.workshop).collect();
        let most = if hers.len() == 2 {
            longest
        } else {
            longest - 1
        };
        for tail in texts.iter().take_while(|tail| tail.len() <= most) {
            let expected = match of_form.get(tail) {
                None => refused(FORM, 0),
                Some(wishes) if !brute::names_once(wishes, &hers) => refused(NAMES, 0),
                Some(wishes) => {
                    let wishes = [wishes.clone()];
                    Answer::Done(gen::with_wishes(&case, &wishes).to_bytes())
                }
            };
            accepted += usize::from(expected.report().kind == 0);
            departing += usize::from(expected.is_refused(FORM));
            let text = [b"1: ", &tail[..], b"\n"].concat();
            comparison.must_be(tally, &Request::read(&case, &text), &expected);
        }
    }
    tally.note(&format!("{accepted} lines accepted, {departing} depart"));
    // None alone; two items; and three, apart, two in braces, or all in braces.
    let all = 1 + 2 * (2 + 2) + (6 + 6 * 2 + 6);
    tally.check(accepted == all || longest < 7, || {
        format!("not {all} lines")
    });
    all_heads(tally, &mut comparison);
}

/// Every head of a line, before none.
fn all_heads(tally: &mut Tally, comparison: &mut Comparison) {
    let lone = &brute::all_cases(1, 1, 1)[0];
    for head in brute::all_texts(b"012: ", 5) {
        let text = [&head[..], b"-\n"].concat();
        let expected = match &head[..] {
            b"1: " => Answer::Done(lone.to_bytes()),
            _ => refused(FORM, 0),
        };
        comparison.must_be(tally, &Request::read(lone, &text), &expected);
    }
}

fn refused(number: u16, place: usize) -> Answer {
    Answer::Refused { number, place }
}

/// Of all small cases, two write equal lines exactly when they have, by number, the same students
/// and pairs, and all students' groups, none included, have the same order.
pub fn equal_lines(tally: &mut Tally, mut rng: Rng, own: Rng) {
    let mut comparison = Comparison::new(own);
    let mut order_of = HashMap::new();
    let mut text_of = HashMap::new();
    let mut cases = 0;
    // Students, workshops, groups, and the number of different lines: of k items there are 1, 3, 13,
    // 75 and 541 orders with ties.
    let sizes = [
        (1, 1, 3, 1 + 3),
        (1, 2, 4, 1 + 2 * 3 + 13),
        (1, 3, 4, 1 + 3 * 3 + 3 * 13 + 75),
        (1, 4, 5, 1 + 4 * 3 + 6 * 13 + 4 * 75 + 541),
        (2, 1, 3, 4 * 4),
        (2, 2, 3, 20 * 20),
        (3, 1, 3, 4 * 4 * 4),
    ];
    for (students, workshops, top, different) in sizes {
        let mut texts = HashMap::new();
        for case in brute::all_cases(students, workshops, top) {
            let shown = gen::other_unused(&mut rng, &case);
            let text = comparison.text_of(tally, &shown);
            let order = brute::order(&case);
            let first_order = order_of.entry(text.clone()).or_insert(order.clone());
            tally.check(*first_order == order, || format!("equal lines: {case:?}"));
            let first_text = text_of.entry(order).or_insert(text.clone());
            tally.check(*first_text == text, || format!("other lines: {case:?}"));
            let copy = comparison.done(tally, &Request::read(&shown, &text));
            check_copy(tally, &shown, &copy);
            texts.insert(text, ());
            cases += 1;
        }
        tally.check(texts.len() == different, || {
            format!("{students}x{workshops}: {} different", texts.len())
        });
    }
    tally.note(&format!(
        "{cases} cases, {} different texts",
        order_of.len()
    ));
}

/// The room of 8 for a student and 4 for a pair: each line has at most as many bytes, and those of
/// student 100 up with groups of two, workshops from 10 up and an odd number of pairs have as many.
pub fn room(tally: &mut Tally, mut rng: Rng, own: Rng, count: usize) {
    let mut comparison = Comparison::new(own);
    let mut met = 0;
    for _ in 0..count {
        let case = hundreds(&mut rng);
        let text = comparison.text_of(tally, &case);
        let pairs = gen::workshops_of(&case);
        for (line, hers) in text.split_inclusive(|&byte| byte == b'\n').zip(pairs) {
            let most = 8 + 4 * hers.len();
            tally.check(line.len() <= most, || line.escape_ascii().to_string());
            met += usize::from(line.len() == most);
        }
    }
    tally.note(&format!("{met} lines fill their room"));
    tally.check(met > 0, || "no line fills its room".to_string());
    let mut case = hundreds(&mut rng);
    case.students.truncate(100);
    case.students[99].line = 7;
    case.pairs = vec![Pair {
        student: 100,
        workshop: 10,
        student_group: 7,
        workshop_group: 1,
        fare: 0,
    }];
    let text = comparison.text_of(tally, &case);
    let last: &[u8] = b"100: {-,10}\n";
    tally.check(text.ends_with(last) && last.len() == 8 + 4, || {
        "student 100 and workshop 10".to_string()
    });
}

/// Some more than a hundred students, workshops from 10 up, and mostly groups of two.
fn hundreds(rng: &mut Rng) -> Case {
    let shape = engine_gen::Shape {
        students: rng.range(100, 104),
        workshops: 13,
        pairs: 0,
        uneven: 0,
        ..engine_gen::Shape::small(rng)
    };
    let mut case = engine_gen::case(rng, &shape);
    for (student, number) in case.students.iter_mut().zip(1..) {
        student.line = 1;
        let pairs = (10..=13).filter(|_| rng.chance(50)).zip(1..);
        case.pairs
            .extend(pairs.map(|(workshop, at): (u16, u16)| Pair {
                student: number,
                workshop,
                student_group: at / 2 + 1,
                workshop_group: 1,
                fare: 0,
            }));
    }
    case
}

/// Every byte of a text changed, every length of it, every byte of a case, and every room.
pub fn byte_sweeps(tally: &mut Tally, mut rng: Rng, own: Rng, count: usize) {
    let mut comparison = Comparison::new(own);
    let mut bases = vec![crate::proved::example().0];
    bases.extend((0..count).map(|_| gen::small(&mut rng)));
    for case in &bases {
        let text = gen::text(&gen::any_wishes(&mut rng, case));
        let read = Request::read(case, &text);
        let write = Request::write(case);
        for changed in changed_texts(&text) {
            comparison.check(tally, &Request::read(case, &changed));
        }
        let input = Input {
            case: read.case.clone(),
            book: Vec::new(),
            lent: Lengths::ample(),
        };
        for changed in engine_gen::sweep(&input) {
            for base in [&read, &write] {
                let mut request = base.clone();
                request.case = changed.case.clone();
                comparison.check(tally, &request);
            }
        }
        for base in [read, write] {
            for room in (0..=base.room + 2).chain([base.room + 100]) {
                let mut request = base.clone();
                request.room = room;
                comparison.check(tally, &request);
            }
        }
    }
    long_texts(tally, &mut comparison);
    for input in engine_gen::oversized_inputs(&mut rng) {
        let (case, room) = (input.case, 1 << 21);
        for task in [Task::Write, Task::Read(b"1: -\n".to_vec())] {
            let case = case.clone();
            comparison.check(tally, &Request { case, task, room });
        }
    }
}

/// The text cut to every length, and with each character changed, added and taken away.
fn changed_texts(text: &[u8]) -> Vec<Vec<u8>> {
    let mut texts: Vec<Vec<u8>> = (0..text.len()).map(|end| text[..end].to_vec()).collect();
    for at in 0..=text.len() {
        for &other in gen::CHARACTERS {
            texts.push([&text[..at], &[other], &text[at..]].concat());
            if at < text.len() {
                texts.push([&text[..at], &[other], &text[at + 1..]].concat());
            }
        }
        if at < text.len() {
            texts.push([&text[..at], &text[at + 1..]].concat());
        }
    }
    texts
}

/// Long lines, many lines, and long numbers, for students with one pair and with none.
fn long_texts(tally: &mut Tally, comparison: &mut Comparison) {
    const LONG: usize = 70_000;
    let digits = |first: &str| format!("{first}{}", "0".repeat(LONG));
    let cases = brute::all_cases(2, 1, 1);
    let (none, one) = (&cases[0], &cases[cases.len() - 1]);
    let names = vec!["1"; LONG].join(",");
    let texts = [
        (format!("1: -,{}\n2: -\n", digits("1")), NAMES, 0),
        (format!("1: -\n2: {{-,{}}}\n", digits("9")), NAMES, 1),
        (format!("1: -,{}\r\n2: -\n", digits("1")), FORM, 0),
        (format!("1: -,{}\n2: -\n", digits("0")), FORM, 0),
        (format!("{}: -\n2: -\n", digits("1")), FORM, 0),
        (format!("1: -\n2: -\n{}", digits("3")), FORM, 2),
        (format!("1: -\n{}: -\n", digits("2")), FORM, 1),
        (format!("1: -,{names}\n2: -\n"), NAMES, 0),
        (format!("1: {{-,{names}}}\n2: -\n"), NAMES, 0),
        (format!("1: {names}\n2: -\n"), FORM, 0),
        (
            format!("1: -,{}\n2: -\n", vec!["-"; LONG].join(",")),
            FORM,
            0,
        ),
        (format!("1: -\n2: -\n{}", "3: -\n".repeat(LONG)), FORM, 2),
        ("\n".repeat(LONG), FORM, 0),
        (" ".repeat(LONG), FORM, 0),
        ("{".repeat(LONG), FORM, 0),
        (format!("1: {}\n2: -\n", "{".repeat(LONG)), FORM, 0),
        (format!("1: -{}\n2: -\n", ",".repeat(LONG)), FORM, 0),
    ];
    for (text, number, place) in texts {
        comparison.must_refuse(tally, &Request::read(none, text.as_bytes()), number, place);
    }
    let twice = format!("1: -,1\n2: -,{names}\n");
    comparison.must_refuse(tally, &Request::read(one, twice.as_bytes()), NAMES, 1);
}

/// Each mutant gives another answer than the right one on some request.
pub fn mutants_told_apart(tally: &mut Tally, mut rng: Rng, count: usize) {
    let mut requests: Vec<Request> = (0..count).map(|_| any_request(&mut rng)).collect();
    requests.extend(rows::rows().into_iter().map(|row| row.request));
    told_apart(tally, &requests, &mutants::all());
    let large = [LARGE[0], LARGE[3]].map(|large| {
        let case = gen::large(&mut rng, large);
        let text = gen::text(&gen::wishes_joined(&mut rng, &case, 0));
        [Request::write(&case), Request::read(&case, &text)]
    });
    told_apart(tally, &large.concat(), &mutants::of_size());
}

/// Good and damaged texts and cases, with rooms of all lengths.
fn any_request(rng: &mut Rng) -> Request {
    let mut request = match rng.below(8) {
        0 => return gen::damaged_case(rng),
        1 => damaged_text(rng),
        2 => {
            let case = gen::small(rng);
            Request::write(&case)
        }
        3 => {
            let case = gen::small(rng);
            Request::read(&case, &gen::text(&gen::any_wishes(rng, &case)))
        }
        _ => {
            let case = gen::small(rng);
            let mut sheet = Sheet::new(rng, &case);
            let causes: Vec<&Cause> = causes::all().collect();
            let at = rng.below(case.students.len());
            if rng.chance(30) {
                (rng.pick(&causes::local(NAMES)).spoil)(rng, &mut sheet, at);
            }
            (rng.pick(&causes).spoil)(rng, &mut sheet, at);
            Request::read(&case, &sheet.text())
        }
    };
    if rng.chance(20) {
        request.room = gen::room(rng, request.room);
    }
    request
}

fn told_apart(tally: &mut Tally, requests: &[Request], mutants: &[Mutant]) {
    let expected: Vec<Answer> = requests.iter().map(answer).collect();
    let differing = |mutant: &Mutant| {
        let both = requests.iter().zip(&expected);
        both.filter(|(request, expected)| (mutant.answer)(request) != **expected)
            .count()
    };
    for control in mutants::controls() {
        let count = differing(&control);
        tally.check(count == 0, || {
            format!("{} differs {count} times", control.name)
        });
    }
    tally.note(&format!("{} requests, told apart by:", requests.len()));
    for mutant in mutants {
        let count = differing(mutant);
        tally.note(&format!("{count:6} {}", mutant.name));
        tally.check(count > 0, || format!("not told apart: {}", mutant.name));
    }
}

/// The check of the lent buffer accepts an honest part and finds every flaw.
pub fn flaws_found(tally: &mut Tally, mut rng: Rng, count: usize) {
    let requests: Vec<Request> = (0..count).map(|_| any_request(&mut rng)).collect();
    let mut count_found = |part: Call| {
        let found = requests.iter().filter(|request| {
            let expected = answer(request);
            lending::check(part, request, &expected, &mut rng).is_err()
        });
        found.count()
    };
    let blamed = count_found(&lending::honest);
    tally.check(blamed == 0, || format!("honest, blamed {blamed} times"));
    tally.note(&format!("{} requests, found by:", requests.len()));
    for flaw in &lending::FLAWS {
        let spoil = |case: &[u8], text: Option<&[u8]>, loan: &Loan| flaw.spoil(case, text, loan);
        let found = count_found(&spoil);
        tally.note(&format!("{found:6} {}", flaw.name));
        tally.check(found > 0, || format!("not found: {}", flaw.name));
    }
}
