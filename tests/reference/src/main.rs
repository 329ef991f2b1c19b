//! Runs all groups of tests. The last line is `N passed, M failed`.
//!
//! `--quick` runs fewer cases; `--seed N` chooses other random ones; `--only WORD` runs the parts
//! with this word in their name.

use reference::brute::{Effort, Least, World};
use reference::fares::{self, Runs};
use reference::fast::Fast;
use reference::gen::{self, Rng, Shape};
use reference::lending::{self, Call, Loan};
use reference::literal::Event;
use reference::lots;
use reference::model::*;
use reference::mutants::{self, Mutant};
use reference::never::{self, Ties};
use reference::proved::Proved;
use reference::stages;
use reference::tally::{self, Part, Tally};
use reference::wishes;
use reference::{header, literal, program, proved};
use std::path::Path;
use std::process::ExitCode;

struct Options {
    quick: bool,
    seed: u64,
    only: String,
}

impl Options {
    fn parse() -> Result<Options, String> {
        let mut options = Options {
            quick: false,
            seed: 1,
            only: String::new(),
        };
        let mut arguments = std::env::args().skip(1);
        while let Some(argument) = arguments.next() {
            match argument.as_str() {
                "--quick" => options.quick = true,
                "--seed" => {
                    let number = arguments.next().and_then(|text| text.parse().ok());
                    options.seed = number.ok_or("--seed needs a number")?;
                }
                "--only" => options.only = arguments.next().ok_or("--only needs a word")?,
                other => return Err(format!("unknown argument {other}")),
            }
        }
        Ok(options)
    }

    /// How many cases to run: a twentieth of the number in a quick run.
    fn count(&self, cases: usize) -> usize {
        if self.quick {
            cases.div_ceil(20)
        } else {
            cases
        }
    }

    /// A generator of its own for each part.
    fn rng(&self, part: u64) -> Rng {
        Rng::new(self.seed.wrapping_mul(1000).wrapping_add(part))
    }
}

/// The real engine, if it is linked.
fn engine_under_test() -> Option<Call<'static>> {
    #[cfg(feature = "engine")]
    return Some(&reference::engine::call);
    #[cfg(not(feature = "engine"))]
    return None;
}

/// Compares everything there is with the literal reference.
struct Comparison {
    fast: Fast,
    engine: Option<Call<'static>>,
    rng: Rng,
}

impl Comparison {
    fn new(rng: Rng) -> Comparison {
        Comparison {
            fast: Fast::default(),
            engine: engine_under_test(),
            rng,
        }
    }

    /// Gives the literal answer.
    fn check(&mut self, tally: &mut Tally, input: &Input) -> Answer {
        self.check_with_events(tally, input).0
    }

    fn check_with_events(&mut self, tally: &mut Tally, input: &Input) -> (Answer, Vec<Event>) {
        let (expected, events) = literal::answer_with_events(input);
        let got = self.fast.answer(input);
        tally.check(got == expected, || {
            format!("fast: {got:?}\nliteral: {expected:?}\n{}", input.describe())
        });
        if let Some(engine) = self.engine {
            let found = lending::check(engine, input, &expected, &mut self.rng);
            tally.check(found.is_ok(), || {
                let input = input.describe();
                format!("engine: {found:?}\nliteral: {expected:?}\n{input}")
            });
        }
        (expected, events)
    }

    /// The same for a case and a book with buffers that just suffice; counts the kinds met.
    fn check_counting(
        &mut self,
        tally: &mut Tally,
        (case, book): &(Case, Vec<Record>),
        kinds: &mut Kinds,
    ) -> Answer {
        let (answer, events) = self.check_with_events(tally, &case.input(book));
        kinds.count(case, book, &answer, &events);
        answer
    }
}

/// The kinds of never, of lots and of fares.
#[derive(Default)]
struct Kinds {
    never: never::Kinds,
    lots: lots::Kinds,
    fares: fares::Kinds,
}

impl Kinds {
    fn count(&mut self, case: &Case, book: &[Record], answer: &Answer, events: &[Event]) {
        self.never.count(case, book, answer.visits());
        self.lots.count(case, book, answer, events);
        self.fares.count(case, book, answer);
    }

    fn check(&self, tally: &mut Tally, what: &str, runs: Runs) {
        self.never.check(tally, what);
        self.lots.check(tally, what);
        self.fares.check(tally, what, runs);
    }
}

fn main() -> ExitCode {
    let options = match Options::parse() {
        Ok(options) => options,
        Err(message) => {
            eprintln!("{message}");
            return ExitCode::FAILURE;
        }
    };
    let parts = parts(&options);
    if parts.is_empty() {
        eprintln!("no part has {} in its name", options.only);
        return ExitCode::FAILURE;
    }
    let tally = tally::run(&parts);
    println!("{} passed, {} failed", tally.passed, tally.failed);
    if tally.failed == 0 {
        ExitCode::SUCCESS
    } else {
        ExitCode::FAILURE
    }
}

/// All parts, those that take long first.
fn parts(options: &Options) -> Vec<Part<'_>> {
    let part = |name: &'static str, run: fn(&mut Tally, &Options)| Part {
        name,
        run: Box::new(move |tally| run(tally, options)),
    };
    let mut parts = vec![
        part("proved cases", proved_cases),
        part("all strict orders", all_strict_orders),
        part("damaged input", damaged_input),
        part("large cases", large_cases),
        part("stages, large cases", |tally, options| {
            let (rng, own) = (options.rng(22), options.rng(122));
            stages::tests::large_cases(tally, rng, own, options.count(40).max(20));
        }),
        part("small cases", small_cases),
        part("stages, small cases", |tally, options| {
            let (rng, own) = (options.rng(21), options.rng(121));
            stages::tests::small_cases(tally, rng, own, options.count(100_000));
        }),
        part("middle cases", middle_cases),
        part("mutants", mutants_told_apart),
        part("visit by visit", visit_by_visit),
        part("lots put into the marks", lots_put_into_marks),
        part("fares tell the list", fares_tell_the_list),
        part("byte sweeps", byte_sweeps),
        part("stages, whole circle", stages_whole_circle),
        part("stages, byte sweeps", |tally, options| {
            let (rng, own) = (options.rng(24), options.rng(124));
            stages::tests::byte_sweeps(tally, rng, own, options.count(100));
        }),
        part("flaws of engines", flaws_found),
        part("oversized input", oversized_input),
        part("slips break demands", slips_break_demands),
        part("C header", |tally, _| header::run(tally)),
        part("stored runs", |tally, _| {
            program::stored_as_reference(tally)
        }),
        part("stages, all numbers", |tally, options| {
            let (rng, own) = (options.rng(23), options.rng(123));
            stages::tests::all_numbers(tally, rng, own, options.count(40_000));
        }),
        part("stages, damaged cases", |tally, options| {
            let (rng, own) = (options.rng(25), options.rng(125));
            stages::tests::damaged_cases(tally, rng, own, options.count(100_000));
        }),
        part("stages, mutants", |tally, options| {
            stages::tests::mutants_told_apart(
                tally,
                options.rng(26),
                options.count(6000).max(2000),
            );
        }),
        part("stages, flaws", |tally, options| {
            stages::tests::flaws_found(tally, options.rng(27), options.count(3000).max(500));
        }),
        part("stages, by hand", |tally, options| {
            stages::tests::by_hand(tally, options.rng(28));
        }),
        part("wishes, small cases", |tally, options| {
            let (rng, own) = (options.rng(30), options.rng(130));
            wishes::tests::small_cases(tally, rng, own, options.count(6000));
        }),
        part("wishes, all lines", |tally, options| {
            wishes::tests::all_lines(tally, options.rng(131), if options.quick { 5 } else { 7 });
        }),
        part("wishes, equal lines", |tally, options| {
            wishes::tests::equal_lines(tally, options.rng(32), options.rng(132));
        }),
        part("wishes, each cause", |tally, options| {
            let (rng, own) = (options.rng(33), options.rng(133));
            wishes::tests::each_cause(tally, rng, own, options.count(500).max(100));
        }),
        part("wishes, damaged", |tally, options| {
            let (rng, own) = (options.rng(34), options.rng(134));
            wishes::tests::damaged(tally, rng, own, options.count(30_000).max(4000));
        }),
        part("wishes, byte sweeps", |tally, options| {
            let (rng, own) = (options.rng(35), options.rng(135));
            wishes::tests::byte_sweeps(tally, rng, own, options.count(10));
        }),
        part("wishes, large cases", |tally, options| {
            let (rng, own) = (options.rng(36), options.rng(136));
            wishes::tests::large_cases(tally, rng, own, if options.quick { 1 } else { 7 });
        }),
        part("wishes, room", |tally, options| {
            let (rng, own) = (options.rng(37), options.rng(137));
            wishes::tests::room(tally, rng, own, options.count(50));
        }),
        part("wishes, mutants", |tally, options| {
            wishes::tests::mutants_told_apart(
                tally,
                options.rng(38),
                options.count(3000).max(1000),
            );
        }),
        part("wishes, flaws", |tally, options| {
            wishes::tests::flaws_found(tally, options.rng(39), options.count(2000).max(1000));
        }),
        part("wishes, by hand", |tally, options| {
            wishes::tests::by_hand(tally, options.rng(40));
        }),
    ];
    match std::env::var_os("PLACE_BIN") {
        Some(path) => parts.push(Part {
            name: "program",
            run: Box::new(move |tally| {
                let count = options.count(600);
                program::run(tally, Path::new(&path), options.seed, count);
            }),
        }),
        None => println!("program: skipped, PLACE_BIN is not set"),
    }
    parts.retain(|part| part.name.contains(&options.only));
    parts
}

fn proved_cases(tally: &mut Tally, options: &Options) {
    let mut comparison = Comparison::new(options.rng(0));
    let table = proved::table();
    let never = proved::of_never();
    let lots = proved::of_lots();
    let fares = proved::of_fares();
    tally.check(table.len() == 15, || "the table has 15 cases".to_string());
    tally.check(never.len() == 26, || "never has 26 rows".to_string());
    tally.check(lots.len() == 67, || "lots have 67 rows".to_string());
    tally.check(fares.len() == 71, || "fares have 71 rows".to_string());
    for proved in table.iter().chain(&never).chain(&lots).chain(&fares) {
        let answer = comparison.check(tally, &proved.input);
        tally.check(proved.expected.holds(&answer), || {
            format!("{}: {answer:?}", proved.name)
        });
    }
    for proved in &table {
        let total = literal::answer(&proved.input).fares();
        tally.check(matches!(total, Some(0) | None), || {
            format!("{} costs {total:?}", proved.name)
        });
    }
    rows_failed(tally, "never", &never, &mutants::about_never());
    rows_failed(tally, "lots", &lots, &mutants::about_lots());
    rows_failed(tally, "fares", &fares, &mutants::about_fares());
    let (case, book) = proved::example();
    let text = literal::answer(&case.input(&book)).text();
    let lines = [
        "place 1 1",
        "place 2 0",
        "place 3 2",
        "visits 4",
        "visit 1 1",
        "visit 1 2",
        "visit 2 2",
        "visit 3 2",
        "fares 0",
    ];
    tally.check(text.lines().eq(lines), || text);
}

/// Each of the mutants fails one of these rows.
fn rows_failed(tally: &mut Tally, about: &str, rows: &[Proved], mutants: &[Mutant]) {
    tally.note(&format!("{} rows for {about}, failed by:", rows.len()));
    for mutant in mutants {
        let fails = |row: &&Proved| !row.expected.holds(&(mutant.answer)(&row.input));
        let count = rows.iter().filter(fails).count();
        tally.note(&format!("{count:6} {}", mutant.name));
        tally.check(count > 0, || format!("fails no row: {}", mutant.name));
    }
}

fn small_cases(tally: &mut Tally, options: &Options) {
    let mut rng = options.rng(1);
    let mut comparison = Comparison::new(options.rng(101));
    let mut kinds = Kinds::default();
    let (mut placed, mut next) = (0, 0);
    for _ in 0..options.count(180_000) {
        let shape = Shape::small(&mut rng);
        let drawn = gen::case_and_book(&mut rng, &shape);
        match comparison.check_counting(tally, &drawn, &mut kinds) {
            Answer::Placed { .. } => placed += 1,
            Answer::Next { .. } => next += 1,
            Answer::Refused { .. } => tally.check(false, || format!("{drawn:?}")),
        }
    }
    tally.note(&format!("{placed} placed, {next} with a next visit"));
    tally.check(placed > 100 && next > 100, || "one kind is rare".into());
    kinds.check(tally, "runs", Runs::Small);
}

fn middle_cases(tally: &mut Tally, options: &Options) {
    let mut rng = options.rng(10);
    let mut comparison = Comparison::new(options.rng(110));
    let mut kinds = Kinds::default();
    for number in 0..options.count(8000) {
        let shape = Shape::middle(&mut rng);
        let drawn = gen::case_and_book(&mut rng, &shape);
        let answer = comparison.check_counting(tally, &drawn, &mut kinds);
        if number % 40 == 0 {
            for drawn in gen::around_list(&mut rng, &drawn, answer.visits()) {
                comparison.check_counting(tally, &drawn, &mut kinds);
            }
        }
    }
    kinds.check(tally, "runs", Runs::Small);
}

fn large_cases(tally: &mut Tally, options: &Options) {
    let mut rng = options.rng(2);
    let mut comparison = Comparison::new(options.rng(102));
    let mut kinds = Kinds::default();
    let (mut visits, mut dearest) = (0, 0);
    let mut check = |drawn: &(Case, Vec<Record>)| {
        let answer = comparison.check_counting(tally, drawn, &mut kinds);
        visits += answer.visits().len();
        dearest = dearest.max(answer.fares().unwrap_or(0));
        answer
    };
    let shapes = Shape::large(&mut rng);
    let step = shapes.len() / options.count(shapes.len());
    for shape in shapes.iter().step_by(step) {
        check(&gen::case_and_book(&mut rng, shape));
    }
    for (d, e) in [(1, 1), (1, 8), (4, 1), (4, 8), (64, 512)] {
        let case = gen::experiment(&mut rng, 512, 64, d, e);
        let book = gen::full_book(&mut rng, &case, MAX_MARK);
        let mut drawn = (case, book);
        check(&drawn);
        gen::draw_lots(&mut rng, &mut drawn.0);
        gen::put_equal(&mut rng, &drawn.0, &mut drawn.1, 8, MAX_MARK);
        check(&drawn);
        gen::put_never(&mut rng, &mut drawn.1, 10);
        check(&drawn);
        // The last groups become the line groups.
        let case = &mut drawn.0;
        case.students.iter_mut().for_each(|s| s.line = d as u16);
        case.workshops.iter_mut().for_each(|w| w.line = e as u16);
        case.pairs.iter_mut().for_each(|pair| pair.fare = u16::MAX);
        let answer = check(&drawn);
        if (d, e) == (4, 8) {
            for drawn in gen::around_list(&mut rng, &drawn, answer.visits()) {
                check(&drawn);
            }
        }
    }
    tally.note(&format!("{visits} visits, dearest total {dearest}"));
    tally.check(dearest == LARGEST_TOTAL, || "no largest total".to_string());
    kinds.check(tally, "runs", Runs::Large);
}

/// All pairs of 512 students and 64 workshops, each at 65,535.
const LARGEST_TOTAL: u64 = 512 * 64 * 65_535;

fn byte_sweeps(tally: &mut Tally, options: &Options) {
    let mut rng = options.rng(3);
    let mut comparison = Comparison::new(options.rng(103));
    let (case, book) = proved::example();
    let mut bases = vec![case.input(&book)];
    bases.extend(proved::of_never().into_iter().map(|row| row.input));
    bases.extend(proved::of_lots().into_iter().map(|row| row.input));
    let of_fares = proved::of_fares().into_iter().step_by(4);
    bases.extend(of_fares.map(|row| row.input));
    for _ in 0..options.count(100) {
        bases.push(gen::small_input(&mut rng));
    }
    for base in bases {
        for input in gen::sweep(&base).iter().chain(&gen::buffer_sweep(&base)) {
            comparison.check(tally, input);
        }
    }
}

fn damaged_input(tally: &mut Tally, options: &Options) {
    let mut rng = options.rng(4);
    let mut comparison = Comparison::new(options.rng(104));
    let mut seen = [0; 14];
    let mut later_record = [false; 14];
    let mut ties = Ties::default();
    let mut of_lots = lots::Refusals::default();
    let mut of_fares = fares::Refusals::default();
    for _ in 0..options.count(360_000) {
        let input = gen::damaged_input(&mut rng);
        let (number, place) = match comparison.check(tally, &input) {
            Answer::Refused { number, place } => (usize::from(number), place),
            _ => (0, 0),
        };
        if number == 11 {
            let (case, book) = literal::read_before_ties(&input).expect("refused by 11");
            ties.count(&case, &book, place);
        }
        of_lots.count(&input, number as u16, place);
        of_fares.count(&input.case, number as u16, place);
        seen[number] += 1;
        later_record[number] |= place > 0;
    }
    tally.note(&format!(
        "good input {}, refusals 1 to 11 {:?}, 13 {}",
        seen[0],
        &seen[1..12],
        seen[13]
    ));
    tally.check(seen[12] == 0, || "12 is none of these".to_string());
    for number in (1..=11).chain([13]) {
        let of_record = !matches!(number, 1 | 4 | 6 | 7);
        tally.check(seen[number] >= 20, || format!("refusal {number} is rare"));
        tally.check(later_record[number] == of_record, || {
            format!("places of refusal {number}")
        });
    }
    ties.check(tally);
    of_lots.check(tally);
    of_fares.check(tally);
}

fn oversized_input(tally: &mut Tally, options: &Options) {
    let mut comparison = Comparison::new(options.rng(105));
    let mut farthest = 0;
    for input in gen::oversized_inputs(&mut options.rng(5)) {
        if let Answer::Refused { place, .. } = comparison.check(tally, &input) {
            farthest = farthest.max(place);
        }
    }
    tally.check(farthest > 65_535, || "no far record".to_string());
}

/// Feeds the book what is asked for until everybody is placed.
fn visit_by_visit(tally: &mut Tally, options: &Options) {
    let mut rng = options.rng(6);
    let mut comparison = Comparison::new(options.rng(106));
    let mut kinds = Kinds::default();
    for _ in 0..options.count(20_000).max(4000) {
        let shape = Shape::small(&mut rng);
        drive(tally, &mut comparison, &mut rng, &shape, &mut kinds);
    }
    for _ in 0..options.count(60) {
        let shape = Shape::middle(&mut rng);
        drive(tally, &mut comparison, &mut rng, &shape, &mut kinds);
    }
    kinds.check(tally, "finished runs", Runs::Finished);
}

fn drive(
    tally: &mut Tally,
    comparison: &mut Comparison,
    rng: &mut Rng,
    shape: &Shape,
    kinds: &mut Kinds,
) {
    let case = gen::case(rng, shape);
    let hidden = gen::shaped_book(rng, &case, shape);
    let mut book: Vec<Record> = Vec::new();
    let mut paid = 0;
    loop {
        let answer = comparison.check(tally, &case.input(&book));
        let asked: Vec<(u16, u16)> = book.iter().map(|r| (r.student, r.workshop)).collect();
        tally.check(answer.visits() == asked, || {
            format!("listed visits are not those asked for: {answer:?}")
        });
        tally.check(answer.fares() == Some(paid), || {
            format!("{paid} paid so far: {answer:?}")
        });
        match answer {
            Answer::Next {
                student, workshop, ..
            } => {
                // The book without gaps has the order of the pairs.
                let asked = |r: &Record| (r.student, r.workshop) == (student, workshop);
                let at = hidden.iter().position(asked);
                let at = at.expect("only pairs are asked for");
                book.push(hidden[at]);
                paid += u64::from(case.pairs[at].fare);
            }
            last => {
                let whole = comparison.check_counting(tally, &(case, hidden), kinds);
                tally.check(last == whole, || format!("{last:?}\nfull book: {whole:?}"));
                return;
            }
        }
    }
}

/// Marks that say by themselves what marks and lots say give the same answer, whatever the lots.
fn lots_put_into_marks(tally: &mut Tally, options: &Options) {
    let mut rng = options.rng(12);
    let mut comparison = Comparison::new(options.rng(112));
    let mut other_answers = 0;
    let mut shapes: Vec<Shape> = (0..options.count(20_000))
        .map(|_| Shape::small(&mut rng))
        .collect();
    shapes.extend((0..options.count(500)).map(|_| Shape::middle(&mut rng)));
    shapes.extend(Shape::large(&mut rng).into_iter().step_by(41));
    for shape in shapes {
        let (mut case, mut book) = gen::case_and_book(&mut rng, &shape);
        let answer = comparison.check(tally, &case.input(&book));
        let parted = gen::parted(&case, &book);
        gen::draw_lots(&mut rng, &mut case);
        other_answers += usize::from(comparison.check(tally, &case.input(&book)) != answer);
        book = parted;
        let same = comparison.check(tally, &case.input(&book)) == answer;
        tally.check(same, || format!("not {answer:?}: {case:?}\n{book:?}"));
    }
    tally.note(&format!("{other_answers} other answers with other lots"));
    tally.check(other_answers > 0, || "no lot counts".to_string());
}

/// Fares of one bit each tell which pairs were added up, and change nothing but the total.
fn fares_tell_the_list(tally: &mut Tally, options: &Options) {
    const BITS: usize = 16;
    let mut rng = options.rng(13);
    let mut comparison = Comparison::new(options.rng(113));
    for _ in 0..options.count(10_000) {
        let shape = Shape::small(&mut rng);
        let (mut case, book) = gen::case_and_book(&mut rng, &shape);
        let answer = comparison.check(tally, &case.input(&book));
        for start in (0..case.pairs.len()).step_by(BITS) {
            let mut listed = 0;
            for (at, pair) in case.pairs.iter_mut().enumerate() {
                let told = (start..start + BITS).contains(&at);
                pair.fare = if told { 1 << (at - start) } else { 0 };
                if answer.visits().contains(&(pair.student, pair.workshop)) {
                    listed |= u64::from(pair.fare);
                }
            }
            let got = comparison.check(tally, &case.input(&book));
            let expected = answer.clone().costing(listed);
            tally.check(got == expected, || format!("{got:?}\nnot {expected:?}"));
        }
    }
}

/// Demands 2 and 3 on tiny cases, and that wrong answers break them.
fn all_strict_orders(tally: &mut Tally, options: &Options) {
    let mut rng = options.rng(7);
    let mut comparison = Comparison::new(options.rng(107));
    let mut effort = Effort::default();
    let (mut met, mut met_agreeing) = (Kinds::default(), Kinds::default());
    let (mut finished, mut agreeing, mut orders) = (0, 0, 0);
    let (mut without_record, mut cheaper) = (0, 0);
    while finished < options.count(6000).max(1500) {
        let shape = Shape::tiny(&mut rng);
        let (case, book) = gen::case_and_book(&mut rng, &shape);
        let (answer, events) = comparison.check_with_events(tally, &case.input(&book));
        let Answer::Placed {
            places,
            visits,
            fares,
        } = &answer
        else {
            continue;
        };
        let Some(world) = World::new(&case) else {
            continue;
        };
        finished += 1;
        orders += world.orders();
        met.count(&case, &book, &answer, &events);
        without_record += usize::from(book.len() < case.pairs.len());
        let trial = Trial {
            world: &world,
            case: &case,
            book: &book,
            places,
            visits,
            fares: *fares,
        };
        trial.demand_two(tally);
        if case.stages_agree() {
            agreeing += 1;
            met_agreeing.count(&case, &book, &answer, &events);
            trial.demand_three(tally, &mut effort);
        } else if finished - agreeing <= options.count(500).max(100) {
            cheaper += usize::from(trial.somebody_pays_less());
        }
    }
    tally.note(&format!(
        "{finished} finished runs, {agreeing} with agreeing stages, {orders} full orders"
    ));
    tally.note(&format!(
        "{without_record} runs with a pair that has no record and may be never"
    ));
    tell_effort(tally, &effort);
    tally.check(agreeing * 2 > finished, || "few stages agree".to_string());
    tally.check(without_record > 0 && effort.unsure_by_never > 0, || {
        "no pair that may be never counts".to_string()
    });
    tally.note(&format!(
        "{cheaper} runs without agreeing stages in which a sure holder pays less"
    ));
    tally.check(cheaper > 0, || "stages need not agree".to_string());
    met.check(tally, "finished runs", Runs::Finished);
    let agreeing = "finished runs with agreeing stages";
    met_agreeing.check(tally, agreeing, Runs::Finished);
}

/// Tells which sets were compared with our lists; every kind must have been met.
fn tell_effort(tally: &mut Tally, effort: &Effort) {
    tally.note(&format!(
        "sets of visits with the placed pairs: {} sure, {} not sure, {} of these only because a \
         pair that was not met may be never",
        effort.sure_sets, effort.unsure_sets, effort.unsure_by_never
    ));
    tally.check(effort.unsure_sets > 0, || "all sets are sure".to_string());
    let kinds = [
        (effort.sure_dearer, "sure, and dearer than our list"),
        (effort.sure_as_dear, "sure, and as dear as our list"),
        (effort.unsure_cheaper, "cheaper than our list, and not sure"),
    ];
    for (count, name) in kinds {
        tally.note(&format!("{count:6} sets {name}"));
        tally.check(count > 0, || format!("no sets {name}"));
    }
}

/// One tiny case with everything that could be true of it, and its answer.
struct Trial<'a> {
    world: &'a World,
    case: &'a Case,
    book: &'a [Record],
    places: &'a [u16],
    visits: &'a [(u16, u16)],
    fares: u64,
}

impl Trial<'_> {
    fn describe(&self) -> String {
        format!("{:?}\nbook {:?}", self.case, self.book)
    }

    fn demand_two(&self, tally: &mut Tally) {
        let (world, places, visits) = (self.world, self.places, self.visits);
        let good = world.demand_two(self.book, places, visits);
        tally.check(good, || format!("demand 2: {}", self.describe()));
        let sufficient = world.list_suffices(self.book, places, visits);
        tally.check(sufficient, || format!("own list: {}", self.describe()));
        let own = world.fares_of(visits);
        tally.check(own == Some(self.fares), || {
            format!("own fares {own:?}, not {}: {}", self.fares, self.describe())
        });
        for student in 0..places.len() {
            let mut other = places.to_vec();
            other[student] = if other[student] == 0 { 1 } else { 0 };
            let caught = !world.demand_two(self.book, &other, visits);
            tally.check(caught, || format!("wrong places pass: {}", self.describe()));
        }
    }

    /// What the sets of visits with the placed pairs show of a list.
    fn least(&self, list: &[(u16, u16)], effort: &mut Effort) -> Least {
        let least = self.world.least(self.book, self.places, list, effort);
        least.expect("the list names pairs, none twice")
    }

    /// Somebody who is sure, and has visited all placed pairs, pays less.
    fn somebody_pays_less(&self) -> bool {
        self.least(self.visits, &mut Effort::default()).fares < self.fares
    }

    fn demand_three(&self, tally: &mut Tally, effort: &mut Effort) {
        let least = self.least(self.visits, effort);
        tally.check(least.visits, || format!("demand 3: {}", self.describe()));
        // Our list is such a set.
        tally.check(least.fares == self.fares, || {
            format!("{} is the least: {}", least.fares, self.describe())
        });
        for left_out in 0..self.visits.len() {
            let mut fewer = self.visits.to_vec();
            fewer.remove(left_out);
            let caught = !self.world.list_suffices(self.book, self.places, &fewer);
            tally.check(caught, || format!("short list passes: {}", self.describe()));
        }
        let pairs = self.case.pairs.iter();
        let unvisited = pairs
            .map(|pair| (pair.student, pair.workshop))
            .find(|pair| !self.visits.contains(pair));
        if let Some(extra) = unvisited {
            let more = [self.visits, &[extra]].concat();
            let least = self.least(&more, &mut Effort::default());
            tally.check(!least.visits, || {
                format!("long list passes: {}", self.describe())
            });
            let dear = self.world.fares_of(&more) > Some(least.fares);
            let costs = self.world.fares_of(&[extra]) > Some(0);
            tally.check(dear == costs, || {
                format!("dear list passes: {}", self.describe())
            });
        }
    }
}

/// Tiny cases get the stages that were worked out; with them the list is the smallest.
fn stages_whole_circle(tally: &mut Tally, options: &Options) {
    let mut rng = options.rng(20);
    let mut comparison = Comparison::new(options.rng(120));
    let mut of_stages = stages::tests::Comparison::new(options.rng(220));
    let mut effort = Effort::default();
    let (mut finished, mut without, mut mended) = (0, 0, 0);
    while finished < options.count(2000).max(100) {
        let shape = Shape {
            agreeing: rng.chance(30),
            full_books: 100,
            ..Shape::tiny(&mut rng)
        };
        let (case, book) = gen::case_and_book(&mut rng, &shape);
        let request = stages::Request::of(&case);
        let stages::Answer::Stages(least) = of_stages.check(tally, &request) else {
            without += 1;
            continue;
        };
        let Some(world) = World::new(&case) else {
            continue;
        };
        let input = Input {
            case: stages::gen::with_stages(&request.case, &least),
            ..case.input(&book)
        };
        mended += usize::from(!case.stages_agree());
        let case = literal::read_case(&input.case).expect("only stages were changed");
        tally.check(case.stages_agree(), || format!("{least:?} {case:?}"));
        let answer = comparison.check(tally, &input);
        let Answer::Placed {
            places,
            visits,
            fares,
        } = answer
        else {
            tally.check(false, || format!("a full book: {answer:?}"));
            continue;
        };
        finished += 1;
        let trial = Trial {
            world: &world,
            case: &case,
            book: &book,
            places: &places,
            visits: &visits,
            fares,
        };
        trial.demand_two(tally);
        trial.demand_three(tally, &mut effort);
    }
    tally.note(&format!(
        "{finished} finished runs, {mended} of them with stages that did not agree before; \
         {without} cases without stages"
    ));
    tally.check(mended > 0 && without > 0, || "one kind is rare".into());
    tell_effort(tally, &effort);
}

/// Each of these slips gives a placement that breaks demand 2 or demand 3.
fn slips_break_demands(tally: &mut Tally, options: &Options) {
    const MOST: usize = 100_000;
    for slip in mutants::that_break_demands() {
        let mut rng = options.rng(11);
        let needed = (1..=MOST).find(|_| breaks_a_demand(&mut rng, &slip));
        tally.note(&match needed {
            Some(cases) => format!("{cases:6} cases needed: {}", slip.name),
            None => format!("never: {}", slip.name),
        });
        tally.check(needed.is_some(), || {
            format!("breaks nothing: {}", slip.name)
        });
    }
}

/// Whether the slip shows as a broken demand in the next tiny case.
fn breaks_a_demand(rng: &mut Rng, slip: &Mutant) -> bool {
    let shape = Shape::tiny(rng);
    let (case, book) = gen::case_and_book(rng, &shape);
    let input = case.input(&book);
    let answer = (slip.answer)(&input);
    if answer == literal::answer(&input) {
        return false;
    }
    let (Answer::Placed { places, visits, .. }, Some(world)) = (answer, World::new(&case)) else {
        return false;
    };
    let least = || world.least(&book, &places, &visits, &mut Effort::default());
    !world.demand_two(&book, &places, &visits)
        || case.stages_agree() && !least().is_some_and(|least| least.visits)
}

fn mutants_told_apart(tally: &mut Tally, options: &Options) {
    let mut rng = options.rng(8);
    let inputs: Vec<Input> = (0..options.count(18_000).max(8000))
        .map(|_| match rng.chance(50) {
            true => gen::small_input(&mut rng),
            false => gen::damaged_input(&mut rng),
        })
        .collect();
    told_apart(tally, &inputs, &mutants::all());
    told_apart(tally, &inputs[..5000], &mutants::about_fares());

    let mut inputs = gen::oversized_inputs(&mut rng);
    let shapes = Shape::large(&mut rng);
    inputs.extend(
        shapes
            .iter()
            .step_by(13)
            .map(|shape| gen::input(&mut rng, shape)),
    );
    told_apart(tally, &inputs, &mutants::of_size());
}

/// On some input each of the mutants gives another answer than the literal reference.
fn told_apart(tally: &mut Tally, inputs: &[Input], mutants: &[Mutant]) {
    let expected: Vec<Answer> = inputs.iter().map(literal::answer).collect();
    let differing = |mutant: &Mutant| {
        let pairs = inputs.iter().zip(&expected);
        pairs
            .filter(|(input, expected)| (mutant.answer)(input) != **expected)
            .count()
    };
    for control in mutants::controls() {
        let count = differing(&control);
        tally.check(count == 0, || {
            format!("{} differs {count} times", control.name)
        });
    }
    tally.note(&format!("{} inputs, told apart by:", inputs.len()));
    for mutant in mutants {
        let count = differing(mutant);
        tally.note(&format!("{count:6} {}", mutant.name));
        tally.check(count > 0, || format!("not told apart: {}", mutant.name));
    }
}

/// The check of lent buffers accepts an honest engine and finds every flaw.
fn flaws_found(tally: &mut Tally, options: &Options) {
    let mut rng = options.rng(9);
    let inputs: Vec<Input> = (0..options.count(3000).max(200))
        .map(|_| {
            let mut input = gen::damaged_input(&mut rng);
            gen::longer_buffers(&mut rng, &mut input);
            input
        })
        .collect();
    let mut count_found = |engine: Call| {
        let found = inputs.iter().filter(|input| {
            let expected = literal::answer(input);
            lending::check(engine, input, &expected, &mut rng).is_err()
        });
        found.count()
    };
    let blamed = count_found(&lending::honest);
    tally.check(blamed == 0, || format!("honest, blamed {blamed} times"));
    tally.note(&format!("{} inputs, found by:", inputs.len()));
    for flaw in &lending::FLAWS {
        let found =
            count_found(&|case: &[u8], book: &[u8], loan: &Loan| flaw.spoil(case, book, loan));
        tally.note(&format!("{found:6} {}", flaw.name));
        tally.check(found > 0, || format!("not found: {}", flaw.name));
    }
}
