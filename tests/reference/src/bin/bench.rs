//! Times the engine against the fast reference, in one process and in turns.
//!
//! Both get the same case and a book that has every pair. The engine's buffers are zero before the
//! first run and are not cleared in between; the fast reference keeps its tables. The stages and the
//! wish lines are timed in the same way, on cases of their own. With the argument `stages`, or
//! `wishes`, only they are timed.

use reference::engine;
use reference::fast::Fast;
use reference::gen::{self, Rng};
use reference::lending::{self, Loan, StudentState};
use reference::literal;
use reference::model::*;
use reference::stages::{self, Report};
use reference::wishes;
use std::hint::black_box;
use std::process::ExitCode;
use std::time::Instant;

const RUNS: usize = 301;
/// Students and workshops; the last three have four times the pairs of the one before.
const SIZES: [(usize, usize); 5] = [(150, 20), (400, 20), (128, 16), (256, 32), (512, 64)];
/// Students, workshops, and how many of a hundred pairs have a record.
const SPARSE: [(usize, usize, usize); 5] = [
    (512, 64, 95),
    (512, 64, 50),
    (512, 64, 25),
    (512, 64, 11),
    (150, 20, 50),
];
/// Student groups and workshop groups.
const GROUPS: [(usize, usize); 3] = [(4, 8), (8, 8), (1, 1)];
/// The size at which the growth with the pairs is told, and a book with never is timed.
const LARGEST: (usize, usize) = (512, 64);
/// About how many of a hundred records have never in that book; the other books have none.
const NEVER_SHARE: usize = 10;
/// The workshops' marks of one more book go from 1 to this; in the other books none are equal.
const EQUAL_MARKS: i16 = 8;

/// Buffers that an input needs, zero at first.
struct Buffers {
    places: Vec<u16>,
    visits: Vec<u16>,
    seats: Vec<u16>,
    index: Vec<u16>,
    cards: Vec<StudentState>,
}

impl Buffers {
    fn new(lent: &Lengths) -> Buffers {
        Buffers {
            places: vec![0; lent.places],
            visits: vec![0; lent.visits],
            seats: vec![0; lent.seats],
            index: vec![0; lent.index],
            cards: vec![StudentState::default(); lent.cards],
        }
    }

    fn lend(&mut self) -> Loan {
        Loan {
            lent: Lengths {
                places: self.places.len(),
                visits: self.visits.len(),
                seats: self.seats.len(),
                index: self.index.len(),
                cards: self.cards.len(),
            },
            places: self.places.as_mut_ptr(),
            visits: self.visits.as_mut_ptr(),
            seats: self.seats.as_mut_ptr(),
            index: self.index.as_mut_ptr(),
            cards: self.cards.as_mut_ptr(),
        }
    }
}

/// Median times of one call, in nanoseconds.
struct Times {
    engine: f64,
    fast: f64,
}

/// `kept`: how many of a hundred pairs have a record; `never`: about how many records have never.
fn timing_input(
    (students, workshops): (usize, usize),
    (d, e): (usize, usize),
    kept: usize,
    never: usize,
) -> Input {
    let mut rng = Rng::new(2024);
    let mut case = gen::experiment(&mut rng, students, workshops, d, e);
    case.pairs.retain(|_| rng.chance(kept));
    let mut book = gen::full_book(&mut rng, &case, MAX_MARK);
    if never > 0 {
        gen::put_never(&mut rng, &mut book, never);
    }
    rng.shuffle(&mut book);
    gen::draw_lots(&mut rng, &mut case);
    case.input(&book)
}

/// The largest size with every pair in the book, and many equal marks of the workshops.
fn input_with_equal_marks((d, e): (usize, usize)) -> Input {
    let mut rng = Rng::new(2026);
    let mut case = gen::experiment(&mut rng, LARGEST.0, LARGEST.1, d, e);
    let mut book = gen::full_book(&mut rng, &case, MAX_MARK);
    for record in &mut book {
        record.workshop_mark = rng.range(1, EQUAL_MARKS as usize) as i16;
    }
    rng.shuffle(&mut book);
    gen::draw_lots(&mut rng, &mut case);
    case.input(&book)
}

fn measure(input: &Input) -> Times {
    let mut buffers = Buffers::new(&input.lent);
    let mut own = Buffers::new(&input.lent);
    let mut fast = Fast::default();
    let (mut engine_times, mut fast_times) = (Vec::new(), Vec::new());
    for _ in 0..RUNS {
        let loan = buffers.lend();
        engine_times.push(time(|| {
            black_box(engine::call(&input.case, &input.book, &loan));
        }));
        fast_times.push(time(|| {
            black_box(fast.place(
                &input.case,
                &input.book,
                &input.lent,
                &mut own.places,
                &mut own.visits,
            ));
        }));
    }
    Times {
        engine: median(engine_times),
        fast: median(fast_times),
    }
}

fn time(run: impl FnOnce()) -> f64 {
    let start = Instant::now();
    run();
    start.elapsed().as_nanos() as f64
}

fn median(mut times: Vec<f64>) -> f64 {
    times.sort_by(f64::total_cmp);
    times[times.len() / 2]
}

/// Times one input and prints its line; an answer other than the literal reference's is an error.
fn line((students, workshops): (usize, usize), input: &Input) -> Result<Times, String> {
    let expected = literal::answer(input);
    lending::check(&engine::call, input, &expected, &mut Rng::new(1))
        .map_err(|what| format!("{students}x{workshops}: {what}"))?;
    let times = measure(input);
    let pairs = pairs_of(input) as f64;
    println!(
        "{students:4}x{workshops:<3} {pairs:6} pairs {:6} visits  engine {:9.1} us  fast {:9.1} us  \
         ratio {:5.2}  a pair {:5.1} and {:5.1} ns",
        expected.visits().len(),
        times.engine / 1000.0,
        times.fast / 1000.0,
        times.engine / times.fast,
        times.engine / pairs,
        times.fast / pairs,
    );
    Ok(times)
}

fn pairs_of(input: &Input) -> usize {
    input.lent.visits / 2
}

/// The engine's time at fewer pairs as a share of its time at all, beside the pairs' share.
fn growth(grown: &[(usize, f64)]) {
    let (all, whole) = grown[0];
    for &(pairs, time) in &grown[1..] {
        println!(
            "{}x{}: {pairs} pairs, {:.2} of all, take {:.2} of the time",
            LARGEST.0,
            LARGEST.1,
            pairs as f64 / all as f64,
            time / whole,
        );
    }
}

/// The lines of one number of groups.
fn lines(groups: (usize, usize)) -> Result<(), String> {
    let full = SIZES.map(|(students, workshops)| (students, workshops, 100));
    let mut grown = Vec::new();
    for (students, workshops, kept) in full.into_iter().chain(SPARSE) {
        let size = (students, workshops);
        let input = timing_input(size, groups, kept, 0);
        let times = line(size, &input)?;
        if size == LARGEST {
            grown.push((pairs_of(&input), times.engine));
        }
    }
    growth(&grown);
    println!("with never in about {NEVER_SHARE} of a hundred records:");
    line(LARGEST, &timing_input(LARGEST, groups, 100, NEVER_SHARE))?;
    println!("with workshops' marks from 1 to {EQUAL_MARKS}:");
    line(LARGEST, &input_with_equal_marks(groups))?;
    Ok(())
}

/// The cases for the stages, of the largest size.
fn cases_for_stages() -> Vec<(&'static str, Case)> {
    let (n, m) = LARGEST;
    let mut rng = Rng::new(2025);
    let rng = &mut rng;
    let with_conflict = |case: &Case, steps: usize| {
        let mut case = case.clone();
        stages::gen::turn_two(&mut case, steps);
        case
    };
    let few = stages::gen::few_groups(rng, n, m, 8);
    let chain = stages::gen::one_chain(rng, n, m);
    let passed_on = stages::gen::passed_on(rng, n, m);
    let mut sparse = few.clone();
    sparse.pairs.retain(|_| rng.chance(11));
    vec![
        ("8 groups, all workshops alike", few.clone()),
        (
            "8 groups, two students turned at one workshop",
            with_conflict(&few, 0),
        ),
        ("one chain, all workshops alike", chain.clone()),
        (
            "one chain, two students turned at one workshop",
            with_conflict(&chain, 0),
        ),
        ("one chain from workshop to workshop", passed_on.clone()),
        (
            "the same, two students turned",
            with_conflict(&passed_on, 1),
        ),
        ("8 groups, 11 of a hundred pairs", sparse),
        (
            "parts of one chain, 11 of a hundred pairs",
            stages::gen::scattered(rng, n, m, 11),
        ),
        (
            "a ring of 512 students, nine at a workshop",
            stages::gen::long_ring(rng, n, m, stages::gen::Ring::Closed),
        ),
    ]
}

/// Times the stages of one case and prints the line.
fn line_of_stages(name: &str, case: &Case) -> Result<(), String> {
    let request = stages::Request::of(case);
    let expected = stages::answer(&request);
    stages::lending::check(&engine::stages, &request, &expected, &mut Rng::new(1))
        .map_err(|what| format!("{name}: {what}"))?;
    let mut buffer = vec![0; request.room];
    let mut own = buffer.clone();
    let mut fast = stages::fast::Fast::default();
    let (mut part_times, mut fast_times) = (Vec::new(), Vec::new());
    let loan = stages::lending::Loan {
        stages: buffer.as_mut_ptr(),
        room: buffer.len(),
    };
    for _ in 0..RUNS {
        part_times.push(time(|| {
            black_box(engine::stages(&request.case, &loan));
        }));
        fast_times.push(time(|| {
            black_box(fast.stages(&request.case, &mut own));
        }));
    }
    let (part, fast) = (median(part_times), median(fast_times));
    let told = match expected.written().iter().max() {
        Some(most) => format!("{most} stages"),
        None => "refused 12".to_string(),
    };
    println!(
        "{:6} pairs {told:>10}  lgs_stages {:9.1} us  fast {:9.1} us  ratio {:6.2}  {name}",
        case.pairs.len(),
        part / 1000.0,
        fast / 1000.0,
        part / fast,
    );
    Ok(())
}

fn lines_of_stages() -> Result<(), String> {
    println!(
        "stages of {}x{}, median of {RUNS} runs in turns",
        LARGEST.0, LARGEST.1
    );
    for (name, case) in cases_for_stages() {
        line_of_stages(name, &case)?;
    }
    Ok(())
}

// ---- Wish lines ----

/// A case with a text for it, and what is told of them.
struct Sheet {
    name: String,
    case: Case,
    text: Vec<u8>,
}

/// Of so many students and workshops with this share of pairs; so many of a hundred items are in the
/// group of the item before.
fn sheet((students, workshops): (usize, usize), pairs: usize, joined: usize) -> Sheet {
    let mut rng = Rng::new(2027);
    let large = wishes::gen::Large {
        students,
        workshops,
        pairs,
        ..wishes::gen::LARGEST
    };
    let case = wishes::gen::large(&mut rng, large);
    let order = wishes::gen::wishes_joined(&mut rng, &case, joined);
    let case = wishes::gen::with_wishes(&case, &order);
    let shape = match joined {
        0 => "all apart",
        100 => "one group",
        50 => "groups of about two",
        _ => "few groups",
    };
    Sheet {
        name: format!("{students}x{workshops}, {pairs} of a hundred pairs, {shape}"),
        text: wishes::gen::text(&order),
        case,
    }
}

/// The largest size in several densities and shapes, and with half of the workshops.
fn sheets() -> Vec<Sheet> {
    let full = [0, 90, 100].map(|joined| sheet(LARGEST, 100, joined));
    let sparse = [50, 11, 0].map(|pairs| sheet(LARGEST, pairs, 50));
    let half = sheet((LARGEST.0, LARGEST.1 / 2), 100, 50);
    full.into_iter().chain(sparse).chain([half]).collect()
}

/// All students, a half, a quarter and an eighth of them, all with all pairs.
fn shorter_sheets() -> Vec<Sheet> {
    let sizes = [1, 2, 4, 8].map(|part| (LARGEST.0 / part, LARGEST.1));
    sizes.map(|size| sheet(size, 100, 50)).into()
}

/// One student whose line goes on and on: one workshop again and again, or one long number.
fn long_lines() -> [Vec<Sheet>; 2] {
    const LENGTHS: [usize; 3] = [400_000, 200_000, 100_000];
    let with = |name: &str, rest: String| Sheet {
        name: name.to_string(),
        case: sheet((1, 1), 100, 0).case,
        text: format!("1: -,{rest}\n").into_bytes(),
    };
    [
        LENGTHS
            .map(|length| {
                with(
                    "1x1, one workshop again and again",
                    vec!["1"; length / 2].join(","),
                )
            })
            .into(),
        LENGTHS
            .map(|length| with("1x1, one long number", "1".repeat(length)))
            .into(),
    ]
}

/// Times of one call of the part and of the fast reference, in turns.
fn in_turns(mut part: impl FnMut() -> Report, mut fast: impl FnMut() -> Report) -> Times {
    let (mut engine_times, mut fast_times) = (Vec::new(), Vec::new());
    for _ in 0..RUNS {
        engine_times.push(time(|| {
            black_box(part());
        }));
        fast_times.push(time(|| {
            black_box(fast());
        }));
    }
    Times {
        engine: median(engine_times),
        fast: median(fast_times),
    }
}

/// Times one call of each side with buffers of their own; another answer than the plain one's is an
/// error.
fn measure_wishes(request: &wishes::Request) -> Result<Times, String> {
    let expected = wishes::answer(request);
    wishes::lending::check(&engine::wishes, request, &expected, &mut Rng::new(1))?;
    let mut buffer = vec![0; request.room];
    let mut own = buffer.clone();
    let mut fast = wishes::fast::Fast::default();
    let loan = wishes::lending::Loan {
        buffer: buffer.as_mut_ptr(),
        room: buffer.len(),
    };
    let case = &request.case;
    Ok(match &request.task {
        wishes::Task::Write => in_turns(
            || engine::wishes(case, None, &loan),
            || fast.write(case, &mut own),
        ),
        wishes::Task::Read(text) => in_turns(
            || engine::wishes(case, Some(text), &loan),
            || fast.read(case, text, &mut own),
        ),
    })
}

/// Times the writing or the reading of one sheet and prints the line.
fn line_of_wishes(what: &str, request: &wishes::Request, sheet: &Sheet) -> Result<Times, String> {
    let times = measure_wishes(request).map_err(|error| format!("{}: {error}", sheet.name))?;
    let bytes = sheet.text.len() as f64;
    println!(
        "{bytes:6} bytes  {what} {:7.1} us  fast {:7.1} us  ratio {:5.2}  a byte {:5.2} and {:5.2} ns  {}",
        times.engine / 1000.0,
        times.fast / 1000.0,
        times.engine / times.fast,
        times.engine / bytes,
        times.fast / bytes,
        sheet.name,
    );
    Ok(times)
}

/// The lines of wishes that were timed.
#[derive(Default)]
struct LinesOfWishes {
    count: usize,
    /// Lines above the limit.
    above: usize,
}

impl LinesOfWishes {
    /// The most that a line may take of the fast reference's time.
    const LIMIT: f64 = 1.5;

    /// Times the writing of each sheet; gives the bytes and the part's time of each.
    fn written(&mut self, sheets: &[Sheet]) -> Result<Vec<(usize, f64)>, String> {
        self.lines("lgs_write_wishes", sheets, |sheet| {
            wishes::Request::write(&sheet.case)
        })
    }

    /// Times the reading of each sheet; gives the bytes and the part's time of each.
    fn read(&mut self, sheets: &[Sheet]) -> Result<Vec<(usize, f64)>, String> {
        self.lines("lgs_read_wishes ", sheets, |sheet| {
            wishes::Request::read(&sheet.case, &sheet.text)
        })
    }

    fn lines(
        &mut self,
        what: &str,
        sheets: &[Sheet],
        request: fn(&Sheet) -> wishes::Request,
    ) -> Result<Vec<(usize, f64)>, String> {
        let mut grown = Vec::new();
        for sheet in sheets {
            let times = line_of_wishes(what, &request(sheet), sheet)?;
            self.count += 1;
            self.above += usize::from(times.engine > LinesOfWishes::LIMIT * times.fast);
            grown.push((sheet.text.len(), times.engine));
        }
        Ok(grown)
    }
}

/// The part's time for the shorter texts as a share of its time for the first, beside the texts'
/// share.
fn growth_of_wishes(what: &str, grown: &[(usize, f64)]) {
    let (all, whole) = grown[0];
    for &(bytes, time) in &grown[1..] {
        let (share, of_time) = (bytes as f64 / all as f64, time / whole);
        println!("{what}: {bytes} bytes, {share:.2} of all, take {of_time:.2} of the time");
    }
}

fn lines_of_wishes() -> Result<(), String> {
    println!("wish lines, median of {RUNS} runs in turns");
    let mut lines = LinesOfWishes::default();
    lines.written(&sheets())?;
    lines.read(&sheets())?;
    let written = lines.written(&shorter_sheets())?;
    let read = lines.read(&shorter_sheets())?;
    growth_of_wishes("written", &written);
    growth_of_wishes("read", &read);
    for long in long_lines() {
        let refused = lines.read(&long)?;
        growth_of_wishes("refused by 15", &refused);
    }
    let LinesOfWishes { count, above } = lines;
    let limit = LinesOfWishes::LIMIT;
    println!("{above} of {count} lines above {limit} of the reference's time");
    Ok(())
}

/// The lines of the engine, for each number of groups.
fn lines_of_engine() -> Result<(), String> {
    println!("median of {RUNS} runs in turns; every pair in the book, in random order");
    for (d, e) in GROUPS {
        println!("student groups {d}, workshop groups {e}");
        lines((d, e))?;
    }
    Ok(())
}

fn main() -> ExitCode {
    let chosen = std::env::args().nth(1);
    let parts: [(&str, fn() -> Result<(), String>); 3] = [
        ("stages", lines_of_stages),
        ("wishes", lines_of_wishes),
        ("engine", lines_of_engine),
    ];
    for (name, run) in parts {
        if chosen.as_deref().is_some_and(|word| word != name) {
            continue;
        }
        if let Err(what) = run() {
            println!("{what}");
            return ExitCode::FAILURE;
        }
    }
    ExitCode::SUCCESS
}
