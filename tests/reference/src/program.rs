//! Tests of the program that reads case.dat and book.dat and prints the answer.

use crate::folder::{Ended, Folder, Output, Pipe, User};
use crate::gen::{self, Rng};
use crate::literal;
use crate::model::*;
use crate::proved;
use crate::tally::Tally;
use std::fs;
use std::io;
use std::os::unix::fs::PermissionsExt;
use std::path::{Path, PathBuf};

/// Longer files are not read.
const MAX_FILE: usize = 65_536;
const UNREAD: &str = "unread\n";
const CASE: &str = "case.dat";
const BOOK: &str = "book.dat";
/// The top of the repository.
const TOP: &str = concat!(env!("CARGO_MANIFEST_DIR"), "/../..");

/// The program and the folder it runs in.
struct Bench {
    program: PathBuf,
    folder: Folder,
}

impl Bench {
    /// The program is copied, so that every user can run it.
    fn new(program: &Path) -> io::Result<Bench> {
        let folder = Folder::new()?;
        let copy = folder.path("program");
        fs::copy(program, &copy)?;
        fs::set_permissions(&copy, fs::Permissions::from_mode(0o755))?;
        Ok(Bench {
            program: copy,
            folder,
        })
    }

    fn write(&self, input: &Input) {
        self.folder.write(CASE, &input.case);
        self.folder.write(BOOK, &input.book);
    }

    fn run(&self, user: User, output: Output) -> io::Result<Ended> {
        self.folder.run(&self.program, user, output)
    }

    /// The program prints this and nothing else, and ends well.
    fn expect(&self, tally: &mut Tally, name: &str, expected: &str) {
        self.expect_as(User::Same, tally, name, expected);
    }

    fn expect_as(&self, user: User, tally: &mut Tally, name: &str, expected: &str) {
        match self.run(user, Output::Kept) {
            Ok(ended) => {
                let Ended {
                    printed,
                    status,
                    in_time,
                } = ended;
                let good = in_time && status.success() && printed == expected;
                tally.check(good, || {
                    let time = if in_time { "" } else { ", too long" };
                    let cut = |text: &str| text.chars().take(80).collect::<String>();
                    let (printed, expected) = (cut(&printed), cut(expected));
                    format!("program, {name}: {status}{time}, printed {printed:?}, expected {expected:?}")
                });
            }
            Err(error) => tally.check(false, || format!("program, {name}: not started: {error}")),
        }
    }

    fn expect_answer(&self, tally: &mut Tally, name: &str, input: &Input) {
        self.write(input);
        self.expect(tally, name, &expected_text(input));
    }

    /// Both files as pipes, each cut where told.
    fn expect_piped(&self, tally: &mut Tally, name: &str, input: &Input, cuts: (usize, usize)) {
        let pipe = |name: &str, bytes: &[u8], cut: usize| -> Pipe {
            let (first, rest) = bytes.split_at(cut);
            self.folder.pipe(name, vec![first.to_vec(), rest.to_vec()])
        };
        let pipes = [
            pipe(CASE, &input.case, cuts.0),
            pipe(BOOK, &input.book, cuts.1),
        ];
        self.expect(tally, name, &expected_text(input));
        pipes.into_iter().for_each(Pipe::close);
    }
}

/// The text for these bytes, with buffers that always suffice.
fn expected_text(input: &Input) -> String {
    if input.case.len() > MAX_FILE || input.book.len() > MAX_FILE {
        return UNREAD.to_string();
    }
    let input = Input {
        lent: Lengths::ample(),
        ..input.clone()
    };
    literal::answer(&input).text()
}

/// Runs all program tests; `seed` chooses the random ones.
pub fn run(tally: &mut Tally, program: &Path, seed: u64, random_cases: usize) {
    let bench = Bench::new(program).expect("the program can be copied to a temporary folder");
    let mut rows = proved::table();
    rows.extend(proved::of_never());
    rows.extend(proved::of_lots());
    rows.extend(proved::of_fares());
    for proved in rows {
        bench.expect_answer(tally, proved.name, &proved.input);
    }
    stored_runs(tally, &bench);
    swapped(tally, &bench);
    unreadable(tally, &bench);
    devices(tally, &bench);
    sizes(tally, &bench);
    limits(tally, &bench);
    pipes(tally, &bench);
    full_disk(tally, &bench);
    random(tally, &bench, seed, random_cases);
}

// ---- Stored runs ----

/// Example K and the runs in `tests/runs`: files and what is printed for them.
fn stored_runs(tally: &mut Tally, bench: &Bench) {
    let top = Path::new(TOP);
    let place = top.join("crates/place");
    stored(
        tally,
        bench,
        "K",
        &place.join("data"),
        &place.join("stdout"),
    );
    let (case, book) = proved::example();
    let example = case.input(&book);
    let same = |name: &str, bytes: &[u8]| {
        fs::read(place.join("data").join(name)).is_ok_and(|stored| stored == bytes)
    };
    let as_stated = same(CASE, &example.case) && same(BOOK, &example.book);
    tally.check(as_stated, || "the stored K is not the example".to_string());

    for folder in run_folders(tally) {
        stored(
            tally,
            bench,
            &name_of(&folder),
            &folder,
            &folder.join("stdout"),
        );
    }
}

/// The folders of `tests/runs`.
fn run_folders(tally: &mut Tally) -> Vec<PathBuf> {
    let runs = fs::read_dir(Path::new(TOP).join("tests/runs")).expect("stored runs");
    let mut folders: Vec<PathBuf> = runs.flatten().map(|entry| entry.path()).collect();
    folders.sort();
    tally.check(folders.len() >= 12, || "stored runs are gone".to_string());
    folders
}

fn name_of(folder: &Path) -> String {
    let last = folder.file_name().unwrap_or_default();
    format!("stored run {}", last.display())
}

/// The runs in `tests/runs` are as the reference has them; no program is needed.
pub fn stored_as_reference(tally: &mut Tally) {
    for folder in run_folders(tally) {
        let read = |name: &str| fs::read(folder.join(name));
        let expected = match (read(CASE), read(BOOK)) {
            (Ok(case), Ok(book)) => expected_text(&Input {
                case,
                book,
                lent: Lengths::ample(),
            }),
            _ => UNREAD.to_string(),
        };
        let printed = fs::read_to_string(folder.join("stdout")).unwrap_or_default();
        tally.check(printed == expected, || {
            format!("{}: {printed:?}, not {expected:?}", name_of(&folder))
        });
    }
}

/// Runs the program on a folder's files, of which one may be missing.
fn stored(tally: &mut Tally, bench: &Bench, name: &str, files: &Path, printed: &Path) {
    for file in [CASE, BOOK] {
        bench.folder.clear(file);
        if let Ok(bytes) = fs::read(files.join(file)) {
            bench.folder.write(file, &bytes);
        }
    }
    let printed = fs::read_to_string(printed).unwrap_or_else(|error| error.to_string());
    bench.expect(tally, name, &printed);
}

/// The book where the case should be, and the other way round.
fn swapped(tally: &mut Tally, bench: &Bench) {
    let (case, book) = proved::example();
    let example = case.input(&book);
    let swapped = Input {
        case: example.book.clone(),
        book: example.case.clone(),
        lent: example.lent,
    };
    let differ = expected_text(&swapped) != expected_text(&example);
    tally.check(differ, || "swapped files are not told apart".to_string());
    bench.expect_answer(tally, "files swapped", &swapped);
}

// ---- Files that cannot be read ----

/// Missing files, folders in place of files, files without permission.
fn unreadable(tally: &mut Tally, bench: &Bench) {
    let (case, book) = proved::example();
    let input = case.input(&book);
    for name in [CASE, BOOK] {
        bench.write(&input);
        bench.folder.clear(name);
        bench.expect(tally, &format!("{name} missing"), UNREAD);

        bench.folder.folder(name);
        bench.expect(tally, &format!("{name} is a folder"), UNREAD);

        bench.write(&input);
        no_permission(tally, bench, name);
    }
    bench.folder.clear(CASE);
    bench.folder.clear(BOOK);
    bench.expect(tally, "both missing", UNREAD);
}

/// Who may read everything runs the program as nobody.
fn no_permission(tally: &mut Tally, bench: &Bench, name: &str) {
    let path = bench.folder.path(name);
    let nothing = fs::Permissions::from_mode(0o000);
    fs::set_permissions(&path, nothing).expect("permission can be changed");
    let user = match fs::read(&path) {
        Ok(_) => User::Nobody,
        Err(_) => User::Same,
    };
    match bench.run(user, Output::Kept) {
        Ok(_) => bench.expect_as(user, tally, &format!("{name} without permission"), UNREAD),
        Err(error) => tally.note(&format!("{name} without permission, skipped: {error}")),
    }
}

/// Files that never end, that are empty, and that cannot be read though they can be opened.
fn devices(tally: &mut Tally, bench: &Bench) {
    let (case, book) = proved::example();
    let example = case.input(&book);
    for (name, part) in [(CASE, gen::case_part as gen::Bytes), (BOOK, gen::book_part)] {
        let mut empty = example.clone();
        part(&mut empty).clear();
        let expected = [
            ("/dev/zero", UNREAD.to_string()),
            ("/proc/self/mem", UNREAD.to_string()),
            ("/dev/null", expected_text(&empty)),
        ];
        for (device, text) in expected {
            bench.write(&example);
            bench.folder.link(name, device);
            bench.expect(tally, &format!("{name} is {device}"), &text);
        }
    }
}

// ---- Lengths and pipes ----

/// A file by name, with its record's size and an input where it has a given length.
type Sized = (&'static str, usize, fn(usize) -> Input);

const FILES: [Sized; 2] = [
    ("case", CASE_RECORD, with_case_of),
    ("book", BOOK_RECORD, with_book_of),
];

/// Empty files and files around the longest length.
fn sizes(tally: &mut Tally, bench: &Bench) {
    for (file, record, with) in FILES {
        let short = [0, 1, record - 1, record];
        let long = [MAX_FILE - 1, MAX_FILE, MAX_FILE + 1, MAX_FILE + record];
        for length in short.into_iter().chain(long) {
            bench.expect_answer(tally, &format!("{file} of {length} bytes"), &with(length));
        }
    }
    let both = Input {
        book: with_book_of(MAX_FILE).book,
        ..with_case_of(MAX_FILE)
    };
    bench.expect_answer(tally, "both files of the longest length", &both);
    let mut dear = with_case_of(MAX_FILE);
    let records = dear.case.chunks_exact_mut(CASE_RECORD);
    let pairs = records.filter(|record| record[0] == 3);
    pairs.for_each(|pair| pair[10..12].fill(255));
    bench.expect_answer(tally, "the longest case, every fare 65535", &dear);
    let mut late = with_book_of(MAX_FILE);
    late.book[MAX_FILE - BOOK_RECORD] = 9;
    bench.expect_answer(tally, "fault at the end of the longest book", &late);
}

/// The longest good case, with a full book, cut or continued with zeros.
fn with_case_of(length: usize) -> Input {
    let mut input = longest_case();
    assert_eq!(input.case.len(), MAX_FILE);
    input.case.resize(length, 0);
    input
}

/// The example with its first record again and again.
fn with_book_of(length: usize) -> Input {
    let (case, book) = proved::example();
    let mut input = case.input(&book);
    let record = input.book[..BOOK_RECORD].to_vec();
    input.book = record.iter().copied().cycle().take(length).collect();
    input
}

/// A good case of just the longest length, with a full book.
fn longest_case() -> Input {
    let mut rng = Rng::new(7);
    let mut case = gen::experiment(&mut rng, 72, 64, 4, 8);
    let records = MAX_FILE / CASE_RECORD;
    case.pairs
        .truncate(records - case.students.len() - case.workshops.len());
    let book = gen::full_book(&mut rng, &case, MAX_MARK);
    case.input(&book)
}

/// The program's own buffers at their limits: the most students, seats and pairs of a case that it
/// reads. Each run is finished, and lists at least so many visits.
fn limits(tally: &mut Tally, bench: &Bench) {
    let records = MAX_FILE / CASE_RECORD;
    let mut rng = Rng::new(11);
    let mut students = gen::experiment(&mut rng, MAX_STUDENTS, 7, 4, 8);
    students.pairs.truncate(records - MAX_STUDENTS - 7);
    let mut seats = gen::experiment(&mut rng, 60, MAX_WORKSHOPS, 4, 8);
    for workshop in &mut seats.workshops {
        workshop.quota = MAX_QUOTA;
    }
    // No case of this many records has more pairs; everybody visits everybody.
    let pairs = gen::experiment(&mut rng, 63, 63, 1, 1);
    for (name, case, least) in [
        ("512 students", students, 1),
        ("64 workshops of quota 512", seats, 1),
        ("3,969 pairs, all visited", pairs, 3969),
    ] {
        let input = case.input(&gen::full_book(&mut rng, &case, MAX_MARK));
        let listed = match literal::answer(&input) {
            Answer::Placed { visits, .. } => visits.len(),
            _ => 0,
        };
        tally.check(listed >= least && input.case.len() <= MAX_FILE, || {
            format!(
                "{name}: {listed} visits, a case of {} bytes",
                input.case.len()
            )
        });
        bench.expect_answer(tally, name, &input);
    }
}

/// Files that come in two pieces, as a read gives what is there so far.
fn pipes(tally: &mut Tally, bench: &Bench) {
    let (case, book) = proved::example();
    let example = case.input(&book);
    let (all, records) = (example.case.len(), example.book.len());
    for cuts in [
        (0, 0),
        (1, 1),
        (all / 2, records),
        (all, records / 2),
        (all - 1, records - 1),
    ] {
        bench.expect_piped(tally, &format!("pipes cut at {cuts:?}"), &example, cuts);
    }
    for (file, _, with) in FILES {
        for length in [MAX_FILE, MAX_FILE + 1] {
            let input = with(length);
            let (case, book) = (input.case.len(), input.book.len());
            for cuts in [(case / 2, book / 2), (case - 1, book - 1)] {
                let name = format!("{file} of {length} bytes, pipes cut at {cuts:?}");
                bench.expect_piped(tally, &name, &input, cuts);
            }
        }
    }
}

/// A run whose output cannot be written ends, without a signal.
fn full_disk(tally: &mut Tally, bench: &Bench) {
    let (case, book) = proved::example();
    bench.write(&case.input(&book));
    match bench.run(User::Same, Output::Full) {
        Ok(ended) => {
            tally.note(&format!("output that cannot be written: {}", ended.status));
            tally.check(ended.status.code().is_some(), || "full disk".to_string());
        }
        Err(error) => tally.note(&format!("full disk, skipped: {error}")),
    }
}

fn random(tally: &mut Tally, bench: &Bench, seed: u64, count: usize) {
    let mut rng = Rng::new(seed);
    for number in 0..count {
        let input = if rng.chance(50) {
            gen::small_input(&mut rng)
        } else {
            gen::damaged_input(&mut rng)
        };
        bench.expect_answer(tally, &format!("random case {number}"), &input);
    }
}
