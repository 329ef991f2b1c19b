//! Deterministic generation of cases, books and damaged input.

use crate::literal::PairTable;
use crate::model::*;
use std::cmp::Reverse;
use std::collections::HashSet;

/// SplitMix64.
pub struct Rng(u64);

impl Rng {
    pub fn new(seed: u64) -> Rng {
        Rng(seed)
    }

    pub fn word(&mut self) -> u64 {
        self.0 = self.0.wrapping_add(0x9e37_79b9_7f4a_7c15);
        let mut z = self.0;
        z = (z ^ (z >> 30)).wrapping_mul(0xbf58_476d_1ce4_e5b9);
        z = (z ^ (z >> 27)).wrapping_mul(0x94d0_49bb_1331_11eb);
        z ^ (z >> 31)
    }

    /// A number below `end`, which is not 0.
    pub fn below(&mut self, end: usize) -> usize {
        (self.word() % end as u64) as usize
    }

    /// A number from `low` to `high`, both included.
    pub fn range(&mut self, low: usize, high: usize) -> usize {
        low + self.below(high - low + 1)
    }

    pub fn chance(&mut self, percent: usize) -> bool {
        self.below(100) < percent
    }

    pub fn pick<T: Copy>(&mut self, choices: &[T]) -> T {
        choices[self.below(choices.len())]
    }

    pub fn shuffle<T>(&mut self, items: &mut [T]) {
        self.draw(items, items.len());
    }

    /// Brings `count` of the items to the end, any of them and in any order.
    fn draw<T>(&mut self, items: &mut [T], count: usize) {
        for end in (1.max(items.len() - count)..items.len()).rev() {
            items.swap(end, self.below(end + 1));
        }
    }
}

/// What a random case looks like.
#[derive(Clone, Copy, Debug)]
pub struct Shape {
    pub students: usize,
    pub workshops: usize,
    /// How many different groups a student may use.
    pub student_groups: usize,
    /// How many different groups a workshop may use.
    pub workshop_groups: usize,
    /// How many of the possible pairs there are, in percent.
    pub pairs: usize,
    /// How many students have all pairs, or none, instead, in percent.
    pub uneven: usize,
    /// Quotas above 0 go up to this.
    pub quota: usize,
    /// How many workshops have quota 0, in percent.
    pub closed: usize,
    /// Whether the stages agree with the workshops' groups.
    pub agreeing: bool,
    /// Marks go from minus this to this.
    pub reach: i16,
    /// How many different marks a workshop gives, equal ones in one group among them; with 0 there
    /// are no equal ones.
    pub equal: usize,
    /// How many people have their line at or after their last group, in percent.
    pub late_lines: usize,
    /// How many books are full, in percent.
    pub full_books: usize,
    /// How many records get a mark of -1000, or now and then -999, in percent.
    pub never: usize,
    /// In how many books with such marks one person gives -1000 to many, in percent.
    pub picky: usize,
}

impl Shape {
    /// 1 to 8 students and 1 to 6 workshops.
    pub fn small(rng: &mut Rng) -> Shape {
        Shape {
            students: rng.range(1, 8),
            workshops: rng.range(1, 6),
            student_groups: rng.range(1, 4),
            workshop_groups: rng.range(1, 4),
            pairs: rng.pick(&[0, 30, 70, 100, 100]),
            uneven: rng.pick(&[0, 0, 0, 30]),
            quota: rng.pick(&[1, 1, 2, 3, 512]),
            closed: rng.pick(&[0, 0, 20]),
            agreeing: rng.chance(50),
            reach: rng.pick(&[9, 9, 1000]),
            equal: rng.pick(&[0, 0, 1, 2, 2, 4]),
            late_lines: rng.pick(&[0, 40, 100]),
            full_books: 50,
            never: rng.pick(&[0, 0, 0, 5, 15, 40]),
            picky: 30,
        }
    }

    /// 3 students with few seats and equal marks, few enough orders to try them all.
    fn rivals(rng: &mut Rng) -> Shape {
        let rivals = Shape {
            students: 3,
            workshops: rng.pick(&[1, 2, 2]),
            student_groups: rng.pick(&[1, 1, 2]),
            workshop_groups: rng.pick(&[1, 1, 2]),
            pairs: rng.pick(&[80, 100]),
            uneven: 0,
            quota: rng.pick(&[1, 1, 2]),
            closed: 0,
            agreeing: rng.chance(70),
            reach: 9,
            equal: rng.pick(&[1, 1, 2]),
            late_lines: rng.pick(&[70, 100, 100]),
            full_books: 85,
            never: rng.pick(&[0, 0, 10]),
            picky: 10,
        };
        if rng.chance(60) {
            return rivals;
        }
        // Two seats of one workshop, for students of two groups.
        Shape {
            workshops: 1,
            workshop_groups: 2,
            quota: 2,
            equal: 1,
            ..rivals
        }
    }

    /// At most 3 students and 3 workshops.
    pub fn tiny(rng: &mut Rng) -> Shape {
        if rng.chance(40) {
            return Shape::rivals(rng);
        }
        Shape {
            students: rng.pick(&[1, 2, 2, 3, 3, 3]),
            workshops: rng.pick(&[1, 2, 2, 3]),
            student_groups: rng.range(1, 3),
            workshop_groups: rng.range(1, 3),
            pairs: rng.pick(&[60, 100, 100]),
            uneven: 0,
            quota: rng.pick(&[1, 1, 2]),
            reach: 9,
            equal: rng.pick(&[0, 1, 2]),
            full_books: 70,
            never: rng.pick(&[0, 20, 40]),
            picky: 70,
            ..Shape::small(rng)
        }
    }

    /// 10 to 60 students and 4 to 20 workshops.
    pub fn middle(rng: &mut Rng) -> Shape {
        Shape {
            students: rng.range(10, 60),
            workshops: rng.range(4, 20),
            pairs: rng.pick(&[5, 15, 30, 70, 95, 100]),
            quota: rng.range(1, 8),
            reach: 200,
            equal: rng.pick(&[0, 1, 3, 8]),
            ..Shape::small(rng)
        }
    }

    /// Up to 512 students and 64 workshops: each mix of few or all pairs, of groups on both sides
    /// and of tight or loose quotas once.
    pub fn large(rng: &mut Rng) -> Vec<Shape> {
        let mut shapes = Vec::new();
        for pairs in [1, 3, 20, 60, 97, 100] {
            for student_groups in [1, 4, 16, 65] {
                for workshop_groups in [1, 8, 60, 513] {
                    for quota in 0..4 {
                        shapes.push(Shape {
                            pairs,
                            student_groups,
                            workshop_groups,
                            ..Shape::crowded(rng, quota)
                        });
                    }
                }
            }
        }
        shapes
    }

    /// Many people; of four quotas, from one seat to one for everybody, the one with this index.
    fn crowded(rng: &mut Rng, quota: usize) -> Shape {
        let students = rng.pick(&[97, 200, 511, 512, 512]);
        let workshops = rng.pick(&[7, 20, 63, 64, 64]);
        let quotas = [1, students / workshops + 1, 2 * students / workshops, 512];
        Shape {
            students,
            workshops,
            quota: quotas[quota],
            reach: 1000,
            equal: rng.pick(&[0, 1, 3, 8, 40]),
            late_lines: rng.pick(&[20, 80, 100]),
            full_books: 80,
            ..Shape::small(rng)
        }
    }
}

/// `count` group numbers out of 1 to `top`, rising, with gaps; often with both ends.
fn group_numbers(rng: &mut Rng, count: usize, top: usize) -> Vec<u16> {
    let mut numbers = distinct_groups(rng, count.min(top), top);
    if rng.chance(30) {
        numbers[0] = 1;
    }
    if rng.chance(30) {
        *numbers.last_mut().expect("at least one") = top as u16;
    }
    numbers.dedup();
    numbers
}

/// A line in one of the groups, or anywhere.
fn line(rng: &mut Rng, groups: &[u16], top: usize, late_lines: usize) -> u16 {
    let last = *groups.last().expect("at least one");
    if rng.chance(late_lines) {
        rng.range(usize::from(last), top) as u16
    } else if rng.chance(25) {
        rng.range(1, top) as u16
    } else {
        rng.pick(groups)
    }
}

pub fn case(rng: &mut Rng, shape: &Shape) -> Case {
    let stages = group_numbers(rng, shape.workshop_groups, usize::from(MAX_STAGE));
    let mut case = Case::default();
    let student_groups = add_students(rng, shape, &stages, &mut case);
    let workshop_groups = add_workshops(rng, shape, stages.len(), &mut case);
    for (s, her_groups) in student_groups.iter().enumerate() {
        let pairs = match rng.chance(shape.uneven) {
            true => rng.pick(&[0, 100]),
            false => shape.pairs,
        };
        for (w, its_groups) in workshop_groups.iter().enumerate() {
            if !rng.chance(pairs) {
                continue;
            }
            let workshop_group = if shape.agreeing {
                agreeing_group(rng, &case, &stages, its_groups, (s, w))
            } else {
                rng.pick(its_groups)
            };
            case.pairs.push(Pair {
                student: s as u16 + 1,
                workshop: w as u16 + 1,
                student_group: rng.pick(her_groups),
                workshop_group,
                fare: 0,
            });
        }
    }
    draw_fares(rng, &mut case);
    case
}

/// A fare for each pair, all of one sort or of all sorts: none, small ones, the largest, those
/// around the ends of bytes, numbers that stand elsewhere in the record, few fares, and any.
pub fn draw_fares(rng: &mut Rng, case: &mut Case) {
    const SORTS: usize = 7;
    let common = rng.below(SORTS + 3);
    for pair in &mut case.pairs {
        let sort = if common < SORTS {
            common
        } else {
            rng.below(SORTS)
        };
        let any = rng.word() as u16;
        pair.fare = match sort {
            0 => 0,
            1 => rng.range(0, 9) as u16,
            2 => u16::MAX,
            3 => rng.pick(&[1, 255, 256, 257, 0x7fff, 0x8000, 0xff00]),
            4 => rng.pick(&[pair.workshop, pair.student_group, pair.workshop_group]),
            5 if rng.chance(85) => 0,
            _ => any,
        };
    }
}

/// The run with these visits, whole, without the result of its first visit, and without that of a
/// later one; each with fares at all pairs, small ones at the listed pairs, at the next visit, at
/// all others, and at none.
pub fn around_list(
    rng: &mut Rng,
    (case, book): &(Case, Vec<Record>),
    visits: &[(u16, u16)],
) -> Vec<(Case, Vec<Record>)> {
    /// What a pair costs at most that is listed, or that is the next visit.
    const MOST: [fn(bool, bool) -> u16; 5] = [
        |_, _| u16::MAX,
        |listed, _| if listed { 3 } else { 0 },
        |_, next| if next { u16::MAX } else { 0 },
        |listed, next| if listed || next { 0 } else { u16::MAX },
        |_, _| 0,
    ];
    let mut runs = Vec::new();
    let mut lengths = vec![0, visits.len()];
    if visits.len() > 1 {
        lengths.push(rng.range(1, visits.len() - 1));
    }
    for length in lengths {
        let listed: HashSet<_> = visits[..length].iter().collect();
        let next = visits.get(length).copied();
        let mut book = book.clone();
        book.retain(|record| Some((record.student, record.workshop)) != next);
        for most in MOST {
            let mut case = case.clone();
            for pair in &mut case.pairs {
                let key = (pair.student, pair.workshop);
                let most = most(listed.contains(&key), Some(key) == next);
                pair.fare = rng.range(usize::from(most > 0), usize::from(most)) as u16;
            }
            runs.push((case, book.clone()));
        }
    }
    runs
}

/// Gives the groups each student uses.
fn add_students(rng: &mut Rng, shape: &Shape, stages: &[u16], case: &mut Case) -> Vec<Vec<u16>> {
    let top = usize::from(MAX_STUDENT_GROUP);
    let mut all = Vec::new();
    for lot in lots(rng, shape.students) {
        let groups = group_numbers(rng, shape.student_groups, top);
        case.students.push(Student {
            stage: rng.pick(stages),
            line: line(rng, &groups, top, shape.late_lines),
            lot,
        });
        all.push(groups);
    }
    all
}

/// Different lots for so many students: any of all lots, the lowest, the highest or those around
/// 256 in any order, the numbers themselves, or the highest falling.
pub fn lots(rng: &mut Rng, students: usize) -> Vec<u16> {
    let all = usize::from(MAX_LOT);
    let start = match rng.below(8) {
        0 => return (1..=students as u16).collect(),
        1 => return (1..=MAX_LOT).rev().take(students).collect(),
        2 => 0,
        3 => all - students,
        4 => (all - students) / 2,
        _ => {
            let mut lots: Vec<u16> = (1..=MAX_LOT).collect();
            rng.draw(&mut lots, students);
            return lots.split_off(all - students);
        }
    };
    let mut lots: Vec<u16> = (start as u16 + 1..).take(students).collect();
    rng.shuffle(&mut lots);
    lots
}

/// Other lots for the students of a case.
pub fn draw_lots(rng: &mut Rng, case: &mut Case) {
    let lots = lots(rng, case.students.len());
    for (student, lot) in case.students.iter_mut().zip(lots) {
        student.lot = lot;
    }
}

/// Gives the groups each workshop uses, as many as there are stages.
fn add_workshops(rng: &mut Rng, shape: &Shape, stages: usize, case: &mut Case) -> Vec<Vec<u16>> {
    let top = usize::from(MAX_WORKSHOP_GROUP);
    let mut all = Vec::new();
    for _ in 0..shape.workshops {
        let groups = distinct_groups(rng, stages, top);
        case.workshops.push(Workshop {
            quota: quota(rng, shape),
            line: line(rng, &groups, top, shape.late_lines),
        });
        all.push(groups);
    }
    all
}

/// Exactly `count` rising group numbers.
fn distinct_groups(rng: &mut Rng, count: usize, top: usize) -> Vec<u16> {
    let mut numbers: Vec<u16> = (1..=top as u16).collect();
    rng.draw(&mut numbers, count);
    let mut drawn = numbers.split_off(top - count);
    drawn.sort_unstable();
    drawn
}

/// The group that stands for the student's stage; beyond the line, or with quota 0, any.
fn agreeing_group(
    rng: &mut Rng,
    case: &Case,
    stages: &[u16],
    groups: &[u16],
    (s, w): (usize, usize),
) -> u16 {
    let workshop = case.workshops[w];
    let stage = case.students[s].stage;
    let turn = stages.iter().position(|&other| other == stage);
    let group = groups[turn.expect("stages are drawn from the list")];
    let top = usize::from(MAX_WORKSHOP_GROUP);
    if workshop.quota == 0 {
        rng.range(1, top) as u16
    } else if group > workshop.line {
        rng.range(usize::from(workshop.line) + 1, top) as u16
    } else {
        group
    }
}

fn quota(rng: &mut Rng, shape: &Shape) -> u16 {
    if rng.chance(shape.closed) {
        0
    } else if rng.chance(50) {
        shape.quota as u16
    } else {
        rng.range(1, shape.quota) as u16
    }
}

/// A result for every pair, in the order of the pairs, none of them never, and no two marks of one
/// person equal in a group.
pub fn full_book(rng: &mut Rng, case: &Case, reach: i16) -> Vec<Record> {
    let mut given = HashSet::new();
    let mut fresh_mark = |rng: &mut Rng, side: u8, person: u16, group: u16| loop {
        let size = rng.range(1, reach as usize) as i16;
        let mark = if rng.chance(50) { size } else { -size };
        if given.insert((side, person, group, mark)) {
            return mark;
        }
    };
    let mut book: Vec<Record> = case
        .pairs
        .iter()
        .map(|pair| Record {
            student: pair.student,
            workshop: pair.workshop,
            student_mark: fresh_mark(rng, 0, pair.student, pair.student_group),
            workshop_mark: fresh_mark(rng, 1, pair.workshop, pair.workshop_group),
        })
        .collect();
    // A -1000 that was drawn becomes the lowest mark that is left in its group.
    let mut lowest_left = |side: u8, person: u16, group: u16| {
        let left = (NEVER + 1..).find(|&mark| given.insert((side, person, group, mark)));
        left.expect("a group has fewer people than marks")
    };
    for (pair, record) in case.pairs.iter().zip(&mut book) {
        if record.student_mark == NEVER {
            record.student_mark = lowest_left(0, pair.student, pair.student_group);
        }
        if record.workshop_mark == NEVER {
            record.workshop_mark = lowest_left(1, pair.workshop, pair.workshop_group);
        }
    }
    book
}

/// Each workshop gives one of so many marks to most students.
pub fn put_equal(rng: &mut Rng, case: &Case, book: &mut [Record], marks: usize, reach: i16) {
    let mut mark = || {
        let size = rng.range(1, reach.min(MAX_MARK - 1) as usize) as i16;
        match rng.below(12) {
            0 => NEVER + 1,
            1 => MAX_MARK,
            2..7 => -size,
            _ => size,
        }
    };
    let marks: Vec<Vec<i16>> = (0..case.workshops.len())
        .map(|_| (0..marks).map(|_| mark()).collect())
        .collect();
    for record in book {
        if rng.chance(90) {
            record.workshop_mark = rng.pick(&marks[usize::from(record.workshop) - 1]);
        }
    }
}

/// The book with other marks of the workshops, that say by themselves what marks and lots say: on
/// each side of none they go up from its end by one, and no two are equal, but those of -1000.
pub fn parted(case: &Case, book: &[Record]) -> Vec<Record> {
    let groups = PairTable::new(case);
    let side = |record: &Record| {
        let pair = groups.get(record.student, record.workshop);
        let (_, group) = pair.expect("the book was checked");
        (record.workshop, group, record.workshop_mark > 0)
    };
    let lot = |record: &Record| case.students[usize::from(record.student) - 1].lot;
    let mut order: Vec<usize> = (0..book.len())
        .filter(|&at| book[at].workshop_mark != NEVER)
        .collect();
    order.sort_by_key(|&at| {
        let record = &book[at];
        (side(record), record.workshop_mark, Reverse(lot(record)))
    });
    let mut parted = book.to_vec();
    let mut last = None;
    let mut mark = 0;
    for at in order {
        let side = side(&book[at]);
        mark = match side {
            _ if last == Some(side) => mark + 1,
            (.., true) => 1,
            (.., false) => NEVER + 1,
        };
        last = Some(side);
        parted[at].workshop_mark = mark;
    }
    parted
}

/// Gives so many of a hundred records a mark of -1000, from the student, from the workshop or from
/// both; or one of -999, of a student where she has no other.
pub fn put_never(rng: &mut Rng, book: &mut [Record], percent: usize) {
    let mut lowest: HashSet<u16> = book
        .iter()
        .filter(|record| record.student_mark == NEVER + 1)
        .map(|record| record.student)
        .collect();
    for record in book {
        if !rng.chance(percent) {
            continue;
        }
        match rng.below(5) {
            0 => (record.student_mark, record.workshop_mark) = (NEVER, NEVER),
            1 | 2 => record.student_mark = NEVER,
            3 if lowest.insert(record.student) => record.student_mark = NEVER + 1,
            4 if rng.chance(70) => record.workshop_mark = NEVER + 1,
            _ => record.workshop_mark = NEVER,
        }
    }
}

/// One student or one workshop gives -1000 to about half of those met.
fn put_picky(rng: &mut Rng, book: &mut [Record]) {
    if book.is_empty() {
        return;
    }
    let one = rng.pick(book);
    let is_student = rng.chance(50);
    for record in book {
        if is_student && record.student == one.student && rng.chance(50) {
            record.student_mark = NEVER;
        }
        if !is_student && record.workshop == one.workshop && rng.chance(50) {
            record.workshop_mark = NEVER;
        }
    }
}

/// A result for every pair, as the shape says.
pub fn shaped_book(rng: &mut Rng, case: &Case, shape: &Shape) -> Vec<Record> {
    let mut book = full_book(rng, case, shape.reach);
    if shape.equal > 0 {
        put_equal(rng, case, &mut book, shape.equal, shape.reach);
    }
    if shape.never > 0 {
        put_never(rng, &mut book, shape.never);
        if rng.chance(shape.picky) {
            put_picky(rng, &mut book);
        }
    }
    book
}

/// A book in any order, full, partial or empty.
fn some_book(rng: &mut Rng, case: &Case, shape: &Shape) -> Vec<Record> {
    let mut book = shaped_book(rng, case, shape);
    if !rng.chance(shape.full_books) {
        let kept = rng.pick(&[95, 80, 50, 0]);
        book.retain(|_| rng.chance(kept));
    }
    rng.shuffle(&mut book);
    book
}

/// A case and a book of this shape.
pub fn case_and_book(rng: &mut Rng, shape: &Shape) -> (Case, Vec<Record>) {
    let case = case(rng, shape);
    let book = some_book(rng, &case, shape);
    (case, book)
}

/// A case and a book of this shape, with buffers that just suffice.
pub fn input(rng: &mut Rng, shape: &Shape) -> Input {
    let (case, book) = case_and_book(rng, shape);
    case.input(&book)
}

pub fn small_input(rng: &mut Rng) -> Input {
    let shape = Shape::small(rng);
    input(rng, &shape)
}

/// The case of source document 000's experiment: all pairs, everybody acceptable, each
/// student with `d` groups, all workshops with the same `e` groups, seats for all. The lots are the
/// numbers, the fares any.
pub fn experiment(rng: &mut Rng, students: usize, workshops: usize, d: usize, e: usize) -> Case {
    let mut classes: Vec<u16> = (0..students)
        .map(|s| (s * e / students) as u16 + 1)
        .collect();
    rng.shuffle(&mut classes);
    let quota = students.div_ceil(workshops) as u16;
    let mut case = Case {
        students: Vec::new(),
        workshops: vec![
            Workshop {
                quota,
                line: e as u16 + 1,
            };
            workshops
        ],
        pairs: Vec::new(),
    };
    for (s, class) in classes.into_iter().enumerate() {
        case.students.push(Student {
            stage: class,
            line: d as u16 + 1,
            lot: s as u16 + 1,
        });
        for w in 0..workshops {
            case.pairs.push(Pair {
                student: s as u16 + 1,
                workshop: w as u16 + 1,
                student_group: rng.range(1, d) as u16,
                workshop_group: class,
                fare: rng.word() as u16,
            });
        }
    }
    case
}

// ---- Damage ----

/// One kind of damage; it may leave the input as it was.
type Damage = fn(&mut Rng, &mut Input);

/// Damage of a file with records of a size.
type FileDamage = fn(&mut Rng, &mut Vec<u8>, usize);

const DAMAGES: [Damage; 14] = [
    case_field,
    case_field,
    unnamed_byte,
    bad_lot,
    two_bad_lots,
    workshop_lot,
    case_remove,
    crowd,
    nobody,
    shorter_buffer,
    longer_buffers,
    book_stranger,
    book_mark,
    book_equal_mark,
];

const FILE_DAMAGES: [FileDamage; 4] = [
    change_length,
    repeat_record,
    |rng, bytes, size| change_byte(rng, bytes, size),
    |rng, bytes, size| swap_records(rng, bytes, size),
];

/// A small input with one to three damages.
pub fn damaged_input(rng: &mut Rng) -> Input {
    let mut input = small_input(rng);
    for _ in 0..rng.range(1, 3) {
        if rng.chance(50) {
            damage_file(rng, &mut input);
        } else {
            let damage = rng.pick(&DAMAGES);
            damage(rng, &mut input);
        }
    }
    input
}

/// The case or the book gets a damage that may hit any file.
fn damage_file(rng: &mut Rng, input: &mut Input) {
    let damage = rng.pick(&FILE_DAMAGES);
    if rng.chance(50) {
        damage(rng, &mut input.case, CASE_RECORD);
    } else {
        damage(rng, &mut input.book, BOOK_RECORD);
    }
}

/// Where a random record starts, if there is a whole one.
fn record_start(rng: &mut Rng, bytes: &[u8], size: usize) -> Option<usize> {
    let records = bytes.len() / size;
    (records > 0).then(|| rng.below(records) * size)
}

/// Where a random record of this kind starts, if there is one.
fn record_of_kind(rng: &mut Rng, case: &[u8], kind: u8) -> Option<usize> {
    let starts = (0..case.len() / CASE_RECORD).map(|record| record * CASE_RECORD);
    let starts: Vec<usize> = starts.filter(|&at| case[at] == kind).collect();
    (!starts.is_empty()).then(|| rng.pick(&starts))
}

fn set_field(bytes: &mut [u8], at: usize, value: u16) {
    bytes[at..at + 2].copy_from_slice(&value.to_le_bytes());
}

fn get_field(bytes: &[u8], at: usize) -> u16 {
    u16::from_le_bytes([bytes[at], bytes[at + 1]])
}

fn change_length(rng: &mut Rng, bytes: &mut Vec<u8>, size: usize) {
    let change = rng.range(1, size - 1);
    if rng.chance(50) && bytes.len() >= change {
        bytes.truncate(bytes.len() - change);
    } else {
        bytes.resize(bytes.len() + change, 0);
    }
}

fn change_byte(rng: &mut Rng, bytes: &mut [u8], size: usize) {
    if let Some(start) = record_start(rng, bytes, size) {
        let byte = &mut bytes[start + rng.below(size)];
        *byte = match rng.below(3) {
            0 => *byte ^ (1 << rng.below(8)),
            1 => rng.pick(&[0, 1, 2, 3, 4, 255]),
            _ => rng.word() as u8,
        };
    }
}

fn swap_records(rng: &mut Rng, bytes: &mut [u8], size: usize) {
    if let Some(first) = record_start(rng, bytes, size) {
        let records = bytes.len() / size;
        let second = if rng.chance(50) {
            (first + size) % (records * size)
        } else {
            rng.below(records) * size
        };
        for offset in 0..size {
            bytes.swap(first + offset, second + offset);
        }
    }
}

/// Copies a record to just behind itself or to the end.
fn repeat_record(rng: &mut Rng, bytes: &mut Vec<u8>, size: usize) {
    if let Some(start) = record_start(rng, bytes, size) {
        let record = bytes[start..start + size].to_vec();
        let whole = bytes.len() / size * size;
        let at = rng.pick(&[start + size, whole]);
        bytes.splice(at..at, record);
    }
}

/// Puts a number at the edge of some range into one of the fields.
fn case_field(rng: &mut Rng, input: &mut Input) {
    const EDGES: [u16; 14] = [
        0, 1, 2, 63, 64, 65, 66, 67, 511, 512, 513, 514, 32768, 65535,
    ];
    if let Some(start) = record_start(rng, &input.case, CASE_RECORD) {
        let fields = match input.case[start] {
            2 => 3,
            3 => 5,
            _ => 4,
        };
        let at = start + 2 * rng.range(1, fields);
        set_field(&mut input.case, at, rng.pick(&EDGES));
    }
}

/// One or two bytes that should be zero are set: where a pair has its fare, just behind it, or in
/// the last bytes.
fn unnamed_byte(rng: &mut Rng, input: &mut Input) {
    let kind = rng.pick(&[1, 2, 3]);
    if let Some(start) = record_of_kind(rng, &input.case, kind) {
        let first = if kind == 3 { 12 } else { 10 };
        for _ in 0..rng.pick(&[1, 1, 2]) {
            let at = start + rng.pick(&[first, first, first + 1, first + 1, 14, 15]);
            input.case[at] = rng.pick(&[1, 2, 128, 255]);
        }
    }
}

/// Where the lots of the first students stand.
fn lot_places(case: &[u8]) -> Vec<usize> {
    let records = case.chunks_exact(CASE_RECORD);
    let students = records.take_while(|record| record[0] == 1).count();
    (0..students).map(|s| s * CASE_RECORD + 8).collect()
}

/// One lot out of range, or one student's lot for another: the next, the last, or any.
pub fn bad_lot(rng: &mut Rng, input: &mut Input) {
    let lots = lot_places(&input.case);
    let Some(last) = lots.len().checked_sub(1) else {
        return;
    };
    let one = rng.range(0, last);
    if last == 0 || rng.chance(40) {
        let high_bit = get_field(&input.case, lots[one]) ^ rng.pick(&[0x8000, 0x0400]);
        let lot = rng.pick(&[0, 0, 513, 513, 514, 768, 1024, 65535, high_bit, high_bit]);
        set_field(&mut input.case, lots[one], lot);
        return;
    }
    let (from, to) = match rng.below(4) {
        0 => (0, last),
        1 => (one.min(last - 1), one.min(last - 1) + 1),
        _ => (one, (one + rng.range(1, last)) % lots.len()),
    };
    let lot = get_field(&input.case, lots[from]);
    set_field(&mut input.case, lots[to], lot);
}

/// One lot is out of range, and perhaps another is used again.
fn two_bad_lots(rng: &mut Rng, input: &mut Input) {
    bad_lot(rng, input);
    if let Some(&at) = lot_places(&input.case).last() {
        let student = rng.below(at / CASE_RECORD + 1);
        let lot = rng.pick(&[0, MAX_LOT + 1]);
        set_field(&mut input.case, student * CASE_RECORD + 8, lot);
    }
}

/// A workshop has something where a student has her lot.
fn workshop_lot(rng: &mut Rng, input: &mut Input) {
    if let Some(start) = record_of_kind(rng, &input.case, 2) {
        let value = rng.pick(&[1, 2, 255, 256, 512, 513]);
        set_field(&mut input.case, start + 8, value);
    }
}

fn case_remove(rng: &mut Rng, input: &mut Input) {
    if let Some(start) = record_start(rng, &input.case, CASE_RECORD) {
        input.case.drain(start..start + CASE_RECORD);
    }
}

/// Brings the students to about 512, or the workshops to about 64.
fn crowd(rng: &mut Rng, input: &mut Input) {
    let of_kind = |kind: u8| {
        let records = input.case.chunks_exact(CASE_RECORD);
        records.filter(|record| record[0] == kind).count()
    };
    let (kind, present, behind, wanted) = if rng.chance(30) {
        (1, of_kind(1), of_kind(1), rng.range(512, 513))
    } else {
        (2, of_kind(2), of_kind(1) + of_kind(2), rng.range(64, 65))
    };
    let lots = lot_places(&input.case).into_iter();
    let taken: HashSet<u16> = lots.map(|at| get_field(&input.case, at)).collect();
    let mut free = (1..=MAX_LOT).filter(|lot| !taken.contains(lot));
    let mut added = Vec::new();
    for number in present + 1..=wanted {
        let fields = [number as u16, 1, 1, free.next().unwrap_or(1)];
        let named = if kind == 1 { 4 } else { 3 };
        push_case_record(&mut added, kind, &fields[..named]);
    }
    let more = added.len() / CASE_RECORD;
    let at = behind * CASE_RECORD;
    input.case.splice(at..at, added);
    if rng.chance(80) {
        for length in [
            &mut input.lent.places,
            &mut input.lent.seats,
            &mut input.lent.cards,
        ] {
            *length += more;
        }
    }
}

/// Takes away every record of one or two kinds.
fn nobody(rng: &mut Rng, input: &mut Input) {
    let gone = rng.pick(&[[1, 1], [2, 2], [2, 3], [1, 3], [1, 2]]);
    let records = input.case.chunks(CASE_RECORD);
    input.case = records
        .filter(|record| !gone.contains(&record[0]))
        .flatten()
        .copied()
        .collect();
}

fn lengths_of(lent: &mut Lengths) -> [&mut usize; 5] {
    [
        &mut lent.places,
        &mut lent.visits,
        &mut lent.seats,
        &mut lent.index,
        &mut lent.cards,
    ]
}

/// Takes some entries off one buffer, mostly just one.
fn shorter_buffer(rng: &mut Rng, input: &mut Input) {
    let which = rng.below(5);
    let length = &mut lengths_of(&mut input.lent)[which];
    let less = rng.pick(&[1, 1, 1, 2, usize::MAX]);
    **length = length.saturating_sub(less);
}

pub fn longer_buffers(rng: &mut Rng, input: &mut Input) {
    for length in lengths_of(&mut input.lent) {
        *length += rng.pick(&[0, 1, 2, 3, 700]);
    }
}

/// Makes a record name somebody else, or nobody.
fn book_stranger(rng: &mut Rng, input: &mut Input) {
    if let Some(start) = record_start(rng, &input.book, BOOK_RECORD) {
        let at = start + rng.pick(&[0, 2]);
        let number = rng.pick(&[0, 1, 2, 3, 5, 6, 7, 8, 9, 64, 65, 512, 513, 65535]);
        set_field(&mut input.book, at, number);
    }
}

/// Puts a mark at the edge of the range into a record.
fn book_mark(rng: &mut Rng, input: &mut Input) {
    const EDGES: [i16; 14] = [
        0, 0, 1, -1, 999, 1000, -999, -1000, -1000, 1001, -1001, 1002, 32767, -32768,
    ];
    if let Some(start) = record_start(rng, &input.book, BOOK_RECORD) {
        let at = start + rng.pick(&[4, 6]);
        set_field(&mut input.book, at, rng.pick(&EDGES) as u16);
    }
}

/// Gives a record the mark of another record of the same person, if one is found; the other mark
/// of one of the two may become never, or a third mark of the student.
fn book_equal_mark(rng: &mut Rng, input: &mut Input) {
    let book = &mut input.book;
    for _ in 0..20 {
        let (Some(from), Some(to)) = (
            record_start(rng, book, BOOK_RECORD),
            record_start(rng, book, BOOK_RECORD),
        ) else {
            return;
        };
        let side = rng.pick(&[0, 0, 2]);
        let person = get_field(book, from + side);
        if from != to && person == get_field(book, to + side) {
            let mark = get_field(book, from + side + 4);
            set_field(book, to + side + 4, mark);
            if rng.chance(40) {
                let other_side = 2 - side;
                set_field(book, rng.pick(&[from, to]) + other_side + 4, NEVER as u16);
            }
            let third = (0..book.len() / BOOK_RECORD)
                .map(|record| record * BOOK_RECORD)
                .find(|&at| at != from && at != to && get_field(book, at) == person);
            if let Some(at) = third.filter(|_| side == 0 && rng.chance(40)) {
                set_field(book, at + 4, NEVER as u16);
            }
            return;
        }
    }
}

/// The input cut to every shorter length, with up to two records more in the book, byte by byte, and
/// with every byte of every record changed.
pub fn sweep(input: &Input) -> Vec<Input> {
    let mut inputs = Vec::new();
    let cut = |length: usize, part: Bytes| {
        let mut shorter = input.clone();
        part(&mut shorter).truncate(length);
        shorter
    };
    inputs.extend((0..input.case.len()).map(|length| cut(length, case_part)));
    inputs.extend((0..input.book.len()).map(|length| cut(length, book_part)));
    inputs.extend((1..=2 * BOOK_RECORD).map(|more| {
        let mut longer = input.clone();
        longer.book.resize(input.book.len() + more, 0);
        longer
    }));
    for at in 0..input.case.len() {
        change_every_way(&mut inputs, input, at, case_part);
    }
    for at in 0..input.book.len() {
        change_every_way(&mut inputs, input, at, book_part);
    }
    inputs
}

/// The case's bytes or the book's.
pub type Bytes = fn(&mut Input) -> &mut Vec<u8>;

pub fn case_part(input: &mut Input) -> &mut Vec<u8> {
    &mut input.case
}

pub fn book_part(input: &mut Input) -> &mut Vec<u8> {
    &mut input.book
}

/// Flips each bit of one byte, and sets it to 0, to 255, one up and one down.
fn change_every_way(inputs: &mut Vec<Input>, input: &Input, at: usize, part: Bytes) {
    let mut original = input.clone();
    let byte = part(&mut original)[at];
    let flips = (0..8).map(|bit| byte ^ (1 << bit));
    let others = [0, 255, byte.wrapping_add(1), byte.wrapping_sub(1)];
    for value in flips.chain(others).filter(|&value| value != byte) {
        let mut changed = input.clone();
        part(&mut changed)[at] = value;
        inputs.push(changed);
    }
}

/// Every buffer in turn one entry short, empty, and longer.
pub fn buffer_sweep(input: &Input) -> Vec<Input> {
    let mut inputs = Vec::new();
    for which in 0..5 {
        let mut with = |change: fn(usize) -> usize| {
            let mut changed = input.clone();
            let length = &mut lengths_of(&mut changed.lent)[which];
            **length = change(**length);
            inputs.push(changed);
        };
        with(|length| length.saturating_sub(1));
        with(|_| 0);
        with(|length| length + 1);
        with(|length| length + 37);
    }
    inputs
}

/// Input whose counts do not fit into 16 bits, and the largest good case.
pub fn oversized_inputs(rng: &mut Rng) -> Vec<Input> {
    let mut inputs = vec![
        many_students(65_535),
        many_students(65_536),
        many_students(65_537),
    ];
    let mut far_student = many_students(65_537);
    far_student.case[65_536 * CASE_RECORD + 10] = 1;
    inputs.push(far_student);
    let pairs = crowded_pairs(1000, 70);
    let last = pairs.case.len() - CASE_RECORD;
    for byte in [12, 15] {
        let mut late_fault = pairs.clone();
        late_fault.case[last + byte] = 1;
        inputs.push(late_fault);
    }
    let mut late_order = pairs.clone();
    set_field(&mut late_order.case, last + 2, 1);
    inputs.extend([pairs, late_order]);

    let largest = crowded_pairs(512, 64);
    inputs.extend(buffer_sweep(&largest));
    for (student, lot) in [(0, 0), (0, 513), (0, 512), (511, 1), (511, 511), (256, 1)] {
        let mut wrong = largest.clone();
        set_field(&mut wrong.case, student * CASE_RECORD + 8, lot);
        inputs.push(wrong);
    }
    let mut long_book = largest;
    for _ in 0..70_000 {
        let record = [1u16, 1, 5, 5].map(u16::to_le_bytes);
        long_book.book.extend(record.as_flattened());
    }
    inputs.push(long_book.clone());
    let last = long_book.book.len() - BOOK_RECORD;
    for (offset, value) in [(0, 513), (2, 65), (4, 0), (6, 1001)] {
        let mut late = long_book.clone();
        set_field(&mut late.book, last + offset, value);
        inputs.push(late);
    }
    rng.shuffle(&mut inputs);
    inputs
}

fn many_students(students: usize) -> Input {
    let mut case = Vec::new();
    for number in 1..=students {
        let lot = (number - 1) % usize::from(MAX_LOT) + 1;
        push_case_record(&mut case, 1, &[number as u16, 1, 1, lot as u16]);
    }
    push_case_record(&mut case, 2, &[1, 1, 1]);
    Input {
        case,
        book: Vec::new(),
        lent: Lengths::ample(),
    }
}

/// All pairs, every quota at 512, every fare at 65,535, an empty book.
fn crowded_pairs(students: usize, workshops: usize) -> Input {
    let student = |lot: u16| Student {
        stage: 1,
        line: 2,
        lot,
    };
    let mut case = Case {
        students: (1..=students as u16).map(student).collect(),
        workshops: vec![
            Workshop {
                quota: 512,
                line: 2
            };
            workshops
        ],
        pairs: Vec::new(),
    };
    for s in 1..=students as u16 {
        for w in 1..=workshops as u16 {
            case.pairs.push(Pair {
                student: s,
                workshop: w,
                student_group: 1,
                workshop_group: 1,
                fare: u16::MAX,
            });
        }
    }
    case.input(&[])
}
