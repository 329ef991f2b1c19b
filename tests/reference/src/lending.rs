//! Lends guarded buffers to an engine and checks every byte it leaves in them.

use crate::fast::Fast;
use crate::gen::Rng;
use crate::model::*;
use std::mem::{align_of, offset_of, size_of};

/// A student's card as the engine lays it out.
#[repr(C)]
#[derive(Clone, Copy, Debug, Default, PartialEq, Eq)]
pub struct StudentState {
    pub reached: u32,
    pub held: u32,
    pub open: u64,
}

// No byte of a card lies outside of its fields.
const _: () = {
    assert!(size_of::<StudentState>() == 16 && align_of::<StudentState>() == 8);
    assert!(offset_of!(StudentState, reached) == 0);
    assert!(offset_of!(StudentState, held) == 4);
    assert!(offset_of!(StudentState, open) == 8);
};

/// The lent buffers of one call.
pub struct Loan {
    pub places: *mut u16,
    pub visits: *mut u16,
    pub seats: *mut u16,
    pub index: *mut u16,
    pub cards: *mut StudentState,
    pub lent: Lengths,
}

/// An engine: case, book and lent buffers in, outcome out.
pub type Call<'a> = &'a dyn Fn(&[u8], &[u8], &Loan) -> Outcome;

/// Bytes on each side of a lent buffer that nobody may touch.
const GUARD: usize = 64;

/// The bytes of a buffer between two guards, all of them garbage at first.
pub(crate) struct Guarded {
    memory: Vec<u64>,
    before: Vec<u64>,
    /// Bytes that are lent.
    length: usize,
}

impl Guarded {
    pub(crate) fn new<T>(entries: usize, garbage: &mut dyn FnMut() -> u64) -> Guarded {
        let length = entries * size_of::<T>();
        let words = (length + 2 * GUARD).div_ceil(size_of::<u64>());
        let memory: Vec<u64> = std::iter::repeat_with(garbage).take(words).collect();
        Guarded {
            before: memory.clone(),
            memory,
            length,
        }
    }

    pub(crate) fn lend<T>(&mut self) -> *mut T {
        let start = self.memory.as_mut_ptr().cast::<u8>();
        start.wrapping_add(GUARD).cast()
    }

    fn lent(&self) -> &[u8] {
        &bytes(&self.memory)[GUARD..GUARD + self.length]
    }

    fn is_zero(&self) -> bool {
        self.lent().iter().all(|&byte| byte == 0)
    }

    /// Both guards are as they were.
    pub(crate) fn guards_kept(&self) -> bool {
        let guards = |memory| {
            let (before, rest) = bytes(memory).split_at(GUARD);
            (before, &rest[self.length..])
        };
        guards(&self.memory) == guards(&self.before)
    }

    /// The lent part starts with these entries and is otherwise as it was.
    pub(crate) fn only_head_changed(&self, head: &[u16]) -> bool {
        let head: Vec<u8> = head.iter().flat_map(|entry| entry.to_ne_bytes()).collect();
        self.only_first_bytes_changed(&head)
    }

    /// The lent part starts with these bytes and is otherwise as it was.
    pub(crate) fn only_first_bytes_changed(&self, head: &[u8]) -> bool {
        let rest = GUARD + head.len()..GUARD + self.length;
        self.lent().starts_with(head)
            && bytes(&self.memory)[rest.clone()] == bytes(&self.before)[rest]
    }
}

fn bytes(words: &[u64]) -> &[u8] {
    // SAFETY: the bytes of the words, which are all initialized, for as long as they are borrowed.
    unsafe { std::slice::from_raw_parts(words.as_ptr().cast(), std::mem::size_of_val(words)) }
}

/// Calls the engine with buffers full of garbage and compares every byte it leaves behind.
pub fn check(
    engine: Call,
    input: &Input,
    expected: &Answer,
    rng: &mut Rng,
) -> Result<(), &'static str> {
    let lent = input.lent;
    let pattern = rng.pick(&[None, Some(0xee), Some(0xff)]);
    let mut garbage = || match pattern {
        Some(byte) => u64::from_ne_bytes([byte; 8]),
        None => rng.word(),
    };
    let mut places = Guarded::new::<u16>(lent.places, &mut garbage);
    let mut visits = Guarded::new::<u16>(lent.visits, &mut garbage);
    let mut seats = Guarded::new::<u16>(lent.seats, &mut garbage);
    let mut index = Guarded::new::<u16>(lent.index, &mut garbage);
    let mut cards = Guarded::new::<StudentState>(lent.cards, &mut garbage);
    let loan = Loan {
        places: places.lend(),
        visits: visits.lend(),
        seats: seats.lend(),
        index: index.lend(),
        cards: cards.lend(),
        lent,
    };
    let outcome = engine(&input.case, &input.book, &loan);

    let placed = match expected {
        Answer::Placed { places, .. } => &places[..],
        _ => &[],
    };
    let listed: Vec<u16> = expected
        .visits()
        .iter()
        .flat_map(|&(s, w)| [s, w])
        .collect();
    let guards_kept = [&places, &visits, &seats, &index, &cards]
        .iter()
        .all(|buffer| buffer.guards_kept());
    let findings = [
        (outcome == expected.outcome(), "outcome differs"),
        (places.only_head_changed(placed), "places differ"),
        (visits.only_head_changed(&listed), "visits differ"),
        (seats.is_zero(), "seats are not zero"),
        (index.is_zero(), "index is not zero"),
        (cards.is_zero(), "cards are not zero"),
        (guards_kept, "wrote outside a buffer"),
    ];
    match findings.iter().find(|(good, _)| !good) {
        Some((_, what)) => Err(what),
        None => Ok(()),
    }
}

// ---- Stand-ins, to test the check itself ----

/// A well-behaved engine.
pub fn honest(case: &[u8], book: &[u8], loan: &Loan) -> Outcome {
    // SAFETY: the check lends buffers of these lengths, and nobody else uses them meanwhile.
    unsafe {
        let places = std::slice::from_raw_parts_mut(loan.places, loan.lent.places);
        let visits = std::slice::from_raw_parts_mut(loan.visits, loan.lent.visits);
        let outcome = Fast::default().place(case, book, &loan.lent, places, visits);
        std::slice::from_raw_parts_mut(loan.seats, loan.lent.seats).fill(0);
        std::slice::from_raw_parts_mut(loan.index, loan.lent.index).fill(0);
        std::slice::from_raw_parts_mut(loan.cards, loan.lent.cards).fill(StudentState::default());
        outcome
    }
}

/// Something an otherwise honest engine does wrong at the end.
pub struct Flaw {
    pub name: &'static str,
    fault: Fault,
}

enum Fault {
    /// It changes one byte: which one, where this answer allows the flaw.
    Byte(fn(&Loan, &Outcome) -> Option<*mut u8>),
    /// It returns another total.
    Total(fn(u64) -> u64),
}

impl Flaw {
    /// A well-behaved engine but for this flaw.
    pub fn spoil(&self, case: &[u8], book: &[u8], loan: &Loan) -> Outcome {
        let mut outcome = honest(case, book, loan);
        match self.fault {
            Fault::Byte(chosen) => {
                if let Some(byte) = chosen(loan, &outcome) {
                    // SAFETY: each flaw names a byte of a lent buffer, or of the guards around it,
                    // which are part of the same allocation.
                    unsafe { *byte ^= 1 };
                }
            }
            Fault::Total(change) => {
                if let Outcome::Placed { fares, .. } | Outcome::Next { fares, .. } = &mut outcome {
                    *fares = change(*fares);
                }
            }
        }
        outcome
    }
}

/// The first byte of a buffer's entry, if it has that entry.
fn entry<T>(buffer: *mut T, length: usize, at: usize) -> Option<*mut u8> {
    (at < length).then(|| buffer.wrapping_add(at).cast())
}

/// The first byte of a buffer's last entry, if it has one.
fn last<T>(buffer: *mut T, length: usize) -> Option<*mut u8> {
    entry(buffer, length, length.checked_sub(1)?)
}

/// A byte of the first card.
fn of_first_card(loan: &Loan, byte: usize) -> Option<*mut u8> {
    let card = entry(loan.cards, loan.lent.cards, 0)?;
    Some(card.wrapping_add(byte))
}

fn used_words(outcome: &Outcome) -> usize {
    match outcome {
        Outcome::Placed { visits, .. } | Outcome::Next { visits, .. } => 2 * visits,
        Outcome::Refused { .. } => 0,
    }
}

const fn flaw(name: &'static str, byte: fn(&Loan, &Outcome) -> Option<*mut u8>) -> Flaw {
    let fault = Fault::Byte(byte);
    Flaw { name, fault }
}

const fn total(name: &'static str, change: fn(u64) -> u64) -> Flaw {
    let fault = Fault::Total(change);
    Flaw { name, fault }
}

/// Every flaw must be found by the check.
pub const FLAWS: [Flaw; 20] = [
    total("the total one more", |fares| fares + 1),
    total("no total", |_| 0),
    total("a bit above the total's 32", |fares| fares | 1 << 32),
    flaw("a seat left", |loan, _| {
        entry(loan.seats, loan.lent.seats, 0)
    }),
    flaw("the last seat left", |loan, _| {
        last(loan.seats, loan.lent.seats)
    }),
    flaw("the last index entry left", |loan, _| {
        last(loan.index, loan.lent.index)
    }),
    flaw("byte 2 of a card left", |loan, _| of_first_card(loan, 2)),
    flaw("byte 4 of a card left", |loan, _| of_first_card(loan, 4)),
    flaw("byte 7 of a card left", |loan, _| of_first_card(loan, 7)),
    flaw("byte 15 of a card left", |loan, _| of_first_card(loan, 15)),
    flaw("the last card left", |loan, _| {
        last(loan.cards, loan.lent.cards)
    }),
    flaw(
        "a place written on a refusal",
        |loan, outcome| match outcome {
            Outcome::Refused { .. } => entry(loan.places, loan.lent.places, 0),
            _ => None,
        },
    ),
    flaw(
        "a place written with a next visit",
        |loan, outcome| match outcome {
            Outcome::Next { .. } => entry(loan.places, loan.lent.places, 0),
            _ => None,
        },
    ),
    flaw(
        "a visit written on a refusal",
        |loan, outcome| match outcome {
            Outcome::Refused { .. } => entry(loan.visits, loan.lent.visits, 0),
            _ => None,
        },
    ),
    flaw("a visit past the used ones", |loan, outcome| {
        entry(loan.visits, loan.lent.visits, used_words(outcome))
    }),
    flaw("a listed visit changed", |loan, outcome| {
        entry(loan.visits, used_words(outcome), 1)
    }),
    flaw("the last place changed", |loan, _| {
        last(loan.places, loan.lent.places)
    }),
    flaw("a byte after the seats", |loan, _| {
        Some(loan.seats.wrapping_add(loan.lent.seats).cast())
    }),
    flaw("a byte before the visits", |loan, _| {
        Some(loan.visits.cast::<u8>().wrapping_sub(1))
    }),
    flaw("a card after the last", |loan, _| {
        Some(loan.cards.wrapping_add(loan.lent.cards).cast())
    }),
];
