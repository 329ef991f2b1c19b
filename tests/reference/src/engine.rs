//! The real engine and the real parts for the stages and for the wish lines, through their C
//! interfaces. Nothing else here knows these interfaces.

use crate::lending::{Loan, StudentState};
use crate::model::Outcome;
use crate::{stages, wishes};

/// The answer as the engine gives it: a kind, and the values of that kind.
#[repr(C)]
struct Report {
    kind: u64,
    first: u64,
    second: u64,
    visits: u64,
    fares: u64,
}

const PLACED: u64 = 0;
const NEXT: u64 = 1;
const REFUSED: u64 = 2;

extern "C" {
    fn lgs_place(
        case: *const u8,
        case_len: usize,
        book: *const u8,
        book_len: usize,
        places: *mut u16,
        places_len: usize,
        visits: *mut u16,
        visits_len: usize,
        seats: *mut u16,
        seats_len: usize,
        index: *mut u16,
        index_len: usize,
        states: *mut StudentState,
        states_len: usize,
    ) -> Report;

    fn lgs_stages(
        case: *const u8,
        case_len: usize,
        stages: *mut u16,
        stages_len: usize,
    ) -> stages::Report;

    fn lgs_write_wishes(
        case: *const u8,
        case_len: usize,
        text: *mut u8,
        text_len: usize,
    ) -> stages::Report;

    fn lgs_read_wishes(
        case: *const u8,
        case_len: usize,
        text: *const u8,
        text_len: usize,
        copy: *mut u8,
        copy_len: usize,
    ) -> stages::Report;
}

/// Writes the case as lines, or reads a text into a copy of the case, once, into the lent buffer.
pub fn wishes(case: &[u8], text: Option<&[u8]>, loan: &wishes::lending::Loan) -> stages::Report {
    let (length, buffer, room) = (case.len(), loan.buffer, loan.room);
    let case = case.as_ptr();
    // SAFETY: every pointer comes with the length of the memory it points to.
    unsafe {
        match text {
            None => lgs_write_wishes(case, length, buffer, room),
            Some(text) => lgs_read_wishes(case, length, text.as_ptr(), text.len(), buffer, room),
        }
    }
}

/// Works out the stages once, into the lent buffer.
pub fn stages(case: &[u8], loan: &stages::lending::Loan) -> stages::Report {
    // SAFETY: every pointer comes with the length of the memory it points to.
    unsafe { lgs_stages(case.as_ptr(), case.len(), loan.stages, loan.room) }
}

/// Runs the engine once on the lent buffers.
pub fn call(case: &[u8], book: &[u8], loan: &Loan) -> Outcome {
    // SAFETY: every pointer comes with the length of the memory it points to.
    let report = unsafe {
        lgs_place(
            case.as_ptr(),
            case.len(),
            book.as_ptr(),
            book.len(),
            loan.places,
            loan.lent.places,
            loan.visits,
            loan.lent.visits,
            loan.seats,
            loan.lent.seats,
            loan.index,
            loan.lent.index,
            loan.cards,
            loan.lent.cards,
        )
    };
    decode(report)
}

/// An unknown kind, or a value that should be 0, becomes a refusal that no input has.
fn decode(report: Report) -> Outcome {
    let Report {
        kind,
        first,
        second,
        visits,
        fares,
    } = report;
    match kind {
        PLACED if (first, second) == (0, 0) => Outcome::Placed {
            visits: visits as usize,
            fares,
        },
        NEXT => Outcome::Next {
            student: first as u16,
            workshop: second as u16,
            visits: visits as usize,
            fares,
        },
        REFUSED if (visits, fares) == (0, 0) => Outcome::Refused {
            number: first as u16,
            place: second as usize,
        },
        other => Outcome::Refused {
            number: u16::MAX,
            place: other as usize,
        },
    }
}
