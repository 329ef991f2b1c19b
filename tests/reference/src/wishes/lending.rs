//! Lends a guarded buffer for the text or the copy and checks every byte that is left in it.

use super::fast::Fast;
use super::{Answer, Request, Task};
use crate::gen::Rng;
use crate::lending::Guarded;
use crate::model::CASE_RECORD;
use crate::stages::Report;

/// The lent buffer of one call.
pub struct Loan {
    pub buffer: *mut u8,
    /// Its bytes.
    pub room: usize,
}

/// The part: case, the text if one is to be read, and lent buffer in, report out.
pub type Call<'a> = &'a dyn Fn(&[u8], Option<&[u8]>, &Loan) -> Report;

/// The real part, if it is linked.
pub fn under_test() -> Option<Call<'static>> {
    #[cfg(feature = "engine")]
    return Some(&crate::engine::wishes);
    #[cfg(not(feature = "engine"))]
    return None;
}

/// Calls the part with a buffer full of garbage and compares every byte it leaves behind. Now and
/// then case and text start at odd addresses, and something that could go on in a line is behind them.
pub fn check(
    call: Call,
    request: &Request,
    expected: &Answer,
    rng: &mut Rng,
) -> Result<(), &'static str> {
    let pattern = rng.pick(&[None, Some(0xee), Some(0xff), Some(0), Some(b'\n')]);
    let shift = rng.pick(&[0, 0, 1, 7]);
    let mut garbage = || match pattern {
        Some(byte) => u64::from_ne_bytes([byte; 8]),
        None => rng.word(),
    };
    let mut buffer = Guarded::new::<u8>(request.room, &mut garbage);
    let loan = Loan {
        buffer: buffer.lend(),
        room: request.room,
    };
    let text = match &request.task {
        Task::Write => None,
        Task::Read(text) => Some(&text[..]),
    };
    let report = if shift == 0 {
        call(&request.case, text, &loan)
    } else {
        let behind: &[u8] = rng.pick(&[b"\n", b"0\n", b",1\n", b"}\n", b"\r\n"]);
        let shifted = |bytes: &[u8]| [&[0xa5; 8][..shift], bytes, behind].concat();
        let case = shifted(&request.case);
        let case = &case[shift..shift + request.case.len()];
        let moved = text.map(shifted);
        let text = moved.as_ref().map(|moved| &moved[shift..moved.len() - behind.len()]);
        call(case, text, &loan)
    };
    let only_head = buffer.only_first_bytes_changed(expected.written());
    let findings = [
        (report == expected.report(), "report differs"),
        (only_head, "the buffer differs"),
        (buffer.guards_kept(), "wrote outside the buffer"),
    ];
    match findings.iter().find(|(good, _)| !good) {
        Some((_, what)) => Err(what),
        None => Ok(()),
    }
}

// ---- Stand-ins, to test the check itself ----

/// A well-behaved part.
pub fn honest(case: &[u8], text: Option<&[u8]>, loan: &Loan) -> Report {
    // SAFETY: the check lends a buffer of this length, and nobody else uses it meanwhile.
    let buffer = unsafe { std::slice::from_raw_parts_mut(loan.buffer, loan.room) };
    let mut fast = Fast::default();
    match text {
        None => fast.write(case, buffer),
        Some(text) => fast.read(case, text, buffer),
    }
}

/// What a flaw may look at.
struct Made {
    report: Report,
    reads: bool,
    room: usize,
}

/// Something an otherwise honest part does wrong at the end.
pub struct Flaw {
    pub name: &'static str,
    /// Which byte it changes, from the start of the buffer, where this call allows the flaw.
    byte: fn(&Made) -> Option<usize>,
    report: fn(Report) -> Report,
}

impl Flaw {
    /// A well-behaved part but for this flaw.
    pub fn spoil(&self, case: &[u8], text: Option<&[u8]>, loan: &Loan) -> Report {
        let report = honest(case, text, loan);
        let made = Made {
            report,
            reads: text.is_some(),
            room: loan.room,
        };
        if let Some(byte) = (self.byte)(&made) {
            // SAFETY: each flaw names a byte of the buffer, or of the guards around it, which are
            // part of the same allocation.
            unsafe { *loan.buffer.wrapping_add(byte) ^= 1 };
        }
        (self.report)(report)
    }
}

const fn writes(name: &'static str, byte: fn(&Made) -> Option<usize>) -> Flaw {
    Flaw {
        name,
        byte,
        report: |report| report,
    }
}

const fn reports(name: &'static str, report: fn(Report) -> Report) -> Flaw {
    Flaw {
        name,
        byte: |_| None,
        report,
    }
}

/// The first byte of the buffer after a refusal by this number, of a text or of a case.
fn first_if_refused(made: &Made, number: u64, reads: bool) -> Option<usize> {
    let refused = made.report.kind == 2 && made.report.first == number;
    (refused && made.reads == reads && made.room > 0).then_some(0)
}

/// A byte of the first record of a copy.
fn of_first_record(made: &Made, byte: usize) -> Option<usize> {
    (made.report.kind == 0 && made.reads).then_some(byte)
}

/// Every flaw must be found by the check.
pub const FLAWS: [Flaw; 21] = [
    writes("the text written to on refusals 1 to 5", |made| {
        let early = made.report.kind == 2 && made.report.first < 6;
        (early && !made.reads && made.room > 0).then_some(0)
    }),
    writes("the copy written to on refusals 1 to 5", |made| {
        let early = made.report.kind == 2 && made.report.first < 6;
        (early && made.reads && made.room > 0).then_some(0)
    }),
    writes("the text written to on refusal 13", |made| {
        first_if_refused(made, 13, false)
    }),
    writes("the copy written to on refusal 13", |made| {
        first_if_refused(made, 13, true)
    }),
    writes("the text written to on refusal 6", |made| {
        first_if_refused(made, 6, false)
    }),
    writes("the copy written to on refusal 6", |made| {
        first_if_refused(made, 6, true)
    }),
    writes("the copy written to on refusal 14", |made| {
        first_if_refused(made, 14, true)
    }),
    writes("the copy written to on refusal 15", |made| {
        first_if_refused(made, 15, true)
    }),
    writes("a late byte of the copy changed on refusal 14", |made| {
        first_if_refused(made, 14, true).map(|_| made.room - 1)
    }),
    writes("a line group of the copy changed on refusal 15", |made| {
        first_if_refused(made, 15, true).map(|_| 6)
    }),
    writes("a byte past the text", |made| {
        let end = made.report.first as usize;
        (made.report.kind == 0 && !made.reads && end < made.room).then_some(end)
    }),
    writes("the last byte of the text's room changed", |made| {
        (made.report.kind == 0 && !made.reads).then(|| made.room - 1)
    }),
    writes("a byte past the copy", |made| {
        let end = made.report.first as usize;
        (made.report.kind == 0 && made.reads && end < made.room).then_some(end)
    }),
    writes("byte 7 of a record of the copy left", |made| {
        of_first_record(made, 7)
    }),
    writes("byte 15 of a record of the copy changed", |made| {
        of_first_record(made, CASE_RECORD - 1)
    }),
    writes("a byte after the buffer", |made| Some(made.room)),
    writes("a byte before the buffer", |_| Some(usize::MAX)),
    reports("the number of bytes is missing", |report| match report {
        Report { kind: 0, .. } => Report::done(0),
        other => other,
    }),
    reports("a second value of a good answer", |report| match report {
        Report { kind: 0, first, .. } => Report {
            kind: 0,
            first,
            second: 1,
        },
        other => other,
    }),
    reports("14 without its place", |report| match report {
        Report {
            kind: 2, first: 14, ..
        } => Report::refused(14, 0),
        other => other,
    }),
    reports("15 without its place", |report| match report {
        Report {
            kind: 2, first: 15, ..
        } => Report::refused(15, 0),
        other => other,
    }),
];
