//! Lends a guarded stages buffer and checks every byte that is left in it.

use super::fast::Fast;
use super::{Answer, Report, Request};
use crate::gen::Rng;
use crate::lending::Guarded;

/// The lent buffer of one call.
pub struct Loan {
    pub stages: *mut u16,
    /// Its entries.
    pub room: usize,
}

/// The part: case and lent buffer in, report out.
pub type Call<'a> = &'a dyn Fn(&[u8], &Loan) -> Report;

/// The real part, if it is linked.
pub fn under_test() -> Option<Call<'static>> {
    #[cfg(feature = "engine")]
    return Some(&crate::engine::stages);
    #[cfg(not(feature = "engine"))]
    return None;
}

/// Calls the part with a buffer full of garbage and compares every byte it leaves behind. Now and
/// then the case starts at an odd address.
pub fn check(
    call: Call,
    request: &Request,
    expected: &Answer,
    rng: &mut Rng,
) -> Result<(), &'static str> {
    let pattern = rng.pick(&[None, Some(0xee), Some(0xff), Some(0)]);
    let shift = rng.pick(&[0, 0, 1, 7]);
    let mut garbage = || match pattern {
        Some(byte) => u64::from_ne_bytes([byte; 8]),
        None => rng.word(),
    };
    let mut stages = Guarded::new::<u16>(request.room, &mut garbage);
    let loan = Loan {
        stages: stages.lend(),
        room: request.room,
    };
    let report = if shift == 0 {
        call(&request.case, &loan)
    } else {
        let shifted = [&[0xa5; 8][..shift], &request.case].concat();
        call(&shifted[shift..], &loan)
    };
    let findings = [
        (report == expected.report(), "report differs"),
        (
            stages.only_head_changed(expected.written()),
            "stages differ",
        ),
        (stages.guards_kept(), "wrote outside the buffer"),
    ];
    match findings.iter().find(|(good, _)| !good) {
        Some((_, what)) => Err(what),
        None => Ok(()),
    }
}

// ---- Stand-ins, to test the check itself ----

/// A well-behaved part.
pub fn honest(case: &[u8], loan: &Loan) -> Report {
    // SAFETY: the check lends a buffer of this length, and nobody else uses it meanwhile.
    let stages = unsafe { std::slice::from_raw_parts_mut(loan.stages, loan.room) };
    Fast::default().stages(case, stages)
}

/// Something an otherwise honest part does wrong at the end.
pub struct Flaw {
    pub name: &'static str,
    /// Which entry it changes, from the start of the buffer, where this report allows the flaw.
    entry: fn(&Report, usize) -> Option<isize>,
    report: fn(Report) -> Report,
}

impl Flaw {
    /// A well-behaved part but for this flaw.
    pub fn spoil(&self, case: &[u8], loan: &Loan) -> Report {
        let report = honest(case, loan);
        if let Some(entry) = (self.entry)(&report, loan.room) {
            // SAFETY: each flaw names an entry of the buffer, or of the guards around it, which are
            // part of the same allocation.
            unsafe { *loan.stages.wrapping_offset(entry) ^= 1 };
        }
        (self.report)(report)
    }
}

const fn writes(name: &'static str, entry: fn(&Report, usize) -> Option<isize>) -> Flaw {
    Flaw {
        name,
        entry,
        report: |report| report,
    }
}

const fn reports(name: &'static str, report: fn(Report) -> Report) -> Flaw {
    Flaw {
        name,
        entry: |_, _| None,
        report,
    }
}

fn refused(report: &Report, number: u64) -> bool {
    report.kind == 2 && report.first == number
}

/// Every flaw must be found by the check.
pub const FLAWS: [Flaw; 12] = [
    writes("a stage written on refusals 1 to 5", |report, room| {
        (report.kind == 2 && report.first < 6 && room > 0).then_some(0)
    }),
    writes("a stage written on refusal 13", |report, room| {
        (refused(report, 13) && room > 0).then_some(0)
    }),
    writes("a stage written on refusal 6", |report, room| {
        (refused(report, 6) && room > 0).then_some(0)
    }),
    writes("a stage written on refusal 12", |report, _| {
        refused(report, 12).then_some(0)
    }),
    writes("the last entry changed on refusal 12", |report, room| {
        refused(report, 12).then(|| room as isize - 1)
    }),
    writes("an entry past the students", |report, room| {
        (report.kind == 0 && room > report.first as usize).then_some(report.first as isize)
    }),
    writes("the last entry changed", |report, room| {
        (report.kind == 0).then(|| room as isize - 1)
    }),
    writes("an entry after the buffer", |_, room| Some(room as isize)),
    writes("an entry before the buffer", |_, _| Some(-1)),
    reports("a place with refusal 12", |report| match report {
        Report {
            kind: 2, first: 12, ..
        } => Report::refused(12, 1),
        other => other,
    }),
    reports("the number of students is missing", |report| match report {
        Report { kind: 0, .. } => Report::done(0),
        other => other,
    }),
    reports("a second value of a good answer", |report| match report {
        Report { kind: 0, first, .. } => Report {
            kind: 0,
            first,
            second: 1,
        },
        other => other,
    }),
];
