//! The C header: a C compiler takes it, and its types lie in memory as this package has them.

use crate::lending::StudentState;
use crate::stages::Report;
use crate::tally::Tally;
use std::io::Write;
use std::mem::{offset_of, size_of};
use std::process::{Command, Stdio};

/// The prototypes again, as this package calls the functions, and the layouts.
const PROGRAM: &str = r#"
lgs_report lgs_place(const uint8_t *, size_t, const uint8_t *, size_t, uint16_t *, size_t, uint16_t *, size_t,
                     uint16_t *, size_t, uint16_t *, size_t, lgs_student_state *, size_t);
_Static_assert(sizeof(lgs_report) == 40, "report");
_Static_assert(offsetof(lgs_report, first) == 8 && offsetof(lgs_report, second) == 16, "values");
_Static_assert(offsetof(lgs_report, kind) == 0 && offsetof(lgs_report, visits) == 24, "kind and count");
_Static_assert(offsetof(lgs_report, fares) == 32 && sizeof(((lgs_report *)0)->fares) == 8, "total");
_Static_assert(LGS_PLACED == 0 && LGS_NEXT == 1 && LGS_REFUSED == 2, "kinds");
lgs_part_report lgs_stages(const uint8_t *, size_t, uint16_t *, size_t);
_Static_assert(LGS_DONE == 0 && LGS_NO_STAGES == 12, "done and 12");
lgs_part_report lgs_write_wishes(const uint8_t *, size_t, uint8_t *, size_t);
lgs_part_report lgs_read_wishes(const uint8_t *, size_t, const uint8_t *, size_t, uint8_t *, size_t);
_Static_assert(LGS_MOST_STAGES == 512, "most");
"#;

const HEADER: &str = concat!(env!("CARGO_MANIFEST_DIR"), "/../../include/lgs.h");

pub fn run(tally: &mut Tally) {
    let fields = [
        (
            "reached",
            offset_of!(StudentState, reached),
            size_of::<u32>(),
        ),
        ("held", offset_of!(StudentState, held), size_of::<u32>()),
        ("openings", offset_of!(StudentState, open), size_of::<u64>()),
    ];
    let mut program = format!("#include \"{HEADER}\"\n{PROGRAM}");
    program += &assertion("sizeof(lgs_student_state)", size_of::<StudentState>());
    for (name, offset, size) in fields {
        program += &assertion(&format!("offsetof(lgs_student_state, {name})"), offset);
        program += &assertion(&format!("sizeof(((lgs_student_state *)0)->{name})"), size);
    }
    let fields = [
        ("kind", offset_of!(Report, kind)),
        ("first", offset_of!(Report, first)),
        ("second", offset_of!(Report, second)),
    ];
    program += &assertion("sizeof(lgs_part_report)", size_of::<Report>());
    for (name, offset) in fields {
        program += &assertion(&format!("offsetof(lgs_part_report, {name})"), offset);
        let size = format!("sizeof(((lgs_part_report *)0)->{name})");
        program += &assertion(&size, size_of::<u64>());
    }
    match compiles(&program) {
        Ok(good) => tally.check(good, || "the header differs".to_string()),
        Err(error) => tally.note(&format!("skipped, no C compiler: {error}")),
    }
}

fn assertion(what: &str, number: usize) -> String {
    format!("_Static_assert({what} == {number}, \"{what}\");\n")
}

fn compiles(program: &str) -> std::io::Result<bool> {
    let mut compiler = Command::new("cc")
        .args([
            "-std=c11",
            "-Wall",
            "-Wextra",
            "-Werror",
            "-fsyntax-only",
            "-xc",
            "-",
        ])
        .stdin(Stdio::piped())
        .spawn()?;
    let mut input = compiler.stdin.take().expect("it is piped");
    input.write_all(program.as_bytes())?;
    drop(input);
    Ok(compiler.wait()?.success())
}
