//! Broken references of the wish lines. The suite must tell each of them from the right one.
//!
//! A reader that accepts too much is the right one behind something that mends the text.

use super::{
    answer, cut_line, item_text, misnames, named_in, room_for_text, wishes, Answer, Group, Named,
    Request, Task, FORM, NAMES, NONE,
};
use crate::literal;
use crate::model::*;
use crate::mutants::{earlier_lot, lots_before, number_lots, SLIPS_OF_FARES, SLIPS_OF_LOTS};

pub struct Mutant {
    pub name: &'static str,
    pub answer: Box<dyn Fn(&Request) -> Answer>,
}

fn mutant(name: &'static str, answer: impl Fn(&Request) -> Answer + 'static) -> Mutant {
    Mutant {
        name,
        answer: Box::new(answer),
    }
}

/// Without a slip; they must agree with the right one.
pub fn controls() -> Vec<Mutant> {
    vec![
        mutant("no slip", answer),
        on_text("no character mended", |_, text| text.to_vec()),
        on_line("no line mended", |line, _| line.to_vec()),
        on_names("no name mended", |_, _, named| named),
        on_lines("lines written with nothing changed", |_, _, wishes| {
            line(&Style::RIGHT, wishes)
        }),
        on_copy("nothing put into the copy", |_, _| ()),
        on_refused("the same refusal", |_, refusal| refusal),
    ]
}

/// Slips that small cases show.
pub fn all() -> Vec<Mutant> {
    let mut mutants: Vec<Mutant> = Vec::new();
    mutants.extend(OF_TEXT.map(|(name, mend)| on_text(name, mend)));
    mutants.extend(OF_LINES_READ.map(|(name, mend)| on_line(name, mend)));
    mutants.extend(OF_NAMES.map(|(name, mend)| on_names(name, mend)));
    mutants.extend(OF_LINES_WRITTEN.map(|(name, line)| on_lines(name, line)));
    mutants.extend(OF_TEXT_WRITTEN.map(|(name, change)| on_written(name, change)));
    mutants.extend(OF_COPIES.map(|(name, change)| on_copy(name, change)));
    mutants.extend(OF_REFUSALS.map(|(name, change)| on_refused(name, change)));
    mutants.extend(OF_ORDER.map(|(name, other)| mutant(name, other)));
    mutants.extend(OF_ROOM.map(|(name, other)| mutant(name, other)));
    mutants.extend(of_case_bytes());
    mutants
}

/// Slips that show only where there are many people.
pub fn of_size() -> Vec<Mutant> {
    vec![
        on_copy("64 groups at most", |_, copy| {
            each_group(copy, |_, group| group.min(64))
        }),
        on_copy("groups in 6 bits", |_, copy| {
            each_group(copy, |_, group| group & 63)
        }),
        on_lines("forgets workshop 64", |_, _, wishes| {
            line(&Style::RIGHT, &without(wishes, |item| item == 64))
        }),
        on_names("forgets workshop 64 in a text", |_, _, named| {
            let kept = |item: &Option<Vec<u8>>| item.as_deref() != Some(b"64");
            named_where(named, kept)
        }),
        on_written("forgets student 512", |_, text| {
            let end = text.windows(5).position(|five| five == b"\n512:");
            text[..end.map_or(text.len(), |end| end + 1)].to_vec()
        }),
        on_line("numbers of two digits at most", |line, student| {
            let digits = student.to_string();
            let wrong = [&digits.as_bytes()[digits.len().saturating_sub(2)..], b":"].concat();
            if digits.len() > 2 && line.starts_with(digits.as_bytes()) {
                return [&wrong[..], line].concat();
            }
            line.to_vec()
        }),
    ]
}

fn refused((number, place): (u16, usize)) -> Answer {
    Answer::Refused { number, place }
}

/// The case of a request that has passed causes 1 to 13.
fn case_of(request: &Request) -> Option<Case> {
    literal::read_case(&request.case).ok()
}

fn students(request: &Request) -> usize {
    let records = request.case.chunks(CASE_RECORD);
    records.take_while(|record| record[0] == 1).count()
}

// ---- Texts that are mended ----

type MendText = fn(usize, &[u8]) -> Vec<u8>;

/// The right one, after the text has been mended, for so many students.
fn on_text(name: &'static str, mend: MendText) -> Mutant {
    mutant(name, move |request| match &request.task {
        Task::Write => answer(request),
        Task::Read(text) => answer(&Request {
            task: Task::Read(mend(students(request), text)),
            ..request.clone()
        }),
    })
}

const OF_TEXT: [(&str, MendText); 9] = [
    (
        "a missing line feed at the end accepted",
        |_, text| match text.last() {
            Some(b'\n') | None => text.to_vec(),
            Some(_) => [text, b"\n"].concat(),
        },
    ),
    ("what is left over accepted", |students, text| {
        lines_of(text).take(students).collect::<Vec<_>>().concat()
    }),
    ("an empty line at the end accepted", |_, text| {
        text.strip_suffix(b"\n\n")
            .map_or(text.to_vec(), |text| [text, b"\n"].concat())
    }),
    ("empty lines accepted", |_, text| {
        lines_of(text)
            .filter(|line| *line != b"\n")
            .collect::<Vec<_>>()
            .concat()
    }),
    ("carriage returns accepted", |_, text| {
        replaced(text, b"\r\n", b"\n")
    }),
    ("a carriage return alone accepted", |_, text| {
        replaced(text, b"\r", b"\n")
    }),
    ("NUL passed over", |_, text| replaced(text, b"\0", b"")),
    ("lines missing at the end accepted", |students, text| {
        let mut text = text.to_vec();
        for student in lines_of(&text.clone()).count() + 1..=students {
            text.extend(format!("{student}: -\n").bytes());
        }
        text
    }),
    ("lines in any order", |_, text| {
        let mut lines: Vec<&[u8]> = lines_of(text).collect();
        lines.sort_by_key(|line| {
            line.iter()
                .position(|&byte| byte == b':')
                .map(|end| (end, &line[..end]))
        });
        lines.concat()
    }),
];

fn lines_of(text: &[u8]) -> impl Iterator<Item = &[u8]> {
    text.split_inclusive(|&byte| byte == b'\n')
}

/// Every place where the one stands gets the other.
fn replaced(text: &[u8], one: &[u8], other: &[u8]) -> Vec<u8> {
    let mut all = Vec::new();
    let mut rest = text;
    while let Some(&byte) = rest.first() {
        match rest.strip_prefix(one) {
            Some(behind) => {
                all.extend(other);
                rest = behind;
            }
            None => {
                all.push(byte);
                rest = &rest[1..];
            }
        }
    }
    all
}

/// A line with its line feed, if it has one, and its student.
type MendLine = fn(&[u8], usize) -> Vec<u8>;

/// The right one, after each line has been mended.
fn on_line(name: &'static str, mend: MendLine) -> Mutant {
    mutant(name, move |request| match &request.task {
        Task::Write => answer(request),
        Task::Read(text) => {
            let lines = lines_of(text).zip(1..);
            let mended: Vec<Vec<u8>> = lines.map(|(line, student)| mend(line, student)).collect();
            answer(&Request {
                task: Task::Read(mended.concat()),
                ..request.clone()
            })
        }
    })
}

const OF_LINES_READ: [(&str, MendLine); 27] = [
    ("a zero before a workshop's number accepted", |line, _| {
        let (head, tail) = halves(line);
        let mut mended = head.to_vec();
        for (at, &byte) in tail.iter().enumerate() {
            let starts = at == 0 || !tail[at - 1].is_ascii_digit();
            let digit_next = tail.get(at + 1).is_some_and(u8::is_ascii_digit);
            if byte != b'0' || !starts || !digit_next {
                mended.push(byte);
            }
        }
        mended
    }),
    ("a zero before the student's number accepted", |line, _| {
        line.strip_prefix(b"0").unwrap_or(line).to_vec()
    }),
    ("workshop 0 passed over", |line, _| {
        let line = replaced(line, b",0\n", b"\n");
        let line = replaced(&line, b"{0,", b"{");
        replaced(&line, b",0,", b",")
    }),
    ("workshop 0 taken for none", |line, _| {
        let line = replaced(line, b",0\n", b",-\n");
        replaced(&line, b"{0,", b"{-,")
    }),
    ("one item in braces accepted", |line, _| {
        let mut mended = line.to_vec();
        while let Some((open, close)) = braces(&mended, |inside| {
            !inside.contains(&b',') && !inside.is_empty()
        }) {
            mended.remove(close);
            mended.remove(open);
        }
        mended
    }),
    ("empty braces accepted", |line, _| {
        let line = replaced(line, b",{}", b"");
        replaced(&line, b"{},", b"")
    }),
    ("empty braces taken for none", |line, _| {
        replaced(line, b"{}", b"-")
    }),
    ("an empty group accepted", |line, _| {
        let line = replaced(line, b",,", b",");
        replaced(&line, b": ,", b": ")
    }),
    ("a comma at the end accepted", |line, _| {
        replaced(line, b",\n", b"\n")
    }),
    ("a comma at the end of braces accepted", |line, _| {
        replaced(line, b",}", b"}")
    }),
    ("a line without none accepted", |line, _| {
        if line.contains(&b'-') {
            return line.to_vec();
        }
        replaced(line, b"\n", b",-\n")
    }),
    ("none twice accepted", |line, _| {
        let first = line.iter().position(|&byte| byte == b'-');
        let (head, tail) = line.split_at(first.map_or(line.len(), |at| at + 1));
        [head, &replaced(tail, b",-", b"")].concat()
    }),
    ("-- accepted", |line, _| replaced(line, b"--", b"-")),
    ("blanks behind commas accepted", |line, _| {
        replaced(line, b", ", b",")
    }),
    ("blanks at the end accepted", |line, _| {
        replaced(line, b" \n", b"\n")
    }),
    ("two blanks accepted", |line, _| {
        replaced(line, b":  ", b": ")
    }),
    ("a blank before the colon accepted", |line, _| {
        replaced(line, b" :", b":")
    }),
    ("a blank before the line accepted", |line, _| {
        line.strip_prefix(b" ").unwrap_or(line).to_vec()
    }),
    ("no blank behind the colon accepted", |line, _| {
        let line = replaced(line, b": ", b":");
        replaced(&line, b":", b": ")
    }),
    ("a tab behind the colon accepted", |line, _| {
        replaced(line, b":\t", b": ")
    }),
    ("a closing brace missing at the end accepted", |line, _| {
        let opened = line.iter().filter(|&&byte| byte == b'{').count();
        let closed = line.iter().filter(|&&byte| byte == b'}').count();
        match opened > closed {
            true => replaced(line, b"\n", b"}\n"),
            false => line.to_vec(),
        }
    }),
    ("braces in braces accepted", |line, _| {
        let line = replaced(line, b"{{", b"{");
        replaced(&line, b"}}", b"}")
    }),
    ("a comma between groups may be missing", |line, _| {
        let line = replaced(line, b"}", b"},");
        let line = replaced(&line, b",,", b",");
        replaced(&line, b",\n", b"\n")
    }),
    ("the student's number not read", |line, student| {
        let (head, tail) = halves(line);
        match head {
            [digits @ .., b':', b' ']
                if !digits.is_empty() && digits.iter().all(u8::is_ascii_digit) =>
            {
                [format!("{student}: ").as_bytes(), tail].concat()
            }
            _ => line.to_vec(),
        }
    }),
    (
        "the student's number wraps at 2^8 and 2^16",
        |line, student| head_wrapped(line, student, |number| number & 0xffff),
    ),
    ("the student's number wraps at 2^32", |line, student| {
        head_wrapped(line, student, |number| number & 0xffff_ffff)
    }),
    ("the student's number wraps at 2^64", |line, student| {
        head_wrapped(line, student, |number| number & u128::from(u64::MAX))
    }),
];

/// The line up to the blank behind the colon, and the rest.
fn halves(line: &[u8]) -> (&[u8], &[u8]) {
    let head = line.windows(2).position(|two| two == b": ");
    line.split_at(head.map_or(0, |at| at + 2))
}

/// An opening brace and the next closing one, with what this holds of between them.
fn braces(line: &[u8], inside: impl Fn(&[u8]) -> bool) -> Option<(usize, usize)> {
    let opens = (0..line.len()).filter(|&at| line[at] == b'{');
    let mut both = opens.filter_map(|open| {
        let length = line[open + 1..].iter().position(|&byte| byte == b'}')?;
        Some((open, open + 1 + length))
    });
    both.find(|&(open, close)| inside(&line[open + 1..close]))
}

/// A number by its digits that wraps at 2 to the power 128.
fn wrapped(digits: &[u8]) -> u128 {
    digits.iter().fold(0u128, |number, digit| {
        number
            .wrapping_mul(10)
            .wrapping_add(u128::from(digit - b'0'))
    })
}

/// The line with its student's number right, if it is right after the wrapping.
fn head_wrapped(line: &[u8], student: usize, wrap: fn(u128) -> u128) -> Vec<u8> {
    let (head, tail) = halves(line);
    match head {
        [digits @ .., b':', b' '] if digits.iter().all(u8::is_ascii_digit) => {
            let right = !digits.starts_with(b"0") && wrap(wrapped(digits)) == student as u128;
            let head = if right {
                format!("{student}: ").into_bytes()
            } else {
                head.to_vec()
            };
            [&head[..], tail].concat()
        }
        _ => line.to_vec(),
    }
}

// ---- Names that are mended ----

/// Groups of a line with digits of their own.
type Owned = Vec<Vec<Option<Vec<u8>>>>;

type MendNames = fn(&Case, u16, Owned) -> Owned;

/// The right one, after the names of each line that has the form have been mended.
fn on_names(name: &'static str, mend: MendNames) -> Mutant {
    mutant(name, move |request| {
        let (Task::Read(text), Some(case)) = (&request.task, case_of(request)) else {
            return answer(request);
        };
        let lines = lines_of(text).zip(1..);
        let mended: Vec<Vec<u8>> = lines
            .map(|(line, student)| {
                let named = line
                    .strip_suffix(b"\n")
                    .and_then(|line| named_in(line, student));
                match named {
                    Some(named) => text_of(student, &mend(&case, student, owned(&named))),
                    None => line.to_vec(),
                }
            })
            .collect();
        answer(&Request {
            task: Task::Read(mended.concat()),
            ..request.clone()
        })
    })
}

fn owned(named: &Named) -> Owned {
    let group =
        |group: &Vec<Option<&[u8]>>| group.iter().map(|item| item.map(<[u8]>::to_vec)).collect();
    named.iter().map(group).collect()
}

fn text_of(student: u16, named: &Owned) -> Vec<u8> {
    let item = |item: &Option<Vec<u8>>| item.clone().unwrap_or(b"-".to_vec());
    let group = |group: &Vec<Option<Vec<u8>>>| {
        let items = group.iter().map(item).collect::<Vec<_>>().join(&b',');
        match group.len() {
            1 => items,
            _ => [b"{", &items[..], b"}"].concat(),
        }
    };
    let groups = named.iter().map(group).collect::<Vec<_>>().join(&b',');
    [format!("{student}: ").as_bytes(), &groups, b"\n"].concat()
}

fn named_where(named: Owned, kept: impl FnMut(&Option<Vec<u8>>) -> bool + Copy) -> Owned {
    let mut named = named;
    named.iter_mut().for_each(|group| group.retain(kept));
    named.retain(|group| !group.is_empty());
    named
}

/// The workshops that the student has a pair with, as digits.
fn hers(case: &Case, student: u16) -> Vec<Vec<u8>> {
    let pairs = case.pairs.iter().filter(|pair| pair.student == student);
    pairs
        .map(|pair| pair.workshop.to_string().into_bytes())
        .collect()
}

/// The numbers of a line after the wrapping.
fn names_wrapped(named: Owned, wrap: fn(u128) -> u128) -> Owned {
    let number = |digits: &Vec<u8>| wrap(wrapped(digits)).max(1).to_string().into_bytes();
    let group =
        |group: &Vec<Option<Vec<u8>>>| group.iter().map(|item| item.as_ref().map(number)).collect();
    named.iter().map(group).collect()
}

const OF_NAMES: [(&str, MendNames); 15] = [
    ("named twice accepted", |_, _, named| {
        first_names(named, true)
    }),
    ("named twice in one group accepted", |_, _, named| {
        first_names(named, false)
    }),
    ("missing accepted", |case, student, mut named| {
        for digits in hers(case, student) {
            if !named
                .iter()
                .flatten()
                .flatten()
                .any(|other| *other == digits)
            {
                named.push(vec![Some(digits)]);
            }
        }
        named
    }),
    ("no names at all accepted", |case, student, mut named| {
        if named.len() == 1 && named[0].len() == 1 {
            named.extend(
                hers(case, student)
                    .into_iter()
                    .map(|digits| vec![Some(digits)]),
            );
        }
        named
    }),
    ("without a pair accepted", |case, student, named| {
        let hers = hers(case, student);
        named_where(named, |item| {
            item.as_ref().is_none_or(|digits| hers.contains(digits))
        })
    }),
    (
        "without a pair, but in the case, accepted",
        |case, student, named| {
            let hers = hers(case, student);
            let known = case.workshops.len() as u128;
            named_where(named, |item| {
                item.as_ref().is_none_or(|digits| {
                    let in_case = digits.len() < 4 && wrapped(digits) <= known;
                    hers.contains(digits) || !in_case
                })
            })
        },
    ),
    ("numbers above 64 passed over", |_, _, named| {
        named_where(named, |item| {
            item.as_ref()
                .is_none_or(|digits| digits.len() < 4 && wrapped(digits) <= 64)
        })
    }),
    (
        "numbers of hundreds of digits passed over",
        |_, _, named| {
            named_where(named, |item| {
                item.as_ref().is_none_or(|digits| digits.len() < 100)
            })
        },
    ),
    ("numbers wrap at 2^8", |_, _, named| {
        names_wrapped(named, |number| number & 0xff)
    }),
    ("numbers wrap at 2^16", |_, _, named| {
        names_wrapped(named, |number| number & 0xffff)
    }),
    ("numbers wrap at 2^31", |_, _, named| {
        names_wrapped(named, |number| number & 0x7fff_ffff)
    }),
    ("numbers wrap at 2^32", |_, _, named| {
        names_wrapped(named, |number| number & 0xffff_ffff)
    }),
    ("numbers wrap at 2^63", |_, _, named| {
        names_wrapped(named, |number| number & u128::from(u64::MAX >> 1))
    }),
    ("numbers wrap at 2^64", |_, _, named| {
        names_wrapped(named, |number| number & u128::from(u64::MAX))
    }),
    ("numbers wrap at 2^128", |_, _, named| {
        names_wrapped(named, |number| number)
    }),
];

/// The first time that each item is named in the line, or in the group.
fn first_names(mut named: Owned, in_line: bool) -> Owned {
    let mut seen = Vec::new();
    for group in &mut named {
        if !in_line {
            seen.clear();
        }
        group.retain(|item| {
            let first = !seen.contains(item);
            seen.push(item.clone());
            first
        });
    }
    named.retain(|group| !group.is_empty());
    named
}

// ---- Lines that are written ----

/// How a line is put together.
#[derive(Clone, Copy)]
struct Style {
    colon: &'static str,
    between_groups: &'static str,
    between_items: &'static str,
    open: &'static str,
    close: &'static str,
    /// Braces are around groups with so many items, and more.
    braces_from: usize,
    end: &'static str,
}

impl Style {
    const RIGHT: Style = Style {
        colon: ": ",
        between_groups: ",",
        between_items: ",",
        open: "{",
        close: "}",
        braces_from: 2,
        end: "\n",
    };
}

/// The line behind the student's number.
fn line(style: &Style, wishes: &[Group]) -> String {
    let group = |group: &Group| {
        let items: Vec<String> = group.iter().map(|&item| item_text(item)).collect();
        let items = items.join(style.between_items);
        match group.len() >= style.braces_from {
            true => format!("{}{items}{}", style.open, style.close),
            false => items,
        }
    };
    let groups: Vec<String> = wishes.iter().map(group).collect();
    format!(
        "{}{}{}",
        style.colon,
        groups.join(style.between_groups),
        style.end
    )
}

type WriteLine = fn(&Case, u16, &[Group]) -> String;

/// The right one, but for each line behind its number.
fn on_lines(name: &'static str, line: WriteLine) -> Mutant {
    mutant(name, move |request| {
        match (answer(request), case_of(request)) {
            (Answer::Done(_), Some(case)) if request.writes() => {
                let numbers = 1..=case.students.len() as u16;
                let write = |s: u16| format!("{s}{}", line(&case, s, &wishes(&case, s)));
                let lines: Vec<String> = numbers.map(write).collect();
                Answer::Done(lines.concat().into_bytes())
            }
            (right, _) => right,
        }
    })
}

/// The groups with their items in another order.
fn rearranged(wishes: &[Group], change: fn(&mut Group)) -> Vec<Group> {
    let mut wishes = wishes.to_vec();
    wishes.iter_mut().for_each(change);
    wishes
}

fn without(wishes: &[Group], gone: fn(u16) -> bool) -> Vec<Group> {
    let mut wishes = wishes.to_vec();
    for group in &mut wishes {
        group.retain(|&item| !gone(item));
    }
    wishes.retain(|group| !group.is_empty());
    wishes
}

const OF_LINES_WRITTEN: [(&str, WriteLine); 18] = [
    ("items falling", |_, _, wishes| {
        line(&Style::RIGHT, &rearranged(wishes, |group| group.reverse()))
    }),
    ("items rise as text", |_, _, wishes| {
        line(
            &Style::RIGHT,
            &rearranged(wishes, |group| group.sort_by_key(|&item| item_text(item))),
        )
    }),
    ("none last in braces", |_, _, wishes| {
        let last = |group: &mut Group| group.sort_by_key(|&item| (item == NONE, item));
        line(&Style::RIGHT, &rearranged(wishes, last))
    }),
    ("workshops fall behind none", |_, _, wishes| {
        let falling =
            |group: &mut Group| group.sort_by_key(|&item| (item != NONE, u16::MAX - item));
        line(&Style::RIGHT, &rearranged(wishes, falling))
    }),
    ("one item in braces", |_, _, wishes| {
        let style = Style {
            braces_from: 1,
            ..Style::RIGHT
        };
        line(&style, wishes)
    }),
    ("two items without braces", |_, _, wishes| {
        let style = Style {
            braces_from: 3,
            ..Style::RIGHT
        };
        line(&style, wishes)
    }),
    ("no braces", |_, _, wishes| {
        let style = Style {
            braces_from: 99,
            ..Style::RIGHT
        };
        line(&style, wishes)
    }),
    ("round brackets", |_, _, wishes| {
        let style = Style {
            open: "(",
            close: ")",
            ..Style::RIGHT
        };
        line(&style, wishes)
    }),
    ("a blank behind each comma", |_, _, wishes| {
        let style = Style {
            between_groups: ", ",
            ..Style::RIGHT
        };
        line(&style, wishes)
    }),
    ("a blank behind each comma in braces", |_, _, wishes| {
        let style = Style {
            between_items: ", ",
            ..Style::RIGHT
        };
        line(&style, wishes)
    }),
    ("no blank behind the colon", |_, _, wishes| {
        let style = Style {
            colon: ":",
            ..Style::RIGHT
        };
        line(&style, wishes)
    }),
    ("carriage return and line feed", |_, _, wishes| {
        let style = Style {
            end: "\r\n",
            ..Style::RIGHT
        };
        line(&style, wishes)
    }),
    ("worst first", |_, _, wishes| {
        let turned: Vec<Group> = wishes.iter().rev().cloned().collect();
        line(&Style::RIGHT, &turned)
    }),
    ("what is behind none left out", |_, _, wishes| {
        let none = wishes
            .iter()
            .position(|group| group.contains(&NONE))
            .unwrap_or(0);
        line(&Style::RIGHT, &wishes[..=none])
    }),
    ("none always apart", |_, _, wishes| {
        let at = wishes
            .iter()
            .position(|group| group.contains(&NONE))
            .unwrap_or(0);
        let mut apart = without(wishes, |item| item == NONE);
        apart.insert(at.min(apart.len()), vec![NONE]);
        line(&Style::RIGHT, &apart)
    }),
    ("none left out", |_, _, wishes| {
        line(&Style::RIGHT, &without(wishes, |item| item == NONE))
    }),
    ("gaps kept", |case, student, wishes| {
        let mut text = String::new();
        let last_group = wishes
            .last()
            .map_or(0, |group| group_number(case, student, group[0]));
        for number in 1..=last_group {
            let group = wishes
                .iter()
                .find(|group| group_number(case, student, group[0]) == number);
            text += if number > 1 { "," } else { "" };
            if let Some(group) = group {
                let bare = Style {
                    colon: "",
                    end: "",
                    ..Style::RIGHT
                };
                text += &line(&bare, std::slice::from_ref(group));
            }
        }
        format!(": {text}\n")
    }),
    ("the workshops' groups", |case, student, _| {
        let mut turned = case.clone();
        for pair in &mut turned.pairs {
            pair.student_group = pair.workshop_group;
        }
        line(&Style::RIGHT, &wishes(&turned, student))
    }),
];

/// The number of the group in which the student has an item.
fn group_number(case: &Case, student: u16, item: u16) -> u16 {
    let found = case
        .pairs
        .iter()
        .find(|p| p.student == student && p.workshop == item);
    found.map_or(case.students[usize::from(student) - 1].line, |pair| {
        pair.student_group
    })
}

type ChangeText = fn(&Case, &[u8]) -> Vec<u8>;

/// The right text, changed.
fn on_written(name: &'static str, change: ChangeText) -> Mutant {
    mutant(name, move |request| {
        match (answer(request), case_of(request)) {
            (Answer::Done(text), Some(case)) if request.writes() => {
                Answer::Done(change(&case, &text))
            }
            (right, _) => right,
        }
    })
}

const OF_TEXT_WRITTEN: [(&str, ChangeText); 6] = [
    ("the last line feed left out", |_, text| {
        text[..text.len() - 1].to_vec()
    }),
    ("a NUL at the end", |_, text| [text, b"\0"].concat()),
    ("an empty line at the end", |_, text| [text, b"\n"].concat()),
    ("students without pairs left out", |case, text| {
        let has = |student: u16| case.pairs.iter().any(|pair| pair.student == student);
        let lines = lines_of(text).zip(1..);
        lines
            .filter(|&(_, s)| has(s))
            .map(|(line, _)| line)
            .collect::<Vec<_>>()
            .concat()
    }),
    ("the last student left out", |_, text| {
        let lines: Vec<&[u8]> = lines_of(text).collect();
        lines[..lines.len() - 1].concat()
    }),
    ("the last character left out", |_, text| {
        let mut text = text.to_vec();
        text.remove(text.len() - 2);
        text
    }),
];

// ---- Copies ----

type ChangeCopy = fn(&Request, &mut Vec<u8>);

/// The right copy, changed.
fn on_copy(name: &'static str, change: ChangeCopy) -> Mutant {
    mutant(name, move |request| match answer(request) {
        Answer::Done(mut copy) if !request.writes() => {
            change(request, &mut copy);
            Answer::Done(copy)
        }
        right => right,
    })
}

/// Changes the lines and the groups, each told the kind of its record.
fn each_group(copy: &mut [u8], change: impl Fn(u8, u16) -> u16) {
    for record in copy
        .chunks_exact_mut(CASE_RECORD)
        .filter(|record| record[0] != 2)
    {
        let group = u16::from_le_bytes([record[6], record[7]]);
        let group = change(record[0], group);
        record[6..8].copy_from_slice(&group.to_le_bytes());
    }
}

/// Changes the records of a kind.
fn each_record(copy: &mut [u8], kind: u8, change: impl Fn(&mut [u8])) {
    let records = copy.chunks_exact_mut(CASE_RECORD);
    records.filter(|record| record[0] == kind).for_each(change);
}

const OF_COPIES: [(&str, ChangeCopy); 19] = [
    ("lines one too high", |_, copy| {
        each_group(copy, |kind, group| group + u16::from(kind == 1))
    }),
    ("lines counted from 0", |_, copy| {
        each_group(copy, |kind, group| group - u16::from(kind == 1))
    }),
    ("groups counted from 0", |_, copy| {
        each_group(copy, |kind, group| group - u16::from(kind == 3))
    }),
    ("lines and groups counted from 0", |_, copy| {
        each_group(copy, |_, group| group - 1)
    }),
    ("none's group not counted", |_, copy| {
        let lines: Vec<u16> = copy
            .chunks(CASE_RECORD)
            .take_while(|r| r[0] == 1)
            .map(|r| u16::from(r[6]))
            .collect();
        each_record(copy, 3, |record| {
            let line = lines[usize::from(record[2]) - 1];
            record[6] -= u8::from(u16::from(record[6]) > line);
        });
    }),
    ("the lines of the case kept", |request, copy| {
        keep(&request.case, copy, 1)
    }),
    ("the groups of the case kept", |request, copy| {
        keep(&request.case, copy, 3)
    }),
    (
        "the group numbers of the case kept, where there are as many",
        |request, copy| {
            let case = literal::read_case(&request.case).expect("it was not refused");
            for student in 1..=case.students.len() as u16 {
                let hers = case.pairs.iter().filter(|pair| pair.student == student);
                let mut numbers: Vec<u16> = hers.map(|pair| pair.student_group).collect();
                numbers.push(case.students[usize::from(student) - 1].line);
                numbers.sort_unstable();
                numbers.dedup();
                for record in copy.chunks_exact_mut(CASE_RECORD) {
                    let own = record[0] != 2 && record[2..4] == student.to_le_bytes();
                    if let Some(number) = numbers
                        .get(usize::from(record[6]).wrapping_sub(1))
                        .filter(|_| own)
                    {
                        record[6] = *number as u8;
                    }
                }
            }
        },
    ),
    ("high byte first", |_, copy| {
        each_group(copy, |_, group| group.swap_bytes())
    }),
    ("at the workshop's group", |_, copy| {
        each_record(copy, 3, |record| record.copy_within(6..8, 8))
    }),
    ("the line put at the lot", |_, copy| {
        each_record(copy, 1, |record| record.copy_within(6..8, 8))
    }),
    ("the line put at the stage", |_, copy| {
        each_record(copy, 1, |record| record.copy_within(6..8, 4))
    }),
    ("the workshops' lines changed", |_, copy| {
        each_record(copy, 2, |record| record[6..8].fill(1))
    }),
    ("a lot lost", |_, copy| {
        each_record(copy, 1, |record| record[8..10].fill(0))
    }),
    ("a stage lost", |_, copy| {
        each_record(copy, 1, |record| record[4..6].fill(0))
    }),
    ("the high byte of a fare lost", |_, copy| {
        each_record(copy, 3, |record| record[11] = 0)
    }),
    ("the high byte of a workshop's group lost", |_, copy| {
        each_record(copy, 3, |record| record[9] = 0)
    }),
    ("the last pair not changed", |request, copy| {
        let last = copy.len() - CASE_RECORD;
        if copy[last] == 3 {
            copy[last..].copy_from_slice(&request.case[last..]);
        }
    }),
    ("the last record left out", |_, copy| {
        copy.truncate(copy.len() - CASE_RECORD)
    }),
];

/// The groups, or the lines, of the case.
fn keep(case: &[u8], copy: &mut [u8], kind: u8) {
    let records = copy
        .chunks_exact_mut(CASE_RECORD)
        .zip(case.chunks_exact(CASE_RECORD));
    for (record, old) in records.filter(|(record, _)| record[0] == kind) {
        record[6..8].copy_from_slice(&old[6..8]);
    }
}

// ---- Refusals ----

type ChangeRefusal = fn(&Request, (u16, usize)) -> (u16, usize);

/// The right refusal, changed.
fn on_refused(name: &'static str, change: ChangeRefusal) -> Mutant {
    mutant(name, move |request| match answer(request) {
        Answer::Refused { number, place } => refused(change(request, (number, place))),
        right => right,
    })
}

const OF_REFUSALS: [(&str, ChangeRefusal); 18] = [
    ("15 for 14", |_, (number, place)| {
        (if number == FORM { NAMES } else { number }, place)
    }),
    ("14 for 15", |_, (number, place)| {
        (if number == NAMES { FORM } else { number }, place)
    }),
    ("14 without its place", |_, (number, place)| {
        (number, if number == FORM { 0 } else { place })
    }),
    ("15 without its place", |_, (number, place)| {
        (number, if number == NAMES { 0 } else { place })
    }),
    ("14 with the place from 1", |_, (number, place)| {
        (number, place + usize::from(number == FORM))
    }),
    ("15 with the place from 1", |_, (number, place)| {
        (number, place + usize::from(number == NAMES))
    }),
    (
        "left over, with the last line's place",
        |request, (number, place)| {
            (
                number,
                place - usize::from(number == FORM && place == students(request)),
            )
        },
    ),
    ("left over, with place 0", |request, (number, place)| {
        (
            number,
            if number == FORM && place == students(request) {
                0
            } else {
                place
            },
        )
    }),
    (
        "left over, with the place of its last line",
        |request, (number, place)| {
            let lines = lines_of(request.text()).count();
            let over = number == FORM && place == students(request);
            (number, if over { lines - 1 } else { place })
        },
    ),
    (
        "a missing line, with the place of the last one",
        |request, (number, place)| {
            let missing = number == FORM && place == lines_of(request.text()).count();
            (
                number,
                if missing {
                    place.saturating_sub(1)
                } else {
                    place
                },
            )
        },
    ),
    (
        "a missing line, with the last student's place",
        |request, (number, place)| {
            let missing = number == FORM && place == lines_of(request.text()).count();
            (number, if missing { students(request) } else { place })
        },
    ),
    ("15 for a missing line", |request, (number, place)| {
        let missing = number == FORM && place == lines_of(request.text()).count();
        (if missing { NAMES } else { number }, place)
    }),
    ("15 for workshop 0", |request, (number, place)| {
        let zero = number == FORM && departs_only_by_zero(request, place);
        (if zero { NAMES } else { number }, place)
    }),
    (
        "14 for a number of more than three digits",
        |request, (number, place)| long_number(request, (number, place), 3),
    ),
    (
        "14 for a number of more than ten digits",
        |request, (number, place)| long_number(request, (number, place), 10),
    ),
    (
        "14 for a number of more than twenty digits",
        |request, (number, place)| long_number(request, (number, place), 20),
    ),
    (
        "14 for a workshop that is not in the case",
        |request, (number, place)| {
            let named = line_at(request, place).and_then(|line| named_in(line, place as u16 + 1));
            let workshops = request
                .case
                .chunks(CASE_RECORD)
                .filter(|record| record[0] == 2)
                .count() as u128;
            let far = |digits: &&[u8]| digits.len() > 3 || wrapped(digits) > workshops;
            let any = named.is_some_and(|named| named.iter().flatten().flatten().any(far));
            (if number == NAMES && any { FORM } else { number }, place)
        },
    ),
    (
        "14 for a workshop named twice in one group",
        |request, (number, place)| {
            let named = line_at(request, place).and_then(|line| named_in(line, place as u16 + 1));
            let twice = |group: &Vec<Option<&[u8]>>| {
                group
                    .iter()
                    .enumerate()
                    .any(|(at, item)| group[..at].contains(item))
            };
            let any = named.is_some_and(|named| named.iter().any(twice));
            (if number == NAMES && any { FORM } else { number }, place)
        },
    ),
];

/// The line at a place, without its line feed.
fn line_at(request: &Request, place: usize) -> Option<&[u8]> {
    lines_of(request.text()).nth(place)?.strip_suffix(b"\n")
}

/// 14 where a line with wrong names has a number of more than so many digits.
fn long_number(request: &Request, (number, place): (u16, usize), most: usize) -> (u16, usize) {
    let line = line_at(request, place).unwrap_or_default();
    let mut runs = line.split(|byte| !byte.is_ascii_digit());
    let long = number == NAMES && runs.any(|run| run.len() > most);
    (if long { FORM } else { number }, place)
}

/// The line has the form if a workshop 0 is taken for 65.
fn departs_only_by_zero(request: &Request, place: usize) -> bool {
    let line = line_at(request, place).unwrap_or_default();
    let zeros = replaced(line, b",0,", b",65,");
    let zeros = replaced(&zeros, b"{0,", b"{65,");
    let zeros = replaced(&[&zeros, &b"\n"[..]].concat(), b",0\n", b",65\n");
    let zeros = zeros.strip_suffix(b"\n").unwrap_or(&zeros);
    named_in(zeros, place as u16 + 1).is_some()
}

type Other = fn(&Request) -> Answer;

/// What a text is refused for if its causes are tested in another order.
const OF_ORDER: [(&str, Other); 8] = [
    ("15 before 14 in a line", |request| {
        match (answer(request), case_of(request)) {
            (
                Answer::Refused {
                    number: FORM,
                    place,
                },
                Some(case),
            ) if misnames_loosely(request, &case, place) => refused((NAMES, place)),
            (right, _) => right,
        }
    }),
    ("14 over the whole text, then 15", |request| {
        match answer(request) {
            right @ Answer::Refused { number: NAMES, .. } => {
                first_departure(request).map_or(right, |place| refused((FORM, place)))
            }
            right => right,
        }
    }),
    ("15 over the whole text, then 14", |request| {
        match (answer(request), case_of(request)) {
            (right @ Answer::Refused { number: FORM, .. }, Some(case)) => {
                first_misnamed(request, &case).map_or(right, |place| refused((NAMES, place)))
            }
            (right, _) => right,
        }
    }),
    ("what is left over before the lines", |request| {
        match (answer(request), case_of(request)) {
            (right, Some(case)) if !request.writes() && !right.is_refused(6) => {
                let over = lines_of(request.text()).count() > case.students.len();
                if over {
                    refused((FORM, case.students.len()))
                } else {
                    right
                }
            }
            (right, _) => right,
        }
    }),
    ("a missing line before the lines", |request| {
        match (answer(request), case_of(request)) {
            (right, Some(case)) if !request.writes() && !right.is_refused(6) => {
                let lines = request.text().iter().filter(|&&byte| byte == b'\n').count();
                if lines < case.students.len() {
                    refused((FORM, lines))
                } else {
                    right
                }
            }
            (right, _) => right,
        }
    }),
    ("the last faulty line", |request| {
        match (answer(request), case_of(request)) {
            (
                right @ Answer::Refused {
                    number: FORM | NAMES,
                    ..
                },
                Some(case),
            ) => {
                let last = (0..case.students.len())
                    .rev()
                    .find_map(|place| fault_at(request, &case, place));
                last.map_or(right, refused)
            }
            (right, _) => right,
        }
    }),
    ("14 and 15 before 6", |request| match answer(request) {
        right @ Answer::Refused { number: 6, .. } if !request.writes() => {
            match answer(&ample(request)) {
                later @ Answer::Refused { .. } => later,
                Answer::Done(_) => right,
            }
        }
        right => right,
    }),
    ("14 of an empty text before all", |request| {
        match &request.task {
            Task::Read(text) if text.is_empty() => refused((FORM, 0)),
            _ => answer(request),
        }
    }),
];

/// The numbers behind the colon, whatever stands between them, are not those of the pairs.
fn misnames_loosely(request: &Request, case: &Case, place: usize) -> bool {
    if place >= case.students.len() {
        return false;
    }
    let line = lines_of(request.text()).nth(place).unwrap_or_default();
    let (_, tail) = halves(line);
    let runs = tail.split(|byte| !byte.is_ascii_digit());
    let named: Named = runs
        .filter(|run| !run.is_empty())
        .map(|run| vec![Some(run)])
        .collect();
    misnames(case, place as u16 + 1, &named)
}

fn first_departure(request: &Request) -> Option<usize> {
    let students = students(request);
    let mut rest = request.text();
    for place in 0..students {
        let Some((line, behind)) = cut_line(rest) else {
            return Some(place);
        };
        if named_in(line, place as u16 + 1).is_none() {
            return Some(place);
        }
        rest = behind;
    }
    (!rest.is_empty()).then_some(students)
}

fn first_misnamed(request: &Request, case: &Case) -> Option<usize> {
    let mut places = 0..case.students.len();
    places.find(|&place| fault_at(request, case, place).is_some_and(|(number, _)| number == NAMES))
}

/// What is wrong with the line at a place, by itself.
fn fault_at(request: &Request, case: &Case, place: usize) -> Option<(u16, usize)> {
    let student = place as u16 + 1;
    let named = line_at(request, place).and_then(|line| named_in(line, student));
    match named {
        None => Some((FORM, place)),
        Some(named) => misnames(case, student, &named).then_some((NAMES, place)),
    }
}

// ---- Rooms ----

/// The bytes that a good case needs.
fn needed(request: &Request) -> usize {
    let pairs = request
        .case
        .chunks(CASE_RECORD)
        .filter(|record| record[0] == 3)
        .count();
    match request.task {
        Task::Write => room_for_text(students(request), pairs),
        Task::Read(_) => request.case.len(),
    }
}

fn ample(request: &Request) -> Request {
    Request {
        room: request.room.max(needed(request)),
        ..request.clone()
    }
}

/// 6 where the room is below this, and by nothing else; the answer is cut to the room.
fn with_need(request: &Request, need: fn(&Request, &[u8]) -> usize) -> Answer {
    match answer(&ample(request)) {
        Answer::Done(bytes) if request.room < need(request, &bytes) => refused((6, 0)),
        Answer::Done(mut bytes) => {
            bytes.truncate(request.room);
            Answer::Done(bytes)
        }
        // Of a text that is faulty the need is told without an answer.
        Answer::Refused {
            number: FORM | NAMES,
            ..
        } if request.room < need(request, &[]) => refused((6, 0)),
        right => right,
    }
}

/// Another need for a text than the right one.
fn with_text_need(request: &Request, need: fn(&Request, &[u8]) -> usize) -> Answer {
    if request.writes() {
        return with_need(request, need);
    }
    answer(request)
}

/// Another need for a copy than the right one.
fn with_copy_need(request: &Request, need: fn(&Request, &[u8]) -> usize) -> Answer {
    if request.writes() {
        return answer(request);
    }
    with_need(request, need)
}

const OF_ROOM: [(&str, Other); 14] = [
    ("6 only if the text does not fit", |request| {
        with_text_need(request, |_, text| text.len())
    }),
    ("6 by one byte more than the text", |request| {
        with_text_need(request, |_, text| text.len() + 1)
    }),
    ("6 of a text forgotten", |request| {
        with_text_need(request, |_, _| 0)
    }),
    ("6 of a text by one less", |request| {
        with_text_need(request, |request, _| needed(request) - 1)
    }),
    ("6 of a text by one more", |request| {
        with_text_need(request, |request, _| needed(request) + 1)
    }),
    ("6 of a text by 7 for a student", |request| {
        with_text_need(request, |request, _| needed(request) - students(request))
    }),
    ("6 of a text by the case's length", |request| {
        with_text_need(request, |request, _| request.case.len())
    }),
    ("6 of a copy forgotten", |request| {
        with_copy_need(request, |_, _| 0)
    }),
    ("6 of a copy by one less", |request| {
        with_copy_need(request, |request, _| needed(request) - 1)
    }),
    ("6 of a copy by one more", |request| {
        with_copy_need(request, |request, _| needed(request) + 1)
    }),
    ("6 of a copy by the text's length too", |request| {
        with_copy_need(request, |request, _| {
            needed(request).max(request.text().len())
        })
    }),
    ("6 before 5", |request| match answer(request) {
        Answer::Refused { number: 5, .. } if request.room < needed(request) => refused((6, 0)),
        right => right,
    }),
    ("6 before 13", |request| match answer(request) {
        Answer::Refused { number: 13, .. } if request.room < needed(request) => refused((6, 0)),
        right => right,
    }),
    ("6 before all", |request| {
        match request.room < needed(request) {
            true => refused((6, 0)),
            false => answer(request),
        }
    }),
];

// ---- The case ----

/// Slips of lots and fares, as of the engine: each is as good as reading other bytes.
fn of_case_bytes() -> Vec<Mutant> {
    let slips = SLIPS_OF_LOTS.iter().chain(&SLIPS_OF_FARES);
    let misread = slips.map(|&(name, change)| {
        mutant(name, move |request| {
            let mut other = request.clone();
            change(&mut other.case);
            match (answer(request), answer(&other)) {
                (right @ Answer::Done(_), Answer::Done(_)) => right,
                (_, other) => other,
            }
        })
    });
    let mut mutants: Vec<Mutant> = misread.collect();
    mutants.extend([
        mutant("13 forgotten", |request| match answer(request) {
            Answer::Refused { number: 13, .. } => {
                let mut request = request.clone();
                number_lots(&mut request.case);
                answer(&request)
            }
            right => right,
        }),
        on_refused("13 before 5", |request, refusal| {
            lots_before(5, &request.case, refusal)
        }),
        on_refused("13 before 4", |request, refusal| {
            lots_before(4, &request.case, refusal)
        }),
        on_refused(
            "13 names the earlier student",
            |request, (number, place)| (number, earlier_lot(&request.case, number, place)),
        ),
        on_refused("13 without its place", |_, (number, place)| {
            (number, if number == 13 { 0 } else { place })
        }),
    ]);
    mutants
}
