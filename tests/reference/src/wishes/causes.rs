//! Single causes of 14 and 15, each put into a good text, with the place that must be told.

use super::{gen, item_text, Group};
use crate::gen::Rng;
use crate::model::*;

/// A line in pieces.
#[derive(Clone)]
pub struct Draft {
    number: String,
    colon: String,
    groups: Vec<Vec<String>>,
    end: String,
}

/// A text in pieces, and what stands behind its lines.
#[derive(Clone)]
pub struct Sheet {
    lines: Vec<Draft>,
    behind: String,
    workshops: u16,
}

/// Puts the cause into the line at this place and gives the place to be told, or `None` where the
/// line does not allow it.
type Spoil = fn(&mut Rng, &mut Sheet, usize) -> Option<usize>;

pub struct Cause {
    pub name: &'static str,
    pub number: u16,
    /// It spoils one line and leaves the others, and the number of lines, alone.
    pub local: bool,
    pub spoil: Spoil,
}

impl Draft {
    fn new(student: u16, wishes: &[Group]) -> Draft {
        let texts = |group: &Group| group.iter().map(|&item| item_text(item)).collect();
        Draft {
            number: student.to_string(),
            colon: ": ".to_string(),
            groups: wishes.iter().map(texts).collect(),
            end: "\n".to_string(),
        }
    }

    fn text(&self) -> String {
        let groups: Vec<String> = self.groups.iter().map(|items| group_text(items)).collect();
        format!(
            "{}{}{}{}",
            self.number,
            self.colon,
            groups.join(","),
            self.end
        )
    }

    /// Where the items are, as group and place in it, that this holds of.
    fn items(&self, chosen: impl Fn(&str) -> bool) -> Vec<(usize, usize)> {
        let mut found = Vec::new();
        for (g, group) in self.groups.iter().enumerate() {
            let places = (0..group.len()).filter(|&i| chosen(&group[i]));
            found.extend(places.map(|i| (g, i)));
        }
        found
    }

    /// One of the workshops named.
    fn any_workshop(&self, rng: &mut Rng) -> Option<(usize, usize)> {
        let found = self.items(|item| item != "-");
        (!found.is_empty()).then(|| rng.pick(&found))
    }

    fn any_item(&self, rng: &mut Rng) -> (usize, usize) {
        rng.pick(&self.items(|_| true))
    }

    /// A group that has so many items, or more.
    fn any_group(&self, rng: &mut Rng, items: usize) -> Option<usize> {
        let long = (0..self.groups.len()).filter(|&g| self.groups[g].len() >= items);
        let long: Vec<usize> = long.collect();
        (!long.is_empty()).then(|| rng.pick(&long))
    }

    fn take(&mut self, (g, i): (usize, usize)) -> String {
        let item = self.groups[g].remove(i);
        self.groups.retain(|group| !group.is_empty());
        item
    }

    /// A group of one item, at any place.
    fn add_group(&mut self, rng: &mut Rng, item: &str) {
        let at = rng.below(self.groups.len() + 1);
        self.groups.insert(at, vec![item.to_string()]);
    }

    /// An item, in a group of its own or in another one.
    fn add_item(&mut self, rng: &mut Rng, item: &str) {
        let g = rng.below(self.groups.len());
        if rng.chance(50) {
            return self.add_group(rng, item);
        }
        let i = rng.below(self.groups[g].len() + 1);
        self.groups[g].insert(i, item.to_string());
    }

    fn names(&self, item: &str) -> bool {
        self.groups.iter().flatten().any(|other| other == item)
    }

    /// The text of a group with its braces becomes one item, after a change.
    fn rewrite_group(&mut self, g: usize, change: impl FnOnce(String) -> String) {
        let whole = format!("{{{}}}", self.groups[g].join(","));
        self.groups[g] = vec![change(whole)];
    }
}

fn group_text(items: &[String]) -> String {
    match items {
        [alone] => alone.clone(),
        several => format!("{{{}}}", several.join(",")),
    }
}

impl Sheet {
    pub fn new(rng: &mut Rng, case: &Case) -> Sheet {
        let wishes = gen::any_wishes(rng, case);
        let lines = wishes.iter().zip(1..);
        Sheet {
            lines: lines
                .map(|(wishes, student)| Draft::new(student, wishes))
                .collect(),
            behind: String::new(),
            workshops: case.workshops.len() as u16,
        }
    }

    pub fn text(&self) -> Vec<u8> {
        let lines: Vec<String> = self.lines.iter().map(Draft::text).collect();
        (lines.concat() + &self.behind).into_bytes()
    }
}

const fn cause(name: &'static str, number: u16, spoil: Spoil) -> Cause {
    Cause {
        name,
        number,
        local: true,
        spoil,
    }
}

const fn of_text(name: &'static str, spoil: Spoil) -> Cause {
    Cause {
        name,
        number: 14,
        local: false,
        spoil,
    }
}

/// The digits of a number far above the workshops, made from one that is right: what a number of 8,
/// 16, 32, 64 or 128 bits, or a float, would take for it; or hundreds of digits.
pub fn far_above(rng: &mut Rng, number: u16) -> String {
    let number = u128::from(number);
    match rng.below(10) {
        0 => (number + (1 << 8)).to_string(),
        1 => (number + (1 << 16)).to_string(),
        2 => (number + (1 << 31)).to_string(),
        3 => (number + (1 << 32)).to_string(),
        4 => (number + (1 << 63)).to_string(),
        5 => (number + (1 << 64)).to_string(),
        // 2 to the power 128 ends with these digits.
        6 => format!("340282366920938463463374607431768211{}", 456 + number),
        7 => format!("{number}{}", "0".repeat(rng.pick(&[3, 20, 40, 300]))),
        8 => "9".repeat(rng.pick(&[5, 20, 39, 700])),
        _ => format!("1{}{number}", "0".repeat(rng.pick(&[5, 10, 20, 400]))),
    }
}

/// The text has too few or too many lines, or they are not where they should be.
const OF_TEXT: [Cause; 9] = [
    of_text("a line is missing", |_, sheet, at| {
        sheet.lines.remove(at);
        Some(at)
    }),
    of_text("a line is there twice", |_, sheet, at| {
        sheet.lines.insert(at, sheet.lines[at].clone());
        Some(at + 1)
    }),
    of_text("two lines change places", |_, sheet, at| {
        (at + 1 < sheet.lines.len()).then(|| sheet.lines.swap(at, at + 1))?;
        Some(at)
    }),
    of_text("an empty line", |_, sheet, at| {
        sheet.lines[at].number.insert(0, '\n');
        Some(at)
    }),
    of_text("no line feed at the end", |_, sheet, _| {
        let last = sheet.lines.last_mut()?;
        last.end.clear();
        Some(sheet.lines.len() - 1)
    }),
    of_text("no line feed between two lines", |_, sheet, at| {
        (at + 1 < sheet.lines.len()).then(|| sheet.lines[at].end.clear())?;
        Some(at)
    }),
    of_text("characters left over", |rng, sheet, _| {
        let some = ["\n", " ", "\r", "\r\n", "\0", "x", "-", "1: -\n", "\u{1a}"];
        sheet.behind = rng.pick(&some).to_string();
        Some(sheet.lines.len())
    }),
    of_text("a line left over", |rng, sheet, _| {
        let next = sheet.lines.len() + 1;
        let more = format!("\n{}: -\n", next + 1);
        sheet.behind = format!("{next}: -{}", rng.pick(&["\n", "", &more]));
        Some(sheet.lines.len())
    }),
    of_text("carriage returns everywhere", |_, sheet, _| {
        for line in &mut sheet.lines {
            line.end = "\r\n".to_string();
        }
        Some(0)
    }),
];

/// The head of a line or its end departs.
const OF_ENDS: [Cause; 7] = [
    cause("another student's number", 14, |rng, sheet, at| {
        let number: u16 = sheet.lines[at].number.parse().ok()?;
        sheet.lines[at].number = match rng.below(4) {
            0 => far_above(rng, number),
            1 => rng
                .pick(&["", "0", "x", "-", "-1", "+1", "1.", "{1}"])
                .to_string(),
            2 => format!("{number}{}", rng.below(10)),
            _ => (number ^ rng.pick(&[1, 2, 8])).to_string(),
        };
        Some(at)
    }),
    cause("a zero before the student's number", 14, |_, sheet, at| {
        sheet.lines[at].number.insert(0, '0');
        Some(at)
    }),
    cause("no colon and blank", 14, |rng, sheet, at| {
        let others = [
            ":", " ", "", ";", ": :", ":\t", " :", "::", ":-", "=", ":\u{a0}",
        ];
        sheet.lines[at].colon = rng.pick(&others).to_string();
        Some(at)
    }),
    cause("a carriage return", 14, |_, sheet, at| {
        sheet.lines[at].end = "\r\n".to_string();
        Some(at)
    }),
    cause("another end", 14, |rng, sheet, at| {
        let others = [
            "\r", " \n", ",\n", "\t\n", "\0\n", ".\n", "}\n", "{\n", ":\n", ";\n",
        ];
        sheet.lines[at].end = rng.pick(&others).to_string();
        Some(at)
    }),
    cause("a blank elsewhere", 14, |rng, sheet, at| {
        let line = &mut sheet.lines[at];
        let (g, i) = line.any_item(rng);
        let blank = rng.pick(&[" ", " ", " ", "\t", "\u{a0}"]);
        match rng.below(5) {
            0 => line.number.insert_str(0, blank),
            1 => line.colon = format!("{blank}: "),
            2 => line.groups[g][i].insert_str(0, blank),
            3 => line.groups[g][i].push_str(blank),
            _ => line.end = format!("{blank}\n"),
        }
        Some(at)
    }),
    cause("no groups at all", 14, |rng, sheet, at| {
        sheet.lines[at].groups.clear();
        if rng.chance(50) {
            sheet.lines[at].colon = rng.pick(&[":", ""]).to_string();
        }
        Some(at)
    }),
];

/// A group or an item departs.
const OF_GROUPS: [Cause; 14] = [
    cause("no none", 14, |_, sheet, at| {
        let none = sheet.lines[at].items(|item| item == "-")[0];
        sheet.lines[at].take(none);
        Some(at)
    }),
    cause("none twice", 14, |rng, sheet, at| {
        sheet.lines[at].add_item(rng, "-");
        Some(at)
    }),
    cause("none in other signs", 14, |rng, sheet, at| {
        let (g, i) = sheet.lines[at].items(|item| item == "-")[0];
        let others = [
            "--", "0", "none", "\u{2212}", "_", "-1", "1-", "", "{-}", "{}",
        ];
        sheet.lines[at].groups[g][i] = rng.pick(&others).to_string();
        Some(at)
    }),
    cause("a zero before a workshop's number", 14, |rng, sheet, at| {
        let (g, i) = sheet.lines[at].any_workshop(rng)?;
        let zeros = rng.pick(&["0", "00", "0000000000000000"]);
        sheet.lines[at].groups[g][i].insert_str(0, zeros);
        Some(at)
    }),
    cause("workshop 0", 14, |rng, sheet, at| {
        let zeros = rng.pick(&["0", "0", "00"]);
        sheet.lines[at].add_item(rng, zeros);
        Some(at)
    }),
    cause("one item in braces", 14, |_, sheet, at| {
        let groups = &mut sheet.lines[at].groups;
        let alone = groups.iter_mut().find(|group| group.len() == 1)?;
        alone[0] = format!("{{{}}}", alone[0]);
        Some(at)
    }),
    cause("empty braces", 14, |rng, sheet, at| {
        let empty = rng.pick(&["{}", "{,}", "{ }"]);
        sheet.lines[at].add_group(rng, empty);
        Some(at)
    }),
    cause("an empty group", 14, |rng, sheet, at| {
        sheet.lines[at].add_group(rng, "");
        Some(at)
    }),
    cause("an empty item in braces", 14, |rng, sheet, at| {
        let g = sheet.lines[at].any_group(rng, 2)?;
        let i = rng.below(sheet.lines[at].groups[g].len() + 1);
        sheet.lines[at].groups[g].insert(i, String::new());
        Some(at)
    }),
    cause("braces in braces", 14, |rng, sheet, at| {
        let g = sheet.lines[at].any_group(rng, 2)?;
        match rng.chance(50) {
            true => sheet.lines[at].rewrite_group(g, |whole| format!("{{{whole}}}")),
            false => sheet.lines[at].groups[g].push("{1,2}".to_string()),
        }
        Some(at)
    }),
    cause("a brace is missing", 14, |rng, sheet, at| {
        let g = sheet.lines[at].any_group(rng, 2)?;
        let first = rng.chance(50);
        sheet.lines[at].rewrite_group(g, |whole| match first {
            true => whole[1..].to_string(),
            false => whole[..whole.len() - 1].to_string(),
        });
        Some(at)
    }),
    cause("a brace too many", 14, |rng, sheet, at| {
        let (g, i) = sheet.lines[at].any_item(rng);
        match rng.below(4) {
            0 => sheet.lines[at].groups[g][i].push('}'),
            1 => sheet.lines[at].groups[g][i].push('{'),
            2 => sheet.lines[at].groups[g][i].insert(0, '}'),
            _ => sheet.lines[at].groups[g][i].insert(0, '{'),
        }
        Some(at)
    }),
    cause("no comma between two groups", 14, |rng, sheet, at| {
        let line = &mut sheet.lines[at];
        let g = line.any_group(rng, 2)?;
        let low = if g + 1 < line.groups.len() {
            g
        } else {
            g.checked_sub(1)?
        };
        let behind = group_text(&line.groups.remove(low + 1));
        line.groups[low] = vec![group_text(&line.groups[low]) + &behind];
        Some(at)
    }),
    cause("a foreign character", 14, |rng, sheet, at| {
        let (g, i) = sheet.lines[at].any_item(rng);
        let sign = rng.pick(&['x', '+', '.', '\'', '\0', '\u{e9}', ';', '/', ':', '?']);
        let item = &mut sheet.lines[at].groups[g][i];
        match rng.chance(50) {
            true => item.push(sign),
            false => item.insert(0, sign),
        }
        Some(at)
    }),
];

/// The form is kept, and the names are wrong.
const OF_NAMES: [Cause; 6] = [
    cause("a workshop named twice", 15, |rng, sheet, at| {
        let (g, i) = sheet.lines[at].any_workshop(rng)?;
        let item = sheet.lines[at].groups[g][i].clone();
        match rng.chance(40) {
            true => sheet.lines[at].groups[g].push(item),
            false => sheet.lines[at].add_item(rng, &item),
        }
        Some(at)
    }),
    cause("a workshop is missing", 15, |rng, sheet, at| {
        let item = sheet.lines[at].any_workshop(rng)?;
        sheet.lines[at].take(item);
        Some(at)
    }),
    cause(
        "a workshop of the case without a pair",
        15,
        |rng, sheet, at| {
            let line = &mut sheet.lines[at];
            let all = (1..=sheet.workshops).map(|number| number.to_string());
            let others: Vec<String> = all.filter(|item| !line.names(item)).collect();
            let last = others.len().checked_sub(1)?;
            let any = rng.below(last + 1);
            let item = &others[rng.pick(&[any, any, last])];
            line.add_item(rng, item);
            Some(at)
        },
    ),
    cause(
        "a workshop that is not in the case",
        15,
        |rng, sheet, at| {
            let next = usize::from(sheet.workshops) + 1;
            let number = rng.pick(&[next, next, next + 1, 64, 65, 66, 99, 100, 999]);
            let number = number.max(next).to_string();
            sheet.lines[at].add_item(rng, &number);
            Some(at)
        },
    ),
    cause("a number far too high", 15, |rng, sheet, at| {
        let near = rng.range(1, usize::from(sheet.workshops)) as u16;
        let number = far_above(rng, near);
        sheet.lines[at].add_item(rng, &number);
        Some(at)
    }),
    cause("a number in place of another", 15, |rng, sheet, at| {
        let (g, i) = sheet.lines[at].any_workshop(rng)?;
        let number: u16 = sheet.lines[at].groups[g][i].parse().ok()?;
        sheet.lines[at].groups[g][i] = match rng.chance(50) {
            true => far_above(rng, number),
            false => (sheet.workshops + 1).to_string(),
        };
        Some(at)
    }),
];

pub fn all() -> impl Iterator<Item = &'static Cause> {
    let of_lines = OF_ENDS.iter().chain(&OF_GROUPS).chain(&OF_NAMES);
    OF_TEXT.iter().chain(of_lines)
}

/// The causes of this number that spoil one line.
pub fn local(number: u16) -> Vec<&'static Cause> {
    all()
        .filter(|cause| cause.local && cause.number == number)
        .collect()
}
