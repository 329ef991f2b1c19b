//! Every way to give stage numbers to the students of a tiny case.

use crate::model::*;
use std::cmp::Ordering;

/// Numbers above the number of students that are tried too: they never help.
const MORE: u16 = 2;

/// What must hold of two students, counted from 0.
struct Rule {
    one: usize,
    other: usize,
    /// How the stage of the one compares with that of the other.
    order: Ordering,
}

/// At each workshop with quota above 0, of two students with pairs there not beyond its line group,
/// the one in the better group has the earlier stage, and equal groups have equal stages.
fn rules(case: &Case) -> Vec<Rule> {
    let mut rules = Vec::new();
    for (index, workshop) in case.workshops.iter().enumerate() {
        if workshop.quota == 0 {
            continue;
        }
        let number = index as u16 + 1;
        let pairs = case.pairs.iter().filter(|pair| pair.workshop == number);
        let counted: Vec<&Pair> = pairs
            .filter(|pair| pair.workshop_group <= workshop.line)
            .collect();
        for (at, one) in counted.iter().enumerate() {
            for other in &counted[at + 1..] {
                rules.push(Rule {
                    one: usize::from(one.student) - 1,
                    other: usize::from(other.student) - 1,
                    order: one.workshop_group.cmp(&other.workshop_group),
                });
            }
        }
    }
    rules
}

fn agree(rules: &[Rule], stages: &[u16]) -> bool {
    rules
        .iter()
        .all(|rule| stages[rule.one].cmp(&stages[rule.other]) == rule.order)
}

/// Whether these stages agree with every workshop.
pub fn stages_agree(case: &Case, stages: &[u16]) -> bool {
    agree(&rules(case), stages)
}

/// Tries all numbers from 1 to the number of students and a few more. Stages that were found must
/// agree and be the least for every student; where none were found, none may agree. Gives how many
/// ways agree.
pub fn check(case: &Case, found: Option<&[u16]>) -> Result<usize, &'static str> {
    let rules = rules(case);
    let students = case.students.len();
    let most = students as u16 + MORE;
    if let Some(found) = found {
        if found.len() != students || found.contains(&0) {
            return Err("no stage, or 0");
        }
        if !agree(&rules, found) {
            return Err("the stages do not agree");
        }
    }
    let mut stages = vec![1; students];
    let (mut agreeing, mut with_few) = (0, 0);
    loop {
        if agree(&rules, &stages) {
            let Some(found) = found else {
                return Err("some stages agree");
            };
            if !stages
                .iter()
                .zip(found)
                .all(|(stage, least)| stage >= least)
            {
                return Err("a stage could be less");
            }
            agreeing += 1;
            with_few += usize::from(stages.iter().all(|&stage| stage <= students as u16));
        }
        // The next way, counting up.
        let Some(at) = stages.iter().position(|&stage| stage < most) else {
            break;
        };
        stages[..at].fill(1);
        stages[at] += 1;
    }
    match (agreeing > 0, with_few > 0) {
        (true, false) => Err("only numbers above the number of students agree"),
        (false, _) if found.is_some() => Err("no stages agree"),
        _ => Ok(agreeing),
    }
}
