//! Demands 2 and 3, and that nobody pays less, checked over all full orders of a tiny case.
//!
//! Everything here follows the definitions: every full order, every placement and every set
//! of visits is tried. No part of the staged rule is used. A full order has strict ranks for
//! everybody and says which pairs are never. Pairs are bits in sets of pairs.

use crate::model::*;
use std::cell::Cell;
use std::cmp::Ordering;
use std::collections::HashMap;

/// Larger worlds are not built.
const MAX_ORDERS: usize = 500_000;
const MAX_ORDERS_TIMES_SETS: usize = 50_000_000;
/// Bits of one person in a signature; four items have six comparisons.
const PERSON_BITS: usize = 6;

/// One strict order over a person's partners and none.
#[derive(Clone)]
struct Ranking {
    /// Position of each partner, and last the position of none; lower is better.
    positions: Vec<usize>,
    /// One bit for each two items: whether the first is the better one.
    comparisons: u64,
}

/// A student or a workshop.
struct Person {
    /// Indices of this person's pairs.
    pairs: Vec<usize>,
    /// The group of each of these pairs, and last the line group.
    groups: Vec<u16>,
    /// All orders that keep the groups.
    rankings: Vec<Ranking>,
}

/// By student, the index of her pair.
type Placement = Vec<Option<usize>>;

/// A full order: the index of its ranks, and its never pairs.
#[derive(Clone, Copy)]
struct Order {
    ranks: usize,
    never: u32,
}

/// A case with all its full orders.
pub struct World {
    case: Case,
    /// Students first, then workshops.
    people: Vec<Person>,
    /// Every way to give each person a ranking.
    ranks: Vec<Vec<usize>>,
    /// By ranks: the comparisons of all people.
    signatures: Vec<u64>,
    placements: Vec<Placement>,
    /// By ranks: what they say of pairs and placements.
    views: Vec<View>,
    /// The student-best placement of each full order that was asked for.
    best: Vec<Cell<Option<u16>>>,
}

/// How much a check of demand 3 has tried.
#[derive(Default)]
pub struct Effort {
    /// Sets that make the holder sure and hold every placed pair, over the orders that fit.
    pub sure_sets: usize,
    /// Sets that hold every placed pair and leave the holder unsure.
    pub unsure_sets: usize,
    /// Those of them that do so only because some other pair may be never.
    pub unsure_by_never: usize,
    /// Unsure sets that cost less than our list.
    pub unsure_cheaper: usize,
    /// Sure sets that cost more than our list.
    pub sure_dearer: usize,
    /// Sure sets other than our list that cost as much.
    pub sure_as_dear: usize,
}

/// What the comparison with all other sets has shown.
pub struct Least {
    /// Whether every sure set with the placed pairs holds every listed visit.
    pub visits: bool,
    /// The least that such a set costs.
    pub fares: u64,
}

/// What the results of a set of visits tell its holder.
#[derive(Clone, Copy, PartialEq, Eq)]
enum Verdict {
    Sure,
    /// Sure, if no pair outside of the set could be never.
    UnsureByNever,
    Unsure,
}

impl World {
    /// `None` if there is too much to try.
    pub fn new(case: &Case) -> Option<World> {
        let people = people(case);
        let ranks: usize = people.iter().map(|person| person.rankings.len()).product();
        let sets = 1 << case.pairs.len();
        let orders = ranks * sets;
        if orders > MAX_ORDERS || orders * sets > MAX_ORDERS_TIMES_SETS {
            return None;
        }
        let ranks = all_choices(&people.iter().map(|p| p.rankings.len()).collect::<Vec<_>>());
        let placements = placements(case);
        let view = |ranks: &Vec<usize>| View::new(case, &people, ranks, &placements);
        Some(World {
            case: case.clone(),
            signatures: ranks.iter().map(|r| signature(&people, r)).collect(),
            views: ranks.iter().map(view).collect(),
            people,
            ranks,
            placements,
            best: vec![Cell::new(None); orders],
        })
    }

    pub fn orders(&self) -> usize {
        self.best.len()
    }

    /// Demand 2: under every full order that fits the groups and the listed visits, the
    /// placement is the student-best one.
    pub fn demand_two(&self, book: &[Record], places: &[u16], visits: &[(u16, u16)]) -> bool {
        let listed: Vec<Record> = book
            .iter()
            .filter(|record| visits.contains(&(record.student, record.workshop)))
            .copied()
            .collect();
        let Some(ours) = self.placement_index(places) else {
            return false;
        };
        self.fitting(&listed, self.all_pairs())
            .all(|order| usize::from(self.best(order)) == ours)
    }

    /// Demand 3 without its comparison: the list names no pair twice, holds every placed
    /// pair, and makes its holder sure under every full order that fits the book.
    pub fn list_suffices(&self, book: &[Record], places: &[u16], visits: &[(u16, u16)]) -> bool {
        let Some(list) = self.set_of(visits) else {
            return false;
        };
        let Some(placed) = self.placed_set(places) else {
            return false;
        };
        let mut holder = Holder::new(self, list);
        list & placed == placed
            && self
                .fitting(book, list)
                .all(|order| holder.verdict(order) == Verdict::Sure)
    }

    /// Demand 3's comparison: whether every set that makes its holder sure and holds every placed
    /// pair holds every listed visit; and the least that such a set costs. `None` if the list or
    /// the places are none.
    pub fn least(
        &self,
        book: &[Record],
        places: &[u16],
        visits: &[(u16, u16)],
        effort: &mut Effort,
    ) -> Option<Least> {
        let list = self.set_of(visits)?;
        let placed = self.placed_set(places)?;
        let ours = self.fares(list);
        let mut least = Least {
            visits: true,
            fares: u64::MAX,
        };
        for rest in subsets(self.all_pairs() & !placed) {
            let set = placed | rest;
            let fares = self.fares(set);
            let mut holder = Holder::new(self, set);
            for order in self.fitting(book, set) {
                let verdict = holder.verdict(order);
                if verdict == Verdict::Sure {
                    effort.sure_sets += 1;
                    effort.sure_dearer += usize::from(fares > ours);
                    effort.sure_as_dear += usize::from(fares == ours && set != list);
                    least.visits &= set & list == list;
                    least.fares = least.fares.min(fares);
                } else {
                    effort.unsure_sets += 1;
                    effort.unsure_cheaper += usize::from(fares < ours);
                    effort.unsure_by_never += usize::from(verdict == Verdict::UnsureByNever);
                }
            }
        }
        Some(least)
    }

    /// What a list of visits costs; `None` if it names a pair twice or one without a record.
    pub fn fares_of(&self, visits: &[(u16, u16)]) -> Option<u64> {
        Some(self.fares(self.set_of(visits)?))
    }

    /// The fares of a set, added over its pairs.
    fn fares(&self, set: u32) -> u64 {
        let pairs = self.case.pairs.iter().enumerate();
        pairs
            .filter(|(index, _)| set & (1 << index) != 0)
            .map(|(_, pair)| u64::from(pair.fare))
            .sum()
    }

    fn all_pairs(&self) -> u32 {
        (1 << self.case.pairs.len()) - 1
    }

    /// The comparisons that the results of a set of pairs show.
    fn mask(&self, set: u32) -> u64 {
        let of_person = |person: &Person| {
            let none = person.pairs.len();
            let shown = |item: usize| item == none || set & (1 << person.pairs[item]) != 0;
            item_pairs(none + 1)
                .enumerate()
                .filter(|&(_, (a, b))| shown(a) && shown(b))
                .fold(0, |mask, (bit, _)| mask | 1 << bit)
        };
        join_bits(self.people.iter().map(of_person))
    }

    /// The full orders that fit the records: a pair with a record is never exactly when one of
    /// its marks is -1000, any other pair may be never or not. Orders that differ only in never
    /// pairs outside of the set are given once, without those.
    fn fitting<'a>(&'a self, records: &[Record], set: u32) -> impl Iterator<Item = Order> + 'a {
        let fits: Vec<Vec<bool>> = (0..self.people.len())
            .map(|index| self.rankings_that_fit(index, records))
            .collect();
        let (mut told, mut never) = (0, 0);
        for record in records {
            let pair = self.pair_index(record.student, record.workshop);
            let bit = 1 << pair.expect("the book was checked");
            told |= bit;
            if record.student_mark == NEVER || record.workshop_mark == NEVER {
                never |= bit;
            }
        }
        let keeps = move |&ranks: &usize| {
            let chosen = self.ranks[ranks].iter();
            chosen.zip(&fits).all(|(&ranking, fits)| fits[ranking])
        };
        (0..self.ranks.len()).filter(keeps).flat_map(move |ranks| {
            subsets(set & !told).map(move |other| Order {
                ranks,
                never: never | other,
            })
        })
    }

    /// Which rankings of a person keep the order of the marks, none counting as 0, and at a
    /// workshop the order of the lots where marks are equal. Two marks of -1000 say nothing about
    /// each other.
    fn rankings_that_fit(&self, index: usize, records: &[Record]) -> Vec<bool> {
        let person = &self.people[index];
        let is_student = index < self.case.students.len();
        let none = person.pairs.len();
        let mark = |item: usize| -> Option<i16> {
            if item == none {
                return Some(0);
            }
            let pair = self.case.pairs[person.pairs[item]];
            let record = records
                .iter()
                .find(|r| (r.student, r.workshop) == (pair.student, pair.workshop))?;
            Some(if is_student {
                record.student_mark
            } else {
                record.workshop_mark
            })
        };
        // Nobody's mark equals that of none.
        let lot = |item: usize| {
            let pair = self.case.pairs[person.pairs[item]];
            self.case.students[usize::from(pair.student) - 1].lot
        };
        let first_is_better = |a: usize, b: usize| -> Option<bool> {
            let (first, second) = (mark(a)?, mark(b)?);
            match first.cmp(&second) {
                _ if person.groups[a] != person.groups[b] => None,
                Ordering::Equal if is_student || first == NEVER => None,
                Ordering::Equal => Some(lot(a) < lot(b)),
                Ordering::Greater => Some(true),
                Ordering::Less => Some(false),
            }
        };
        let keeps = |ranking: &Ranking| {
            item_pairs(none + 1).all(|(a, b)| {
                let ranked = ranking.positions[a] < ranking.positions[b];
                first_is_better(a, b).is_none_or(|better| better == ranked)
            })
        };
        person.rankings.iter().map(keeps).collect()
    }

    /// The index of the student-best placement.
    fn best(&self, order: Order) -> u16 {
        let known = &self.best[order.ranks << self.case.pairs.len() | order.never as usize];
        known.get().unwrap_or_else(|| {
            let best = self.student_best(order) as u16;
            known.set(Some(best));
            best
        })
    }

    /// The stable placement in which no student does better in any other stable one.
    fn student_best(&self, order: Order) -> usize {
        let view = &self.views[order.ranks];
        let stable: Vec<usize> = (0..self.placements.len())
            .filter(|&index| view.standings[index].stable(order.never))
            .collect();
        let no_worse = |a: usize, b: usize| {
            (0..self.case.students.len()).all(|student| {
                view.rank_of(student, self.placements[a][student])
                    <= view.rank_of(student, self.placements[b][student])
            })
        };
        *stable
            .iter()
            .find(|&&a| stable.iter().all(|&b| no_worse(a, b)))
            .expect("strict orders have a student-best placement")
    }

    fn pair_index(&self, student: u16, workshop: u16) -> Option<usize> {
        self.case
            .pairs
            .iter()
            .position(|pair| (pair.student, pair.workshop) == (student, workshop))
    }

    fn placement_index(&self, places: &[u16]) -> Option<usize> {
        let placement: Placement = places
            .iter()
            .zip(1..)
            .map(|(&workshop, student)| self.pair_index(student, workshop))
            .collect();
        let meant = |(place, pair): (&u16, &Option<usize>)| *place == 0 || pair.is_some();
        if !places.iter().zip(&placement).all(meant) {
            return None;
        }
        self.placements.iter().position(|other| *other == placement)
    }

    /// The pairs as bits; `None` if one is named twice or has no record.
    fn set_of(&self, visits: &[(u16, u16)]) -> Option<u32> {
        let mut set = 0;
        for &(student, workshop) in visits {
            let bit = 1 << self.pair_index(student, workshop)?;
            if set & bit != 0 {
                return None;
            }
            set |= bit;
        }
        Some(set)
    }

    fn placed_set(&self, places: &[u16]) -> Option<u32> {
        let placed: Vec<(u16, u16)> = (1..)
            .zip(places.iter().copied())
            .filter(|&(_, workshop)| workshop != 0)
            .collect();
        self.set_of(&placed)
    }
}

/// The holder of a set of visits, who knows the case and the results of that set.
struct Holder<'a> {
    world: &'a World,
    set: u32,
    /// The comparisons that the results show.
    mask: u64,
    /// The ranks with equal results.
    classes: HashMap<u64, Vec<usize>>,
    /// What was found, by the comparisons and the never pairs that the results show.
    verdicts: HashMap<(u64, u32), Verdict>,
}

impl Holder<'_> {
    fn new(world: &World, set: u32) -> Holder<'_> {
        let mask = world.mask(set);
        let mut classes: HashMap<u64, Vec<usize>> = HashMap::new();
        for (ranks, signature) in world.signatures.iter().enumerate() {
            classes.entry(signature & mask).or_default().push(ranks);
        }
        Holder {
            world,
            set,
            mask,
            classes,
            verdicts: HashMap::new(),
        }
    }

    /// The holder is sure if all full orders that fit the results of this one have one and the
    /// same student-best placement.
    fn verdict(&mut self, order: Order) -> Verdict {
        let shown = self.world.signatures[order.ranks] & self.mask;
        let never = order.never & self.set;
        if let Some(&verdict) = self.verdicts.get(&(shown, never)) {
            return verdict;
        }
        let best = |ranks: usize, other: u32| {
            let never = never | other;
            self.world.best(Order { ranks, never })
        };
        let first = best(order.ranks, 0);
        let differ = |other: u32| {
            let mut ranks = self.classes[&shown].iter();
            ranks.any(|&ranks| best(ranks, other) != first)
        };
        // The empty subset comes first.
        let verdict = match subsets(self.world.all_pairs() & !self.set).find(|&o| differ(o)) {
            None => Verdict::Sure,
            Some(0) => Verdict::Unsure,
            Some(_) => Verdict::UnsureByNever,
        };
        self.verdicts.insert((shown, never), verdict);
        verdict
    }
}

/// What strict ranks say of pairs and placements, whatever is never.
struct View {
    /// By pair: its position for the student and for the workshop.
    ranks: Vec<(usize, usize)>,
    student_none: Vec<usize>,
    workshop_none: Vec<usize>,
    /// By placement.
    standings: Vec<Standing>,
}

/// How a placement stands under strict ranks.
struct Standing {
    /// Whether each placed pair is above both nones.
    acceptable: bool,
    placed: u32,
    /// The pairs that block it unless they are never.
    blocking: u32,
}

impl Standing {
    /// No placed pair is never, and every pair that would block is.
    fn stable(&self, never: u32) -> bool {
        self.acceptable && self.placed & never == 0 && self.blocking & !never == 0
    }
}

impl View {
    fn new(case: &Case, people: &[Person], ranks: &[usize], placements: &[Placement]) -> View {
        let students = case.students.len();
        let mut view = View {
            ranks: vec![(0, 0); case.pairs.len()],
            student_none: Vec::new(),
            workshop_none: Vec::new(),
            standings: Vec::new(),
        };
        for (index, (person, &choice)) in people.iter().zip(ranks).enumerate() {
            let positions = &person.rankings[choice].positions;
            let none = positions[person.pairs.len()];
            if index < students {
                view.student_none.push(none);
            } else {
                view.workshop_none.push(none);
            }
            for (&pair, &position) in person.pairs.iter().zip(positions) {
                if index < students {
                    view.ranks[pair].0 = position;
                } else {
                    view.ranks[pair].1 = position;
                }
            }
        }
        view.standings = placements.iter().map(|p| view.standing(case, p)).collect();
        view
    }

    fn standing(&self, case: &Case, placement: &Placement) -> Standing {
        let placed = || placement.iter().flatten();
        let blocks = |&pair: &usize| self.blocks(case, pair, placement);
        Standing {
            acceptable: placed().all(|&pair| self.above_none(case, pair)),
            placed: placed().fold(0, |set, pair| set | 1 << pair),
            blocking: (0..case.pairs.len())
                .filter(blocks)
                .fold(0, |set, pair| set | 1 << pair),
        }
    }

    /// How the student ranks what she has.
    fn rank_of(&self, student: usize, has: Option<usize>) -> usize {
        has.map_or(self.student_none[student], |pair| self.ranks[pair].0)
    }

    /// Acceptable to both, if it is not never.
    fn above_none(&self, case: &Case, pair: usize) -> bool {
        let Pair {
            student, workshop, ..
        } = case.pairs[pair];
        self.ranks[pair].0 < self.student_none[usize::from(student) - 1]
            && self.ranks[pair].1 < self.workshop_none[usize::from(workshop) - 1]
    }

    /// The pair is acceptable to both, if it is not never, the student prefers the workshop to
    /// what she has, and it has a free seat or holds somebody it ranks lower.
    fn blocks(&self, case: &Case, pair: usize, placement: &Placement) -> bool {
        let Pair {
            student, workshop, ..
        } = case.pairs[pair];
        let student = usize::from(student) - 1;
        if !self.above_none(case, pair)
            || self.ranks[pair].0 >= self.rank_of(student, placement[student])
        {
            return false;
        }
        let mut held = 0;
        let mut holds_lower = false;
        for &other in placement.iter().flatten() {
            if case.pairs[other].workshop == workshop {
                held += 1;
                holds_lower |= self.ranks[other].1 > self.ranks[pair].1;
            }
        }
        held < case.workshops[usize::from(workshop) - 1].quota || holds_lower
    }
}

fn people(case: &Case) -> Vec<Person> {
    let students = (1..).zip(&case.students).map(|(number, student)| {
        person(case, student.line, |pair| {
            (pair.student == number).then_some(pair.student_group)
        })
    });
    let workshops = (1..).zip(&case.workshops).map(|(number, workshop)| {
        person(case, workshop.line, |pair| {
            (pair.workshop == number).then_some(pair.workshop_group)
        })
    });
    students.chain(workshops).collect()
}

/// A person whose group for a pair, if the pair is theirs, is given by `group`.
fn person(case: &Case, line: u16, group: impl Fn(&Pair) -> Option<u16>) -> Person {
    let mine = || {
        let pairs = case.pairs.iter().enumerate();
        pairs.filter_map(|(index, pair)| Some((index, group(pair)?)))
    };
    let groups: Vec<u16> = mine().map(|(_, group)| group).chain([line]).collect();
    Person {
        pairs: mine().map(|(index, _)| index).collect(),
        rankings: rankings(&groups),
        groups,
    }
}

/// All strict orders of the items that keep their groups.
fn rankings(groups: &[u16]) -> Vec<Ranking> {
    let count = groups.len();
    all_choices(&vec![count; count])
        .into_iter()
        .filter(|positions| {
            item_pairs(count).all(|(a, b)| {
                positions[a] != positions[b]
                    && (groups[a] == groups[b]
                        || (groups[a] < groups[b]) == (positions[a] < positions[b]))
            })
        })
        .map(|positions| Ranking {
            comparisons: item_pairs(count)
                .enumerate()
                .filter(|&(_, (a, b))| positions[a] < positions[b])
                .fold(0, |bits, (bit, _)| bits | 1 << bit),
            positions,
        })
        .collect()
}

/// Every two of the items, in a fixed order.
fn item_pairs(count: usize) -> impl Iterator<Item = (usize, usize)> {
    (0..count).flat_map(move |a| (a + 1..count).map(move |b| (a, b)))
}

/// Every way to choose one number below each of the ends.
fn all_choices(ends: &[usize]) -> Vec<Vec<usize>> {
    let mut choices = vec![Vec::new()];
    for &end in ends {
        choices = choices
            .iter()
            .flat_map(|choice| (0..end).map(move |last| [&choice[..], &[last]].concat()))
            .collect();
    }
    choices
}

/// Every subset of a set of pairs, the empty one first.
fn subsets(set: u32) -> impl Iterator<Item = u32> {
    (0..=set).filter(move |subset| subset & !set == 0)
}

fn signature(people: &[Person], ranks: &[usize]) -> u64 {
    join_bits(
        people
            .iter()
            .zip(ranks)
            .map(|(person, &choice)| person.rankings[choice].comparisons),
    )
}

fn join_bits(parts: impl Iterator<Item = u64>) -> u64 {
    parts.fold(0, |joined, part| joined << PERSON_BITS | part)
}

/// All placements that keep the quotas.
fn placements(case: &Case) -> Vec<Placement> {
    let options: Vec<Vec<Option<usize>>> = (1..=case.students.len() as u16)
        .map(|student| {
            let pairs = case.pairs.iter().enumerate();
            let hers = pairs.filter(|(_, pair)| pair.student == student);
            [None]
                .into_iter()
                .chain(hers.map(|(index, _)| Some(index)))
                .collect()
        })
        .collect();
    all_choices(&options.iter().map(Vec::len).collect::<Vec<_>>())
        .into_iter()
        .map(|choice| choice.iter().zip(&options).map(|(&c, o)| o[c]).collect())
        .filter(|placement| keeps_quotas(case, placement))
        .collect()
}

fn keeps_quotas(case: &Case, placement: &Placement) -> bool {
    (1..).zip(&case.workshops).all(|(number, workshop)| {
        let held = placement.iter().flatten();
        let count = held
            .filter(|&&pair| case.pairs[pair].workshop == number)
            .count();
        count <= usize::from(workshop.quota)
    })
}
