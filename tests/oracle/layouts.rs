// Inputs of kind 11, whole layouts at a proportion: cards, and circles of which each is a cluster of its own, so that the grid has as many boxes as there are
// circles; and lists damaged in every way that has a number.
use crate::card::{self, Card};
use crate::cards::{self, END, LEAST_RADIUS};
use crate::eunoia::*;
use crate::{Random, above, bad_proportion, below};

// What a layout is handed. There may be more masks than areas, or fewer.
pub struct Lists {
    pub factor: f64,
    pub circles: Vec<[f64; 3]>,
    pub inks: Vec<u16>,
    pub masks: Vec<u64>,
    pub areas: Vec<f64>,
}

// What it came to. The circles are as they were where it is refused.
pub struct Outcome {
    pub refusal: usize,
    pub circles: Vec<[f64; 3]>,
    pub seen: Seen,
}

pub fn outcome(given: &Lists, proportion: f64) -> Outcome {
    let card = Card {
        factor: given.factor,
        circles: given.circles.clone(),
        inks: given.inks.clone(),
        regions: given.masks.iter().copied().zip(given.areas.iter().copied()).collect(),
    };
    let refusal = if given.circles.len() > 64 {
        1
    } else if given.masks.len() != given.areas.len() {
        13
    } else if given.masks.len() > 2048 {
        2
    } else if let Err(number) = card::checked(&card) {
        number
    } else if bad_proportion(proportion) {
        16
    } else {
        0
    };
    if refusal != 0 {
        return Outcome { refusal, circles: card.circles, seen: Seen::default() };
    }
    let (shapes, seen) = at_proportion(proportion, || card::layout(&card));
    Outcome { refusal, circles: shapes.iter().map(|c| [c.center().x(), c.center().y(), c.radius()]).collect(), seen }
}

// ---- inputs

// `small` keeps them short enough to be stored.
pub fn lists(random: &mut Random, small: bool) -> Lists {
    let mut lists = if random.below(2) == 0 {
        of_card(cards::card(random, small))
    } else {
        let few = small && random.below(8) > 0;
        let n = random.pick(if few { &[1, 2, 3, 4, 5, 8] } else { &[1, 2, 2, 3, 3, 4, 5, 6, 7, 8, 9, 12, 16, 17, 31, 32, 33, 48, 63, 64, 64, 64] });
        clusters_of_one(random, n)
    };
    if random.below(5) == 0 {
        for _ in 0..random.pick(&[1, 1, 2, 3]) {
            damage(random, &mut lists, small);
        }
    }
    lists
}

// As many clusters as there may be.
pub fn full(random: &mut Random) -> Lists {
    let mut lists = clusters_of_one(random, 64);
    lists.inks = random.different_inks(64);
    lists
}

pub fn of_card(card: Card) -> Lists {
    let (masks, areas) = card.regions.into_iter().unzip();
    Lists { factor: card.factor, circles: card.circles, inks: card.inks, masks, areas }
}

fn clusters_of_one(random: &mut Random, n: usize) -> Lists {
    let radius = random.radius(0);
    let kind = random.below(6);
    let circles: Vec<[f64; 3]> = (0..n)
        .map(|_| match kind {
            0 | 1 => random.circle(0),
            2 => [0.0, 0.0, radius],
            3 => [random.coordinate(0), random.coordinate(0), random.pick(&[radius, above(radius).min(END), 1.0])],
            4 => [random.pick(&[END, -END, 0.0]), random.pick(&[END, -END, -0.0]), random.pick(&[END, LEAST_RADIUS])],
            _ => [random.coordinate(0), random.coordinate(0), 1.0 + random.unit()],
        })
        .collect();
    let alone = random.below(2) == 0;
    let regions = if alone { vec![] } else { (0..n).map(|i| (cards::single(i), random.unit() * 10.0)).collect() };
    let factor = match random.below(6) {
        0 | 1 => 0.0,
        2 => 1.0,
        3 => random.pick(&[-0.0, 5e-324, below(1.0), 0.5]),
        _ => random.unit(),
    };
    of_card(Card { factor, inks: random.inks(n), circles, regions })
}

pub fn damage(random: &mut Random, lists: &mut Lists, small: bool) {
    let n = lists.circles.len();
    let m = lists.masks.len();
    let any = random.below(n.max(1) as u64) as usize;
    match random.below(9) {
        0 if n > 0 => lists.circles[any][random.below(2) as usize] = random.pick(&[above(END), -above(END), f64::NAN, f64::INFINITY, f64::NEG_INFINITY, 1e300]),
        1 if n > 0 => lists.circles[any][2] = random.pick(&[above(END), below(LEAST_RADIUS), 0.0, -0.0, -1.0, f64::NAN, f64::INFINITY, 5e-324]),
        2 if n > 1 => random.repeat_an_ink(&mut lists.inks),
        3 if m > 1 => {
            let i = random.below(m as u64 - 1) as usize;
            if random.below(2) == 0 { lists.masks.swap(i, i + 1) } else { lists.masks[i + 1] = lists.masks[i] }
        }
        4 => lists.factor = random.pick(&[above(1.0), -5e-324, -1.0, 2.0, f64::NAN, f64::INFINITY, f64::NEG_INFINITY]),
        5 => lists.areas.push(1.0),
        6 if m > 0 => drop(lists.areas.pop()),
        7 if n > 0 && (!small || random.below(4) == 0) => {
            let many = random.pick(&[65, 65, 66, 70]);
            lists.circles.resize(many, lists.circles[any]);
            lists.inks.resize(many, lists.inks[any]);
        }
        8 if !small && random.below(20) == 0 => {
            let many = random.pick(&[2047, 2048, 2049, 2060]);
            lists.masks.extend((m as u64..many).map(|k| u64::MAX - 2 * many + 2 * k));
            lists.areas.resize(lists.masks.len(), 1e-12);
        }
        _ => {}
    }
}

// ---- how often each case comes up

#[derive(Default)]
pub struct Tally {
    accepted: usize,
    refused: [usize; 17],
    bad_proportion: [usize; 17],
    moved: usize,
    few_clusters: usize,
    full: usize,
    one_column: usize,
    spare_columns: usize,
}

impl Tally {
    pub fn count(&mut self, proportion: f64, outcome: &Outcome) {
        if outcome.refusal != 0 {
            self.refused[outcome.refusal] += 1;
            self.bad_proportion[outcome.refusal] += bad_proportion(proportion) as usize;
            return;
        }
        let k = outcome.seen.clusters.len();
        let across = at_proportion(proportion, || columns(k));
        self.accepted += 1;
        self.moved += (outcome.seen.moved != 0) as usize;
        self.few_clusters += (k < 2) as usize;
        self.full += (k == 64) as usize;
        self.one_column += (k > 1 && across == 1) as usize;
        self.spare_columns += (k > 1 && across > k) as usize;
    }
    pub fn print(&self) {
        eprintln!("accepted {}", self.accepted);
        for (number, count) in self.refused.iter().enumerate().filter(|(_, count)| **count > 0) {
            eprintln!("refused {number}: {count}, {} of them with a proportion out of range", self.bad_proportion[number]);
        }
        eprintln!("with a moved circle {}", self.moved);
        eprintln!("with one cluster or none {}, with 64 {}", self.few_clusters, self.full);
        eprintln!("with several clusters in one column {}, with fewer clusters than columns {}", self.one_column, self.spare_columns);
    }
}
