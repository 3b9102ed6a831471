// Inputs of kind 12, charges: the lists of kind 11, and cards whose finished sheet has whole sides or a hair more or less, an area of whole hundreds or next to
// that, or the largest or smallest extent there is; each at a price. What a sheet costs is worked out here, from the circles that the patched Rust hands back and
// their boxes as it computes and joins them.
use crate::card::Card;
use crate::cards::{self, END, LEAST_RADIUS};
use crate::eunoia::*;
use crate::layouts::{self, Lists};
use crate::{Random, above, below};

// What it came to, and the finished width and height, 0 where there are none.
#[derive(Default)]
pub struct Charge {
    pub refusal: usize,
    pub amount: u64,
    circles: usize,
    sides: [f64; 2],
}

impl Charge {
    fn area(&self) -> u128 {
        self.sides.iter().map(|side| side.ceil() as u128).product()
    }
}

fn bad_price(cents: u64) -> bool {
    !(1..=100).contains(&cents)
}

pub fn charge(given: &Lists, proportion: f64, cents: u64) -> Charge {
    let laid = layouts::outcome(given, proportion);
    let refusal = match laid.refusal {
        0 if bad_price(cents) => 17,
        number => number,
    };
    if refusal != 0 {
        return Charge { refusal, ..Charge::default() };
    }
    let sheet = laid.circles.iter().map(|c| crate::circle(*c).bounds()).reduce(|all, next| all.union(&next));
    let mut charge = Charge { circles: laid.circles.len(), sides: sheet.map_or([0.0; 2], |b| [b.width(), b.height()]), ..Charge::default() };
    charge.amount = u64::try_from(charge.area().div_ceil(100) * cents as u128).unwrap();
    charge
}

// ---- inputs

// One in ten is refused, and some of those would be taken if they were cut to a shorter number.
pub fn price(random: &mut Random) -> u64 {
    let any = random.next();
    match random.below(20) {
        0 => random.pick(&[0, 0, 101, 101, 102]),
        1 => random.pick(&[u64::MAX, 1 << 63, 1 << 32, (1 << 32) + 7, 65537, 257, 200, any]),
        2..=5 => random.pick(&[1, 2, 99, 100]),
        _ => 1 + random.below(100),
    }
}

// `small` keeps them short enough to be stored.
pub fn lists(random: &mut Random, small: bool) -> Lists {
    let mut lists = match random.below(8) {
        0..=2 => return layouts::lists(random, small),
        3 => one_circle(random),
        4 | 5 => two_in_line(random),
        6 => whole_grid(random, small),
        _ => at_the_ends(random, small),
    };
    if random.below(12) == 0 {
        layouts::damage(random, &mut lists, small);
    }
    lists
}

// A number, or one a few steps beside it.
fn near(random: &mut Random, x: f64) -> f64 {
    match random.below(6) {
        0 => above(x),
        1 => below(x),
        2 => f64::from_bits(x.to_bits() + random.below(9) - 4),
        _ => x,
    }
}

fn one_circle(random: &mut Random) -> Lists {
    let side = match random.below(4) {
        0 => random.pick(&[10, 1, 100, 2097150]),
        1 => 1 + random.below(2097150),
        _ => 1 + random.below(60),
    };
    let place = [random.coordinate(0), random.coordinate(0)];
    let radius = near(random, side as f64 / 2.0);
    of_circles(random, vec![[place[0], place[1], radius]], vec![])
}

// Two circles of one cluster: the sheet is as tall as the thicker one and as wide as both span, of whole hundreds or one row of millimetres more or less.
fn two_in_line(random: &mut Random) -> Lists {
    let tall = random.pick(&[1u64, 2, 4, 5, 10, 20, 25, 50, 100]);
    let hundreds = 1 + random.below(40);
    let wide = (100 * hundreds / tall).max(tall) + random.pick(&[0, 0, 0, 1, 1, 2]);
    let apart = (wide - tall) as f64;
    let apart = if apart > 0.0 { near(random, apart) } else { apart };
    let [x, y] = if random.below(2) == 0 { [0.0; 2] } else { [random.coordinate(0), random.coordinate(0)].map(|v| v / 2.0) };
    let [dx, dy] = random.pick(&[[1.0, 0.0], [1.0, 0.0], [-1.0, 0.0], [0.0, 1.0], [0.0, -1.0], [0.6, 0.8], [-0.8, 0.6]]);
    let radius = tall as f64 / 2.0;
    let other = [x + dx * apart, y + dy * apart, near(random, radius)];
    of_circles(random, vec![[x, y, radius], other], vec![(3, 1.0)])
}

// Several clusters, of one circle each or of two that touch, all of whole diameters but for one at times.
fn whole_grid(random: &mut Random, small: bool) -> Lists {
    let n = random.pick(if small { &[2, 3, 4, 4, 6] } else { &[2, 3, 4, 5, 6, 8, 9, 12, 16, 25, 33, 48, 63, 64] });
    let pairs = random.below(2) == 0;
    let alike = random.below(2) == 0;
    let first = 1 + random.below(12);
    let mut circles: Vec<[f64; 3]> = (0..n)
        .map(|i| {
            let radius = if alike { first } else { 1 + random.below(12) } as f64 / 2.0;
            [random.coordinate(0), i as f64, radius]
        })
        .collect();
    let mut regions = vec![];
    if pairs {
        for i in (1..n).step_by(2) {
            let [x, y, r] = circles[i - 1];
            circles[i] = [x + 2.0 * r, y, r];
            regions.push((cards::single(i - 1) | cards::single(i), 1.0));
        }
    }
    let any = random.below(n as u64) as usize;
    circles[any][2] = near(random, circles[any][2]);
    for c in &mut circles {
        c[0] = c[0].clamp(-END, END);
    }
    of_circles(random, circles, regions)
}

// Circles and clusters as large as they may be, or as small.
fn at_the_ends(random: &mut Random, small: bool) -> Lists {
    let n = random.pick(if small { &[1, 2, 3, 4, 5] } else { &[1, 2, 3, 5, 8, 16, 31, 32, 63, 64, 64] });
    let tiny = random.below(4) == 0;
    let joined = random.pick(&[1, 2, 2, 3, 64]);
    let circles = (0..n)
        .map(|i| {
            if tiny {
                let at = random.pick(&[0.0, LEAST_RADIUS, 2.0 * LEAST_RADIUS, 0.5, 1.0]);
                [at, random.pick(&[0.0, -0.0, at]), random.pick(&[LEAST_RADIUS, LEAST_RADIUS, above(LEAST_RADIUS)])]
            } else {
                let end = if i % 2 == 0 { -END } else { END };
                [end, random.pick(&[end, -end, 0.0]), random.pick(&[END, END, below(END), LEAST_RADIUS])]
            }
        })
        .collect();
    let regions = (1..n).filter(|i| i % joined != 0).map(|i| (cards::single(i - 1) | cards::single(i), 1.0)).collect();
    let mut lists = of_circles(random, circles, regions);
    if random.below(2) == 0 {
        lists.factor = 1.0;
    }
    lists
}

// With inks that differ but for one list in eighteen, and mostly no room between the clusters, so that whole sides stay whole.
fn of_circles(random: &mut Random, circles: Vec<[f64; 3]>, regions: Vec<(u64, f64)>) -> Lists {
    let n = circles.len();
    let inks = if random.below(3) == 0 { random.inks(n) } else { random.different_inks(n) };
    let factor = match random.below(6) {
        0 => random.unit(),
        1 => random.pick(&[1.0, 0.5, 0.015, 5e-324]),
        _ => 0.0,
    };
    layouts::of_card(Card { factor, circles, inks, regions })
}

// ---- the boundaries

// What a charge is handed: the lists, the proportion, the price.
pub type Order = (Lists, f64, u64);

fn plain(circles: &[[f64; 3]], masks: &[u64]) -> Lists {
    let inks = (1..=circles.len() as u16).collect();
    Lists { factor: 0.0, circles: circles.to_vec(), inks, masks: masks.to_vec(), areas: vec![1.0; masks.len()] }
}

// A charge at each boundary, and each refusal by itself and with every later one due as well.
pub fn boundaries() -> Vec<Order> {
    let mut orders = vec![];
    for cents in [1, 2, 99, 100, 0, 101, 257, (1 << 32) + 1, u64::MAX] {
        for circles in [&[][..], &[[3.0, 4.0, 5.0]]] {
            orders.push((plain(circles, &[]), 1.618, cents));
        }
    }
    // 10 by 10 and a hair more and less, 100 by 100 and a hair more, each side raised and not the area, the smallest circle and the largest
    for radius in [above(5.0), below(5.0), 50.0, above(50.0), 7.03125, LEAST_RADIUS, END] {
        orders.push((plain(&[[0.0, 0.0, radius]], &[]), 1.0, 100));
    }
    // 99, 100 and 101 by 1, and a hair more
    for apart in [98.0, 99.0, above(99.0), 100.0] {
        orders.push((plain(&[[0.0, 0.0, 0.5], [apart, 0.0, 0.5]], &[3]), 1.618, 100));
    }
    // 90 by 21, since the width is rounded to 90: exactly it is a hair more, which would cost a hundred more
    orders.push((plain(&[[0.0, 0.0, 10.0], [0.0, 70.0, 10.000000000000007]], &[3]), 1.0, 1));
    // finished, 4 by 2 or 2 by 4: far less than as it was handed in
    for proportion in [0.25, 1.618, 4.0] {
        orders.push((plain(&[[0.0, 0.0, 1.0], [1000.0, 0.0, 1.0]], &[]), proportion, 1));
    }
    // as many as there may be and one more, in the largest grids; the second has an area of whole hundreds, above 2^53
    for (n, radius, proportion) in [(64, END, 0.25), (64, END - 1.0, 4.0), (65, END, 1.0)] {
        let full: Vec<[f64; 3]> = (0..n).map(|i| [if i % 2 == 0 { END } else { -END }, END, radius]).collect();
        orders.push((Lists { factor: 1.0, ..plain(&full, &[]) }, proportion, 100));
    }
    let faults: [fn(&mut Order); 9] = [
        |o| o.2 = 0,
        |o| o.1 = 0.0,
        |o| o.0.inks[1] = o.0.inks[0],
        |o| o.0.factor = above(1.0),
        |o| o.0.masks[1] = o.0.masks[0],
        |o| o.0.circles[0][2] = below(LEAST_RADIUS),
        |o| o.0.circles[1][1] = f64::NAN,
        |o| o.0.areas.clear(),
        |o| {
            o.0.circles.resize(65, [0.0, 0.0, 1.0]);
            o.0.inks.resize(65, 9);
        },
    ];
    for i in 0..faults.len() {
        for from in [0, i] {
            let mut order = (plain(&[[0.0, 0.0, 1.0], [9.0, 0.0, 1.0]], &[1, 2]), 1.618, 50);
            faults[from..=i].iter().for_each(|fault| fault(&mut order));
            orders.push(order);
        }
    }
    orders
}

// ---- how often each case comes up

#[derive(Default)]
pub struct Tally {
    accepted: usize,
    refused: [usize; 18],
    bad_price: [usize; 18],
    empty: usize,
    full: usize,
    whole_sides: usize,
    a_hair_above: usize,
    whole_hundreds: usize,
    just_past_hundreds: usize,
    largest_area: u128,
}

impl Tally {
    pub fn count(&mut self, cents: u64, charge: &Charge) {
        if charge.refusal != 0 {
            self.refused[charge.refusal] += 1;
            self.bad_price[charge.refusal] += bad_price(cents) as usize;
            return;
        }
        self.accepted += 1;
        self.full += (charge.circles == 64) as usize;
        if charge.circles == 0 {
            self.empty += 1;
            return;
        }
        self.whole_sides += charge.sides.iter().any(|side| side.fract() == 0.0) as usize;
        self.a_hair_above += charge.sides.iter().any(|side| side.fract() > 0.0 && side.fract() < 1e-9) as usize;
        self.whole_hundreds += (charge.area() % 100 == 0) as usize;
        self.just_past_hundreds += (charge.area() % 100 == 1) as usize;
        self.largest_area = self.largest_area.max(charge.area());
    }
    pub fn print(&self) {
        eprintln!("accepted {}", self.accepted);
        for (number, count) in self.refused.iter().enumerate().filter(|(_, count)| **count > 0) {
            eprintln!("refused {number}: {count}, {} of them with a price out of range", self.bad_price[number]);
        }
        eprintln!("with no circles {}, with 64 {}", self.empty, self.full);
        eprintln!("with a side that is whole {}, with one less than 1e-9 above a whole number {}", self.whole_sides, self.a_hair_above);
        eprintln!("with an area of whole hundreds {}, with one of 1 more {}", self.whole_hundreds, self.just_past_hundreds);
        eprintln!("largest area {} square millimetres", self.largest_area);
    }
}
