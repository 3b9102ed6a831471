// Inputs of kind 10, whole cards: what the layout distinguishes (touching, equal, nested circles, parents and children by areas, equal boxes, ends of the
// ranges), inks of every size, some of them twice, and files damaged in every way that document 01 has a number for.
use crate::card::{self, Card, Outcome};
use crate::eunoia::Closed;
use crate::{Random, above, below};
use std::collections::BTreeMap;

pub const END: f64 = 1048576.0;
pub const LEAST_RADIUS: f64 = 9.5367431640625e-7;

// ---- the file

pub struct Field {
    tag: u8,
    pub length: usize,
    body: Vec<u8>,
}

pub fn field(tag: u8, words: &[u64]) -> Field {
    let body: Vec<u8> = words.iter().flat_map(|w| w.to_le_bytes()).collect();
    Field { tag, length: body.len(), body }
}

pub fn circle_field(words: &[u64; 3], ink: u16) -> Field {
    let mut circle = field(2, words);
    circle.body.extend_from_slice(&ink.to_le_bytes());
    circle.length = circle.body.len();
    circle
}

fn fields(card: &Card) -> Vec<Field> {
    let mut all = vec![field(1, &[card.factor.to_bits()])];
    all.extend(card.circles.iter().zip(&card.inks).map(|(c, ink)| circle_field(&c.map(f64::to_bits), *ink)));
    all.extend(card.regions.iter().map(|(mask, area)| field(3, &[*mask, area.to_bits()])));
    all
}

pub fn bytes(fields: &[Field]) -> Vec<u8> {
    let mut file = Vec::new();
    for f in fields {
        file.push(f.tag);
        file.extend_from_slice(&(f.length as u16).to_le_bytes());
        file.extend_from_slice(&f.body);
    }
    file
}

// A card file; `small` keeps it short enough to be stored.
pub fn file(random: &mut Random, small: bool) -> Vec<u8> {
    if !small && random.below(400) == 0 {
        return past_a_cap(random);
    }
    let card = card(random, small);
    let mut fields = fields(&card);
    if random.below(20) >= 7 {
        return bytes(&fields);
    }
    for _ in 0..random.pick(&[1, 1, 1, 1, 2, 3]) {
        damage(random, &mut fields);
    }
    let mut file = bytes(&fields);
    match random.below(12) {
        0 => file.truncate(random.below(file.len() as u64 + 1) as usize),
        1 => file.truncate(file.len().saturating_sub(random.below(4) as usize)),
        2 => file.extend((0..random.below(4) + 1).map(|_| random.pick(&[0, 1, 2, 3, 8, 16, 24, 26, 255]))),
        _ => {}
    }
    match random.below(60) {
        0 => vec![],
        1 => (0..random.below(60)).map(|_| random.next() as u8).collect(),
        2 => without_inks(&card),
        _ => file,
    }
}

// The file of a card whose circles have no ink: their fields are 24 bytes long.
fn without_inks(card: &Card) -> Vec<u8> {
    let mut fields = fields(card);
    for f in fields.iter_mut().filter(|f| f.tag == 2) {
        f.body.truncate(24);
        f.length = 24;
    }
    bytes(&fields)
}

// ---- circles and regions

// Regions by mask, so that they rise.
type Areas = BTreeMap<u64, f64>;

pub fn card(random: &mut Random, small: bool) -> Card {
    let n = match random.below(60) {
        0 if !small => random.pick(&[63, 64, 64, 65]),
        1 | 2 if !small => random.below(60) + 4,
        _ if small => random.pick(&[0, 1, 2, 2, 2, 2, 3, 3, 3, 4]),
        _ => random.pick(&[0, 1, 2, 2, 2, 3, 3, 3, 4, 4, 5, 6, 7, 9, 13]),
    };
    let mut areas = Areas::new();
    let mut circles = if random.below(2) == 0 {
        families(random, n as usize, &mut areas)
    } else {
        let circles = arrangement(random, n as usize);
        match random.below(5) {
            0 => {}
            1 => any_regions(random, n, &mut areas, small),
            _ => overlaps(random, n, &mut areas),
        }
        circles
    };
    if !small && random.below(250) == 0 {
        many_regions(random, &mut areas);
    }
    if random.below(12) == 0 {
        any_regions(random, n, &mut areas, true);
    }
    if random.below(5) == 0 {
        area_at_the_tolerance(random, &mut areas);
    }
    scale(random, &mut circles);
    if n > 2 && random.below(2) == 0 {
        bar_a_child(random, &mut circles, &areas);
    }
    let factor = match random.below(8) {
        0 => 0.0,
        1 => 1.0,
        2 => random.pick(&[-0.0, 5e-324, below(1.0), 0.5]),
        3 => 0.015,
        _ => random.unit(),
    };
    let inks = random.inks(circles.len());
    Card { factor, circles, inks, regions: areas.into_iter().collect() }
}

pub fn single(i: usize) -> u64 {
    1 << (i % 64)
}

// Circles that lie side by side, touch, coincide, or stand in lines and grids.
fn arrangement(random: &mut Random, n: usize) -> Vec<[f64; 3]> {
    let mut circles: Vec<[f64; 3]> = Vec::new();
    let kind = random.below(8);
    let first = [random.coordinate(0), random.coordinate(0), random.radius(0)];
    let step = random.pick(&[[1.0, 0.0], [-1.0, 0.0], [0.0, 1.0], [0.0, -1.0], [-0.0, 2.0], [1.0, 1.0], [-3.0, 4.0], [1e-10, -1.0], [1.0, 1e-10], [1.0, -2e-10], [0.0, 0.0]]);
    for i in 0..n {
        let along = i as f64 * random.pick(&[1.0, 1.0, 1.0, -1.0, 2.0]);
        circles.push(match kind {
            0 | 1 if i > 0 => {
                let other = circles[random.below(i as u64) as usize];
                random.beside(other, 0)
            }
            2 => [step[0] * along, step[1] * along, 1.0],
            3 => [first[0] + step[0] * along, first[1] + step[1] * along, random.pick(&[first[2], first[2], 1.0])],
            4 => [random.pick(&[END, -END, below(END), 0.0, -0.0]), random.pick(&[END, -END, 1.0, -0.0]), random.pick(&[END, LEAST_RADIUS, above(LEAST_RADIUS), 1.0])],
            5 => [(random.below(9) * 4) as f64, (random.below(9) * 4) as f64, random.pick(&[1.0, 2.0])],
            6 => [random.pick(&[0.0, -0.0, 1.0]), random.pick(&[0.0, -0.0, 1.0, -1.0]), (random.below(3) + 1) as f64],
            _ => random.circle(0),
        });
    }
    circles
}

// Regions of one circle, and of pairs and triples that overlap.
fn overlaps(random: &mut Random, n: u64, areas: &mut Areas) {
    if n == 0 {
        return;
    }
    let odds = random.pick(&[1, 2, 4]);
    for i in 0..n as usize {
        if random.below(8) > 0 {
            areas.insert(single(i), random.unit() * 10.0);
        }
        if i > 0 && random.below(odds) == 0 {
            let mut mask = single(i) | single(random.below(i as u64) as usize);
            if random.below(4) == 0 {
                mask |= single(random.below(n) as usize);
            }
            areas.insert(mask, random.unit() * 5.0);
        }
    }
}

fn any_regions(random: &mut Random, n: u64, areas: &mut Areas, few: bool) {
    let m = if few { random.below(4) + 1 } else { random.pick(&[1, 2, 3, 5, 8, 30, 100]) };
    for mask in random.masks(n, m as usize, 0) {
        let area = random.area();
        areas.insert(mask, area);
    }
}

// Up to the cap and one beyond it, most of them too small to link.
fn many_regions(random: &mut Random, areas: &mut Areas) {
    let m = random.pick(&[200, 1000, 2047, 2048, 2048, 2049]);
    let step = random.pick(&[1, 0x0000_0000_0020_0401, 0x0010_0801_0020_0401]);
    let mut mask = 0u64;
    while areas.len() < m {
        let area = match random.below(30) {
            0 => random.unit(),
            1 => random.unit() * 1e-9,
            _ => random.pick(&[0.0, -1.0, 1e-12, 1e-10, 1e-11]),
        };
        areas.entry(mask).or_insert(area);
        mask = mask.wrapping_add(step);
    }
}

fn area_at_the_tolerance(random: &mut Random, areas: &mut Areas) {
    let m = areas.values().fold(1.0, |m: f64, area| if m < area.abs() { area.abs() } else { m });
    let tolerance = 1e-10 * m;
    if areas.is_empty() || !tolerance.is_finite() {
        return;
    }
    let i = random.below(areas.len() as u64) as usize;
    *areas.values_mut().nth(i).unwrap() = random.pick(&[tolerance, above(tolerance), below(tolerance)]);
}

// Parents with no, one or more children, each child in its parent by the areas and mostly by its place; numbered at random.
fn families(random: &mut Random, n: usize, areas: &mut Areas) -> Vec<[f64; 3]> {
    let mut order: Vec<usize> = (0..n).collect();
    for i in (1..n).rev() {
        order.swap(i, random.below(i as u64 + 1) as usize);
    }
    let mut circles = vec![[0.0; 3]; n];
    let spread = random.pick(&[0.0, 4.0, 20.0, 20.0, 20.0]);
    let mut next = 0;
    while next < n {
        let p = order[next];
        let parent = [
            next as f64 * spread + random.pick(&[0.0, -0.0, 1.0, 0.3]),
            random.pick(&[0.0, 5.0, -7.25]) + random.unit() * random.pick(&[0.0, 1.0]),
            random.pick(&[1.0, 2.0, 4.0, 4.0, 8.0]) * random.pick(&[1.0, 1.0, 0.7]),
        ];
        circles[p] = parent;
        let own = random.pick(&[10.0, 5.0, 1.0, 1e6, 0.0]) * random.pick(&[1.0, 1.0, 1.1]);
        areas.insert(single(p), own);
        next += 1;
        for _ in 0..random.pick(&[0, 1, 1, 1, 1, 1, 2, 3]) {
            if next == n {
                break;
            }
            let i = order[next];
            next += 1;
            circles[i] = child(random, parent);
            child_areas(random, n, p, i, own, areas);
        }
    }
    // a child that stands elsewhere bars others until it is moved
    if n > 2 && random.below(4) == 0 {
        let (i, j) = (random.below(n as u64) as usize, random.below(n as u64) as usize);
        let [x, y, _] = circles[i];
        circles[i] = [circles[j][0], circles[j][1], circles[i][2]];
        circles[j] = [x, y, circles[j][2]];
    }
    circles
}

// Another circle touches a child where the layout sets it, or misses that by a last place: then it may be barred.
fn bar_a_child(random: &mut Random, circles: &mut [[f64; 3]], areas: &Areas) {
    let inks = vec![0; circles.len()];
    let card = Card { factor: 0.0, circles: circles.to_vec(), inks, regions: areas.iter().map(|(mask, area)| (*mask, *area)).collect() };
    let (_, seen) = card::layout(&card);
    if seen.set.is_empty() {
        return;
    }
    let (i, set) = &seen.set[random.below(seen.set.len() as u64) as usize];
    let set = [set[0], set[1], set[2]];
    let around = |k: usize| crate::circle(circles[k]).contains(&crate::circle(set));
    let others: Vec<usize> = (0..circles.len()).filter(|k| k != i && !around(*k)).collect();
    if !others.is_empty() {
        circles[random.pick(&others)] = random.nearly_touching(set);
    }
}

fn child(random: &mut Random, parent: [f64; 3]) -> [f64; 3] {
    let [x, y, r] = parent;
    let radius = match random.below(10) {
        0 => r,
        1 => random.pick(&[below(r), above(r), 2.0 * r, LEAST_RADIUS]),
        _ => r * (random.unit() * 0.9 + 0.05),
    };
    let free = r - radius;
    let any = random.unit() * 6.3;
    let angle = random.pick(&[[1.0, 0.0], [-1.0, 0.0], [0.0, 1.0], [0.0, -1.0], [0.6, 0.8], [-0.8, 0.6], [any.cos(), any.sin()], [any.cos(), any.sin()]]);
    let distance = match random.below(9) {
        0 | 1 => 0.0,
        2 => free,
        3 => free * 0.5,
        4 => free * 0.5 + random.pick(&[1e-9, 1.001e-9, -0.999e-9, -1e-10]),
        5 => random.pick(&[1e-9, 1e-8, 2.9e-9]) * r * random.unit(),
        6 => r + radius,
        7 => random.unit() * r * 2.0,
        _ => free * random.unit(),
    };
    [x + angle[0] * distance, y + angle[1] * distance, radius]
}

fn child_areas(random: &mut Random, n: usize, p: usize, i: usize, own: f64, areas: &mut Areas) {
    let both = single(p) | single(i);
    let shared = random.pick(&[3.0, 1.0, 1e-3, own, own * 1e-7, 12.5, 1e6]);
    areas.insert(both, shared);
    match random.below(14) {
        0 => drop(areas.insert(single(i), random.pick(&[0.0, -0.0, -1.0, 1e-11, 1e-10, 1e-3]))),
        1 => drop(areas.insert(single(i), random.pick(&[f64::NAN, 1.0, f64::NEG_INFINITY]))),
        2 => drop(areas.insert(both | single(random.below(64) as usize), random.pick(&[1.0, 1e-11, -1.0, f64::NAN]))),
        3 => drop(areas.insert(both | single(random.below(n as u64) as usize), random.unit())),
        4 => drop(areas.insert(single(i) | single(random.below(n as u64) as usize), random.unit())),
        5 | 6 => totals_nearly_equal(random, n, p, i, areas),
        _ => {}
    }
}

// The parent's total times (1 - 1e-6) falls on the child's total but for the roundings of the sum, so that the order of its terms decides.
fn totals_nearly_equal(random: &mut Random, n: usize, p: usize, i: usize, areas: &mut Areas) {
    let mut rest = 0.0;
    areas.insert(single(p), random.unit());
    for _ in 0..random.below(5) {
        let other = random.below(64 + n as u64) as usize;
        let other = if other >= 64 { other - 64 } else { other };
        if other != i {
            areas.insert(single(p) | single(other), random.unit());
        }
    }
    for (mask, area) in areas.iter() {
        if mask & single(p) != 0 && mask & single(i) == 0 && *area > 0.0 {
            rest += *area;
        }
    }
    let shared: f64 = rest * (1.0 - 1e-6) / 1e-6;
    let nudge = random.below(1 << 21) as i64 - (1 << 20);
    areas.insert(single(p) | single(i), f64::from_bits(shared.to_bits().wrapping_add_signed(nudge)));
}

// To the ends of the ranges and into them.
fn scale(random: &mut Random, circles: &mut [[f64; 3]]) {
    let by = random.pick(&[1.0, 1.0, 1.0, 1.0, 0.1, 1024.0, 1.0 / 1048576.0, 131072.0]);
    let shift = random.pick(&[0.0, 0.0, 0.0, 1.0, END, -END, 1e6 / 3.0]);
    for c in circles {
        let [x, y, r] = *c;
        let inside = |v: f64| if v > END { END } else if v < -END { -END } else { v };
        let r = r * by;
        let r = if r >= LEAST_RADIUS { if r > END { END } else { r } } else { LEAST_RADIUS };
        *c = if shift == 0.0 { [inside(x * by), inside(y * by), r] } else { [inside(x * by + shift), inside(y * by - shift), r] };
    }
}

// ---- damage

fn damage(random: &mut Random, fields: &mut Vec<Field>) {
    if fields.is_empty() {
        return;
    }
    if random.below(2) == 0 {
        damage_shape(random, fields);
    } else {
        damage_value(random, fields);
    }
}

// Tags, lengths and order.
pub fn damage_shape(random: &mut Random, fields: &mut Vec<Field>) {
    let any = random.below(fields.len() as u64) as usize;
    let last = fields.len() - 1;
    match random.below(6) {
        0 => fields[any].tag = random.pick(&[0, 1, 2, 3, 4, 255]),
        1 => {
            let length = fields[any].length;
            fields[any].length = random.pick(&[0, 8, 16, 24, 26, length + 1, length.saturating_sub(1), length + 256, length ^ 0x8000, 65535]);
        }
        2 => fields.swap(any, random.pick(&[0, last])),
        3 => {
            let again = Field { tag: fields[any].tag, length: fields[any].length, body: fields[any].body.clone() };
            fields.insert(random.below(last as u64 + 2) as usize, again);
        }
        4 => drop(fields.remove(any)),
        _ => {
            let length = random.pick(&[0, 7, 8, 9, 15, 17, 23, 24, 25, 27]);
            fields[any].body.resize(length, 0);
            fields[any].length = length;
        }
    }
}

// Where the fields of a tag stand whose bodies have their right length.
fn places(fields: &[Field], tag: u8, length: usize) -> Vec<usize> {
    (0..fields.len()).filter(|i| fields[*i].tag == tag && fields[*i].body.len() == length).collect()
}

// Coordinates, radii, inks, masks and the factor.
fn damage_value(random: &mut Random, fields: &mut [Field]) {
    let circles = places(fields, 2, 26);
    let regions = places(fields, 3, 16);
    let factors = places(fields, 1, 8);
    match random.below(7) {
        0 | 1 if !circles.is_empty() => {
            let bad = random.pick(&[above(END), -above(END), f64::NAN, f64::INFINITY, f64::NEG_INFINITY, 1e300]);
            let at = random.below(2) as usize * 8;
            fields[random.pick(&circles)].body[at..at + 8].copy_from_slice(&bad.to_le_bytes());
        }
        2 if !circles.is_empty() => {
            let bad = random.pick(&[above(END), below(LEAST_RADIUS), 0.0, -0.0, -1.0, f64::NAN, f64::INFINITY, 5e-324]);
            fields[random.pick(&circles)].body[16..24].copy_from_slice(&bad.to_le_bytes());
        }
        3 if circles.len() > 1 => {
            let ink = fields[random.pick(&circles)].body[24..].to_vec();
            fields[random.pick(&circles)].body[24..].copy_from_slice(&ink);
        }
        4 | 5 if regions.len() > 1 => {
            let i = random.below(regions.len() as u64 - 1) as usize;
            let (one, other) = (regions[i], regions[i + 1]);
            if random.below(2) == 0 {
                fields.swap(one, other);
            } else {
                let mask = fields[one].body[..8].to_vec();
                fields[other].body[..8].copy_from_slice(&mask);
            }
        }
        _ if !factors.is_empty() => {
            let bad = random.pick(&[above(1.0), -5e-324, -1.0, 2.0, f64::NAN, f64::INFINITY, f64::NEG_INFINITY]);
            fields[random.pick(&factors)].body.copy_from_slice(&bad.to_le_bytes());
        }
        _ => {}
    }
}

// A 65th circle or a 2,049th region that is also out of place, of a wrong length, cut or of a bad value: the order of the checks decides.
fn past_a_cap(random: &mut Random) -> Vec<u8> {
    let mut card = Card { factor: 0.5, circles: vec![[0.0, 0.0, 1.0]; 64], inks: random.inks(64), regions: vec![] };
    if random.below(4) == 0 {
        card.regions = (0..2048).map(|mask| (mask, 1.0)).collect();
    } else if random.below(3) == 0 {
        card.regions.push((1, 1.0));
    }
    if random.below(4) == 0 {
        card.circles[random.below(64) as usize][2] = f64::NAN;
    }
    let mut fields = fields(&card);
    let mut beyond = if card.regions.len() == 2048 {
        field(3, &[random.pick(&[0, 5000]), 0])
    } else {
        circle_field(&[random.pick(&[0, f64::NAN.to_bits()]), 0, 0], random.pick(&card.inks))
    };
    if random.below(2) == 0 {
        beyond.length = random.pick(&[0, 8, 16, 24, 25, 27, 65535]);
    }
    fields.push(beyond);
    let mut file = bytes(&fields);
    if random.below(2) == 0 {
        file.truncate(file.len() - random.below(30) as usize);
    }
    file
}

// ---- how often each case comes up

#[derive(Default)]
pub struct Tally {
    accepted: usize,
    refused: [usize; 15],
    same_ink: [usize; 15],
    moved: usize,
    tried_in_vain: usize,
    turned: usize,
    mirrored_in_x: usize,
    mirrored_in_y: usize,
    several_clusters: usize,
    no_circles: usize,
    full: usize,
    full_of_regions: usize,
}

impl Tally {
    pub fn count(&mut self, outcome: &Outcome) {
        if outcome.refusal != 0 {
            self.refused[outcome.refusal] += 1;
            self.same_ink[outcome.refusal] += outcome.same_ink as usize;
            return;
        }
        let seen = &outcome.seen;
        self.accepted += 1;
        self.moved += (seen.moved != 0) as usize;
        self.tried_in_vain += (seen.tried > seen.moved.count_ones() as usize) as usize;
        self.turned += (seen.turns > 0) as usize;
        self.mirrored_in_x += (seen.mirrors_in_x > 0) as usize;
        self.mirrored_in_y += (seen.mirrors_in_y > 0) as usize;
        self.several_clusters += (seen.clusters.len() > 1) as usize;
        self.no_circles += (outcome.circles == 0) as usize;
        self.full += (outcome.circles == 64) as usize;
        self.full_of_regions += (outcome.regions == 2048) as usize;
    }
    pub fn print(&self) {
        eprintln!("accepted {}", self.accepted);
        for (number, count) in self.refused.iter().enumerate().filter(|(_, count)| **count > 0) {
            eprintln!("refused {number}: {count}, {} of them after two circles of one ink", self.same_ink[number]);
        }
        eprintln!("with a moved circle {}", self.moved);
        eprintln!("with a child left where it was {}", self.tried_in_vain);
        eprintln!("with a turn {}", self.turned);
        eprintln!("with a mirror in x {}, in y {}", self.mirrored_in_x, self.mirrored_in_y);
        eprintln!("with two or more clusters {}", self.several_clusters);
        eprintln!("with no circles {}, with 64 {}, with 2,048 regions {}", self.no_circles, self.full, self.full_of_regions);
    }
}
