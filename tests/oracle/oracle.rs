// Writes records of inputs and the answers of the patched Rust, for the program `replay` and for tests/lent:
//     oracle KIND COUNT SEED          COUNT random inputs of a kind
//     oracle KIND COUNT SEED small    of kinds 4, 5, 8 to 12, 14 and 15: mostly short records
//     oracle KIND COUNT SEED stats    of kinds 1 to 4, 10 to 13 and 15: and on standard error how often each case came up
//     oracle at P KIND COUNT SEED     inputs of kind 8, 11 or 12 at a proportion, until COUNT of them are accepted; `small` and `stats` as above
//     oracle columns P                a record of kind 7 for each of 0 to 65 boxes, at a proportion
//     oracle charges                  a record of kind 12 for each boundary of a charge
//     oracle touches [small]          a record of kind 15 for each boundary of a batch of points; `small` leaves most of the long ones out
//     oracle near-tangent             records of kinds 1 to 4 for circles that fall otherwise than by the root of rounded squares
//     oracle hypots SEED              a record of kind 13 for each of the sides that are stored
//     oracle files NAME...            a record of kind 10 for each of the card files
//     oracle text                     what program `card` prints for the card file on standard input
// A record is a kind byte, a two-byte length and a body: the input, then the answer; all numbers little-endian. Refusals are worked out here from document
// 01's table, since the Rust asserts or takes what comes; so are the fields of kind 14, as the Rust has no card file. The Rust sees circles without their inks:
// those that come back are those handed in, and two equal ones of a list are refused with 14, after all of document 01. A proportion out of range is refused
// with 16, after these, and then a price with 17, too many points with 18, and too few answers with 19. Either zero is written as 0, and every NaN as one.
#[path = "../../target/oracle/eunoia.rs"]
mod eunoia;
mod card;
mod cards;
mod charges;
mod fields;
mod hypot;
mod layouts;
mod sides;
mod touches;

use eunoia::*;
use sides::{Reach, Sides};
use std::collections::{BTreeMap, BTreeSet};
use std::io::{Read, Write};

struct Random(u64);

impl Random {
    fn next(&mut self) -> u64 {
        self.0 = self.0.wrapping_add(0x9e37_79b9_7f4a_7c15);
        let mut z = self.0;
        z = (z ^ (z >> 30)).wrapping_mul(0xbf58_476d_1ce4_e5b9);
        z = (z ^ (z >> 27)).wrapping_mul(0x94d0_49bb_1331_11eb);
        z ^ (z >> 31)
    }
    fn below(&mut self, n: u64) -> u64 {
        self.next() % n
    }
    fn pick<T: Copy>(&mut self, from: &[T]) -> T {
        from[self.below(from.len() as u64) as usize]
    }
    fn unit(&mut self) -> f64 {
        (self.next() >> 11) as f64 / (1u64 << 53) as f64
    }
    // Any pattern at all.
    fn any(&mut self) -> f64 {
        match self.below(4) {
            0 => f64::from_bits(self.next()),
            1 => self.pick(&[0.0, -0.0, 1.0, -1.0, f64::NAN, f64::INFINITY, f64::NEG_INFINITY, f64::MIN_POSITIVE, -f64::MIN_POSITIVE, f64::MAX, 5e-324, 1e-310]),
            2 => (self.below(41) as f64 - 20.0) / 4.0,
            _ => (self.unit() - 0.5) * 100.0,
        }
    }
    // A coordinate: mostly small whole numbers, so that circles touch, coincide and contain each other.
    fn coordinate(&mut self, wild: u64) -> f64 {
        if wild > 0 && self.below(wild) == 0 {
            return self.pick(&[1048576.0, -1048576.0, above(1048576.0), -above(1048576.0), f64::NAN, f64::INFINITY, f64::NEG_INFINITY, -0.0, 1e300, 5e-324]);
        }
        match self.below(6) {
            0 | 1 => self.below(21) as f64 - 10.0,
            2 => (self.below(161) as f64 - 80.0) / 8.0,
            3 => (self.unit() - 0.5) * 20.0,
            4 => (self.unit() - 0.5) * 2097152.0,
            _ => self.pick(&[0.0, -0.0, 3.0, 4.0, 1048576.0, -1048576.0]),
        }
    }
    fn radius(&mut self, wild: u64) -> f64 {
        if wild > 0 && self.below(wild) == 0 {
            return self.pick(&[0.0, -0.0, -1.0, f64::NAN, f64::INFINITY, above(1048576.0), below(9.5367431640625e-7), f64::MIN_POSITIVE, 5e-324]);
        }
        match self.below(6) {
            0 | 1 => (self.below(8) + 1) as f64,
            2 => (self.below(64) + 1) as f64 / 8.0,
            3 => self.unit() * 5.0 + 0.01,
            4 => self.unit() * 1048575.0 + 1.0,
            _ => self.pick(&[9.5367431640625e-7, 1048576.0, 5.0, 1.0]),
        }
    }
    fn circle(&mut self, wild: u64) -> [f64; 3] {
        [self.coordinate(wild), self.coordinate(wild), self.radius(wild)]
    }
    // A circle that touches another from inside or outside, equals it or shares its centre, or any.
    fn beside(&mut self, c: [f64; 3], wild: u64) -> [f64; 3] {
        let r = self.radius(0);
        match self.below(10) {
            0 => c,
            1 => [c[0], c[1], r],
            2 => [c[0] + c[2] + r, c[1], r],
            3 => [c[0], c[1] - (c[2] + r), r],
            4 => [c[0] + (c[2] - r), c[1], r],
            5 => [c[0] + 3.0 * r, c[1] + 4.0 * r, 5.0 * r - c[2]],
            6 | 7 => self.nearly_touching(c),
            _ => self.circle(wild),
        }
    }
    // The distance for two differences, or a number next to it; also what the root of rounded squares gives.
    fn about(&mut self, [x, y]: [f64; 2]) -> f64 {
        let distance = hypot::hypot(x, y);
        match self.below(6) {
            0 => above(distance),
            1 if distance > 0.0 => below(distance),
            2 => hypot::rounded_squares(x, y),
            _ => distance,
        }
    }
    // A circle that touches another in any direction, from outside, from inside or around it, or misses that by a last place.
    fn nearly_touching(&mut self, c: [f64; 3]) -> [f64; 3] {
        let apart = sides::one(self, Reach::Points);
        let size = apart[0].abs().max(apart[1].abs());
        let by = if size > 1e-300 { (c[2] / size).log2().round().exp2() * self.pick(&[0.5, 1.0, 1.0, 2.0]) } else { 1.0 };
        let [x, y] = [c[0] + apart[0] * by, c[1] + apart[1] * by];
        let about = self.about([x - c[0], y - c[1]]);
        let radius = match self.below(3) {
            0 => c[2] - about,
            1 => c[2] + about,
            _ => about - c[2],
        };
        let radius = if bad_radius(radius) { (about - c[2]).abs() } else { radius };
        if bad_point([x, y]) || bad_radius(radius) { self.circle(0) } else { [x, y, radius] }
    }
    // Any ink number, and often one next to an end of a byte.
    fn ink(&mut self) -> u16 {
        match self.below(4) {
            0 => self.pick(&[0, 1, 255, 256, 32767, 32768, 65534, 65535]),
            _ => self.next() as u16,
        }
    }
    // Inks for n circles, all different but for one list in six. Some differ in one byte alone; 0 and 65,535 are among many.
    fn inks(&mut self, n: usize) -> Vec<u16> {
        let any = self.ink();
        let mut inks: Vec<u16> = match self.below(5) {
            0 => (0..n).map(|i| i as u16 + 1).collect(),
            1 => (0..n).map(|i| any.wrapping_sub(i as u16)).collect(),
            2 => (0..n).map(|i| any.wrapping_add(256 * i as u16)).collect(),
            _ => self.different_inks(n),
        };
        for end in [0, 65535] {
            if n > 0 && self.below(3) == 0 && !inks.contains(&end) {
                inks[self.below(n as u64) as usize] = end;
            }
        }
        if n > 1 && self.below(6) == 0 {
            self.repeat_an_ink(&mut inks);
        }
        inks
    }
    fn different_inks(&mut self, n: usize) -> Vec<u16> {
        let mut inks = Vec::new();
        while inks.len() < n {
            let ink = self.ink();
            if !inks.contains(&ink) {
                inks.push(ink);
            }
        }
        inks
    }
    // Two circles get one ink: mostly the last and another one, or two neighbours; now and then all do.
    fn repeat_an_ink(&mut self, inks: &mut [u16]) {
        let last = inks.len() - 1;
        let any = 1 + self.below(last as u64) as usize;
        let (one, other) = match self.below(8) {
            0 | 1 => (self.below(last as u64) as usize, last),
            2 => (0, last),
            3 => (last - 1, last),
            4 => (0, 1),
            5 => (any - 1, any),
            6 => return inks.fill(inks[0]),
            _ => (self.below(any as u64) as usize, any),
        };
        if self.below(4) == 0 {
            inks[one] = self.pick(&[0, 65535]);
        }
        inks[other] = inks[one];
    }
    fn area(&mut self) -> f64 {
        match self.below(12) {
            0 => f64::NAN,
            1 => f64::INFINITY,
            2 => f64::NEG_INFINITY,
            3 => 0.0,
            4 => -1.0,
            5 => 1e-10,
            6 => above(1e-10),
            7 => self.unit() * 1e-9,
            8 => self.any(),
            _ => self.unit() * 10.0,
        }
    }
    // A proportion for k boxes: an end, 1.618 and its neighbours, where the columns step, or any. One in six is refused.
    fn proportion(&mut self, k: u64) -> f64 {
        if self.below(6) == 0 {
            return self.pick(&[below(0.25), above(4.0), 0.0, -0.0, -1.0, -1.618, 5e-324, 1e300, f64::NAN, f64::INFINITY, f64::NEG_INFINITY]);
        }
        let square = self.below(16) + 1;
        let step = (square * square) as f64 / k.max(1) as f64;
        match self.below(6) {
            0 => self.pick(&[0.25, above(0.25), below(4.0), 4.0]),
            1 => self.pick(&[below(1.618), 1.618, above(1.618)]),
            2 | 3 if 0.26 < step && step < 3.9 => f64::from_bits(step.to_bits() + self.below(9) - 4),
            4 => 0.25 + 0.75 * self.unit(),
            _ => 1.0 + 3.0 * self.unit(),
        }
    }
    // Two-circle masks, rising, that link all 64 circles in long chains, in any order of theirs: what is joined is found over many links, and, where there
    // are fewer circles, a chain is broken by each that is not there.
    fn chains(&mut self) -> Vec<u64> {
        let mut order: Vec<u64> = (0..64).collect();
        for i in 1..64 {
            order.swap(i, self.below(i as u64 + 1) as usize);
        }
        let cut = self.pick(&[2u64, 8, 64]);
        let mut masks: Vec<u64> = order.windows(2).filter_map(|p| (self.below(cut) > 0).then_some(1 << p[0] | 1 << p[1])).collect();
        masks.sort_unstable();
        masks
    }
    // Masks that rise strictly; sometimes one is repeated or out of order.
    fn masks(&mut self, n: u64, m: usize, wild: u64) -> Vec<u64> {
        let wide = self.below(4) == 0;
        let top = if wide || n >= 64 { u64::MAX } else { (1u64 << n.max(2)) - 1 };
        let mut masks: Vec<u64> = (0..m)
            .map(|_| match self.below(4) {
                0 => self.next() & top,
                1 => (1u64 << self.below(64)) & top,
                _ => ((1u64 << self.below(64)) | (1u64 << self.below(64))) & top,
            })
            .collect();
        masks.sort_unstable();
        masks.dedup();
        if wild > 0 && masks.len() > 1 && self.below(wild) == 0 {
            let i = self.below(masks.len() as u64 - 1) as usize;
            if self.below(2) == 0 {
                masks[i + 1] = masks[i];
            } else {
                masks.swap(i, i + 1);
            }
        }
        masks
    }
}

fn above(x: f64) -> f64 {
    f64::from_bits(x.to_bits() + 1)
}

fn below(x: f64) -> f64 {
    f64::from_bits(x.to_bits() - 1)
}

// ---- records

// The pattern that stands for every NaN.
const NAN: u64 = 0x7ff8_0000_0000_0000;

#[derive(Default)]
struct Record(Vec<u8>);

impl Record {
    fn byte(&mut self, b: usize) {
        self.0.push(b as u8);
    }
    fn short(&mut self, n: usize) {
        self.0.extend_from_slice(&(n as u16).to_le_bytes());
    }
    fn word(&mut self, w: u64) {
        self.0.extend_from_slice(&w.to_le_bytes());
    }
    // An input, bit for bit.
    fn float(&mut self, x: f64) {
        self.word(x.to_bits());
    }
    // An answer.
    fn result(&mut self, x: f64) {
        self.word(if x == 0.0 { 0 } else if x.is_nan() { NAN } else { x.to_bits() });
    }
    // A circle that is handed in, and one that comes back.
    fn circle(&mut self, c: [f64; 3], ink: u16) {
        for x in c {
            self.float(x);
        }
        self.short(ink as usize);
    }
    fn placed(&mut self, c: [f64; 3], ink: u16) {
        for x in c {
            self.result(x);
        }
        self.short(ink as usize);
    }
    fn bounds(&mut self, b: Bounds) {
        for x in [b.x_min, b.x_max, b.y_min, b.y_max] {
            self.result(x);
        }
    }
    fn write(&self, kind: u8, out: &mut impl Write) {
        assert!(self.0.len() < 65536, "a body of {} bytes", self.0.len());
        let mut head = vec![kind];
        head.extend_from_slice(&(self.0.len() as u16).to_le_bytes());
        out.write_all(&head).unwrap();
        out.write_all(&self.0).unwrap();
    }
}

// ---- document 01's ranges and their order

fn bad_coordinate(x: f64) -> bool {
    !(x.abs() <= 1048576.0)
}

fn bad_point(p: [f64; 2]) -> bool {
    bad_coordinate(p[0]) || bad_coordinate(p[1])
}

fn bad_radius(r: f64) -> bool {
    !(9.5367431640625e-7 <= r && r <= 1048576.0)
}

fn bad_proportion(x: f64) -> bool {
    !(0.25 <= x && x <= 4.0)
}

fn circle(c: [f64; 3]) -> Circle {
    Circle::new(Point::new(c[0], c[1]), c[2])
}

fn circles_refusal(circles: &[[f64; 3]]) -> usize {
    if circles.len() > 64 {
        1
    } else if circles.iter().any(|c| bad_point([c[0], c[1]])) {
        3
    } else if circles.iter().any(|c| bad_radius(c[2])) {
        4
    } else {
        0
    }
}

// Whether two of a list have one ink. It is looked for after every other check of document 01.
fn same_ink(inks: &[u16]) -> bool {
    inks.iter().collect::<BTreeSet<_>>().len() < inks.len()
}

// The cluster of each circle.
fn numbers(clusters: &[Vec<usize>]) -> [u8; 64] {
    let mut numbers = [0u8; 64];
    for (number, cluster) in clusters.iter().enumerate() {
        for &i in cluster {
            numbers[i] = number as u8;
        }
    }
    numbers
}

// After a refusal there are no clusters.
fn grouped(record: &mut Record, refusal: usize, clusters: &[Vec<usize>]) {
    record.byte(refusal);
    record.byte(clusters.len());
    record.0.extend_from_slice(&numbers(clusters));
}

// ---- one record of each kind

// Two points anywhere, or two whose differences are chosen and come out exactly: one is the origin, or it is the other's mirror image.
fn points(random: &mut Random, sides: &mut Sides) -> [[f64; 2]; 2] {
    if random.below(3) == 0 {
        let wild = random.pick(&[0, 4, 16]);
        return [[random.coordinate(wild), random.coordinate(wild)], [random.coordinate(wild), random.coordinate(wild)]];
    }
    let apart = sides.next(random, Reach::Points);
    points_apart(random, apart)
}

// Such points, far enough apart to be centres.
fn chosen_points(random: &mut Random) -> [[f64; 2]; 2] {
    loop {
        let apart = sides::one(random, Reach::Points);
        if hypot::hypot(apart[0], apart[1]) > 4e-6 {
            return points_apart(random, apart);
        }
    }
}

fn points_apart(random: &mut Random, apart: [f64; 2]) -> [[f64; 2]; 2] {
    let half = apart.map(|v| v / 2.0);
    match random.below(4) {
        0 | 1 if !bad_point(apart) => [apart, [0.0; 2]],
        2 if !bad_point(apart) => [[-0.0; 2], apart],
        _ => [half, half.map(|v| -v)],
    }
}

// Two points; the refusal, the distance.
fn distance_record(p: [f64; 2], q: [f64; 2], record: &mut Record) {
    for x in [p[0], p[1], q[0], q[1]] {
        record.float(x);
    }
    let refused = bad_point(p) || bad_point(q);
    record.byte(if refused { 3 } else { 0 });
    record.result(if refused { 0.0 } else { Point::new(p[0], p[1]).distance(&Point::new(q[0], q[1])) });
}

// Two circles of chosen differences, which touch or nearly do.
fn touching_pair(random: &mut Random) -> [[f64; 3]; 2] {
    let [p, q] = chosen_points(random);
    let about = random.about([p[0] - q[0], p[1] - q[1]]);
    let part = random.pick(&[0.5, 0.5, 0.25, 1.0, 2.0]);
    let radii = match random.below(3) {
        0 => [about * part, about - about * part],
        1 => [about + part, part],
        _ => [about * part, about * part + about],
    };
    [[p[0], p[1], radii[0]], [q[0], q[1], radii[1]]]
}

fn pair_record(random: &mut Random, record: &mut Record) {
    let wild = random.pick(&[0, 6, 24]);
    let a = random.circle(wild);
    let [a, b] = if random.below(3) == 0 { touching_pair(random) } else { [a, random.beside(a, wild)] };
    // two circles are no list: equal inks are no cause
    let ink = random.ink();
    pair_of([a, b], [ink, if random.below(2) == 0 { ink } else { random.ink() }], record);
}

// Two circles; the refusal, the distance, whether the first contains the second, whether they intersect.
fn pair_of([a, b]: [[f64; 3]; 2], inks: [u16; 2], record: &mut Record) {
    record.circle(a, inks[0]);
    record.circle(b, inks[1]);
    let refusal = circles_refusal(&[a, b]);
    record.byte(refusal);
    let (ca, cb) = (circle(a), circle(b));
    record.result(if refusal == 0 { Distance::distance(&ca, &cb) } else { 0.0 });
    record.byte((refusal == 0 && ca.contains(&cb)) as usize);
    record.byte((refusal == 0 && ca.intersects(&cb)) as usize);
}

fn point_record(random: &mut Random, record: &mut Record) {
    let wild = random.pick(&[0, 6, 24]);
    let mut c = random.circle(wild);
    let p = match random.below(6) {
        0 => [c[0] + c[2], c[1]],
        1 => [c[0], above(c[1] + c[2])],
        2 => [c[0], c[1]],
        3 | 4 => {
            let [p, q] = chosen_points(random);
            c = [q[0], q[1], random.about([p[0] - q[0], p[1] - q[1]])];
            p
        }
        _ => [random.coordinate(wild), random.coordinate(wild)],
    };
    point_of(c, random.ink(), p, record);
}

// A circle, a point; the refusal, whether the circle contains the point.
fn point_of(c: [f64; 3], ink: u16, p: [f64; 2], record: &mut Record) {
    record.circle(c, ink);
    for x in p {
        record.float(x);
    }
    let refusal = if bad_point(p) { 3 } else { circles_refusal(&[c]) };
    record.byte(refusal);
    record.byte((refusal == 0 && circle(c).contains_point(&Point::new(p[0], p[1]))) as usize);
}

fn some_circles(random: &mut Random, small: bool) -> Vec<[f64; 3]> {
    let few = small && random.below(16) > 0;
    let n = if few { random.pick(&[0, 1, 2, 2, 3, 3, 4, 5, 8]) } else { random.pick(&[0, 1, 2, 2, 3, 3, 4, 5, 8, 13, 30, 63, 64, 65, 70]) };
    let wild = random.pick(&[0, 0, 0, 40, 400]);
    let touching = random.below(4) == 0;
    let mut circles: Vec<[f64; 3]> = Vec::new();
    for i in 0..n {
        let c = if i > 0 && touching {
            random.nearly_touching(circles[i as usize - 1])
        } else if i > 0 && random.below(3) > 0 {
            let other = circles[random.below(i) as usize];
            random.beside(other, wild)
        } else {
            random.circle(wild)
        };
        circles.push(c);
    }
    circles
}

fn circles_record(random: &mut Random, record: &mut Record, small: bool) {
    let circles = some_circles(random, small);
    let inks = random.inks(circles.len());
    clusters_of(&circles, &inks, record);
}

// How many circles, the circles; the refusal, the clusters.
fn clusters_of(circles: &[[f64; 3]], inks: &[u16], record: &mut Record) {
    record.byte(circles.len());
    for (c, ink) in circles.iter().zip(inks) {
        record.circle(*c, *ink);
    }
    let refusal = match circles_refusal(circles) {
        0 if same_ink(inks) => 14,
        number => number,
    };
    let shapes: Vec<Circle> = circles.iter().map(|c| circle(*c)).collect();
    grouped(record, refusal, &if refusal == 0 { find_clusters(&shapes) } else { vec![] });
}

// Of kinds 2, 3 and 4, in which distances decide.
fn decided_record(kind: u64, random: &mut Random, record: &mut Record, small: bool) {
    match kind {
        2 => pair_record(random, record),
        3 => point_record(random, record),
        _ => circles_record(random, record, small),
    }
}

fn areas_record(random: &mut Random, record: &mut Record, small: bool) {
    let chains = random.below(8) == 0;
    let n = if chains { random.pick(&[13, 40, 63, 64, 64, 64]) } else { random.pick(&[0u64, 1, 2, 3, 4, 5, 8, 13, 40, 63, 64, 65, 70, 255]) };
    let m = random.pick(&[0usize, 1, 1, 2, 3, 4, 6, 10, 30, 100]);
    let m = if !small && random.below(200) == 0 { random.pick(&[2047, 2048, 2049, 2060]) } else { m };
    let masks: Vec<u64> = if m > 1000 {
        (0..m as u64).map(|k| k * 0x0040_0801_0020_0401).collect()
    } else if chains {
        random.chains()
    } else {
        random.masks(n, m, 8)
    };
    let mut areas: Vec<f64> = masks.iter().map(|_| if chains && random.below(32) > 0 { 1.0 } else { random.area() }).collect();
    if random.below(20) == 0 {
        areas.push(1.0);
    }
    let tolerance = match random.below(6) {
        0 => random.any(),
        1 => f64::NAN,
        2 => random.pick(&[f64::INFINITY, f64::NEG_INFINITY, 0.0, -0.0]),
        _ => 1e-10,
    };
    record.byte(n as usize);
    record.short(masks.len());
    record.short(areas.len());
    record.float(tolerance);
    for w in &masks {
        record.word(*w);
    }
    for a in &areas {
        record.float(*a);
    }
    let refusal = if n > 64 {
        1
    } else if masks.len() != areas.len() {
        13
    } else if masks.len() > 2048 {
        2
    } else if masks.windows(2).any(|w| w[0] >= w[1]) {
        5
    } else {
        0
    };
    let map: BTreeMap<usize, f64> = masks.iter().map(|w| *w as usize).zip(areas.iter().copied()).collect();
    grouped(record, refusal, &if refusal == 0 { find_clusters_from_exclusive_regions(n as usize, &map, tolerance) } else { vec![] });
}

fn boxes_record(random: &mut Random, record: &mut Record) {
    let f: Vec<f64> = (0..9).map(|_| random.any()).collect();
    let ink = random.ink();
    for x in &f {
        record.float(*x);
    }
    record.short(ink as usize);
    let a = Bounds::new(f[0], f[1], f[2], f[3]);
    let b = Bounds::new(f[4], f[5], f[6], f[7]);
    record.bounds(a.union(&b));
    match a.intersection(&b) {
        Some(shared) => {
            record.byte(1);
            record.bounds(shared);
        }
        None => {
            record.byte(0);
            record.bounds(Bounds::new(0.0, 0.0, 0.0, 0.0));
        }
    }
    for x in [a.width(), a.height(), a.area()] {
        record.result(x);
    }
    let lifted = Circle::from_params(&[f[0], f[1], f[8]]);
    record.result(lifted.radius());
    record.short(ink as usize);
    record.bounds(circle([f[0], f[1], f[8]]).bounds());
    record.bounds(Rectangle::new(Point::new(f[4], f[5]), f[6], f[7]).bounds());
}

// How many boxes, the proportion; the refusal, the columns.
fn columns_record(k: usize, proportion: f64, record: &mut Record) {
    let refusal = if k > 64 {
        1
    } else if bad_proportion(proportion) {
        16
    } else {
        0
    };
    record.byte(k);
    record.float(proportion);
    record.byte(refusal);
    record.byte(if refusal == 0 { at_proportion(proportion, || columns(k)) } else { 0 });
}

impl Random {
    fn side(&mut self, wild: u64) -> f64 {
        if wild > 0 && self.below(wild) == 0 {
            return self.pick(&[-1.0, f64::NAN, f64::INFINITY, above(8388608.0), 1e300, -5e-324]);
        }
        match self.below(6) {
            0 | 1 => self.below(6) as f64,
            2 => self.below(64) as f64 / 8.0,
            3 => self.unit() * 10.0,
            4 => self.unit() * 8388608.0,
            _ => self.pick(&[0.0, -0.0, 8388608.0, 1.0, 5e-324]),
        }
    }
}

fn bad_side(x: f64) -> bool {
    !(0.0 <= x && x <= 8388608.0)
}

fn some_boxes(random: &mut Random, small: bool) -> u64 {
    let few = small && random.below(8) > 0;
    random.pick(if few { &[1, 2, 3, 4, 5, 6, 8] } else { &[0, 1, 2, 2, 3, 3, 4, 5, 6, 8, 13, 30, 63, 64, 65, 70] })
}

// How many boxes, the padding, the proportion, the boxes; the refusal, and where there is none the boxes placed. Gives whether it is accepted.
fn pack_record(random: &mut Random, n: u64, proportion: f64, record: &mut Record) -> bool {
    let wild = random.pick(&[0, 0, 0, 30, 300]);
    let padding = match random.below(8) {
        0 => random.pick(&[0.0, -0.0, 67108864.0, 5e-324]),
        1 if wild > 0 => random.pick(&[above(67108864.0), -1.0, f64::NAN, f64::INFINITY]),
        2 => random.unit() * 67108864.0,
        _ => random.unit() * 3.0,
    };
    let rects: Vec<[f64; 4]> = (0..n).map(|_| [random.any(), random.any(), random.side(wild), random.side(wild)]).collect();
    record.byte(n as usize);
    record.float(padding);
    record.float(proportion);
    for r in &rects {
        for x in r {
            record.float(*x);
        }
    }
    let refusal = if n > 64 {
        1
    } else if rects.iter().any(|r| bad_side(r[2]) || bad_side(r[3])) {
        7
    } else if !(0.0 <= padding && padding <= 67108864.0) {
        8
    } else if bad_proportion(proportion) {
        16
    } else {
        0
    };
    record.byte(refusal);
    if refusal == 0 {
        let given: Vec<Rectangle> = rects.iter().map(|r| Rectangle::new(Point::new(r[0], r[1]), r[2], r[3])).collect();
        for r in at_proportion(proportion, || skyline_pack(&given, padding)) {
            for x in [r.center().x(), r.center().y(), r.width(), r.height()] {
                record.result(x);
            }
        }
    }
    refusal == 0
}

fn container_record(random: &mut Random, record: &mut Record, small: bool) {
    let circles: Vec<[f64; 3]> = some_circles(random, small);
    let inks = random.inks(circles.len());
    let wild = random.pick(&[0, 0, 6]);
    let tight = random.below(2) == 0;
    let spread = circles.iter().fold(0.0f64, |m, c| m.keep_max(c[0].abs() + c[2]).keep_max(c[1].abs() + c[2]));
    let mut container = [random.coordinate(wild), random.coordinate(wild), random.side(wild), random.side(wild)];
    if random.below(3) == 0 {
        container[0] = random.pick(&[0.0, 1e-12, above(1e-12), -1e-13, 5e-324]);
        container[1] = random.pick(&[0.0, -1e-12, 1e-13, 2e-12]);
    }
    if tight && spread <= 4194304.0 {
        container[2] = 2.0 * spread;
        container[3] = 2.0 * spread;
    }
    record.byte(circles.len());
    for x in container {
        record.float(x);
    }
    for (c, ink) in circles.iter().zip(&inks) {
        record.circle(*c, *ink);
    }
    let refusal = match circles_refusal(&circles) {
        1 => 1,
        3 => 3,
        _ if bad_point([container[0], container[1]]) => 3,
        4 => 4,
        _ if bad_side(container[2]) || bad_side(container[3]) => 7,
        _ if same_ink(&inks) => 14,
        _ => 0,
    };
    record.byte(refusal);
    let mut rectangle = Rectangle::new(Point::new(container[0], container[1]), container[2], container[3]);
    let mut shapes: Vec<Circle> = circles.iter().map(|c| circle(*c)).collect();
    if refusal == 0 {
        normalize_layout_with_container(&mut shapes, &mut rectangle);
    }
    for x in [rectangle.center().x(), rectangle.center().y(), rectangle.width(), rectangle.height()] {
        record.result(x);
    }
    if circles.len() <= 64 {
        for (c, ink) in shapes.iter().zip(&inks) {
            record.placed([c.center().x(), c.center().y(), c.radius()], *ink);
        }
    }
}

// How many circles, masks and areas; the proportion, the factor, the circles, the masks, the areas.
fn layout_input(given: &layouts::Lists, proportion: f64, record: &mut Record) {
    record.byte(given.circles.len());
    record.short(given.masks.len());
    record.short(given.areas.len());
    record.float(proportion);
    record.float(given.factor);
    for (c, ink) in given.circles.iter().zip(&given.inks) {
        record.circle(*c, *ink);
    }
    for w in &given.masks {
        record.word(*w);
    }
    for a in &given.areas {
        record.float(*a);
    }
}

// A layout's input; the refusal, the clusters, the mask of the moved circles, the padding and, where they fit a layout, the circles.
fn layout_record(given: &layouts::Lists, proportion: f64, record: &mut Record) -> layouts::Outcome {
    let outcome = layouts::outcome(given, proportion);
    layout_input(given, proportion, record);
    grouped(record, outcome.refusal, &outcome.seen.clusters);
    record.word(outcome.seen.moved);
    record.result(outcome.seen.padding);
    if given.circles.len() <= 64 {
        for (c, ink) in outcome.circles.iter().zip(&given.inks) {
            record.placed(*c, *ink);
        }
    }
    outcome
}

// A layout's input, the price; the refusal, the amount.
fn charge_record(given: &layouts::Lists, proportion: f64, cents: u64, record: &mut Record) -> charges::Charge {
    let charge = charges::charge(given, proportion, cents);
    layout_input(given, proportion, record);
    record.word(cents);
    record.byte(charge.refusal);
    record.word(charge.amount);
    charge
}

// How many circles, points and answers; the circles, the points, the word that each answer is before the call; the refusal, the answers.
fn touch_record(batch: &touches::Batch, record: &mut Record) -> touches::Touched {
    let touched = touches::touch(batch);
    record.byte(batch.circles.len());
    record.short(batch.points.len());
    record.short(batch.room);
    for (c, ink) in batch.circles.iter().zip(&batch.inks) {
        record.circle(*c, *ink);
    }
    for x in batch.points.iter().flatten() {
        record.float(*x);
    }
    record.word(batch.fill);
    record.byte(touched.refusal);
    for mask in &touched.answers {
        record.word(*mask);
    }
    touched
}

// The length of the card file, the file, and what program `card` prints for it.
fn card_record(file: &[u8], record: &mut Record) -> card::Outcome {
    let outcome = card::outcome(file);
    record.short(file.len());
    record.0.extend_from_slice(file);
    record.0.extend_from_slice(&outcome.text);
    outcome
}

// Two sides; the hypot. It never gives -0, so a zero's sign counts here.
fn hypot_record(sides: sides::Pair, record: &mut Record) {
    for x in sides {
        record.float(x);
    }
    let root = hypot::hypot(sides[0], sides[1]);
    record.word(if root.is_nan() { NAN } else { root.to_bits() });
}

// The length of the file, the place, the file; the refusal, the tag, the factor, the circle, the mask and the area, where the body starts and how long it is.
fn field_record(file: &[u8], at: usize, record: &mut Record) {
    let (mut refusal, mut tag, mut factor, mut circle, mut ink, mut region, mut start, mut length) = (0, 0, 0.0, [0.0; 3], 0, (0, 0.0), 0, 0);
    match card::field(file, at) {
        Err(number) => refusal = number,
        Ok(field) => {
            (start, length) = (field.start, field.length);
            match field.value {
                card::Value::Factor(read) => (tag, factor) = (1, read),
                card::Value::Circle(read, number) => (tag, circle, ink) = (2, read, number),
                card::Value::Region(mask, area) => (tag, region) = (3, (mask, area)),
            }
        }
    }
    record.short(file.len());
    record.word(at as u64);
    record.0.extend_from_slice(file);
    record.byte(refusal);
    record.byte(tag);
    record.result(factor);
    record.placed(circle, ink);
    record.word(region.0);
    record.result(region.1);
    record.word(start as u64);
    record.word(length as u64);
}

fn number(words: &[String], i: usize) -> u64 {
    words.get(i).and_then(|w| w.parse().ok()).expect("oracle KIND COUNT SEED")
}

fn proportion(words: &[String], i: usize) -> f64 {
    words.get(i).and_then(|w| w.parse().ok()).expect("a proportion")
}

fn write_random(words: &[String], out: &mut impl Write) {
    let (kind, count, seed) = (number(words, 0), number(words, 1), number(words, 2));
    let asked = |option: &str| words[3..].iter().any(|w| w == option);
    let stats = asked("stats");
    let mut random = Random(seed.wrapping_mul(0x1000_0000_01b3) ^ kind);
    let mut tally = cards::Tally::default();
    let mut layouts_tally = layouts::Tally::default();
    let mut charges_tally = charges::Tally::default();
    let mut touches_tally = touches::Tally::default();
    let mut sides = Sides::default();
    let mut sides_tally = sides::Tally::default();
    let mut places = fields::Places::default();
    let mut changed = 0;
    for _ in 0..count {
        let mut record = Record::default();
        match kind {
            1 => {
                let [p, q] = points(&mut random, &mut sides);
                if stats {
                    sides_tally.count([p[0] - q[0], p[1] - q[1]]);
                }
                distance_record(p, q, &mut record);
            }
            2..=4 => {
                let again = &mut Random(random.0);
                decided_record(kind, &mut random, &mut record, asked("small"));
                if stats {
                    let mut before = Record::default();
                    hypot::by_rounded_squares(|| decided_record(kind, again, &mut before, asked("small")));
                    changed += (before.0 != record.0) as usize;
                }
            }
            5 => areas_record(&mut random, &mut record, asked("small")),
            6 => boxes_record(&mut random, &mut record),
            7 => {
                let k = random.below(70);
                columns_record(k as usize, random.proportion(k), &mut record);
            }
            8 => {
                let n = some_boxes(&mut random, asked("small"));
                let proportion = random.proportion(n);
                pack_record(&mut random, n, proportion, &mut record);
            }
            9 => container_record(&mut random, &mut record, asked("small")),
            10 => {
                let file = cards::file(&mut random, asked("small"));
                tally.count(&card_record(&file, &mut record));
                if stats {
                    let mut before = Record::default();
                    hypot::by_rounded_squares(|| card_record(&file, &mut before));
                    changed += (before.0 != record.0) as usize;
                }
            }
            11 => {
                let given = layouts::lists(&mut random, asked("small"));
                let proportion = random.proportion(given.circles.len() as u64);
                layouts_tally.count(proportion, &layout_record(&given, proportion, &mut record));
            }
            12 => {
                let given = charges::lists(&mut random, asked("small"));
                let proportion = random.proportion(given.circles.len() as u64);
                let cents = charges::price(&mut random);
                charges_tally.count(cents, &charge_record(&given, proportion, cents, &mut record));
            }
            13 => {
                let pair = sides.next(&mut random, Reach::Any);
                if stats {
                    sides_tally.count(pair);
                }
                hypot_record(pair, &mut record);
            }
            14 => {
                let at = places.next(&mut random, asked("small"));
                field_record(&places.file, at, &mut record);
            }
            15 => {
                let batch = touches::batch(&mut random, asked("small"));
                let touched = touch_record(&batch, &mut record);
                if stats {
                    touches_tally.count(&batch, &touched);
                    let mut before = Record::default();
                    hypot::by_rounded_squares(|| touch_record(&batch, &mut before));
                    changed += (before.0 != record.0) as usize;
                }
            }
            _ => panic!("no such kind"),
        }
        record.write(kind as u8, out);
    }
    if stats && kind == 10 {
        tally.print();
    }
    if stats && ((2..=4).contains(&kind) || kind == 10 || kind == 15) {
        eprintln!("another answer by the root of rounded squares {changed}");
    }
    if stats && kind == 11 {
        layouts_tally.print();
    }
    if stats && kind == 12 {
        charges_tally.print();
    }
    if stats && kind == 15 {
        touches_tally.print();
    }
    if stats && (kind == 1 || kind == 13) {
        sides_tally.print();
    }
}

// The first that is accepted has 64 boxes.
fn write_at(words: &[String], out: &mut impl Write) {
    let proportion = proportion(words, 0);
    let (kind, count, seed) = (number(words, 1), number(words, 2), number(words, 3));
    let asked = |option: &str| words[4..].iter().any(|w| w == option);
    let mut random = Random(seed.wrapping_mul(0x1000_0000_01b3) ^ kind ^ proportion.to_bits());
    let mut layouts_tally = layouts::Tally::default();
    let mut charges_tally = charges::Tally::default();
    let mut accepted = 0;
    while accepted < count {
        let full = accepted == 0;
        let mut record = Record::default();
        let is_accepted = match kind {
            8 => {
                let n = if full { 64 } else { some_boxes(&mut random, asked("small")) };
                pack_record(&mut random, n, proportion, &mut record)
            }
            11 => {
                let given = if full { layouts::full(&mut random) } else { layouts::lists(&mut random, asked("small")) };
                let outcome = layout_record(&given, proportion, &mut record);
                layouts_tally.count(proportion, &outcome);
                outcome.refusal == 0
            }
            12 => {
                let given = if full { layouts::full(&mut random) } else { charges::lists(&mut random, asked("small")) };
                let cents = charges::price(&mut random);
                let charge = charge_record(&given, proportion, cents, &mut record);
                charges_tally.count(cents, &charge);
                charge.refusal == 0
            }
            _ => panic!("no such kind at a proportion"),
        };
        record.write(kind as u8, out);
        accepted += is_accepted as u64;
    }
    if asked("stats") && kind == 11 {
        layouts_tally.print();
    }
    if asked("stats") && kind == 12 {
        charges_tally.print();
    }
}

fn write_columns(proportion: f64, out: &mut impl Write) {
    for k in 0..=65 {
        let mut record = Record::default();
        columns_record(k, proportion, &mut record);
        record.write(7, out);
    }
}

fn write_charges(out: &mut impl Write) {
    for (given, proportion, cents) in charges::boundaries() {
        let mut record = Record::default();
        charge_record(&given, proportion, cents, &mut record);
        record.write(12, out);
    }
}

fn write_touches(small: bool, out: &mut impl Write) {
    for batch in touches::boundaries(small) {
        let mut record = Record::default();
        touch_record(&batch, &mut record);
        record.write(15, out);
    }
}

// Circles of few digits that fall otherwise than by the root of rounded squares. Above each pair stands what it was by that.
const NEAR_TANGENT: [[[f64; 3]; 2]; 7] = [
    // crossing, and one cluster
    [[0.0, 0.0, 2.0], [3.5, 1.2, 1.7]],
    // apart, and two clusters
    [[0.0, 0.0, 0.15], [0.21, 0.2, 0.14]],
    // the first contains the second, and they do not cross
    [[0.0, 0.0, 3.8], [3.5, 1.2, 0.1]],
    // the first does not contain the second, and they cross
    [[0.0, 0.0, 0.3], [0.21, 0.2, 0.01]],
    // the second centre is not in the first circle
    [[0.0, 0.0, 0.29], [0.21, 0.2, 1.0]],
    // it is
    [[0.0, 0.0, 0.35], [0.28, 0.21, 1.0]],
    // one centre, so they do not cross
    [[0.0, 0.0, 1.0], [1e-200, 0.0, 1.0]],
];

fn write_near_tangent(out: &mut impl Write) {
    for circles in NEAR_TANGENT {
        let [one, other] = circles;
        let center = [other[0], other[1]];
        let records = || {
            let mut records: [Record; 4] = Default::default();
            distance_record([one[0], one[1]], center, &mut records[0]);
            pair_of(circles, [1, 2], &mut records[1]);
            point_of(one, 1, center, &mut records[2]);
            clusters_of(&circles, &[1, 2], &mut records[3]);
            records
        };
        let (now, before) = (records(), hypot::by_rounded_squares(records));
        assert!((1..4).any(|i| now[i].0 != before[i].0), "{circles:?} fall as before");
        for (kind, record) in (1..).zip(now) {
            record.write(kind, out);
        }
    }
}

fn write_hypots(seed: u64, out: &mut impl Write) {
    for pair in sides::stored(&mut Random(seed)) {
        let mut record = Record::default();
        hypot_record(pair, &mut record);
        record.write(13, out);
    }
}

fn main() {
    let words: Vec<String> = std::env::args().skip(1).collect();
    let stdout = std::io::stdout();
    let mut out = std::io::BufWriter::new(stdout.lock());
    match words.first().map(String::as_str) {
        Some("files") => {
            for name in &words[1..] {
                let mut record = Record::default();
                card_record(&std::fs::read(name).expect(name), &mut record);
                record.write(10, &mut out);
            }
        }
        Some("text") => {
            let mut file = Vec::new();
            std::io::stdin().read_to_end(&mut file).unwrap();
            out.write_all(&card::outcome(&file).text).unwrap();
        }
        Some("at") => write_at(&words[1..], &mut out),
        Some("columns") => write_columns(proportion(&words, 1), &mut out),
        Some("charges") => write_charges(&mut out),
        Some("touches") => write_touches(words.iter().any(|w| w == "small"), &mut out),
        Some("near-tangent") => write_near_tangent(&mut out),
        Some("hypots") => write_hypots(number(&words, 1), &mut out),
        _ => write_random(&words, &mut out),
    }
}
