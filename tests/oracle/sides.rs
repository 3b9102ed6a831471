// Inputs of kind 13, the two sides of a hypot: any two patterns, and those that a wrong rounding would give away: exact ties and their neighbours, sums next to
// the square of a half-way point, exponents so far apart that a side hardly counts, subnormals, both ends, infinities and NaN. Scaled into the ranges of
// coordinates they serve as the differences of two points.
use crate::hypot::{Rounding, hypot, rounded_squares, rounding};
use crate::{Random, above, below};

const LEADING: u64 = 1 << 52;
const INFINITE: u64 = 2047 * LEADING;

// Exponents apart: up to 26 the smaller side may count, from 53 on it lies below the last digit of the larger.
const APART: [u64; 19] = [0, 1, 2, 3, 12, 13, 14, 24, 25, 26, 27, 28, 52, 53, 54, 55, 100, 1000, 2045];

// Two sides.
pub type Pair = [f64; 2];

// Whole numbers of at most 53 digits and zeros behind them, each with an exponent of 2.
struct Digits {
    digits: [u64; 2],
    exponents: [i64; 2],
}

fn whole(digits: [u64; 2]) -> Digits {
    Digits { digits, exponents: [0; 2] }
}

// Where pairs go: anywhere, or where they can be the differences of two points.
#[derive(Clone, Copy, PartialEq)]
pub enum Reach {
    Any,
    Points,
}

// Pairs that are still to be handed out.
#[derive(Default)]
pub struct Sides(Vec<Pair>);

impl Sides {
    pub fn next(&mut self, random: &mut Random, reach: Reach) -> Pair {
        while self.0.is_empty() {
            self.0 = some(random, reach);
        }
        turned(random, self.0.pop().unwrap())
    }
}

// One pair by itself.
pub fn one(random: &mut Random, reach: Reach) -> Pair {
    let pairs = some(random, reach);
    let pair = random.pick(&pairs);
    turned(random, pair)
}

// In any order and of any sign.
fn turned(random: &mut Random, pair: Pair) -> Pair {
    let [x, y] = pair.map(|v| if random.below(2) == 0 { v } else { -v });
    if random.below(2) == 0 { [x, y] } else { [y, x] }
}

fn some(random: &mut Random, reach: Reach) -> Vec<Pair> {
    let drawn = random.below(20);
    let digits = match drawn {
        0..=3 => tie(random),
        4..=6 => next_to_a_tie(random),
        7 | 8 => nearest_to_a_tie(random),
        9 => exact(random),
        10..=12 => apart(random),
        _ => return others(random, drawn, reach),
    };
    let pair = placed(random, digits, reach);
    if drawn < 4 { with_neighbours(pair) } else { vec![pair] }
}

// Those that have their own place.
fn others(random: &mut Random, drawn: u64, reach: Reach) -> Vec<Pair> {
    match drawn {
        13 | 14 => vec![[random.coordinate(0) - random.coordinate(0), random.coordinate(0) - random.coordinate(0)]],
        _ if reach == Reach::Points => vec![[(random.unit() - 0.5) * 200.0, (random.unit() - 0.5) * 200.0]],
        15 => vec![[any(random), any(random)]],
        16 => vec![subnormals(random)],
        17 => vec![at_a_power(random)],
        18 => at_the_overflow(random),
        _ => vec![special(random)],
    }
}

// Any pattern; few of them are not finite.
fn any(random: &mut Random) -> f64 {
    f64::from_bits(random.next())
}

fn with_neighbours(pair: Pair) -> Vec<Pair> {
    let [x, y] = pair;
    vec![[x, y], [above(x), y], [below(x), y], [x, above(y)], [x, below(y)]]
}

// v * 2^k, in two steps that do not leave the range between them.
fn scaled(v: f64, k: i64) -> f64 {
    let power = |k: i64| f64::from_bits(((k + 1023) as u64) << 52);
    v * power(k / 2) * power(k - k / 2)
}

// At an exponent where no digit is lost, if there is one.
fn placed(random: &mut Random, of: Digits, reach: Reach) -> Pair {
    let lengths = of.digits.map(|v| 64 - v.leading_zeros() as i64);
    let (mut highest, mut lowest) = (1024, -1074);
    for (length, exponent) in lengths.into_iter().zip(of.exponents) {
        highest = highest.min(1024 - length - exponent);
        lowest = lowest.max(-1074 - exponent);
    }
    if reach == Reach::Points {
        highest -= 1024 - 21;
    }
    let lowest = lowest.min(highest);
    let middle = -53 - random.below(24) as i64;
    let k = match random.below(8) {
        0 => highest,
        1 => lowest,
        2 | 3 if reach == Reach::Any => lowest + random.below((highest - lowest + 1) as u64) as i64,
        2..=4 => highest - random.below(40) as i64,
        _ => middle,
    };
    let k = k.min(highest).max(lowest);
    [0, 1].map(|i| scaled(of.digits[i] as f64, of.exponents[i] + k))
}

// At most 53 digits, and zeros behind them.
fn is_digits(v: u128) -> bool {
    0 < v && v >> v.trailing_zeros() < 2 * LEADING as u128
}

// Half-way points are the odd numbers of 54 digits.
fn is_half_way(v: u128) -> bool {
    v % 2 == 1 && v >> 53 == 1
}

// Any number of so many binary digits or fewer.
fn of_length(random: &mut Random, most: u64) -> u128 {
    let length = 1 + random.below(most);
    (random.next() >> (64 - length)) as u128
}

// Some number of 54 digits, by its size.
fn half_way_size(random: &mut Random) -> f64 {
    (1.0 + random.unit()) * (1u64 << 53) as f64
}

// A triple whose hypotenuse is a half-way point: with u and w odd, g*u*w, g*(w*w - u*u)/2 and g*(w*w + u*u)/2.
fn tie(random: &mut Random) -> Digits {
    loop {
        let g = if random.below(3) == 0 { random.pick(&[1, 3, 5, 7]) } else { of_length(random, 51) | 1 };
        let u = if random.below(4) == 0 { 1 } else { of_length(random, 26) | 1 };
        let w = (2.0 * half_way_size(random) / g as f64 - (u * u) as f64).sqrt() as u128 | 1;
        if u >= w || w >> 32 > 0 {
            continue;
        }
        let (odd, even) = (g * u * w, g * ((w * w - u * u) / 2));
        if is_half_way(g * ((w * w + u * u) / 2)) && is_digits(odd) && is_digits(even) {
            return whole([odd as u64, even as u64]);
        }
    }
}

// Two squares whose sum is s*s more, or less, than the square q*q of a half-way point, with s from 1 to 5: q*q - a*a is the product of q - a and q + a, and
// b*b - s*s one of b - s = f*h and b + s; b*b + s*s is one of two sums of squares, where b = t*(r*r + 1) - s*r. Zeros behind the digits of q leave b more
// digits than the answer has, so that s*s is less than what a last digit counts.
fn next_to_a_tie(random: &mut Random) -> Digits {
    let zeros = random.pick(&[0, 0, 1, 1, 2, 3]);
    loop {
        let s = random.pick(&[1, 1, 1, 2, 3, 4, 5]);
        // b is about 2/first of q; half of them have a power of two between a and q
        let first = of_length(random, 26) + 1;
        let past = if random.below(2) == 0 { 1.0 } else { 2.0 / (first * first) as f64 };
        let size = (1.0 + random.unit() * past) * (1u64 << (53 + zeros)) as f64;
        let (one, other, b) = if random.below(2) == 0 {
            let h = first;
            let f = (2.0 * size / (h * h) as f64) as u128;
            let b = f * h + s;
            (f, h * (b + s), b)
        } else {
            let t = first;
            let r = ((2.0 * size).sqrt() / t as f64) as u128;
            if t * r < s {
                continue;
            }
            let p = t * r - s;
            (r * r + 1, p * p + t * t, p * r + t)
        };
        let (q, a) = ((one + other) / 2, one.abs_diff(other) / 2);
        if (one + other) % 2 == 0 && q.trailing_zeros() == zeros && is_half_way(q >> zeros) && is_digits(a) && is_digits(b) {
            return whole([a as u64, b as u64]);
        }
    }
}

// The number of 53 digits nearest to what would make a tie of another one, or a neighbour of it.
fn nearest_to_a_tie(random: &mut Random) -> Digits {
    loop {
        let a = (LEADING + random.below(LEADING)) as u128;
        let step = 2 * of_length(random, 40) + 1;
        // (2a + step)^2 - (2a)^2
        let square = step * (4 * a + step);
        let shift = (106 - (128 - square.leading_zeros() as i64)) / 2;
        if shift < 0 || !is_half_way(2 * a + step) {
            continue;
        }
        let beside = random.pick(&[0, 0, 0, 1, 1, 1, 2]) - random.pick(&[0, 0, 0, 1]);
        let b = ((square << (2 * shift)).isqrt() as u64).saturating_add_signed(beside);
        return Digits { digits: [2 * a as u64, b], exponents: [0, -shift] };
    }
}

// A triple of which each number has at most 53 digits: the root is exact.
fn exact(random: &mut Random) -> Digits {
    let n = 1 + random.below(1 << 20);
    let m = n + of_length(random, 20) as u64 + 1;
    let g = 1 + random.below(128);
    whole([g * (m * m - n * n), g * 2 * m * n])
}

fn mantissa(random: &mut Random) -> u64 {
    LEADING + match random.below(5) {
        0 => 0,
        1 => LEADING - 1,
        2 => LEADING - 1 - (random.below(LEADING) >> random.below(53)),
        _ => random.below(LEADING),
    }
}

fn apart(random: &mut Random) -> Digits {
    let apart = if random.below(2) == 0 { random.pick(&APART) } else { random.below(61) };
    Digits { digits: [mantissa(random), mantissa(random)], exponents: [0, -(apart as i64)] }
}

// Both, of each length; or one beside a number of a low exponent.
fn subnormals(random: &mut Random) -> Pair {
    let mut subnormal = || f64::from_bits(of_length(random, 52) as u64);
    let pair = [subnormal(), subnormal()];
    match random.below(3) {
        0 => [pair[0], f64::from_bits(random.below(40 * LEADING))],
        _ => pair,
    }
}

fn a_few_beside(random: &mut Random, pattern: u64) -> f64 {
    f64::from_bits((pattern + random.below(9)).saturating_sub(4).min(INFINITE))
}

// A few patterns beside a power of two, and beside one of another exponent; or two whose root is about a power of two, where the numbers below lie closer.
fn at_a_power(random: &mut Random) -> Pair {
    let field = 1 + random.below(2046);
    if random.below(2) == 0 {
        return root_about(random, field * LEADING);
    }
    let other = field - random.pick(&APART).min(field);
    [field, other].map(|field| a_few_beside(random, field * LEADING))
}

// Roots about the largest number; one tie is at the very point where they overflow.
fn at_the_overflow(random: &mut Random) -> Vec<Pair> {
    match random.below(4) {
        0 => with_neighbours(OVERFLOWING.map(|v| scaled(v as f64, 970))),
        _ => vec![root_about(random, f64::MAX.to_bits())],
    }
}

// One side is a few patterns below this one, or more; the other is what is missing to it, or a few patterns beside that.
fn root_about(random: &mut Random, pattern: u64) -> Pair {
    let x = f64::from_bits(pattern.saturating_sub(of_length(random, 54) as u64));
    let root = f64::from_bits(pattern);
    let part = x / root;
    let y = root * ((1.0 - part) * (1.0 + part)).sqrt();
    [x, a_few_beside(random, y.to_bits())]
}

// Their hypotenuse is 2^54 - 1.
const OVERFLOWING: [u64; 2] = [6081690782099583, 16956756496728720];

const SPECIAL: [f64; 12] = [0.0, 5e-324, 1e-310, f64::MIN_POSITIVE, 1.0, 3.0, 4.0, 1048576.0, 1e154, f64::MAX, f64::INFINITY, f64::NAN];

fn special(random: &mut Random) -> Pair {
    [random.pick(&SPECIAL), if random.below(4) == 0 { any(random) } else { random.pick(&SPECIAL) }]
}

// ---- those that are stored

// Each of a few beside each, of either sign; each distance of exponents; subnormals of each length; the overflow; ties, each with its neighbours; near-ties;
// roots about a power of two.
pub fn stored(random: &mut Random) -> Vec<Pair> {
    let mut pairs = vec![[-0.0, -0.0]];
    for (i, x) in SPECIAL.into_iter().enumerate() {
        for (j, y) in SPECIAL.into_iter().enumerate() {
            pairs.push(if (i + j) % 2 == 0 { [x, -y] } else { [-x, y] });
        }
    }
    for apart in APART {
        let [one, other] = [2046 * LEADING + mantissa(random) % LEADING, (2046 - apart) * LEADING + random.below(LEADING)];
        pairs.push([one, other].map(f64::from_bits));
    }
    for length in 0..53 {
        let longest = |length: u64| f64::from_bits((1 << length) - 1);
        pairs.push([longest(length), f64::from_bits(random.below(1 << length))]);
    }
    pairs.extend(with_neighbours(OVERFLOWING.map(|v| scaled(v as f64, 970))));
    pairs.extend([[f64::MAX, scaled(1.0, 997)], [f64::MAX, below(scaled(1.0, 998))], [f64::MAX, scaled(1.0, 998)]]);
    for _ in 0..30 {
        let digits = tie(random);
        pairs.extend(with_neighbours(placed(random, digits, Reach::Any)));
    }
    for i in 0..90 {
        let digits = if i % 3 > 0 { next_to_a_tie(random) } else { nearest_to_a_tie(random) };
        pairs.push(placed(random, digits, Reach::Any));
    }
    for _ in 0..20 {
        pairs.push(at_a_power(random));
    }
    // 2^53 + 2^27 and 2^27 + 1: a tie that rounds down, and last, since the last one is planted rounded up
    pairs.push([9007199388958720.0, 134217729.0]);
    pairs
}

// ---- how often each case comes up

#[derive(Default)]
pub struct Tally {
    not_finite: usize,
    exact: usize,
    ties_down: usize,
    ties_up: usize,
    overflowing: usize,
    of_subnormals: usize,
    // exponents that are equal, up to 26 apart, up to 53 apart, and farther
    apart: [usize; 4],
    other_by_rounded_squares: usize,
    other_by_the_library: usize,
}

impl Tally {
    pub fn count(&mut self, [x, y]: Pair) {
        if !(x.is_finite() && y.is_finite()) {
            self.not_finite += 1;
            return;
        }
        let root = hypot(x, y);
        match rounding(x, y) {
            Rounding::Exact => self.exact += 1,
            Rounding::TieDown => self.ties_down += 1,
            Rounding::TieUp => self.ties_up += 1,
            Rounding::Other => {}
        }
        self.overflowing += root.is_infinite() as usize;
        self.of_subnormals += (root > 0.0 && x.abs() < f64::MIN_POSITIVE && y.abs() < f64::MIN_POSITIVE) as usize;
        let [one, other] = [x, y].map(|v| (v.abs().to_bits() / LEADING).max(1));
        self.apart[[1, 27, 54].iter().filter(|apart| one.abs_diff(other) >= **apart).count()] += 1;
        self.other_by_rounded_squares += (rounded_squares(x, y) != root) as usize;
        self.other_by_the_library += (x.hypot(y) != root) as usize;
    }
    pub fn print(&self) {
        let [equal, near, far, farther] = self.apart;
        eprintln!("with an infinity or a NaN {}", self.not_finite);
        eprintln!("ties that round down {}, up {}, exact roots {}", self.ties_down, self.ties_up, self.exact);
        eprintln!("that overflow {}, both subnormal {}", self.overflowing, self.of_subnormals);
        eprintln!("exponents equal {equal}, 1 to 26 apart {near}, 27 to 53 apart {far}, farther {farther}");
        eprintln!("another number by the root of rounded squares {}, by the library's hypot {}", self.other_by_rounded_squares, self.other_by_the_library);
    }
}
