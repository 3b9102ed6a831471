// The stand-in for `hypot`, as IEEE 754 has it: the f64 nearest the exact root of the exact sum of the two squares, ties to even. An infinity gives +infinity,
// even beside a NaN. It settles a guess by the squares of the points half-way to its neighbours, in whole numbers that are wide enough for any two f64s: the
// answer does not depend on the guess, and nothing here takes a root.
use std::cell::Cell;
use std::cmp::Ordering;

const INFINITE: u64 = 0x7ff0_0000_0000_0000;
const LEADING: u64 = 1 << 52;

// Lowest word first. The largest number is a sum of two squares below (2^54 * 2^2045)^2.
const WORDS: usize = 66;

type Wide = [u64; WORDS];

pub fn hypot(x: f64, y: f64) -> f64 {
    if x.is_infinite() || y.is_infinite() {
        return f64::INFINITY;
    }
    if x.is_nan() || y.is_nan() {
        return f64::NAN;
    }
    let sum = sum_of_squares(x, y);
    let mut nearest = x.hypot(y).to_bits().min(INFINITE);
    loop {
        if nearest < INFINITE && is_past(&sum, nearest) {
            nearest += 1;
        } else if nearest > 0 && !is_past(&sum, nearest - 1) {
            nearest -= 1;
        } else {
            return f64::from_bits(nearest);
        }
    }
}

// ---- which of the two formulas `Point::distance` has

thread_local! {
    static BY_ROUNDED_SQUARES: Cell<bool> = const { Cell::new(false) };
}

// What `Point::distance` calls.
pub fn distance(x: f64, y: f64) -> f64 {
    if BY_ROUNDED_SQUARES.get() { rounded_squares(x, y) } else { hypot(x, y) }
}

// The formula of document 01, to see which answers have changed since.
pub fn rounded_squares(x: f64, y: f64) -> f64 {
    (x * x + y * y).sqrt()
}

// What a call gives under it.
pub fn by_rounded_squares<T>(call: impl FnOnce() -> T) -> T {
    BY_ROUNDED_SQUARES.set(true);
    let answer = call();
    BY_ROUNDED_SQUARES.set(false);
    answer
}

// ---- how roots round

// How the root of the sum of two finite numbers' squares lies to its rounding.
#[derive(PartialEq)]
pub enum Rounding {
    Exact,
    TieDown,
    TieUp,
    Other,
}

pub fn rounding(x: f64, y: f64) -> Rounding {
    let sum = sum_of_squares(x, y);
    let nearest = hypot(x, y).to_bits();
    let (digits, exponent) = parts(nearest);
    if sum == square(2 * digits, exponent) {
        Rounding::Exact
    } else if nearest < INFINITE && sum == half_way(nearest) {
        Rounding::TieDown
    } else if nearest > 0 && sum == half_way(nearest - 1) {
        Rounding::TieUp
    } else {
        Rounding::Other
    }
}

// ---- whole numbers

// Whether the root of a sum rounds to something above a pattern: it lies past the point half-way to the next pattern, or on it where the pattern is odd.
fn is_past(sum: &Wide, pattern: u64) -> bool {
    match sum.iter().rev().cmp(half_way(pattern).iter().rev()) {
        Ordering::Less => false,
        Ordering::Equal => pattern % 2 == 1,
        Ordering::Greater => true,
    }
}

// The square of the point half-way from a pattern to the next one. The one next to the largest number is that of infinity, which stands for 2^1024.
fn half_way(pattern: u64) -> Wide {
    let (digits, exponent) = parts(pattern);
    square(2 * digits + 1, exponent)
}

// Of a pattern without sign: digits * 2^exponent units of 2^-1074. Half of such a unit is the unit of all that is squared here.
fn parts(pattern: u64) -> (u64, u64) {
    match pattern / LEADING {
        0 => (pattern, 0),
        field => (LEADING + pattern % LEADING, field - 1),
    }
}

fn sum_of_squares(x: f64, y: f64) -> Wide {
    let [one, other] = [x, y].map(|v| {
        let (digits, exponent) = parts(v.abs().to_bits());
        square(2 * digits, exponent)
    });
    let mut sum = [0; WORDS];
    let mut carry = 0;
    for ((word, a), b) in sum.iter_mut().zip(one).zip(other) {
        let total = a as u128 + b as u128 + carry;
        *word = total as u64;
        carry = total >> 64;
    }
    sum
}

// (m * 2^exponent)^2
fn square(m: u64, exponent: u64) -> Wide {
    let product = m as u128 * m as u128;
    let (first, shift) = ((2 * exponent / 64) as usize, 2 * exponent % 64);
    let low = (product as u64 as u128) << shift;
    let high = ((product >> 64) << shift) + (low >> 64);
    let mut square = [0; WORDS];
    square[first] = low as u64;
    square[first + 1] = high as u64;
    square[first + 2] = (high >> 64) as u64;
    square
}
