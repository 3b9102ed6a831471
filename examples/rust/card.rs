// Lays out a card of four inks and prints where each circle goes, with the ink's number in the recipe book, what the card stock costs, and which inks lie under
// two touches of the card.
// The library's proofs want round to nearest and subnormals, as every Rust program starts with, unless it is linked with -ffast-math: rundhefja.h has a check.
#[repr(C)]
#[derive(Clone, Copy)]
struct Point {
    x: f64,
    y: f64,
}

#[repr(C)]
#[derive(Clone, Copy)]
struct Circle {
    center: Point,
    radius: f64,
    ink: u16,
}

#[repr(C)]
struct Layout {
    refusal: u8,
    count: usize,
    numbers: [u8; 64],
    moved: u64,
    padding: f64,
}

#[repr(C)]
struct Charge {
    refusal: u8,
    amount: u64,
}

#[link(name = "rundhefja", kind = "static")]
unsafe extern "C" {
    fn rundhefja_layout(
        circles: *mut Circle,
        circles_len: usize,
        factor: f64,
        masks: *const u64,
        masks_len: usize,
        areas: *const f64,
        areas_len: usize,
        proportion: f64,
    ) -> Layout;
    fn rundhefja_card_stock(
        circles: *const Circle,
        circles_len: usize,
        factor: f64,
        masks: *const u64,
        masks_len: usize,
        areas: *const f64,
        areas_len: usize,
        proportion: f64,
        cents: u64,
    ) -> Charge;
    fn rundhefja_touch_points(
        circles: *const Circle,
        circles_len: usize,
        points: *const Point,
        points_len: usize,
        answers: *mut u64,
        answers_len: usize,
    ) -> u8;
}

// About the columns to the rows of the grid of clusters, from 1/4 to 4: the one that program `card` keeps.
const PROPORTION: f64 = 1.618;

// Rewrites the circles, or gives the refusal's number and leaves them as they are.
fn layout(circles: &mut [Circle], factor: f64, masks: &[u64], areas: &[f64], proportion: f64) -> Result<Layout, u8> {
    // A slice's pointer is never null, and the borrow checker keeps the circles apart from the rest.
    let r = unsafe {
        rundhefja_layout(
            circles.as_mut_ptr(),
            circles.len(),
            factor,
            masks.as_ptr(),
            masks.len(),
            areas.as_ptr(),
            areas.len(),
            proportion,
        )
    };
    if r.refusal == 0 { Ok(r) } else { Err(r.refusal) }
}

// What the card stock of a layout costs, at so many cents for each hundred square millimetres that is started; or the refusal's number.
fn card_stock(circles: &[Circle], factor: f64, masks: &[u64], areas: &[f64], proportion: f64, cents: u64) -> Result<u64, u8> {
    let r = unsafe {
        rundhefja_card_stock(
            circles.as_ptr(),
            circles.len(),
            factor,
            masks.as_ptr(),
            masks.len(),
            areas.as_ptr(),
            areas.len(),
            proportion,
            cents,
        )
    };
    if r.refusal == 0 { Ok(r.amount) } else { Err(r.refusal) }
}

// For each point the mask of the circles that it lies in; or the refusal's number.
fn touch(circles: &[Circle], points: &[Point]) -> Result<Vec<u64>, u8> {
    let mut under = vec![0; points.len()];
    let refusal = unsafe { rundhefja_touch_points(circles.as_ptr(), circles.len(), points.as_ptr(), points.len(), under.as_mut_ptr(), under.len()) };
    if refusal == 0 { Ok(under) } else { Err(refusal) }
}

fn main() {
    let names = ["ocean", "teal", "rust", "sand"];
    // centre and radius in millimetres, and the ink's number
    let circle = |x, y, radius, ink| Circle { center: Point { x, y }, radius, ink };
    let mut inks = [circle(0.0, 0.0, 20.0, 4107), circle(2.0, 1.0, 5.0, 4112), circle(60.0, 10.0, 15.0, 2215), circle(75.0, 30.0, 12.0, 2230)];
    // ocean alone, ocean and teal, rust alone, sand alone, rust and sand
    let masks = [1, 3, 4, 8, 12];
    let areas = [1178.0, 78.0, 640.0, 390.0, 60.0];
    // of the circles as they are handed in, so before the layout
    let stock = card_stock(&inks, 0.1, &masks, &areas, PROPORTION, 3);
    match (layout(&mut inks, 0.1, &masks, &areas, PROPORTION), stock) {
        (Err(refusal), _) | (_, Err(refusal)) => println!("refused {refusal}"),
        (Ok(l), Ok(cents)) => {
            println!("{} groups, {:.3} mm apart", l.count, l.padding);
            for (i, c) in inks.iter().enumerate() {
                let moved = if l.moved >> i & 1 == 1 { ", moved off its parent's centre" } else { "" };
                println!("ink {}, {:<5} group {} at {:8.3} {:8.3} radius {}{moved}", c.ink, names[i], l.numbers[i], c.center.x, c.center.y, c.radius);
            }
            println!("card stock {cents} cents");
        }
    }
    let touches = [Point { x: -20.0, y: 0.0 }, Point { x: 25.0, y: 2.0 }];
    match touch(&inks, &touches) {
        Err(refusal) => println!("refused {refusal}"),
        Ok(under) => {
            for (p, mask) in touches.iter().zip(under) {
                let names: String = (0..inks.len()).filter(|j| mask >> j & 1 == 1).map(|j| format!(" {}", names[j])).collect();
                println!("under {} {}:{names}", p.x, p.y);
            }
        }
    }
}
