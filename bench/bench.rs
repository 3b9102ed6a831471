// Times layouts, clusterings, charges and touches of the port and of the Rust on the same inputs, in one run, and prints port over Rust.
// With cfg `before` the library of an earlier commit is linked too, its calls' names beginning with `before_`, and port over that is printed.
// Each workload is run in rounds, the sides in turn; a figure is the median of the rounds' ratios.
#[path = "../target/bench/eunoia_at_1.618.rs"]
mod eunoia;
#[path = "../target/bench/eunoia_at_0.5.rs"]
mod eunoia_at_half;

use std::collections::BTreeMap;
use std::hint::black_box;
use std::time::Instant;

#[repr(C)]
#[derive(Clone, Copy)]
struct Record {
    x: f64,
    y: f64,
    radius: f64,
    ink: u16,
}

#[repr(C)]
#[derive(Clone, Copy)]
struct Point {
    x: f64,
    y: f64,
}

#[repr(C)]
struct Answer {
    refusal: u8,
    count: usize,
    numbers: [u8; 64],
    moved: u64,
    padding: f64,
}

#[repr(C)]
struct Length {
    refusal: u8,
    value: f64,
}

#[repr(C)]
struct Test {
    refusal: u8,
    value: bool,
}

#[repr(C)]
struct Clusters {
    refusal: u8,
    count: usize,
    numbers: [u8; 64],
}

#[repr(C)]
struct Charge {
    refusal: u8,
    amount: u64,
}

type Layout = unsafe extern "C" fn(*mut Record, usize, f64, *const u64, usize, *const f64, usize, f64) -> Answer;
type AreaClusters = unsafe extern "C" fn(usize, *const u64, usize, *const f64, usize, f64) -> Clusters;
type PlainClusters = unsafe extern "C" fn(*const Record, usize) -> Clusters;
type Root = unsafe extern "C" fn(f64) -> Length;
type PointDistance = unsafe extern "C" fn(Point, Point) -> Length;
type ContainsPoint = unsafe extern "C" fn(Record, Point) -> Test;

// The calls of one library.
struct Library {
    layout: Layout,
    area_clusters: AreaClusters,
    clusters: PlainClusters,
    root: Root,
    point_distance: PointDistance,
    contains_point: ContainsPoint,
}

macro_rules! library {
    ($link:literal, $layout:ident, $area_clusters:ident, $clusters:ident, $root:ident, $point_distance:ident, $contains_point:ident) => {{
        #[link(name = $link, kind = "static")]
        unsafe extern "C" {
            fn $layout(
                circles: *mut Record,
                circles_len: usize,
                factor: f64,
                masks: *const u64,
                masks_len: usize,
                areas: *const f64,
                areas_len: usize,
                proportion: f64,
            ) -> Answer;
            fn $area_clusters(n: usize, masks: *const u64, masks_len: usize, areas: *const f64, areas_len: usize, tolerance: f64) -> Clusters;
            fn $clusters(circles: *const Record, circles_len: usize) -> Clusters;
            fn $root(x: f64) -> Length;
            fn $point_distance(p: Point, q: Point) -> Length;
            fn $contains_point(c: Record, p: Point) -> Test;
        }
        Library {
            layout: $layout,
            area_clusters: $area_clusters,
            clusters: $clusters,
            root: $root,
            point_distance: $point_distance,
            contains_point: $contains_point,
        }
    }};
}

fn now() -> Library {
    library!(
        "rundhefja",
        rundhefja_layout,
        rundhefja_area_clusters,
        rundhefja_clusters,
        rundhefja_root,
        rundhefja_point_distance,
        rundhefja_contains_point
    )
}

fn before() -> Option<Library> {
    #[cfg(before)]
    return Some(library!(
        "before",
        before_rundhefja_layout,
        before_rundhefja_area_clusters,
        before_rundhefja_clusters,
        before_rundhefja_root,
        before_rundhefja_point_distance,
        before_rundhefja_contains_point
    ));
    #[cfg(not(before))]
    return None;
}

// Of this library alone: one of an earlier commit may not have these.
#[link(name = "rundhefja", kind = "static")]
unsafe extern "C" {
    fn rundhefja_card_stock(
        circles: *const Record,
        circles_len: usize,
        factor: f64,
        masks: *const u64,
        masks_len: usize,
        areas: *const f64,
        areas_len: usize,
        proportion: f64,
        cents: u64,
    ) -> Charge;
    fn rundhefja_touch_points(
        circles: *const Record,
        circles_len: usize,
        points: *const Point,
        points_len: usize,
        answers: *mut u64,
        answers_len: usize,
    ) -> u8;
}

#[derive(Clone, Copy)]
enum By {
    Regions,
    Circles,
}

#[derive(Clone)]
struct Card {
    factor: f64,
    proportion: f64,
    circles: Vec<Record>,
    masks: Vec<u64>,
    areas: Vec<f64>,
}

impl Card {
    fn new(circles: &[[f64; 3]], regions: &[(u64, f64)]) -> Card {
        let mut regions = regions.to_vec();
        regions.sort_by_key(|r| r.0);
        regions.dedup_by_key(|r| r.0);
        Card {
            factor: 0.015,
            proportion: eunoia::Circle::CONSTANT,
            // any two inks differ, so that all of them are looked at; 40503 is odd
            circles: (0u16..).zip(circles).map(|(i, &[x, y, radius])| Record { x, y, radius, ink: i.wrapping_mul(40503) }).collect(),
            masks: regions.iter().map(|r| r.0).collect(),
            areas: regions.iter().map(|r| r.1).collect(),
        }
    }
    fn port(&self, library: &Library) -> Vec<Record> {
        let mut circles = self.circles.clone();
        let answer = unsafe {
            (library.layout)(
                circles.as_mut_ptr(),
                circles.len(),
                self.factor,
                self.masks.as_ptr(),
                self.masks.len(),
                self.areas.as_ptr(),
                self.areas.len(),
                self.proportion,
            )
        };
        assert_eq!(black_box(answer).refusal, 0);
        circles
    }
    fn areas_of(&self) -> BTreeMap<usize, f64> {
        self.masks.iter().zip(&self.areas).map(|(m, a)| (*m as usize, *a)).collect()
    }
    fn rust<S: Shape>(&self, areas: &BTreeMap<usize, f64>) -> Vec<S> {
        let mut shapes: Vec<S> = self.circles.iter().map(|c| S::of(c.x, c.y, c.radius)).collect();
        S::lay_out(&mut shapes, self.factor, areas);
        shapes
    }
    // what the card stock costs
    fn port_stock(&self, cents: u64) -> u64 {
        let (circles, masks, areas) = (&self.circles, &self.masks, &self.areas);
        let answer = unsafe {
            rundhefja_card_stock(
                circles.as_ptr(),
                circles.len(),
                self.factor,
                masks.as_ptr(),
                masks.len(),
                areas.as_ptr(),
                areas.len(),
                self.proportion,
                cents,
            )
        };
        assert_eq!(answer.refusal, 0);
        answer.amount
    }
    // the same from the Rust's layout and boxes
    fn rust_stock(&self, areas: &BTreeMap<usize, f64>, cents: u64) -> u64 {
        let finished = self.rust::<eunoia::Circle>(areas);
        let sheet = finished.iter().map(eunoia::BoundingBox::bounds).reduce(|all, next| all.union(&next)).unwrap();
        (sheet.width().ceil() as u64 * sheet.height().ceil() as u64).div_ceil(100) * cents
    }
    // the cluster of each circle, by regions or by how the circles lie
    fn grouped(&self, by: By, library: &Library) -> [u8; 64] {
        let (circles, masks, areas) = (&self.circles, &self.masks, &self.areas);
        let answer = match by {
            By::Regions => unsafe { (library.area_clusters)(circles.len(), masks.as_ptr(), masks.len(), areas.as_ptr(), areas.len(), 0.0) },
            By::Circles => unsafe { (library.clusters)(circles.as_ptr(), circles.len()) },
        };
        assert_eq!(answer.refusal, 0);
        black_box(answer.count);
        answer.numbers
    }
    fn at<S: Shape>(self) -> Card {
        Card { proportion: S::CONSTANT, ..self }
    }
}

// A circle of the Rust, by the constant that its packing has.
trait Shape: Sized {
    const CONSTANT: f64;
    fn of(x: f64, y: f64, radius: f64) -> Self;
    fn numbers(&self) -> [f64; 3];
    fn lay_out(shapes: &mut [Self], factor: f64, areas: &BTreeMap<usize, f64>);
}

macro_rules! shape {
    ($module:ident, $constant:expr) => {
        impl Shape for $module::Circle {
            const CONSTANT: f64 = $constant;
            fn of(x: f64, y: f64, radius: f64) -> Self {
                Self::new($module::Point::new(x, y), radius)
            }
            fn numbers(&self) -> [f64; 3] {
                [self.center().x(), self.center().y(), self.radius()]
            }
            fn lay_out(shapes: &mut [Self], factor: f64, areas: &BTreeMap<usize, f64>) {
                $module::normalize_layout_with_clusters(shapes, factor, Some(areas));
            }
        }
    };
}

shape!(eunoia, 1.618);
shape!(eunoia_at_half, 0.5);

struct Random(u64);

impl Random {
    fn next(&mut self) -> u64 {
        self.0 = self.0.wrapping_mul(6364136223846793005).wrapping_add(1442695040888963407);
        self.0 >> 11
    }
    fn unit(&mut self) -> f64 {
        self.next() as f64 / (1u64 << 53) as f64
    }
    fn circle(&mut self) -> [f64; 3] {
        [self.unit() * 200.0 - 100.0, self.unit() * 200.0 - 100.0, self.unit() * 9.0 + 1.0]
    }
}

fn many_clusters(random: &mut Random) -> Card {
    let circles: Vec<_> = (0..64).map(|_| random.circle()).collect();
    let solo = (0..64).map(|i| (1u64 << i, 1.0 + i as f64));
    let pairs = (0..16).map(|i| (3u64 << (4 * i), 0.5));
    Card::new(&circles, &solo.chain(pairs).collect::<Vec<_>>())
}

fn one_cluster(random: &mut Random) -> Card {
    let circles: Vec<_> = (0..64).map(|_| random.circle()).collect();
    let mut regions: Vec<(u64, f64)> = (0..63).map(|i| (3u64 << i, 1.0)).collect();
    while regions.len() < 2048 {
        let mask = (random.next() << 32) ^ random.next();
        if !regions.iter().any(|r| r.0 == mask) {
            regions.push((mask, random.unit() + 0.01));
        }
    }
    Card::new(&circles, &regions)
}

// Child 2i + 1 lies in parent 2i and has no region of its own.
fn parents(random: &mut Random) -> Card {
    let mut circles = Vec::new();
    let mut regions = Vec::new();
    for i in 0..32 {
        let x = 30.0 * (i % 8) as f64;
        let y = 30.0 * (i / 8) as f64;
        circles.push([x, y, 10.0]);
        circles.push([x + random.unit(), y + random.unit(), 2.0 + random.unit()]);
        regions.push((1u64 << (2 * i), 20.0));
        regions.push((3u64 << (2 * i), 5.0));
    }
    Card::new(&circles, &regions)
}

// n circles, a region for each and n regions of several at random.
fn mixed(random: &mut Random, n: usize) -> Card {
    let circles: Vec<_> = (0..n).map(|_| random.circle()).collect();
    let mut regions: Vec<(u64, f64)> = (0..n).map(|i| (1u64 << i, 3.0)).collect();
    let all = u64::MAX >> (64 - n);
    for _ in 0..n {
        let word = (random.next() << 32) ^ random.next();
        regions.push((1 + word % all, random.unit()));
    }
    Card::new(&circles, &regions)
}

fn small(random: &mut Random) -> Card {
    let n = 2 + random.next() as usize % 5;
    mixed(random, n)
}

fn median(mut values: Vec<f64>) -> f64 {
    values.sort_by(f64::total_cmp);
    values[values.len() / 2]
}

const ROUNDS: usize = 31;

// A name, and what is timed under it.
type Side<'a> = (&'a str, Box<dyn Fn() + 'a>);

// The port, the library before it, if there is one, and the Rust.
fn report(name: &str, calls: usize, port: impl Fn(&Library), rust: impl Fn()) {
    let (now, before) = (now(), before());
    let mut sides: Vec<Side> = vec![("port", Box::new(|| port(&now)))];
    if let Some(before) = &before {
        sides.push(("before", Box::new(|| port(before))));
    }
    sides.push(("Rust", Box::new(&rust)));
    compare(name, calls, sides);
}

// Times the sides over and over, in turn, and prints microseconds a call and the ratios of the first side over each other one.
fn compare(name: &str, calls: usize, sides: Vec<Side>) {
    let mut times = vec![Vec::new(); sides.len()];
    for _ in 0..ROUNDS {
        for ((_, side), times) in sides.iter().zip(&mut times) {
            let start = Instant::now();
            side();
            times.push(start.elapsed().as_secs_f64() * 1e6 / calls as f64);
        }
    }
    let figures: Vec<String> = sides.iter().zip(&times).map(|((side, _), times)| format!("{side} {:9.4} us", median(times.clone()))).collect();
    let ratios: Vec<String> = sides[1..]
        .iter()
        .zip(&times[1..])
        .map(|((side, _), theirs)| format!("over {side} {:.3}", median(times[0].iter().zip(theirs).map(|(a, b)| a / b).collect())))
        .collect();
    println!("{name:<44} {}, {}", figures.join(", "), ratios.join(", "));
}

// A place may differ by so much: the Rust has the C library's hypot here, which is not always the nearest number, and the search for a child's place may then end
// elsewhere. tests/oracle compares the answers bit for bit, with a hypot that is exact.
const LAST_PLACES: f64 = 1e-9;

fn layouts(name: &str, cards: Vec<Card>, repeats: usize) {
    layouts_at::<eunoia::Circle>(name, cards, repeats);
}

fn layouts_at<S: Shape>(name: &str, cards: Vec<Card>, repeats: usize) {
    let cards: Vec<_> = cards.into_iter().map(Card::at::<S>).collect();
    let maps: Vec<_> = cards.iter().map(Card::areas_of).collect();
    for library in [Some(now()), before()].iter().flatten() {
        for (card, map) in cards.iter().zip(&maps) {
            let theirs: Vec<_> = card.rust::<S>(map).iter().map(S::numbers).collect();
            let placed = card.port(library);
            let ours: Vec<_> = placed.iter().map(|c| [c.x, c.y, c.radius]).collect();
            assert!(ours.iter().flatten().zip(theirs.iter().flatten()).all(|(a, b)| (a - b).abs() <= LAST_PLACES), "{name}: the answers differ");
            assert!(placed.iter().map(|c| c.ink).eq(card.circles.iter().map(|c| c.ink)), "{name}: the inks differ");
        }
    }
    report(
        name,
        repeats * cards.len(),
        |library| (0..repeats).for_each(|_| cards.iter().for_each(|c| drop(black_box(c.port(library))))),
        || (0..repeats).for_each(|_| cards.iter().zip(&maps).for_each(|(c, m)| drop(black_box(c.rust::<S>(m))))),
    );
}

fn charges(name: &str, cards: Vec<Card>, repeats: usize) {
    const CENTS: u64 = 7;
    let maps: Vec<_> = cards.iter().map(Card::areas_of).collect();
    for (card, map) in cards.iter().zip(&maps) {
        assert_eq!(card.port_stock(CENTS), card.rust_stock(map, CENTS), "{name}: the answers differ");
    }
    let port = || (0..repeats).for_each(|_| cards.iter().for_each(|c| { black_box(c.port_stock(black_box(CENTS))); }));
    let rust = || (0..repeats).for_each(|_| cards.iter().zip(&maps).for_each(|(c, m)| { black_box(c.rust_stock(m, black_box(CENTS))); }));
    compare(name, repeats * cards.len(), vec![("port", Box::new(port)), ("Rust", Box::new(rust))]);
}

// 64 circles that stand apart, eight in a row.
fn rows() -> Vec<[f64; 3]> {
    (0..64).map(|i| [30.0 * (i % 8) as f64, 30.0 * (i / 8) as f64, 10.0]).collect()
}

// 64 circles that overlap most of such a sheet each.
fn heap(random: &mut Random) -> Vec<[f64; 3]> {
    (0..64).map(|_| [95.0 + random.unit() * 20.0, 95.0 + random.unit() * 20.0, 90.0 + random.unit() * 60.0]).collect()
}

// 1,024 points of the sheet that these rows fill.
fn touches(name: &str, random: &mut Random, circles: &[[f64; 3]], repeats: usize) {
    let points: Vec<Point> = (0..1024).map(|_| Point { x: random.unit() * 230.0 - 10.0, y: random.unit() * 230.0 - 10.0 }).collect();
    let given = Card::new(circles, &[]).circles;
    let shapes: Vec<_> = circles.iter().map(|&[x, y, radius]| eunoia::Circle::of(x, y, radius)).collect();
    let port = || {
        let mut answers = vec![0; points.len()];
        let refusal = unsafe { rundhefja_touch_points(given.as_ptr(), given.len(), points.as_ptr(), points.len(), answers.as_mut_ptr(), answers.len()) };
        assert_eq!(refusal, 0);
        answers
    };
    let mask = |p: &Point| {
        let p = eunoia::Point::new(p.x, p.y);
        (0u32..).zip(&shapes).fold(0u64, |mask, (j, c)| mask | (eunoia::Closed::contains_point(c, &p) as u64) << j)
    };
    let rust = || points.iter().map(mask).collect::<Vec<u64>>();
    assert_eq!(port(), rust(), "{name}: the answers differ");
    let port = || (0..repeats).for_each(|_| drop(black_box(port())));
    let rust = || (0..repeats).for_each(|_| drop(black_box(rust())));
    compare(name, repeats, vec![("port", Box::new(port)), ("Rust", Box::new(rust))]);
}

// 64 circles that are linked by these masks.
fn linked(masks: &[u64]) -> Card {
    let regions: Vec<(u64, f64)> = masks.iter().map(|m| (*m, 1.0)).collect();
    Card::new(&[[0.0, 0.0, 1.0]; 64], &regions)
}

// The clustering alone: links, closure and numbers.
fn clusterings(name: &str, by: By, card: Card, repeats: usize) {
    let map = card.areas_of();
    let shapes: Vec<_> = card.circles.iter().map(|c| eunoia::Circle::of(c.x, c.y, c.radius)).collect();
    let rust = || match by {
        By::Regions => eunoia::find_clusters_from_exclusive_regions(shapes.len(), &map, 0.0),
        By::Circles => eunoia::find_clusters(&shapes),
    };
    for library in [Some(now()), before()].iter().flatten() {
        let numbers = card.grouped(by, library);
        for (number, cluster) in rust().iter().enumerate() {
            assert!(cluster.iter().all(|i| numbers[*i] as usize == number), "{name}: the answers differ");
        }
    }
    report(
        name,
        repeats,
        |library| (0..repeats).for_each(|_| { black_box(black_box(&card).grouped(by, library)); }),
        || (0..repeats).for_each(|_| drop(black_box(rust()))),
    );
}

fn main() {
    let random = &mut Random(2026);
    let many: Vec<_> = (0..4).map(|_| many_clusters(random)).collect();
    layouts("64 circles in many clusters", many.clone(), 50);
    layouts_at::<eunoia_at_half::Circle>("the same at 1/2, in taller grids", many.clone(), 50);
    let one_clusters: Vec<_> = (0..2).map(|_| one_cluster(random)).collect();
    layouts("64 circles in one cluster, 2,048 regions", one_clusters.clone(), 20);
    layouts("32 parents with a child each", (0..4).map(|_| parents(random)).collect(), 10);
    let small_cards: Vec<_> = (0..100).map(|_| small(random)).collect();
    layouts("small cards, 2 to 6 circles", small_cards.clone(), 20);
    for n in [2, 3, 4, 6, 16, 64] {
        layouts(&format!("{n} circles"), (0..20).map(|_| mixed(random, n)).collect(), 400 / n);
    }
    charges("charge: 64 circles in many clusters", many, 50);
    charges("charge: small cards, 2 to 6 circles", small_cards, 20);
    clusterings("clustering: 64 circles in one chain", By::Regions, linked(&(0..63).map(|i| 3u64 << i).collect::<Vec<_>>()), 200);
    clusterings("clustering: 64 circles in one clique", By::Regions, linked(&[u64::MAX]), 200);
    clusterings("clustering: 64 circles in 32 pairs", By::Regions, linked(&(0..32).map(|i| 3u64 << (2 * i)).collect::<Vec<_>>()), 200);
    clusterings("clustering: 64 circles, no link", By::Regions, linked(&[]), 200);
    clusterings("clustering: 64 circles, 2,048 regions", By::Regions, one_clusters[0].clone(), 20);
    clusterings("clustering by circles: 64 here and there", By::Circles, many_clusters(random), 50);
    clusterings("clustering by circles: 64 in one place", By::Circles, linked(&[]), 50);
    let over = &mut Random(1024);
    touches("touch: 1,024 points over 64 circles apart", over, &rows(), 4);
    let heap = heap(over);
    touches("touch: 1,024 points over 64 in a heap", over, &heap, 4);
    let numbers: Vec<f64> = (0..100_000).map(|_| random.unit() * 1e6).collect();
    report(
        "the root alone",
        numbers.len(),
        |library| {
            for &x in &numbers {
                black_box(unsafe { (library.root)(black_box(x)) });
            }
        },
        || {
            for &x in &numbers {
                black_box(black_box(x).sqrt());
            }
        },
    );
    let points: Vec<Point> = (0..100_000).map(|_| Point { x: random.unit() * 1e3, y: random.unit() * 1e3 }).collect();
    report(
        "the distance alone",
        points.len() - 1,
        |library| {
            for pair in points.windows(2) {
                black_box(unsafe { (library.point_distance)(black_box(pair[0]), black_box(pair[1])) });
            }
        },
        || {
            for pair in points.windows(2) {
                let [p, q] = [pair[0], pair[1]].map(|p| eunoia::Point::new(p.x, p.y));
                black_box(black_box(p).distance(&black_box(q)));
            }
        },
    );
    let circles: Vec<[f64; 3]> = points.iter().map(|p| [p.x, p.y, 1.0 + random.unit() * 1e3]).collect();
    let given: Vec<Record> = circles.chunks(64).flat_map(|c| Card::new(c, &[]).circles).collect();
    let shapes: Vec<_> = circles.iter().map(|&[x, y, radius]| eunoia::Circle::of(x, y, radius)).collect();
    report(
        "a circle and a point alone",
        points.len() - 1,
        |library| {
            for (c, p) in given.iter().zip(&points[1..]) {
                black_box(unsafe { (library.contains_point)(black_box(*c), black_box(*p)) });
            }
        },
        || {
            for (c, p) in shapes.iter().zip(&points[1..]) {
                black_box(eunoia::Closed::contains_point(black_box(c), &black_box(eunoia::Point::new(p.x, p.y))));
            }
        },
    );
}
