// Inputs of kind 15, touches: circles, a batch of points over them, and a list for the answers that has just enough room, more, or too little. Points lie on
// edges and a last place beside them, at centres, at the ends of the range, and here and there; circles coincide, share a centre, touch and stand apart. What
// a point's answer is comes from the patched Rust's `contains_point`, one circle after another.
use crate::cards::{END, LEAST_RADIUS};
use crate::eunoia::*;
use crate::sides::{self, Reach};
use crate::{Random, above, bad_point, bad_radius, below, circles_refusal, hypot, same_ink};

const MOST_POINTS: usize = 1024;

// What a call is handed. Each of the answers, of which there is room for so many, is `fill` before.
#[derive(Clone)]
pub struct Batch {
    pub circles: Vec<[f64; 3]>,
    pub inks: Vec<u16>,
    pub points: Vec<[f64; 2]>,
    pub room: usize,
    pub fill: u64,
}

// What it came to, with all the answers.
pub struct Touched {
    pub refusal: usize,
    pub answers: Vec<u64>,
}

pub fn touch(batch: &Batch) -> Touched {
    let mut answers = vec![batch.fill; batch.room];
    let refusal = refusal(batch);
    if refusal == 0 {
        let shapes: Vec<Circle> = batch.circles.iter().map(|c| crate::circle(*c)).collect();
        for (answer, [x, y]) in answers.iter_mut().zip(&batch.points) {
            let point = Point::new(*x, *y);
            *answer = (0..shapes.len()).filter(|j| shapes[*j].contains_point(&point)).map(|j| 1 << j).sum();
        }
    }
    Touched { refusal, answers }
}

fn refusal(batch: &Batch) -> usize {
    match circles_refusal(&batch.circles) {
        1 => 1,
        3 => 3,
        _ if batch.points.iter().any(|p| bad_point(*p)) => 3,
        4 => 4,
        _ if same_ink(&batch.inks) => 14,
        _ if batch.points.len() > MOST_POINTS => 18,
        _ if batch.points.len() > batch.room => 19,
        _ => 0,
    }
}

// ---- inputs

// `small` keeps them short enough to be stored.
pub fn batch(random: &mut Random, small: bool) -> Batch {
    let n = circle_count(random, small);
    let mut circles = circles(random, n);
    let m = point_count(random, small);
    let mut points: Vec<[f64; 2]> = Vec::new();
    for i in 0..m {
        let p = if i > 0 && random.below(16) == 0 { points[random.below(i as u64) as usize] } else { point(random, &circles) };
        points.push(p);
    }
    meet(random, &mut circles, &points);
    let inks = if random.below(4) == 0 { random.inks(n) } else { random.different_inks(n) };
    let room = m + random.pick(&[0, 0, 0, 0, 1, 1, 5]);
    let any = random.next();
    let mut batch = Batch { circles, inks, points, room, fill: random.pick(&[0, u64::MAX, any, any]) };
    if random.below(3) == 0 {
        for _ in 0..random.pick(&[1, 1, 2, 2, 3]) {
            damage(random, &mut batch, small);
        }
    }
    batch
}

fn circle_count(random: &mut Random, small: bool) -> usize {
    match random.below(8) {
        _ if small => random.pick(&[0, 1, 1, 1, 2, 2, 2, 3, 4]),
        0 | 1 => random.pick(&[0, 1, 2, 31, 32, 33, 63, 64, 64]),
        2 | 3 => random.below(65) as usize,
        _ => random.below(12) as usize,
    }
}

// As many points as there may be, or one more, come up in one batch in 250.
fn point_count(random: &mut Random, small: bool) -> usize {
    match random.below(250) {
        _ if small => random.pick(&[0, 1, 1, 2, 2, 3]),
        0 => random.pick(&[MOST_POINTS - 1, MOST_POINTS, MOST_POINTS, MOST_POINTS, MOST_POINTS + 1, MOST_POINTS + 1, MOST_POINTS + 6]),
        1..=20 => random.pick(&[0, 1, 63, 64, 65, 100]),
        _ => random.below(40) as usize,
    }
}

fn circles(random: &mut Random, n: usize) -> Vec<[f64; 3]> {
    let kind = random.below(8);
    let first = random.circle(0);
    let mut circles = vec![first; n];
    for i in 1..n {
        let other = circles[random.below(i as u64) as usize];
        let made = match kind {
            0 => first,
            1 => [first[0], first[1], random.radius(0)],
            2 => [3.0 * (i % 8) as f64, 3.0 * (i / 8) as f64, random.pick(&[1.0, 1.5, 2.0])],
            3 => [random.pick(&[END, -END, 0.0]), random.pick(&[END, -END, -0.0]), random.pick(&[END, below(END), LEAST_RADIUS])],
            4 => random.nearly_touching(other),
            5 | 6 => random.beside(other, 0),
            _ => random.circle(0),
        };
        circles[i] = if bad_point([made[0], made[1]]) || bad_radius(made[2]) { random.circle(0) } else { made };
    }
    circles
}

fn point(random: &mut Random, circles: &[[f64; 3]]) -> [f64; 2] {
    let [x, y, r] = if circles.is_empty() { random.circle(0) } else { random.pick(circles) };
    let p = match random.below(9) {
        0 => [x, y],
        1 => [next_to(random, x + r), y],
        2 => [x, next_to(random, y - r)],
        3 => [next_to(random, x + 0.6 * r), next_to(random, y - 0.8 * r)],
        4 => [x + (2.0 * random.unit() - 1.0) * r, y + (2.0 * random.unit() - 1.0) * r],
        5 => [random.pick(&[END, -END, below(END), -below(END)]), random.pick(&[END, y, 0.0])],
        6 => [random.pick(&[0.0, -0.0, 5e-324, x]), random.pick(&[0.0, -0.0, -5e-324, y])],
        _ => [random.coordinate(0), random.coordinate(0)],
    };
    if bad_point(p) { [random.coordinate(0), random.coordinate(0)] } else { p }
}

// A number, or one a last place beside it.
fn next_to(random: &mut Random, x: f64) -> f64 {
    match random.below(4) {
        0 => above(x),
        1 if x != 0.0 => below(x),
        _ => x,
    }
}

// Some circles get another radius, and some of these another centre, so that one of the points lies on the edge, or misses it by a last place.
fn meet(random: &mut Random, circles: &mut [[f64; 3]], points: &[[f64; 2]]) {
    if points.is_empty() || random.below(2) == 0 {
        return;
    }
    for c in circles {
        if random.below(3) > 0 {
            continue;
        }
        let p = random.pick(points);
        let mut center = [c[0], c[1]];
        if random.below(2) == 0 {
            let apart = sides::one(random, Reach::Points);
            center = [p[0] - apart[0], p[1] - apart[1]];
        }
        let radius = random.about([p[0] - center[0], p[1] - center[1]]);
        if !bad_point(center) && !bad_radius(radius) {
            *c = [center[0], center[1], radius];
        }
    }
}

// The call by value holds no point past the last that there may be, so none of those is damaged.
fn damage(random: &mut Random, batch: &mut Batch, small: bool) {
    let n = batch.circles.len();
    let m = batch.points.len();
    let coordinate = random.pick(&[above(END), -above(END), f64::NAN, f64::INFINITY, f64::NEG_INFINITY, 1e300]);
    let any = random.below(n.max(1) as u64) as usize;
    let last = m.clamp(1, MOST_POINTS) - 1;
    let at = random.below(last as u64 + 1) as usize;
    match random.below(9) {
        0 if n > 0 => batch.circles[any][random.below(2) as usize] = coordinate,
        1 if n > 0 => batch.circles[any][2] = random.pick(&[above(END), below(LEAST_RADIUS), 0.0, -0.0, -1.0, f64::NAN, f64::INFINITY, 5e-324]),
        2 if n > 1 => random.repeat_an_ink(&mut batch.inks),
        3 | 4 if m > 0 => {
            let at = random.pick(&[0, last, at]);
            batch.points[at][random.below(2) as usize] = coordinate;
        }
        5 | 6 if m > 0 => batch.room = random.pick(&[m - 1, m - 1, 0, at]),
        7 if n > 0 && (!small || random.below(8) == 0) => {
            let many = random.pick(&[65, 65, 66, 70]);
            batch.circles.resize(many, batch.circles[any]);
            batch.inks.resize(many, batch.inks[any]);
        }
        8 if !small && random.below(4) == 0 => {
            batch.points.resize(MOST_POINTS + 1, [0.0; 2]);
            batch.room = random.pick(&[batch.room, batch.room, MOST_POINTS, MOST_POINTS + 1]);
        }
        _ => {}
    }
}

// ---- the boundaries

fn plain(circles: &[[f64; 3]], points: &[[f64; 2]]) -> Batch {
    let inks = (1..=circles.len() as u16).collect();
    Batch { circles: circles.to_vec(), inks, points: points.to_vec(), room: points.len(), fill: 0xa5a5_a5a5_a5a5_a5a5 }
}

// A batch at each boundary, and each refusal by itself and with every later one due as well. Of those with more than 1,024 points `small` has two.
pub fn boundaries(small: bool) -> Vec<Batch> {
    let two = [[0.0, 0.0, 5.0], [4.0, 0.0, 1.0]];
    let some = [[3.0, 0.0], [5.0, 0.0], [6.0, 0.0]];
    let mut batches = vec![];
    // each room from none to two more than there are points, for both circles, for none, and for no points
    for (circles, points) in [(&two[..], &some[..]), (&[], &some), (&two, &[]), (&[], &[]), (&two[..1], &some[..1])] {
        for room in 0..=points.len() + 2 {
            batches.push(Batch { room, ..plain(circles, points) });
        }
    }
    // on an edge and a last place beside it, with distances that are whole and that are not
    for (circle, [x, y]) in [([0.0, 0.0, 5.0], [3.0, 4.0]), ([0.0, 0.0, 0.29], [0.21, 0.2]), ([0.0, 0.0, 0.35], [0.28, 0.21]), ([-1.0, -0.0, 1.0], [-0.0, 0.0])] {
        let beside = if y == 0.0 { [5e-324, -5e-324] } else { [above(y), below(y)] };
        batches.push(plain(&[circle], &[[x, y], [x, beside[0]], [x, beside[1]]]));
    }
    // either zero, and the smallest circle there is
    let zeros = [[0.0, 0.0], [-0.0, 0.0], [0.0, -0.0], [-0.0, -0.0]];
    batches.push(plain(&zeros.map(|[x, y]| [x, y, LEAST_RADIUS]), &[&zeros[..], &[[LEAST_RADIUS, -0.0], [-0.0, -above(LEAST_RADIUS)]]].concat()));
    // the ends of the range, as far apart as points can be
    let ends = [[END, END], [-END, -END], [below(END), -END], [END, 0.0]];
    batches.push(plain(&[[END, END, END], [-END, -END, LEAST_RADIUS], [0.0, END, END]], &ends));
    for bad in [above(END), -above(END), f64::NAN, f64::INFINITY, f64::NEG_INFINITY] {
        for p in [[bad, 0.0], [0.0, bad]] {
            batches.push(plain(&two[..1], &[p]));
            batches.push(plain(&[], &[some[0], some[1], p]));
        }
    }
    for radius in [END, above(END), LEAST_RADIUS, below(LEAST_RADIUS), 0.0, f64::NAN] {
        batches.push(plain(&[[0.0, 0.0, radius]], &[[0.0, 0.0], [END, END]]));
    }
    // circles in one place, about one centre and apart: the lowest bit, the highest, all, each number of them
    for n in [64, 65] {
        batches.push(plain(&vec![[1.0, 1.0, 1.0]; n], &[[1.0, 2.0], [1.0, above(2.0)]]));
    }
    let rings: Vec<[f64; 3]> = (1..=64).map(|r| [0.0, 0.0, r as f64]).collect();
    batches.push(plain(&rings, &[[0.0, 1.0], [0.0, above(1.0)], [33.0, -0.0], [64.0, 0.0], [above(64.0), 0.0]]));
    let apart: Vec<[f64; 3]> = (0..64).map(|i| [4.0 * (i % 8) as f64, 4.0 * (i / 8) as f64, 1.0]).collect();
    batches.push(plain(&apart, &[[0.0, 0.0], [29.0, 28.0], [2.0, 2.0], [28.0, 0.0]]));
    // as many points as there may be
    let many: Vec<[f64; 2]> = (0..MOST_POINTS).map(|i| [(i % 32) as f64, (i / 32) as f64]).collect();
    batches.push(plain(&apart[..if small { 9 } else { 64 }], &many));
    batches.extend(refused(&two, &some, small));
    batches
}

// From the last number to the first.
fn refused(circles: &[[f64; 3]], points: &[[f64; 2]], small: bool) -> Vec<Batch> {
    const MANY: usize = 1;
    let faults: [fn(&mut Batch); 7] = [
        |b| b.room = 0,
        |b| {
            b.points.resize(MOST_POINTS + 1, [0.0; 2]);
            b.room = if b.room == 0 { 0 } else { b.points.len() };
        },
        |b| b.inks[1] = b.inks[0],
        |b| b.circles[0][2] = below(LEAST_RADIUS),
        |b| b.points[2][1] = above(END),
        |b| b.circles[1][0] = -above(END),
        |b| {
            b.circles.resize(65, [0.0, 0.0, 1.0]);
            b.inks.resize(65, 9);
        },
    ];
    let mut batches = vec![];
    let mut with = |chosen: &[usize]| {
        let mut batch = plain(circles, points);
        chosen.iter().for_each(|i| faults[*i](&mut batch));
        batches.push(batch);
    };
    for i in 0..faults.len() {
        let later: Vec<usize> = (0..=i).collect();
        if i != MANY || !small {
            with(&[i]);
        }
        if i == MANY || i == 4 || (i > MANY && !small) {
            with(&later);
        }
        if i > MANY {
            with(&later.into_iter().filter(|i| *i != MANY).collect::<Vec<_>>());
        }
    }
    batches
}

// ---- how often each case comes up

#[derive(Default)]
pub struct Tally {
    accepted: usize,
    refused: [usize; 20],
    too_many_too: [usize; 20],
    too_short_too: [usize; 20],
    points: usize,
    touches: usize,
    on_edge: usize,
    beside_edge: usize,
    spare: usize,
    no_circles: usize,
    no_points: usize,
    full: usize,
    most_points: usize,
    largest_mask: u32,
}

impl Tally {
    pub fn count(&mut self, batch: &Batch, touched: &Touched) {
        let m = batch.points.len();
        if touched.refusal != 0 {
            self.refused[touched.refusal] += 1;
            self.too_many_too[touched.refusal] += (m > MOST_POINTS) as usize;
            self.too_short_too[touched.refusal] += (m > batch.room) as usize;
            return;
        }
        self.accepted += 1;
        self.points += m;
        self.spare += (batch.room > m) as usize;
        self.no_circles += batch.circles.is_empty() as usize;
        self.no_points += (m == 0) as usize;
        self.full += (batch.circles.len() == 64) as usize;
        self.most_points += (m == MOST_POINTS) as usize;
        for (mask, p) in touched.answers.iter().zip(&batch.points) {
            self.touches += mask.count_ones() as usize;
            self.largest_mask = self.largest_mask.max(mask.count_ones());
            for c in &batch.circles {
                let distance = hypot::hypot(p[0] - c[0], p[1] - c[1]);
                self.on_edge += (distance == c[2]) as usize;
                self.beside_edge += (distance.to_bits().abs_diff(c[2].to_bits()) == 1) as usize;
            }
        }
    }
    pub fn print(&self) {
        eprintln!("accepted {}", self.accepted);
        for (number, count) in self.refused.iter().enumerate().filter(|(_, count)| **count > 0) {
            let (many, short) = (self.too_many_too[number], self.too_short_too[number]);
            eprintln!("refused {number}: {count}, {many} of them with more than 1,024 points, {short} with too few answers");
        }
        eprintln!("with no circles {}, with 64 {}", self.no_circles, self.full);
        eprintln!("with no points {}, with 1,024 {}, with more answers than points {}", self.no_points, self.most_points, self.spare);
        eprintln!("points {}, circles under them {}, {} at most under one", self.points, self.touches, self.largest_mask);
        eprintln!("on an edge {}, a last place beside one {}", self.on_edge, self.beside_edge);
    }
}
