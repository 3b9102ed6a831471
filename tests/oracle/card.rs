// A card file read as document 01 says ("Card file and program"), with the inks of document 02, 1/14, and what program `card` prints for it: the layout is the
// patched Rust's, which sees no ink.
use crate::eunoia::*;
use std::collections::BTreeMap;

#[derive(Clone, Default)]
pub struct Card {
    pub factor: f64,
    pub circles: Vec<[f64; 3]>,
    pub inks: Vec<u16>,
    pub regions: Vec<(u64, f64)>,
}

// What the card came to: the printed text, the refusal's number, and the steps that the layout took. The counts are of what was read before a refusal.
pub struct Outcome {
    pub text: Vec<u8>,
    pub refusal: usize,
    pub circles: usize,
    pub regions: usize,
    pub same_ink: bool,
    pub seen: Seen,
}

pub fn outcome(file: &[u8]) -> Outcome {
    let mut card = Card::default();
    let read = if file.len() > 65536 { Err(2) } else { read(file, &mut card) };
    let (text, refusal, seen) = match read.and_then(|()| checked(&card)) {
        Ok(()) => laid_out(&card),
        Err(refusal) => (format!("refused {refusal}\n"), refusal, Seen::default()),
    };
    Outcome { text: text.into_bytes(), refusal, circles: card.circles.len(), regions: card.regions.len(), same_ink: crate::same_ink(&card.inks), seen }
}

fn number(bytes: &[u8]) -> u64 {
    bytes.iter().rev().fold(0, |number, byte| number << 8 | *byte as u64)
}

fn float(bytes: &[u8]) -> f64 {
    f64::from_bits(number(bytes))
}

// What a field holds, and where its body stands in the file.
pub struct Field {
    pub value: Value,
    pub start: usize,
    pub length: usize,
}

pub enum Value {
    Factor(f64),
    Circle([f64; 3], u16),
    Region(u64, f64),
}

// The field at a place, whatever stands before it. Checks run front to back: head cut, tag, length, body cut. A place at or past the end is a cut head.
pub fn field(file: &[u8], at: usize) -> Result<Field, usize> {
    let left = file.get(at..).unwrap_or(&[]);
    if left.len() < 3 {
        return Err(11);
    }
    let length = match left[0] {
        1 => 8,
        2 => 26,
        3 => 16,
        _ => return Err(9),
    };
    if number(&left[1..3]) != length as u64 {
        return Err(10);
    }
    let body = left[3..].get(..length).ok_or(11usize)?;
    let value = match left[0] {
        1 => Value::Factor(float(body)),
        2 => Value::Circle([float(&body[..8]), float(&body[8..16]), float(&body[16..24])], number(&body[24..]) as u16),
        _ => Value::Region(number(&body[..8]), float(&body[8..])),
    };
    Ok(Field { value, start: at + 3, length })
}

// Checks run front to back: head cut, tag, count, and the field's own. Then come the values.
fn read(file: &[u8], card: &mut Card) -> Result<(), usize> {
    if file.is_empty() {
        return Err(9);
    }
    let mut at = 0;
    let mut last = 0;
    while at < file.len() {
        if file.len() - at < 3 {
            return Err(11);
        }
        let tag = file[at];
        let in_place = match tag {
            1 => last == 0,
            2 => last == 1 || last == 2,
            3 => last != 0,
            _ => false,
        };
        if !in_place {
            return Err(9);
        }
        if tag == 2 && card.circles.len() == 64 {
            return Err(1);
        }
        if tag == 3 && card.regions.len() == 2048 {
            return Err(2);
        }
        let field = field(file, at)?;
        match field.value {
            Value::Factor(factor) => card.factor = factor,
            Value::Circle(circle, ink) => {
                card.circles.push(circle);
                card.inks.push(ink);
            }
            Value::Region(mask, area) => card.regions.push((mask, area)),
        }
        last = tag;
        at = field.start + field.length;
    }
    Ok(())
}

pub fn checked(card: &Card) -> Result<(), usize> {
    let refusal = crate::circles_refusal(&card.circles);
    if refusal != 0 {
        Err(refusal)
    } else if card.regions.windows(2).any(|pair| pair[0].0 >= pair[1].0) {
        Err(5)
    } else if !(0.0 <= card.factor && card.factor <= 1.0) {
        Err(6)
    } else if crate::same_ink(&card.inks) {
        Err(14)
    } else {
        Ok(())
    }
}

fn bits(x: f64) -> u64 {
    assert!(x.is_finite(), "an accepted card gave {x}");
    if x == 0.0 { 0 } else { x.to_bits() }
}

// The circles of a layout, and what it worked out on the way.
pub fn layout(card: &Card) -> (Vec<Circle>, Seen) {
    let areas: BTreeMap<usize, f64> = card.regions.iter().map(|(mask, area)| (*mask as usize, *area)).collect();
    let mut shapes: Vec<Circle> = card.circles.iter().map(|c| crate::circle(*c)).collect();
    take_seen();
    normalize_layout_with_clusters(&mut shapes, card.factor, Some(&areas));
    (shapes, take_seen())
}

fn laid_out(card: &Card) -> (String, usize, Seen) {
    let (shapes, seen) = layout(card);
    let numbers = crate::numbers(&seen.clusters);
    let mut text = format!("circles {} clusters {} moved {:016x} padding {:016x}\n", shapes.len(), seen.clusters.len(), seen.moved, bits(seen.padding));
    for (i, c) in shapes.iter().enumerate() {
        let [x, y, radius] = [c.center().x(), c.center().y(), c.radius()].map(bits);
        text += &format!("{i} {} {x:016x} {y:016x} {radius:016x} {}\n", numbers[i], card.inks[i]);
    }
    (text, 0, seen)
}
