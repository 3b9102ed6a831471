// Inputs of kind 14, fields: a file and a place in it. A field knows no order and no count, so most files are a few fields of any tag and any patterns, whole
// or damaged; the others are cards.
use crate::cards::{self, Field};
use crate::{Random, card};

const NAN: u64 = 0x7ff0_0000_0000_0000;

// A file, and the places that it is still to be read at.
#[derive(Default)]
pub struct Places {
    pub file: Vec<u8>,
    left: Vec<usize>,
}

impl Places {
    pub fn next(&mut self, random: &mut Random, small: bool) -> usize {
        while self.left.is_empty() {
            self.file = file(random, small);
            self.left = places(random, &self.file);
        }
        self.left.pop().unwrap()
    }
}

fn file(random: &mut Random, small: bool) -> Vec<u8> {
    match random.below(20) {
        0 => return vec![],
        1..=5 => return cards::file(random, small),
        _ => {}
    }
    let mut fields: Vec<Field> = (0..=random.below(3)).map(|_| field(random)).collect();
    let any = random.below(fields.len() as u64) as usize;
    match random.below(6) {
        0 | 1 => cards::damage_shape(random, &mut fields),
        2 => fields[any].length += 1,
        3 => fields[any].length -= 1,
        _ => {}
    }
    let mut file = cards::bytes(&fields);
    match random.below(8) {
        0 | 1 => file.truncate(random.below(file.len() as u64 + 1) as usize),
        2 | 3 => file.truncate(file.len().saturating_sub(1)),
        4 => file.push(random.pick(&[0, 1, 2, 3, 4, 8, 16, 24, 26, 255])),
        _ => {}
    }
    file
}

fn field(random: &mut Random) -> Field {
    let words = [word(random), word(random), word(random)];
    match random.below(3) {
        0 => cards::field(1, &words[..1]),
        1 => cards::circle_field(&words, random.ink()),
        _ => cards::field(3, &words[..2]),
    }
}

fn word(random: &mut Random) -> u64 {
    match random.below(4) {
        0 => NAN | random.next() & 0x8000_0000_0000_0000 | random.pick(&[1, 0x8_0000_0000_0000, 0x4_0000_0001_2345, 0xf_ffff_ffff_ffff]),
        1 => random.next(),
        _ => random.any().to_bits(),
    }
}

// One short file in sixteen is read at every place. The others are read at their last fields, which end in what cannot be read, at any place and past the end.
fn places(random: &mut Random, file: &[u8]) -> Vec<usize> {
    let end = file.len();
    let past = [end, end + 1, 1 << 32, 1 << 63, usize::MAX - end, usize::MAX - 29, usize::MAX - 28, usize::MAX - 3, usize::MAX - 2, usize::MAX - 1, usize::MAX];
    if end <= 100 && random.below(16) == 0 {
        return (0..end).chain(past).collect();
    }
    let mut starts = vec![0];
    while let Ok(field) = card::field(file, starts[starts.len() - 1]) {
        starts.push(field.start + field.length);
    }
    let mut places = starts.split_off(starts.len().saturating_sub(3));
    places.push(random.below(end as u64 + 4) as usize);
    if random.below(2) == 0 {
        places.push(random.pick(&past));
    }
    places
}
