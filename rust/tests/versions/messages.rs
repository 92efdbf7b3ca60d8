//! Random messages under a schema as a plain value, in the encoding of the wire.

use super::model::random::Random;
use super::model::{Schema, Struct, Type, POINTERS, WORDS};

/// How deep structs and lists stand in one another.
const DEPTH: usize = 3;

/// The words of one segment.
struct Segment<'a> {
    schema: &'a Schema,
    words: Vec<u64>,
}

/// How an element is written: its size's code, and its bits.
fn element_size(of: &Type) -> (u64, usize) {
    match of {
        Type::Void => (0, 0),
        Type::Bool => (1, 1),
        Type::Number(_, 1) => (2, 8),
        Type::Number(_, 2) | Type::Enum(_) => (3, 16),
        Type::Number(_, 4) => (4, 32),
        Type::Number(..) => (5, 64),
        _ => (6, 64),
    }
}

impl Segment<'_> {
    /// Adds words of zeros, and answers the first.
    fn add(&mut self, count: usize) -> usize {
        let start = self.words.len();
        self.words.resize(start + count, 0);
        start
    }

    /// A pointer at a word that leads to another, but for its upper half.
    fn lead(&mut self, at: usize, start: usize, kind: u64, upper: u64) {
        self.words[at] = ((start - at - 1) as u64) << 2 | kind | upper << 32;
    }

    /// A list of bytes: letters for a text, which ends with a zero.
    fn put_bytes(&mut self, at: usize, is_text: bool, random: &mut Random) {
        let count = random.below(12);
        let mut bytes: Vec<u8> = (0..count).map(|_| if is_text { b'a' + random.below(26) as u8 } else { random.next() as u8 }).collect();
        bytes.resize(count + usize::from(is_text), 0);
        let start = self.add(bytes.len().div_ceil(8));
        for (index, byte) in bytes.iter().enumerate() {
            self.words[start + index / 8] |= u64::from(*byte) << (8 * (index % 8));
        }
        self.lead(at, start, 1, 2 | (bytes.len() as u64) << 3);
    }

    fn put_list(&mut self, at: usize, inner: &Type, depth: usize, random: &mut Random) {
        let count = random.below(4);
        if let Type::Struct(number) = inner {
            let size = usize::from(WORDS + POINTERS);
            let start = self.add(1 + count * size);
            self.words[start] = (count as u64) << 2 | u64::from(WORDS) << 32 | u64::from(POINTERS) << 48;
            for index in 0..count {
                self.fill(start + 1 + index * size, *number, depth, random);
            }
            return self.lead(at, start, 1, 7 | ((count * size) as u64) << 3);
        }
        let (code, bits) = element_size(inner);
        let words = (count * bits).div_ceil(64);
        let start = self.add(words);
        for word in start..start + words {
            if code == 6 {
                self.put_pointer(word, inner, depth, random);
            } else {
                self.words[word] = random.next();
            }
        }
        self.lead(at, start, 1, code | (count as u64) << 3);
    }

    /// What a pointer of a type leads to, if it isn't null.
    fn put_pointer(&mut self, at: usize, of: &Type, depth: usize, random: &mut Random) {
        if random.once_in(3) || depth == 0 {
            return;
        }
        match of {
            Type::Struct(number) => {
                let start = self.add(usize::from(WORDS + POINTERS));
                self.lead(at, start, 0, u64::from(WORDS) | u64::from(POINTERS) << 16);
                self.fill(start, *number, depth - 1, random);
            }
            Type::List(inner) => self.put_list(at, inner, depth - 1, random),
            other => self.put_bytes(at, *other != Type::Data, random),
        }
    }

    /// The sections of a struct: random data, an active member of each union or an unknown one, and its pointers.
    fn fill(&mut self, start: usize, number: usize, depth: usize, random: &mut Random) {
        for word in start..start + usize::from(WORDS) {
            self.words[word] = random.next() >> (8 * random.below(9)).min(63);
        }
        self.fill_fields(start, &self.schema.structs[number].clone(), depth, random);
    }

    fn fill_fields(&mut self, start: usize, one: &Struct, depth: usize, random: &mut Random) {
        self.words[start + one.union_word as usize] = random.below(usize::from(one.members()) + 1) as u64;
        for field in &one.fields {
            match (field.offset, &field.of) {
                (None, Type::Struct(group)) => self.fill_fields(start, &self.schema.structs[*group].clone(), depth, random),
                (Some(offset), of) if of.is_pointer() => self.put_pointer(start + usize::from(WORDS) + offset as usize, of, depth, random),
                _ => (),
            }
        }
    }
}

/// A message whose root is a struct of a schema, in one segment.
pub fn random_message(schema: &Schema, number: usize, random: &mut Random) -> Vec<u8> {
    let mut segment = Segment { schema, words: vec![0, 0] };
    let start = segment.add(usize::from(WORDS + POINTERS));
    segment.lead(1, start, 0, u64::from(WORDS) | u64::from(POINTERS) << 16);
    segment.fill(start, number, DEPTH, random);
    segment.words[0] = ((segment.words.len() - 1) as u64) << 32;
    segment.words.iter().flat_map(|word| word.to_le_bytes()).collect()
}
