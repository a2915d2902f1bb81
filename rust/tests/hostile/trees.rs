//! Encodings of trees, each with the number of its keys.

use crate::common::Random;

/// How many bytes a level has.
#[derive(Clone, Copy, PartialEq)]
pub enum Levels {
    Narrow,
    Wide,
}

/// A tree that is written.
struct Writer {
    levels: Levels,
    tree: Vec<u8>,
}

impl Writer {
    /// Adds a record.
    fn push(&mut self, flags: u8, level: u16, label: &[u8]) {
        self.tree.extend([flags, label.len() as u8]);
        if self.levels == Levels::Wide {
            self.tree.extend([0, 0]);
        }
        self.tree.extend(level.to_be_bytes());
        self.tree.extend(label);
    }

    /// One record at each level, all but the last with the same flags. Returns how many keys.
    fn chain(&mut self, flags: u8, depth: u16) -> usize {
        for level in 1..depth {
            self.push(flags, level, b"a");
        }
        self.push(3 | (flags & 48), depth, b"a");
        if flags & 2 == 0 { 1 } else { depth.into() }
    }

    /// A chain, each record of which has a sibling.
    fn comb(&mut self, flags: u8, depth: u16) -> usize {
        let keys = self.chain(flags | 48, depth);
        for n in 0..depth {
            self.push(3, depth - n, b"b");
        }
        keys + usize::from(depth)
    }

    /// Records side by side.
    fn row(&mut self, last: u8) -> usize {
        for label in 0..last {
            self.push(51, 1, &[label]);
        }
        self.push(3, 1, &[last]);
        usize::from(last) + 1
    }

    /// Long labels, one below the other.
    fn long(&mut self, len: usize, depth: u16) -> usize {
        for level in 1..depth {
            self.push(12, level, &vec![b'a'; len]);
        }
        self.push(3, depth, &vec![b'a'; len]);
        1
    }
}

/// Any tree, and how many keys it has.
pub fn any(random: &mut Random, levels: Levels) -> (Vec<u8>, usize) {
    let tree = Vec::new();
    let mut writer = Writer { levels, tree };
    writer.push(12, 0, b"");
    let most = if random.below(64) == 0 { 1200 } else { 24 };
    let depth = 1 + random.below(most) as u16;
    let keys = match random.below(6) {
        0 => writer.chain(15, depth),
        1 => writer.chain(12, depth),
        2 => writer.comb(15, depth),
        3 => writer.comb(12, depth),
        4 => writer.row(random.below(256) as u8),
        _ => writer.long(1 + random.below(255), depth.min(20)),
    };
    (writer.tree, keys)
}

/// Bytes that claim much: all marks, each mark by itself, the longest label and the deepest level.
const GREEDY: [u8; 7] = [63, 3, 12, 48, 60, 255, 1];

/// Records that claim a long label, a deep level, or a child and a sibling that are not there.
const CLAIMS: [&[u8]; 5] = [
    b"\x3f\xff\xff\xffa",
    b"\x0f\xff\0\x01a",
    b"\x3f\x01\xff\xffa",
    b"\x3c\x01\0\x02a",
    b"\x0c\0\0\0\x3f",
];

/// The same with wide levels.
const WIDE_CLAIMS: [&[u8]; 5] = [
    b"\x3f\xff\xff\xff\xff\xffa",
    b"\x0f\xff\0\0\0\x01a",
    b"\x3f\x01\xff\xff\xff\xffa",
    b"\x3c\x01\0\0\0\x02a",
    b"\x0c\0\0\0\0\0\x3f",
];

/// Damages an encoding in one place.
pub fn damage(random: &mut Random, levels: Levels, tree: &mut Vec<u8>) {
    if tree.is_empty() {
        return;
    }
    let at = random.below(tree.len());
    match random.below(7) {
        0 => tree[at] = random.below(256) as u8,
        1 | 2 => tree[at] = GREEDY[random.below(7)],
        3 => tree.truncate(at),
        4 => drop(tree.remove(at)),
        5 => tree.extend_from_within(at..),
        _ => {
            let narrow = levels == Levels::Narrow;
            let claims = if narrow { CLAIMS } else { WIDE_CLAIMS };
            tree.splice(at..at, claims[random.below(5)].iter().copied());
        }
    }
}
