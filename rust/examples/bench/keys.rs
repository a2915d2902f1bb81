//! The keys, in the orders in which they are asked for.

/// Keys that are inserted, and keys that are not.
pub struct Lists<'a> {
    pub present: Vec<&'a [u8]>,
    pub asked: Vec<&'a [u8]>,
    pub absent: Vec<&'a [u8]>,
    pub sorted: Vec<&'a [u8]>,
    /// The prefix of about a tenth of the keys.
    pub prefix: &'a [u8],
}

/// Puts keys in a random order, which depends on the seed alone.
fn shuffle(keys: &mut [&[u8]], seed: u64) {
    let mut random = seed;
    for i in 1..keys.len() {
        random ^= random << 13;
        random ^= random >> 7;
        random ^= random << 17;
        keys.swap(i, random as usize % (i + 1));
    }
}

/// The prefix, of some keys tried, under which the number of sorted keys is nearest to a tenth.
fn tenth<'a>(keys: &[&'a [u8]]) -> &'a [u8] {
    let wanted = keys.len() / 10;
    let count = |prefix: &[u8]| {
        let from = keys.partition_point(|key| *key < prefix);
        keys[from..].partition_point(|key| key.starts_with(prefix))
    };
    let tried = (0..8).filter_map(|eighth| keys.get(eighth * (keys.len() / 8)));
    let prefixes = tried.flat_map(|key| (1..=key.len()).map(move |len| &key[..len]));
    prefixes
        .min_by_key(|prefix| count(prefix).abs_diff(wanted))
        .unwrap_or(&[])
}

impl<'a> Lists<'a> {
    pub fn of(input: &'a [u8]) -> Self {
        let lines = input
            .split(|byte| *byte == b'\n')
            .filter(|line| !line.is_empty());
        let (mut present, mut absent) = (Vec::new(), Vec::new());
        for (at, line) in lines.enumerate() {
            let list = if at % 2 == 0 {
                &mut present
            } else {
                &mut absent
            };
            list.push(line);
        }
        present.sort_unstable();
        present.dedup();
        let sorted = present.clone();
        let prefix = tenth(&sorted);
        shuffle(&mut present, 1);
        shuffle(&mut absent, 2);
        let mut asked = present.clone();
        shuffle(&mut asked, 3);
        Lists {
            present,
            asked,
            absent,
            sorted,
            prefix,
        }
    }

    /// The inserted keys as texts, if all are UTF-8.
    pub fn texts(&self) -> Option<Vec<String>> {
        self.present
            .iter()
            .map(|key| String::from_utf8(key.to_vec()).ok())
            .collect()
    }
}

/// The least key that comes after all that begin with a prefix.
pub fn end(prefix: &[u8]) -> Option<Vec<u8>> {
    let last = prefix.iter().rposition(|byte| *byte < 255)?;
    let mut end = prefix[..=last].to_vec();
    end[last] += 1;
    Some(end)
}
