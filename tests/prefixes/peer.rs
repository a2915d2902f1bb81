//! peer route|complete|block|segment|networks LIST: what `prefixes` does with a list of lines, over std's ordered map, and
//! for `networks`, which is `route --cidr`, over a hash map of std for each length. For `complete` 10 entries are shown. It
//! is timed beside `prefixes` by tests/prefixes/bench.sh, and writes the same.

use std::collections::{BTreeMap, HashMap};
use std::io::{self, BufRead, BufReader, BufWriter, Write};
use std::net::{IpAddr, Ipv4Addr, Ipv6Addr};

type Map = BTreeMap<Vec<u8>, Vec<u8>>;

fn without_end(line: &[u8]) -> &[u8] {
    line.strip_suffix(b"\n").unwrap_or(line)
}

fn folded(name: &[u8]) -> Vec<u8> {
    name.strip_suffix(b".").unwrap_or(name).to_ascii_lowercase()
}

fn read_list(path: &str, is_folded: bool) -> io::Result<Map> {
    let mut reader = BufReader::new(std::fs::File::open(path)?);
    let (mut map, mut line) = (Map::new(), Vec::new());
    while reader.read_until(b'\n', &mut line)? != 0 {
        let row = without_end(&line);
        if !row.is_empty() {
            let place = row.iter().position(|byte| *byte == b'\t');
            let (name, value) = place.map_or((row, &b""[..]), |place| (&row[..place], &row[place + 1..]));
            let name = if is_folded { folded(name) } else { name.to_vec() };
            map.insert(name, value.to_vec());
        }
        line.clear();
    }
    Ok(map)
}

// The longest key that begins the line: each beginning is looked up, the longest first.
fn longest<'m, 'l>(map: &'m Map, line: &'l [u8]) -> Option<(&'l [u8], &'m Vec<u8>)> {
    (0..=line.len()).rev().find_map(|len| map.get(&line[..len]).map(|value| (&line[..len], value)))
}

fn route(map: &Map, line: &[u8], out: &mut impl Write) -> io::Result<()> {
    match longest(map, line) {
        Some((prefix, target)) => {
            out.write_all(prefix)?;
            out.write_all(b"\t")?;
            out.write_all(target)?;
            out.write_all(b"\n")
        }
        None => out.write_all(b"-\n"),
    }
}

fn complete(map: &Map, prefix: &[u8], out: &mut impl Write) -> io::Result<()> {
    let mut shown = Vec::new();
    let mut count: u64 = 0;
    for (name, _) in map.range(prefix.to_vec()..).take_while(|(name, _)| name.starts_with(prefix)) {
        if count < 10 {
            shown.push(name);
        }
        count += 1;
    }
    out.write_all(prefix)?;
    writeln!(out, "\t{count}")?;
    for name in shown {
        out.write_all(b"\t")?;
        out.write_all(name)?;
        out.write_all(b"\n")?;
    }
    Ok(())
}

// Each end of the host that begins a label is looked up, the longest first.
fn block(map: &Map, line: &[u8], out: &mut impl Write) -> io::Result<()> {
    let host = folded(line);
    let mut rest: Option<&[u8]> = Some(&host);
    while let Some(name) = rest {
        if map.contains_key(name) {
            out.write_all(b"blocked\t")?;
            out.write_all(name)?;
            return out.write_all(b"\n");
        }
        rest = name.iter().position(|byte| *byte == b'.').map(|dot| &name[dot + 1..]);
    }
    out.write_all(b"passes\n")
}

// From the front on the longest word, by a look-up of each beginning, the longest first.
fn segment(map: &Map, most: usize, line: &[u8], out: &mut impl Write) -> io::Result<()> {
    let text = std::str::from_utf8(line).expect("UTF-8");
    let mut rest = text;
    while let Some(first) = rest.chars().next() {
        let len = (1..=rest.len().min(most))
            .rev()
            .find(|len| rest.is_char_boundary(*len) && map.contains_key(&rest.as_bytes()[..*len]))
            .unwrap_or(first.len_utf8());
        out.write_all(rest[..len].as_bytes())?;
        rest = &rest[len..];
        if !rest.is_empty() {
            out.write_all(b"\t")?;
        }
    }
    out.write_all(b"\n")
}

// A network as it is written, and its target.
type Network = (Vec<u8>, Vec<u8>);

// The networks of each length, by their bits.
struct Networks {
    four: Vec<HashMap<u32, Network>>,
    six: Vec<HashMap<u128, Network>>,
}

fn first_of_four(address: Ipv4Addr, len: usize) -> u32 {
    u32::from(address).checked_shr(32 - len as u32).unwrap_or(0)
}

fn first_of_six(address: Ipv6Addr, len: usize) -> u128 {
    u128::from(address).checked_shr(128 - len as u32).unwrap_or(0)
}

impl Networks {
    fn read(path: &str) -> io::Result<Networks> {
        let mut table = Networks { four: vec![HashMap::new(); 33], six: vec![HashMap::new(); 129] };
        for line in BufReader::new(std::fs::File::open(path)?).lines() {
            let line = line?;
            let (name, target) = line.split_once('\t').expect("a tab");
            let network = (name.as_bytes().to_vec(), target.as_bytes().to_vec());
            let (text, len) = name.split_once('/').expect("a slash");
            let len: usize = len.parse().expect("a length");
            match text.parse().expect("an address") {
                IpAddr::V4(address) => table.four[len].insert(first_of_four(address, len), network),
                IpAddr::V6(address) => table.six[len].insert(first_of_six(address, len), network),
            };
        }
        Ok(table)
    }

    // The longest network of an address: each length that has networks is looked up, the longest first.
    fn of(&self, address: IpAddr) -> Option<&Network> {
        let find4 = |a, len: usize| self.four[len].get(&first_of_four(a, len));
        let find6 = |a, len: usize| self.six[len].get(&first_of_six(a, len));
        match address {
            IpAddr::V4(a) => (0..33).rev().filter(|len| !self.four[*len].is_empty()).find_map(|len| find4(a, len)),
            IpAddr::V6(a) => (0..129).rev().filter(|len| !self.six[*len].is_empty()).find_map(|len| find6(a, len)),
        }
    }

    fn answer(&self, line: &[u8], out: &mut impl Write) -> io::Result<()> {
        let address = std::str::from_utf8(line).expect("UTF-8").parse().expect("an address");
        let Some((text, target)) = self.of(address) else {
            return out.write_all(b"-\n");
        };
        out.write_all(text)?;
        out.write_all(b"\t")?;
        out.write_all(target)?;
        out.write_all(b"\n")
    }
}

fn main() -> io::Result<()> {
    let words: Vec<String> = std::env::args().skip(1).collect();
    let networks = if words[0] == "networks" { Some(Networks::read(&words[1])?) } else { None };
    let map = if networks.is_none() { read_list(&words[1], words[0] == "block")? } else { Map::new() };
    let most = map.keys().map(Vec::len).max().unwrap_or(0);
    let mut input = io::stdin().lock();
    let mut out = BufWriter::new(io::stdout().lock());
    let mut line = Vec::new();
    while input.read_until(b'\n', &mut line)? != 0 {
        let row = without_end(&line);
        match (words[0].as_str(), &networks) {
            (_, Some(table)) => table.answer(row, &mut out)?,
            ("route", _) => route(&map, row, &mut out)?,
            ("complete", _) => complete(&map, row, &mut out)?,
            ("block", _) => block(&map, row, &mut out)?,
            _ => segment(&map, most, row, &mut out)?,
        }
        line.clear();
    }
    out.flush()
}
