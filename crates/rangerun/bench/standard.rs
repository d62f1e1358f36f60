//! Answers the commands of `rangerun i32` that `compare.py` gives, over the standard library's map of starts.
use std::collections::BTreeMap;
use std::io::{self, BufRead, BufWriter, Write};

/// The last key and the value of each range, by its first key.
type Ranges = BTreeMap<i32, (i32, i64)>;

/// The first range that ends at the key or after it, by its first key.
fn first_reaching(map: &Ranges, key: i32) -> Option<i32> {
    if let Some((&start, &(last, _))) = map.range(..=key).next_back() {
        if last >= key {
            return Some(start);
        }
    }
    map.range(key..).next().map(|(&start, _)| start)
}

/// Unbinds the keys from `first` to `last`, and keeps what stands out on both sides.
fn remove(map: &mut Ranges, first: i32, last: i32) {
    let mut next = first_reaching(map, first);
    while let Some(start) = next {
        if start > last {
            return;
        }
        let Some((end, value)) = map.remove(&start) else {
            return;
        };
        if start < first {
            map.insert(start, (first - 1, value));
        }
        if end > last {
            map.insert(last + 1, (end, value));
            return;
        }
        next = map.range(end..).next().map(|(&start, _)| start);
    }
}

fn insert(map: &mut Ranges, first: i32, last: i32, value: i64) {
    let (mut from, mut to) = (first, last);
    remove(map, first, last);
    if let Some((&start, &(end, other))) = map.range(..first).next_back() {
        if end == first - 1 && other == value {
            map.remove(&start);
            from = start;
        }
    }
    if let Some(&(end, other)) = map.get(&(last + 1)) {
        if other == value {
            map.remove(&(last + 1));
            to = end;
        }
    }
    map.insert(from, (to, value));
}

fn meets(map: &Ranges, first: i32, last: i32) -> bool {
    first_reaching(map, first).is_some_and(|start| start <= last)
}

fn get(map: &Ranges, key: i32) -> Option<i64> {
    let (_, &(last, value)) = map.range(..=key).next_back()?;
    (last >= key).then_some(value)
}

/// Binds each bound key from `first` to `last` to the value, and each other one too.
fn set(map: &mut Ranges, first: i32, last: i32, value: i64) {
    insert(map, first, last, value);
}

fn range(text: &str) -> Option<(i32, i32)> {
    let (first, last) = text.split_once("..=")?;
    Some((first.parse().ok()?, last.parse().ok()?))
}

fn binding(text: &str) -> Option<(i32, i32, i64)> {
    let (spelled, value) = text.split_once(' ')?;
    let (first, last) = range(spelled)?;
    Some((first, last, value.parse().ok()?))
}

fn answer(map: &mut Ranges, line: &str, out: &mut impl Write) -> Option<io::Result<()>> {
    let (word, rest) = line.split_once(' ').unwrap_or((line, ""));
    Some(match word {
        "insert" => {
            let (first, last, value) = binding(rest)?;
            insert(map, first, last, value);
            out.write_all(b"ok\n")
        }
        "remove" => {
            let (first, last) = range(rest)?;
            remove(map, first, last);
            out.write_all(b"ok\n")
        }
        "try" => {
            let (first, last, value) = binding(rest)?;
            if meets(map, first - 1, last + 1) {
                writeln!(out, "connected {rest}")
            } else {
                map.insert(first, (last, value));
                out.write_all(b"ok\n")
            }
        }
        "update" => {
            let (spelled, change) = rest.split_once(' ')?;
            let (first, last) = range(spelled)?;
            set(map, first, last, change.strip_prefix("set ")?.parse().ok()?);
            out.write_all(b"ok\n")
        }
        "get" => match get(map, rest.parse().ok()?) {
            Some(value) => writeln!(out, "{value}"),
            None => out.write_all(b"none\n"),
        },
        "meets" => {
            let (first, last) = range(rest)?;
            out.write_all(if meets(map, first, last) { &b"true\n"[..] } else { b"false\n" })
        }
        "count" => writeln!(out, "{}", map.len()),
        _ => return None,
    })
}

fn main() -> io::Result<()> {
    let mut map = Ranges::new();
    let mut out = BufWriter::with_capacity(65536, io::stdout());
    let mut input = io::stdin().lock();
    let mut line = String::new();
    while input.read_line(&mut line)? > 0 {
        match answer(&mut map, line.trim_end(), &mut out) {
            Some(written) => written?,
            None => out.write_all(b"bad\n")?,
        }
        line.clear();
    }
    out.flush()
}
