//! The batch protocol answered by the reference, one command to a line; and beside its commands
//! `formed START COUNT BYTES`, whether so many seven-byte columns from a start are well formed: `yes` or `no`.

use crate::{column, corner, directory, edit, judge, lines, normal, program, way_up, Refusal};

type Words<'a> = std::str::SplitWhitespace<'a>;

fn word<'a>(words: &mut Words<'a>) -> Result<&'a str, String> {
    words.next().ok_or_else(|| "a word is missing".to_string())
}

/// A decimal number without a plus sign.
fn number<T: std::str::FromStr>(words: &mut Words) -> Result<T, String> {
    let w = word(words)?;
    let parsed = if w.starts_with('+') { None } else { w.parse().ok() };
    parsed.ok_or_else(|| format!("not a number: {w}"))
}

/// Lower-case hex, `-` for none.
fn bytes(words: &mut Words) -> Result<Vec<u8>, String> {
    let w = word(words)?;
    if w == "-" {
        return Ok(Vec::new());
    }
    let digit = |b: u8| "0123456789abcdef".bytes().position(|d| d == b).map(|d| d as u8);
    let pair = |p: &[u8]| match p {
        [a, b] => Some(digit(*a)? * 16 + digit(*b)?),
        _ => None,
    };
    w.as_bytes().chunks(2).map(pair).collect::<Option<_>>().ok_or_else(|| format!("not bytes: {w}"))
}

/// Bytes as the protocol writes them.
pub fn hex(bytes: &[u8]) -> String {
    if bytes.is_empty() {
        return "-".to_string();
    }
    bytes.iter().map(|b| format!("{b:02x}")).collect()
}

fn said(answer: Result<String, Refusal>) -> String {
    match answer {
        Ok(text) => format!("ok {text}"),
        Err(r) => format!("no {} {}", r.number, r.record),
    }
}

/// Used lengths and places are 64-bit numbers of any size.
fn used(words: &mut Words) -> Result<usize, String> {
    number::<u64>(words).map(|n| usize::try_from(n).unwrap_or(usize::MAX))
}

/// A unit or a width of either sign; one below 0 is refused as 0 is.
fn unit(words: &mut Words) -> Result<u64, String> {
    let n: i128 = number(words)?;
    u64::try_from(n.max(0)).ok().filter(|_| n >= i128::from(i64::MIN)).ok_or_else(|| format!("not a number of 64 bits: {n}"))
}

fn is_sheet(words: &mut Words) -> Result<bool, String> {
    match word(words)? {
        "sheet" => Ok(true),
        "index" => Ok(false),
        other => Err(format!("neither sheet nor index: {other}")),
    }
}

/// The commands on a column or a corner.
fn leaf(command: &str, w: &mut Words) -> Result<String, String> {
    match command {
        "read" => Ok(said(column::read(&bytes(w)?).map(|n| n.to_string()))),
        "formed" => {
            let (start, count, bytes) = (number(w)?, number(w)?, bytes(w)?);
            Ok(if column::formed(&bytes, start, count) { "yes" } else { "no" }.to_string())
        }
        "write" => {
            let (width, value) = (unit(w)?, number(w)?);
            Ok(said(column::write(usize::try_from(width).unwrap_or(usize::MAX), value).map(|b| hex(&b))))
        }
        "join" => {
            let (unit, whole, fraction) = (unit(w)?, number(w)?, number(w)?);
            Ok(said(corner::join(unit, whole, fraction).map(|n| n.to_string())))
        }
        "split" => {
            let (unit, millimetres) = (unit(w)?, number(w)?);
            Ok(said(corner::split(unit, millimetres).map(|(a, b)| format!("{a} {b}"))))
        }
        other => Err(format!("no such command: {other}")),
    }
}

/// The commands of orders 5 and 13, on sheets with a directory: the old calls, and those of the second edition.
fn with_directory(command: &str, w: &mut Words) -> Result<String, String> {
    match command {
        "directory" | "directory2" => {
            let (used, buffer) = (used(w)?, bytes(w)?);
            let reader = if command == "directory" { directory::OLD } else { directory::NEW };
            Ok(said(reader.sheet(&buffer, used).map(|c| format!("{} {}", c.records, c.items))))
        }
        "append" | "append2" => {
            let (used, mut buffer) = (used(w)?, bytes(w)?);
            let edition = if command == "append" { directory::FIRST } else { directory::SECOND };
            Ok(said(edition.append(&mut buffer, used).map(|n| format!("{n} {}", hex(&buffer)))))
        }
        "jump" => {
            let (used, buffer, layer) = (used(w)?, bytes(w)?, number(w)?);
            Ok(said(directory::jump(&buffer, used, layer).map(|header| header.to_string())))
        }
        "jump2" => {
            let (used, buffer, layer) = (used(w)?, bytes(w)?, number(w)?);
            let found = directory::NEW.jump(&buffer, used, layer);
            Ok(said(found.map(|layer| format!("{} {} {}", layer.header, layer.total, layer.last))))
        }
        other => leaf(other, w),
    }
}

/// The commands of order 1, on files with line ends.
fn order_1(command: &str, w: &mut Words) -> Result<String, String> {
    match command {
        "judge86" => {
            let (sheet, used, buffer) = (is_sheet(w)?, used(w)?, bytes(w)?);
            let judged = if sheet { lines::sheet(&buffer, used) } else { lines::index(&buffer, used) };
            Ok(said(judged.map(|c| format!("{} {}", c.records, c.items))))
        }
        "to86" | "from86" => {
            let (used, buffer, mut target) = (used(w)?, bytes(w)?, bytes(w)?);
            let write = if command == "to86" { lines::to_lines } else { lines::from_lines };
            Ok(said(write(&buffer, used, &mut target).map(|n| format!("{n} {}", hex(&target)))))
        }
        other => with_directory(other, w),
    }
}

/// The commands on a file.
fn command(command: &str, w: &mut Words) -> Result<String, String> {
    match command {
        "judge" => {
            let (sheet, used, buffer) = (is_sheet(w)?, used(w)?, bytes(w)?);
            let judged = if sheet { judge::sheet(&buffer, used) } else { judge::index(&buffer, used) };
            Ok(said(judged.map(|c| format!("{} {}", c.records, c.items))))
        }
        "normal" => {
            let (sheet, used, buffer, mut second) = (is_sheet(w)?, used(w)?, bytes(w)?, bytes(w)?);
            let form = if sheet { normal::sheet } else { normal::index };
            Ok(said(form(&buffer, used, &mut second).map(|n| format!("{n} {}", hex(&second)))))
        }
        "insert" => {
            let (used, place, mut buffer, block) = (used(w)?, number(w)?, bytes(w)?, bytes(w)?);
            Ok(said(edit::insert(&mut buffer, used, place, &block).map(|n| format!("{n} {}", hex(&buffer)))))
        }
        "remove" => {
            let (used, place, mut buffer) = (used(w)?, number(w)?, bytes(w)?);
            Ok(said(edit::remove(&mut buffer, used, place).map(|n| format!("{n} {}", hex(&buffer)))))
        }
        "up" => {
            let (used, record, buffer) = (used(w)?, number(w)?, bytes(w)?);
            Ok(said(way_up::up(&buffer, used, record).map(|(h, n)| format!("{} {n}", h.unwrap_or(0)))))
        }
        "main" => Ok(program(&bytes(w)?)),
        other => order_1(other, w),
    }
}

/// The answer to a line, or why it is none of the protocol's commands.
pub fn answer(line: &str) -> Result<String, String> {
    let mut words = line.split_whitespace();
    let first = word(&mut words)?;
    let text = command(first, &mut words)?;
    match words.next() {
        Some(w) => Err(format!("one word too many: {w}")),
        None => Ok(text),
    }
}

/// What the protocol writes for a line.
pub fn reply(line: &str) -> String {
    answer(line).unwrap_or_else(|reason| format!("error {reason}"))
}
