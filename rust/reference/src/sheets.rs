//! Random sheets and indexes that are accepted, and damaged twins of them.

use crate::layout::{Layout, Layouts, What, CORNERS, COUNTS};
use crate::random::Random;
use crate::RECORD;

/// The example of document 01: five sheet records, one layer, one E2 of 7 points in 2D.
pub const EXAMPLE_PART: [&str; 5] = [
    "M 09LD1234Example sheet         500Town plan                      010               ",
    "  -1234   5678   -934   5978        1      4  1   -934   5678  -1234   5978         ",
    "                                                                                    ",
    "2408240700Plotter                       Approval 1                    100           ",
    "Survey office                            -56  50   0   0   0  50 -56   0            ",
];
pub const EXAMPLE_LAYER: &str = "H 2100 0   0   0 1    1    0    0    1    0    0    0    0    0    002408         0 ";
pub const EXAMPLE_ITEM: [&str; 3] = [
    "E22101 0   0   1 2 02210 00   7   2      0      0        0       2408              1",
    "      0      0   1000      0   2000   -500   3000      0   4000      0   5000      0",
    "   6000      0unused text is not judged                                             ",
];

/// A record under construction: all spaces, with its layout.
struct Draft<'a> {
    layout: &'a Layout,
    bytes: Vec<u8>,
}

impl Draft<'_> {
    fn new(layout: &Layout) -> Draft<'_> {
        Draft { layout, bytes: vec![b' '; RECORD] }
    }

    fn text(mut self, name: &str, text: &str) -> Self {
        let span = self.layout.span(name);
        self.bytes[span.start..span.start + text.len()].copy_from_slice(text.as_bytes());
        self
    }

    /// A number, in written form or with zeros in front.
    fn number(mut self, r: &mut Random, name: &str, value: i64) -> Self {
        loose(r, self.layout, name, &mut self.bytes, value);
        self
    }

    /// Every integer column that is still blank gets 0 or its least number.
    fn filled(mut self, r: &mut Random) -> Vec<u8> {
        let fields = self.layout.fields.clone();
        for f in fields {
            let blank = self.bytes[f.start..f.start + f.width].iter().all(|b| *b == b' ');
            if let (What::Integer(range), true) = (&f.what, blank) {
                let least = range.some();
                loose(r, self.layout, &f.name, &mut self.bytes, least);
            }
        }
        self.bytes
    }
}

/// Writes a number to a column: half the time with zeros for some of the spaces in front.
fn loose(r: &mut Random, layout: &Layout, name: &str, bytes: &mut [u8], value: i64) {
    let span = layout.span(name);
    let digits = value.unsigned_abs().to_string();
    let sign = if value < 0 { "-" } else { "" };
    let spare = span.end - span.start - digits.len() - sign.len();
    let zeros = if r.once_in(4) { r.below(spare + 1) } else { 0 };
    let text = format!("{sign}{}{digits}", "0".repeat(zeros));
    let width = span.end - span.start;
    bytes[span].copy_from_slice(format!("{text:>width$}").as_bytes());
}

fn coordinate(r: &mut Random) -> i64 {
    match r.below(8) {
        0 => 0,
        1 => 9_999_999,
        2 => -999_999,
        _ => r.between(-99_999, 999_999),
    }
}

/// A data record: so many used columns, the rest left free, sometimes with text that is no number.
fn data_record(r: &mut Random, layout: &Layout, used: usize) -> Vec<u8> {
    let mut bytes = vec![b' '; RECORD];
    for f in &layout.fields[..used] {
        let value = coordinate(r);
        loose(r, layout, &f.name, &mut bytes, value);
    }
    if used < layout.whole() && r.once_in(3) {
        let start = layout.fields[used].start;
        bytes[start..start + 3].copy_from_slice(b"?-0");
    }
    bytes
}

fn points(r: &mut Random, layout: &Layout, each: usize, a_record: usize, count: usize, out: &mut Vec<Vec<u8>>) {
    let mut left = count;
    while left > 0 {
        let used = left.min(a_record);
        out.push(data_record(r, layout, used * each));
        left -= used;
    }
}

/// An item of a kind (1 to 8 an element, 9 a grid or net) at a level: its records.
pub fn item(r: &mut Random, kind: usize, level: usize) -> Vec<Vec<u8>> {
    let all = Layouts::shared();
    match kind {
        1..=8 => element(r, all, kind, level),
        _ if r.once_in(2) => grid(r, all, level),
        _ => net(r, all, level),
    }
}

fn common<'a>(r: &mut Random, layout: &'a Layout, kind: &str, level: usize) -> Draft<'a> {
    let class = r.between(1000, 9999);
    let number = r.between(0, 9999);
    Draft::new(layout).text("type", kind).number(r, "class", class).number(r, "number", number).number(r, "level", level as i64)
}

fn element(r: &mut Random, all: &Layouts, kind: usize, level: usize) -> Vec<Vec<u8>> {
    let data_kind = match kind {
        7 => 4,
        8 => 5,
        5 if r.once_in(2) => r.below(2),
        _ => *r.pick(&[2, 3, 6]),
    };
    let count = match (kind, data_kind) {
        (_, 0 | 1) => 0,
        (3 | 4, _) => 3,
        (6, _) => 2 * (1 + r.below(6)),
        (7, _) => 1 + r.below(200),
        (8, _) => 1 + r.below(3),
        _ => 1 + r.below(20),
    };
    let mut data = Vec::new();
    match data_kind {
        2 => points(r, &all.two, 2, 6, count, &mut data),
        3 | 6 => points(r, &all.three, 3, 4, count, &mut data),
        4 => (0..count.div_ceil(64)).for_each(|_| data.push(note(r, all))),
        5 => (0..count).for_each(|_| data.push(vec![b'H'; RECORD])),
        _ => {}
    }
    let shift = r.between(-9, 9);
    let (x, y, repeat) = (coordinate(r), coordinate(r), r.between(1, 9));
    let mut head = common(r, &all.element, &format!("E{kind}"), level)
        .number(r, "data kind", data_kind as i64)
        .number(r, "data count", count as i64)
        .number(r, "records", data.len() as i64)
        .number(r, "shift", shift)
        .number(r, "x", x)
        .number(r, "y", y)
        .number(r, "repeat", repeat)
        .text("acquired", "2408");
    if r.once_in(2) {
        let value = coordinate(r);
        head = head.number(r, "value", value);
    }
    let mut out = vec![head.filled(r)];
    out.extend(data);
    out
}

fn note(r: &mut Random, all: &Layouts) -> Vec<u8> {
    let writing = r.below(2);
    let direction = if writing == 0 { r.between(-45, 45) } else { r.between(-135, -45) };
    Draft::new(&all.note)
        .number(r, "writing direction", writing as i64)
        .number(r, "direction", direction)
        .text("text", "a name")
        .filled(r)
}

fn grid(r: &mut Random, all: &Layouts, level: usize) -> Vec<Vec<u8>> {
    let (rows, columns) = (1 + r.below(9), 1 + r.below(9));
    let mut data = Vec::new();
    points(r, &all.heights, 1, 12, rows * columns, &mut data);
    let (x, y) = (coordinate(r), coordinate(r));
    let head = common(r, &all.grid, "G ", level)
        .number(r, "rows", rows as i64)
        .number(r, "columns", columns as i64)
        .number(r, "records", data.len() as i64)
        .number(r, "cell 1", 500)
        .number(r, "cell 2", 500)
        .number(r, "origin x", x)
        .number(r, "origin y", y)
        .number(r, "repeat", 1);
    let mut out = vec![head.filled(r)];
    out.extend(data);
    out
}

fn net(r: &mut Random, all: &Layouts, level: usize) -> Vec<Vec<u8>> {
    let triangles = 1 + r.below(9);
    let mut data = Vec::new();
    points(r, &all.triangles, 3, 4, 3 * triangles, &mut data);
    let head = common(r, &all.net, "T ", level).number(r, "triangles", triangles as i64).number(r, "records", data.len() as i64);
    let mut out = vec![head.filled(r)];
    out.extend(data);
    out
}

/// A large grid as one item at level 2: rows by columns points, all heights the same small number.
pub fn large_grid(rows: usize, columns: usize) -> Vec<Vec<u8>> {
    let all = Layouts::shared();
    let mut r = Random(1);
    let records = (rows * columns).div_ceil(12);
    let head = common(&mut r, &all.grid, "G ", 2)
        .number(&mut r, "rows", rows as i64)
        .number(&mut r, "columns", columns as i64)
        .number(&mut r, "records", (records % 10_000) as i64)
        .number(&mut r, "cell 1", 500)
        .number(&mut r, "cell 2", 500)
        .number(&mut r, "repeat", (records / 10_000 + 1) as i64);
    let mut out = vec![head.filled(&mut r)];
    let height = |n: usize| format!("{:>7}", 1000 + n as i64 % 977 - 200);
    for n in 0..records {
        out.push((0..12).map(|i| height(n * 12 + i)).collect::<String>().into_bytes());
    }
    out
}

/// A line of so many points in 2D as one item at level 2.
pub fn line(r: &mut Random, count: usize) -> Vec<Vec<u8>> {
    let all = Layouts::shared();
    let mut data = Vec::new();
    points(r, &all.two, 2, 6, count, &mut data);
    let head = common(r, &all.element, "E2", 2)
        .number(r, "data kind", 2)
        .number(r, "data count", count as i64)
        .number(r, "records", data.len() as i64)
        .number(r, "repeat", 1);
    let mut out = vec![head.filled(r)];
    out.extend(data);
    out
}

/// A layer header with so many of some kinds under it.
pub fn layer(counts: &[(usize, usize)]) -> Vec<u8> {
    header_of(1, counts)
}

/// A header of a level with so many of some kinds under it.
pub fn header_of(level: usize, counts: &[(usize, usize)]) -> Vec<u8> {
    let mut r = Random(1);
    let total: usize = counts.iter().map(|(_, n)| n).sum();
    let mut head = common(&mut r, &Layouts::shared().header, "H ", level).number(&mut r, "total", total as i64);
    for (kind, n) in counts {
        head = head.number(&mut r, COUNTS[*kind], *n as i64);
    }
    head.filled(&mut r)
}

/// The sheet part for an element and a record count.
pub fn sheet_part(r: &mut Random, elements: usize, records: usize) -> Vec<Vec<u8>> {
    let all = Layouts::shared();
    let level = *r.pick(&[500i64, 1000, 2500, 5000, 10000]);
    let (unit, most) = match level {
        500 | 1000 => (1, 999),
        2500 | 5000 => (10, 99),
        _ => (999, 99),
    };
    let revisions = if r.once_in(3) { r.below(3) } else { 0 };
    let wholes: Vec<i64> = CORNERS.iter().map(|_| if r.once_in(4) { 0 } else { r.between(-99_999, 999_999) }).collect();
    let a = Draft::new(&all.sheet_a)
        .text("type", "M ")
        .text("sheet", "09LD1234")
        .number(r, "level", level)
        .number(r, "revisions", revisions as i64)
        .number(r, "version", 1);
    let mut b = Draft::new(&all.sheet_b)
        .number(r, "elements", elements as i64)
        .number(r, "records", records as i64)
        .number(r, "unit", unit);
    for (name, whole) in CORNERS.iter().zip(&wholes) {
        b = b.number(r, name, *whole);
    }
    let mut out = vec![a.filled(r), b.filled(r), vec![b' '; RECORD]];
    for _ in 0..=revisions {
        let courses = r.below(10);
        let f_records = if r.once_in(2) { 0 } else { courses.div_ceil(3) };
        let d = Draft::new(&all.sheet_d).number(r, "courses", courses as i64).number(r, "f records", f_records as i64);
        out.push(d.filled(r));
        let mut e = Draft::new(&all.sheet_e).text("agency", "Survey office");
        for (name, whole) in CORNERS.iter().zip(&wholes) {
            let size = r.between(0, most);
            let fraction = match whole.signum() {
                0 if r.once_in(2) => -size,
                -1 => -size,
                _ => size,
            };
            e = e.number(r, name, fraction);
        }
        out.push(e.filled(r));
        (0..f_records).for_each(|_| out.push(Draft::new(&all.sheet_f).filled(r)));
    }
    out
}

/// A header's body: headers one level below and items, into `out`; answers the counts by kind and all items.
fn body(r: &mut Random, level: usize, size: usize, out: &mut Vec<Vec<u8>>) -> ([usize; 10], usize) {
    let mut counts = [0; 10];
    let mut items = 0;
    for _ in 0..r.below(size + 1) {
        let group = level < 8 && r.once_in(3);
        let kind = if group { 0 } else { 1 + r.below(9) };
        if kind == 9 && counts[9] == 9 {
            continue;
        }
        counts[kind] += 1;
        if group {
            items += header(r, level + 1, size.saturating_sub(1), out);
        } else {
            out.extend(item(r, kind, level + 1));
            items += 1;
        }
    }
    (counts, items)
}

/// A header with its body; answers how many items it holds.
fn header(r: &mut Random, level: usize, size: usize, out: &mut Vec<Vec<u8>>) -> usize {
    let all = Layouts::shared();
    let place = out.len();
    out.push(Vec::new());
    let (counts, items) = body(r, level, size, out);
    let mut head = common(r, &all.header, "H ", level).number(r, "total", counts.iter().sum::<usize>() as i64);
    for (name, n) in COUNTS.iter().zip(counts) {
        head = head.number(r, name, n as i64);
    }
    out[place] = head.filled(r);
    items
}

/// Headers straight down to a depth of at most eight, with one item at the bottom.
pub fn chain(r: &mut Random, depth: usize, out: &mut Vec<Vec<u8>>) -> usize {
    let all = Layouts::shared();
    let kind = 1 + r.below(9);
    for level in 1..=depth {
        let below = if level < depth { 0 } else { kind };
        let head = common(r, &all.header, "H ", level).number(r, "total", 1).number(r, COUNTS[below], 1);
        out.push(head.filled(r));
    }
    out.extend(item(r, kind, depth + 1));
    1
}

/// The records of a sheet with these body records and items.
pub fn sheet_of(r: &mut Random, body: Vec<Vec<u8>>, items: usize) -> Vec<u8> {
    let mut records = sheet_part(r, items, body.len());
    records.extend(body);
    records.concat()
}

/// An accepted sheet of just so many records: layers of points, of one record each.
pub fn sheet_of_points(records: usize) -> Vec<u8> {
    let part = sheet_of(&mut Random(3), Vec::new(), 0).len() / RECORD;
    let layers = (records - part).div_ceil(50_000);
    let mut body = Vec::new();
    let mut items = 0;
    for n in 0..layers {
        let count = (records - part - layers) / layers + usize::from(n < (records - part - layers) % layers);
        body.push(layer(&[(5, count)]));
        let point = "E52101 0   0   1 2 00210 00   0   0      0      0        0       2408              1";
        body.extend(std::iter::repeat_n(point.as_bytes().to_vec(), count));
        items += count;
    }
    sheet_of(&mut Random(3), body, items)
}

/// An accepted sheet of just so many records, all behind the sheet part empty layers.
pub fn sheet_of_layers(records: usize) -> Vec<u8> {
    let part = sheet_of(&mut Random(3), Vec::new(), 0).len() / RECORD;
    sheet_of(&mut Random(3), vec![layer(&[]); records - part], 0)
}

/// A random accepted sheet; `size` bounds its branching.
pub fn sheet(r: &mut Random, size: usize) -> Vec<u8> {
    let layers = r.below(4);
    sheet_with_layers(r, layers, size)
}

/// A random accepted sheet of so many layers.
pub fn sheet_with_layers(r: &mut Random, layers: usize, size: usize) -> Vec<u8> {
    let mut out = Vec::new();
    let mut items = 0;
    for _ in 0..layers {
        items += if r.once_in(5) {
            let depth = 1 + r.below(8);
            chain(r, depth, &mut out)
        } else {
            header(r, 1, size, &mut out)
        };
    }
    sheet_of(r, out, items)
}

/// A random accepted index.
pub fn index(r: &mut Random) -> Vec<u8> {
    let sheets = r.below(40);
    let c_records = r.below(5);
    index_of(r, sheets, c_records)
}

/// An accepted index of so many sheets and c records.
pub fn index_of(r: &mut Random, sheets: usize, c_records: usize) -> Vec<u8> {
    let all = Layouts::shared();
    let b_records = sheets.div_ceil(10);
    let a = Draft::new(&all.index_a)
        .text("type", "I ")
        .number(r, "system", 9)
        .number(r, "sheets", sheets as i64)
        .number(r, "b records", b_records as i64)
        .number(r, "c records", c_records as i64)
        .number(r, "year", 2008)
        .number(r, "version", 1);
    let mut out = vec![a.filled(r)];
    (0..b_records).for_each(|_| out.push(vec![b'x'; RECORD]));
    for _ in 0..c_records {
        let dimension = *r.pick(&[0, 2, 3]);
        out.push(Draft::new(&all.index_c).number(r, "dimension", dimension).filled(r));
    }
    out.concat()
}

/// A damaged twin: a byte changed, a record missing, swapped or repeated, a number off by one.
pub fn damaged(r: &mut Random, file: &[u8]) -> Vec<u8> {
    let mut records: Vec<Vec<u8>> = file.chunks(RECORD).map(<[u8]>::to_vec).collect();
    let i = r.below(records.len());
    match r.below(9) {
        0 | 1 => {
            let j = r.below(RECORD);
            records[i][j] = if r.once_in(3) { r.below(256) as u8 } else { *r.pick(b" -+0123456789HEGTM") };
        }
        2 => drop(records.remove(i)),
        3 => {
            let j = r.below(records.len());
            records.swap(i, j);
        }
        4 => {
            let copy = records[i].clone();
            records.insert(i, copy);
        }
        5 => records.truncate(i.max(1)),
        _ => digit_off(r, &mut records[i]),
    }
    records.concat()
}

/// One digit of a record, one more or one less.
fn digit_off(r: &mut Random, record: &mut [u8]) {
    let digits: Vec<usize> = (0..record.len()).filter(|j| record[*j].is_ascii_digit()).collect();
    if !digits.is_empty() {
        let j = *r.pick(&digits);
        let by = if r.once_in(2) { 1 } else { 9 };
        record[j] = b'0' + (record[j] - b'0' + by) % 10;
    }
}
