//! The nineteen layouts, written as document 01 writes them and taken apart when asked for.
//!
//! A column is `NAME A8`, `X15`, `NAME I5` (at least 0), `NAME I7 any`, `NAME I2 1..19`, `NAME I1 {0 2 3}` or
//! `NAME V7` (an integer of any sign, or spaces).

use crate::column::{parse, Column};

#[derive(Clone, Debug, PartialEq, Eq)]
pub enum What {
    Free,
    Blank,
    Integer(Range),
    IntegerOrSpaces,
}

#[derive(Clone, Debug, PartialEq, Eq)]
pub enum Range {
    From(i64, i64),
    OneOf(Vec<i64>),
}

#[derive(Clone, Debug)]
pub struct Field {
    pub name: String,
    pub start: usize,
    pub width: usize,
    pub what: What,
}

#[derive(Clone, Debug)]
pub struct Layout {
    pub fields: Vec<Field>,
}

fn range(words: &[&str]) -> Range {
    let text = words.join(" ");
    if text.is_empty() {
        return Range::From(0, i64::MAX);
    }
    if text == "any" {
        return Range::From(i64::MIN, i64::MAX);
    }
    if let Some(list) = text.strip_prefix('{') {
        return Range::OneOf(list.trim_end_matches('}').split(' ').map(|n| n.parse().unwrap()).collect());
    }
    let (low, high) = text.split_once("..").unwrap();
    Range::From(low.parse().unwrap(), if high.is_empty() { i64::MAX } else { high.parse().unwrap() })
}

impl Range {
    pub fn holds(&self, n: i64) -> bool {
        match self {
            Range::From(low, high) => (*low..=*high).contains(&n),
            Range::OneOf(list) => list.contains(&n),
        }
    }

    /// A number inside: 0 where that is, else the least.
    pub fn some(&self) -> i64 {
        match self {
            Range::From(low, high) if *low <= 0 && 0 <= *high => 0,
            Range::From(low, _) => *low,
            Range::OneOf(list) => list[0],
        }
    }
}

impl Layout {
    pub fn of(text: &str) -> Layout {
        let mut fields = Vec::new();
        let mut start = 0;
        for part in text.split(',') {
            let words: Vec<&str> = part.split_whitespace().collect();
            let is_kind = |w: &&str| w.len() > 1 && "AXIV".contains(&w[..1]) && w[1..].bytes().all(|b| b.is_ascii_digit());
            let at = words.iter().position(is_kind).expect("a kind and width");
            let width: usize = words[at][1..].parse().unwrap();
            let what = match &words[at][..1] {
                "A" => What::Free,
                "X" => What::Blank,
                "V" => What::IntegerOrSpaces,
                _ => What::Integer(range(&words[at + 1..])),
            };
            fields.push(Field { name: words[..at].join(" "), start, width, what });
            start += width;
        }
        assert_eq!(start, 84, "{text}");
        Layout { fields }
    }

    fn field(&self, name: &str) -> &Field {
        self.fields.iter().find(|f| f.name == name).unwrap_or_else(|| panic!("no column {name}"))
    }

    /// The bytes of a record that a column takes.
    pub fn span(&self, name: &str) -> std::ops::Range<usize> {
        let f = self.field(name);
        f.start..f.start + f.width
    }

    pub fn bytes<'a>(&self, name: &str, record: &'a [u8]) -> &'a [u8] {
        let f = self.field(name);
        &record[f.start..f.start + f.width]
    }

    /// The value of a column of a record that passed 5.
    pub fn value(&self, name: &str, record: &[u8]) -> i64 {
        match parse(self.bytes(name, record)) {
            Column::Value(n) => n,
            other => panic!("{name}: {other:?}"),
        }
    }

    pub fn number(&self, name: &str, record: &[u8]) -> usize {
        usize::try_from(self.value(name, record)).unwrap()
    }

    /// Writes a number to a column in written form.
    pub fn put(&self, name: &str, record: &mut [u8], value: i64) {
        let f = self.field(name);
        record[f.start..f.start + f.width].copy_from_slice(&crate::column::write(f.width, value).unwrap());
    }

    /// The first of 5 and 6 among the first `fields` columns.
    pub fn fault(&self, record: &[u8], fields: usize) -> Option<u8> {
        let of = |f: &Field| &record[f.start..f.start + f.width];
        let fields = &self.fields[..fields];
        let malformed = |f: &&Field| match &f.what {
            What::Integer(_) => !matches!(parse(of(f)), Column::Value(_)),
            What::IntegerOrSpaces => !blank(of(f)) && !matches!(parse(of(f)), Column::Value(_)),
            _ => false,
        };
        let outside = |f: &&Field| match &f.what {
            What::Integer(range) => !matches!(parse(of(f)), Column::Value(n) if range.holds(n)),
            _ => false,
        };
        if fields.iter().any(|f| malformed(&f)) {
            return Some(5);
        }
        if fields.iter().any(|f| outside(&f)) {
            return Some(6);
        }
        None
    }

    /// The record with the integers of its first `fields` columns in written form; spaces for an integer stay.
    pub fn normal(&self, record: &[u8], fields: usize) -> Vec<u8> {
        let mut out = record.to_vec();
        for f in &self.fields[..fields] {
            let bytes = &record[f.start..f.start + f.width];
            let integer = match f.what {
                What::Integer(_) => true,
                What::IntegerOrSpaces => !blank(bytes),
                _ => false,
            };
            if integer {
                if let Column::Value(n) = parse(bytes) {
                    out[f.start..f.start + f.width].copy_from_slice(&crate::column::write(f.width, n).unwrap());
                }
            }
        }
        out
    }

    pub fn whole(&self) -> usize {
        self.fields.len()
    }
}

pub fn blank(bytes: &[u8]) -> bool {
    bytes.iter().all(|b| *b == b' ')
}

/// All layouts, taken apart once.
pub struct Layouts {
    pub index_a: Layout,
    pub index_b: Layout,
    pub index_c: Layout,
    pub sheet_a: Layout,
    pub sheet_b: Layout,
    pub sheet_c: Layout,
    pub sheet_d: Layout,
    pub sheet_e: Layout,
    pub sheet_f: Layout,
    pub header: Layout,
    pub element: Layout,
    pub grid: Layout,
    pub net: Layout,
    pub three: Layout,
    pub two: Layout,
    pub note: Layout,
    pub attribute: Layout,
    pub heights: Layout,
    pub triangles: Layout,
}

/// The eight corner columns in the order of sheet b.
pub const CORNERS: [&str; 8] = ["ll x", "ll y", "ur x", "ur y", "ul x", "ul y", "lr x", "lr y"];

/// The header's counts by kind, groups first.
pub const COUNTS: [&str; 10] =
    ["groups", "area", "line", "circle", "arc", "point", "direction", "note", "attribute", "grid and net"];

fn repeated(names: &[&str], times: usize, form: &str) -> String {
    let mut parts = Vec::new();
    for i in 0..times {
        for n in names {
            parts.push(format!("{n}{i} {form}"));
        }
    }
    parts.join(",")
}

impl Layouts {
    pub fn new() -> Layouts {
        let code = "class I4, area code I2, information I4, number I4, level I2";
        Layouts {
            index_a: Layout::of(
                "type A2, system I2 1..19, agency A30, sheets I3, b records I2, c records I4, flag 1 I1 0..1, \
                 flag 2 I1 0..1, year I4, rule A30, version I1 1..1, blank use I1, X3",
            ),
            index_b: Layout::of(&(repeated(&["sheet"], 10, "A8") + ",X4")),
            index_c: Layout::of(
                &("own I4, standard I4,".to_string()
                    + &repeated(&["flag"], 9, "I1 0..1")
                    + ",direction I1 0..1, dimension I1 {0 2 3}, text A65"),
            ),
            sheet_a: Layout::of(
                "type A2, sheet A8, name A20, level I5 {500 1000 2500 5000 10000}, title A30, revisions I2, \
                 version I1 1..1, blank use I1, X15",
            ),
            sheet_b: Layout::of(
                "ll x I7 any, ll y I7 any, ur x I7 any, ur y I7 any, unjudged A3, elements I6, records I7, unit I3, \
                 ul x I7 any, ul y I7 any, lr x I7 any, lr y I7 any, X9",
            ),
            sheet_c: Layout::of(&(repeated(&["neighbour"], 8, "A8") + ",X20")),
            sheet_d: Layout::of(
                "made A4, surveyed A4, courses I1, f records I1, device A30, approval A30, datum I1 0..2, \
                 code 1 I1 {0 1 2 3 9}, code 2 I1 {0 1 2 3 9}, X11",
            ),
            sheet_e: Layout::of(
                "agency A40, ll x I4 any, ll y I4 any, ur x I4 any, ur y I4 any, ul x I4 any, ul y I4 any, \
                 lr x I4 any, lr y I4 any, X12",
            ),
            sheet_f: Layout::of(
                "c1 A4, d1 A4, s1 I5, n1 I1, f1 I4, l1 I4, c2 A4, d2 A4, s2 I5, n2 I1, f2 I4, l2 I4, \
                 c3 A4, d3 A4, s3 I5, n3 I1, f3 I4, l3 I4, X18",
            ),
            header: Layout::of(&format!(
                "type A2, {code}, total I5, groups I5, area I5, line I5, circle I5, arc I5, point I5, direction I5, \
                 note I5, attribute I5, grid and net I1, acquired A4, updated A4, removed A4, method I2, X1"
            )),
            element: Layout::of(&format!(
                "type A2, {code}, figure I2, data kind I1 0..6, accuracy I2, note kind I1 0..2, shift I2 -9..9, \
                 break I1, data count I4, records I4, x I7 any, y I7 any, value V7, attribute class I2, format A7, \
                 acquired A4, updated A4, removed A4, X6, repeat I1 1..9"
            )),
            grid: Layout::of(&format!(
                "type A2, {code}, rows I4 1.., columns I4 1.., records I4, cell 1 I7 1.., cell 2 I7 1.., \
                 origin x I7 any, origin y I7 any, acquired A4, updated A4, removed A4, figure I2, accuracy I2, X9, \
                 repeat I1 1..9"
            )),
            net: Layout::of(&format!(
                "type A2, {code}, figure I2, triangles I6 1.., records I6, acquired A4, updated A4, removed A4, \
                 accuracy I2, X38"
            )),
            three: Layout::of(&repeated(&["x", "y", "z"], 4, "I7 any")),
            two: Layout::of(&repeated(&["x", "y"], 6, "I7 any")),
            note: Layout::of("writing direction I1 0..1, direction I7 any, size I5, spacing I5, line weight I2, text A64"),
            attribute: Layout::of("free A84"),
            heights: Layout::of(&repeated(&["h"], 12, "I7 any")),
            triangles: Layout::of(&repeated(&["x", "y", "z"], 4, "I7 any")),
        }
    }

    /// The layouts, shared.
    pub fn shared() -> &'static Layouts {
        static ONCE: std::sync::OnceLock<Layouts> = std::sync::OnceLock::new();
        ONCE.get_or_init(Layouts::new)
    }
}

impl Default for Layouts {
    fn default() -> Self {
        Layouts::new()
    }
}
