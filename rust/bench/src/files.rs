//! The sheets that are measured.

use reference::random::Random;
use reference::{sheets, RECORD};

/// The technician's grid: 1,000 by 840 heights, 70,000 data records.
pub fn technicians_grid() -> Vec<u8> {
    let mut body = vec![sheets::layer(&[(9, 1)])];
    body.extend(sheets::large_grid(1_000, 840));
    sheets::sheet_of(&mut Random(3), body, 1)
}

/// One layer with grids of 1,000 columns, of at most 66,000 data records each.
pub fn grids(records: usize, _seed: u64) -> Vec<u8> {
    let count = records.div_ceil(66_000);
    let mut body = vec![sheets::layer(&[(9, count)])];
    for _ in 0..count {
        body.extend(sheets::large_grid(records / count * 12 / 1_000, 1_000));
    }
    sheets::sheet_of(&mut Random(3), body, count)
}

/// Items of a layer, at most: its header counts them in five digits.
const LARGE: usize = 20_000;

/// Layers of at most `most` items each, drawn until there are so many records.
fn layers(records: usize, seed: u64, most: usize, mut draw: impl FnMut(&mut Random) -> (usize, Vec<Vec<u8>>)) -> Vec<u8> {
    let mut r = Random(seed);
    let mut body: Vec<Vec<u8>> = Vec::new();
    let mut items = 0;
    while body.len() < records {
        let header = body.len();
        body.push(Vec::new());
        let mut counts = [0; 10];
        while body.len() < records && counts.iter().sum::<usize>() < most {
            let (kind, item) = draw(&mut r);
            counts[kind] += 1;
            body.extend(item);
        }
        items += counts.iter().sum::<usize>();
        let counts: Vec<(usize, usize)> = counts.iter().copied().enumerate().collect();
        body[header] = sheets::layer(&counts);
    }
    sheets::sheet_of(&mut Random(3), body, items)
}

fn small_element(r: &mut Random) -> (usize, Vec<Vec<u8>>) {
    let kind = 1 + r.below(8);
    (kind, sheets::item(r, kind, 2))
}

/// Small elements of all eight types.
pub fn elements(records: usize, seed: u64) -> Vec<u8> {
    layers(records, seed, LARGE, small_element)
}

/// The same in about a hundred layers, as a sheet has them that keeps a layer for each class.
pub fn hundred(records: usize, seed: u64) -> Vec<u8> {
    layers(records, seed, records / 285 + 1, small_element)
}

/// Points of one record each: every record but the layers' headers is an item, and a walk that passes over items' data passes over none.
pub fn points(records: usize, _seed: u64) -> Vec<u8> {
    sheets::sheet_of_points(records)
}

/// The same in layers of ten: many headers, and items between them.
pub fn tens(records: usize, _seed: u64) -> Vec<u8> {
    layers_of_points(records, 10)
}

/// The same, each in a layer of its own: next to empty layers no sheet has a longer directory beside its records.
pub fn ones(records: usize, _seed: u64) -> Vec<u8> {
    layers_of_points(records, 1)
}

fn layers_of_points(records: usize, points: usize) -> Vec<u8> {
    let point = sheets::sheet_of_points(20).split_off(19 * RECORD);
    let mut layer = vec![point; points + 1];
    layer[0] = sheets::layer(&[(5, points)]);
    let layers = records / (points + 1);
    sheets::sheet_of(&mut Random(3), vec![layer; layers].concat(), points * layers)
}

/// Layers of ten elements with one to three records of attributes: no data is judged faster, so a second pass over such items weighs most.
pub fn attributes(records: usize, seed: u64) -> Vec<u8> {
    layers(records, seed, 10, |r| (8, sheets::item(r, 8, 2)))
}

/// Nothing but empty layers: no sheet has more of them, and none a longer directory beside its records.
pub fn empty_layers(records: usize, _seed: u64) -> Vec<u8> {
    sheets::sheet_of(&mut Random(3), vec![sheets::layer(&[]); records], 0)
}

/// An index of 100 sheets with so many c records.
pub fn index(c_records: usize, seed: u64) -> Vec<u8> {
    sheets::index_of(&mut Random(seed), 100, c_records)
}

/// A sheet as offices have them: lines of up to 400 points, and small elements between them.
pub fn mixed(records: usize, seed: u64) -> Vec<u8> {
    layers(records, seed, LARGE, |r| {
        if r.once_in(2) {
            let points = 1 + r.below(400);
            return (2, sheets::line(r, points));
        }
        small_element(r)
    })
}
