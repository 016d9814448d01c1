//! The generator makes what it says: accepted sheets and indexes of many shapes, and damage that is noticed.

use reference::random::Random;
use reference::{judge, sheets};
use std::collections::BTreeMap;

#[test]
fn random_sheets_are_accepted() {
    let mut r = Random(7);
    for n in 0..2_000 {
        let file = sheets::sheet(&mut r, n % 6);
        let counts = judge::sheet(&file, file.len());
        assert!(counts.is_ok(), "case {n}: {counts:?}");
    }
}

#[test]
fn random_indexes_are_accepted() {
    let mut r = Random(8);
    for _ in 0..2_000 {
        let file = sheets::index(&mut r);
        assert!(judge::index(&file, file.len()).is_ok());
    }
}

#[test]
fn damage_reaches_every_refusal_of_a_sheet() {
    let mut r = Random(9);
    let mut seen = BTreeMap::new();
    for _ in 0..20_000 {
        let file = sheets::sheet(&mut r, 3);
        let file = sheets::damaged(&mut r, &file);
        if let Err(refusal) = judge::sheet(&file, file.len()) {
            *seen.entry(refusal.number).or_insert(0) += 1;
        }
    }
    assert!((2..=10).all(|n| seen.contains_key(&n)), "{seen:?}");
}

#[test]
fn the_technicians_grid() {
    let mut body = vec![Vec::new()];
    body.extend(sheets::large_grid(1_000, 840));
    assert_eq!(body.len(), 70_002);
    body[0] = sheets::layer(&[(9, 1)]);
    let file = sheets::sheet_of(&mut Random(3), body, 1);
    let counts = judge::sheet(&file, file.len()).unwrap();
    assert_eq!(counts.items, 1);
}
