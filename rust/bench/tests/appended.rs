//! The directory that is appended to each of the measured sheets is the reference's, byte for byte, also behind the layers that judging keeps.

use bench::files;
use reference::{directory, RECORD};
use zvaigulta::{append_directory, append_second_edition};

type Make = fn(usize, u64) -> Vec<u8>;

const SHEETS: [(&str, Make); 9] = [
    ("grids", files::grids),
    ("mixed", files::mixed),
    ("elements", files::elements),
    ("hundred", files::hundred),
    ("points", files::points),
    ("tens", files::tens),
    ("ones", files::ones),
    ("attributes", files::attributes),
    ("layers", files::empty_layers),
];

#[test]
fn directories_are_the_references() {
    for (name, make) in SHEETS {
        for (records, seed) in (1..=20).map(|seed| (700, seed)).chain([(2_000, 21), (20_000, 22)]) {
            let mut ours = make(records, seed);
            let used = ours.len();
            ours.resize(used + (records / 3 + 3) * RECORD, b'x');
            let (mut theirs, mut second) = (ours.clone(), ours.clone());
            let (new, right) = (append_directory(&mut ours, used).ok(), directory::append(&mut theirs, used).ok());
            assert!(new.is_some() && new == right && ours == theirs, "{name} {records} {seed}");
            theirs.clone_from(&second);
            let new = append_second_edition(&mut second, used).ok();
            let right = directory::SECOND.append(&mut theirs, used).ok();
            assert!(new.is_some() && new == right && second == theirs, "edition 2 of {name} {records} {seed}");
        }
    }
}
