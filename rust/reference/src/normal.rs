//! The normal form: the same file with every judged integer in written form.

use crate::judge::{accepted, index as judge_index};
use crate::layout::{Layout, Layouts};
use crate::record::{Item, Sort};
use crate::{put, Refusal, RECORD};

fn whole(layout: &Layout, record: &[u8]) -> Vec<u8> {
    layout.normal(record, layout.whole())
}

/// The normal form of a sheet, written to a second buffer.
pub fn sheet(buffer: &[u8], used: usize, second: &mut [u8]) -> Result<usize, Refusal> {
    let (walked, _) = accepted(buffer, used)?;
    let all = Layouts::shared();
    let records: Vec<&[u8]> = buffer[..used].chunks(RECORD).collect();
    let mut file = Vec::new();
    file.extend(whole(&all.sheet_a, records[0]));
    file.extend(whole(&all.sheet_b, records[1]));
    file.extend(whole(&all.sheet_c, records[2]));
    let mut place = 3;
    while place < walked.part {
        let f_records = all.sheet_d.number("f records", records[place]);
        file.extend(whole(&all.sheet_d, records[place]));
        file.extend(whole(&all.sheet_e, records[place + 1]));
        for f in &records[place + 2..place + 2 + f_records] {
            file.extend(whole(&all.sheet_f, f));
        }
        place += 2 + f_records;
    }
    for f in &walked.found {
        file.extend(whole(f.sort.layout(), records[f.place]));
        if f.sort != Sort::Header {
            let item = Item::of(f.sort, records[f.place]);
            for nth in 0..f.data {
                let (layout, columns) = item.data_columns(nth);
                file.extend(layout.normal(records[f.place + 1 + nth], columns));
            }
        }
    }
    put(second, &file)
}

/// The normal form of an index, written to a second buffer.
pub fn index(buffer: &[u8], used: usize, second: &mut [u8]) -> Result<usize, Refusal> {
    judge_index(buffer, used)?;
    let all = Layouts::shared();
    let b_records = all.index_a.number("b records", &buffer[..RECORD]);
    let mut file = Vec::new();
    for (place, record) in buffer[..used].chunks(RECORD).enumerate() {
        let layout = match place {
            0 => &all.index_a,
            n if n <= b_records => &all.index_b,
            _ => &all.index_c,
        };
        file.extend(whole(layout, record));
    }
    put(second, &file)
}
