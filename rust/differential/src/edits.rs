//! Lists of insertions and removals, refused ones among them. Each call gets the buffer and the used length that the last one returned or left.

use crate::Answers;
use reference::calls::{self, Edit};
use reference::protocol::hex;
use reference::random::Random;
use reference::{sheets, RECORD};

/// Calls of one list.
const LIST: usize = 30;

fn proved(edit: &Edit, buffer: &mut [u8], used: usize) -> Result<usize, zvaigulta::Refusal> {
    match edit {
        Edit::Insert(place, block) => zvaigulta::insert(buffer, used, *place as usize, block),
        Edit::Remove(place) => zvaigulta::remove(buffer, used, *place as usize),
    }
}

fn line(edit: &Edit, buffer: &[u8], used: usize) -> String {
    match edit {
        Edit::Insert(place, block) => format!("insert {used} {place} {} {}", hex(buffer), hex(block)),
        Edit::Remove(place) => format!("remove {used} {place} {}", hex(buffer)),
    }
}

/// A sheet in a buffer: with no room, room to the byte for a few records, or some more.
fn some_sheet(r: &mut Random) -> (Vec<u8>, usize) {
    let (size, level) = (r.below(5), 1 + r.below(8));
    let sheet = if r.once_in(8) { calls::full_header(r, level) } else { sheets::sheet(r, size) };
    let mut buffer = if r.once_in(30) { sheets::damaged(r, &sheet) } else { sheet };
    let used = buffer.len();
    let rest = if r.once_in(3) { r.below(3) } else { 0 };
    buffer.extend((0..r.below(60) * RECORD + rest).map(|_| b'~'));
    (buffer, used)
}

/// Every answer and, after each call, every byte of the buffer.
pub fn lists(r: &mut Random, cases: usize, answers: &mut Answers) -> Result<(), String> {
    for _ in 0..cases.div_ceil(LIST) {
        let (mut ours, mut used) = some_sheet(r);
        let mut theirs = ours.clone();
        for _ in 0..LIST {
            let asked = if r.once_in(60) { *r.pick(&[0, used + 1, usize::MAX, used + RECORD]) } else { used };
            let edit = calls::draw(r, &ours, used);
            let before = ours.clone();
            let answer = proved(&edit, &mut ours, asked);
            let right = edit.run(&mut theirs, asked);
            answers.same(|| line(&edit, &before, asked), answer, right)?;
            if ours != theirs {
                return Err(format!("the buffers differ: {}", line(&edit, &before, asked)));
            }
            used = answer.unwrap_or(used);
        }
    }
    Ok(())
}
