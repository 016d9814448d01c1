//! Judging, normal forms and the way up, on random files with up to two damages.

use crate::Answers;
use reference::judge::Counts;
use reference::protocol::hex;
use reference::random::Random;
use reference::{judge, normal, sheets, way_up, Refusal, RECORD};

/// The proved judgement in the reference's type.
pub fn counted(answer: Result<zvaigulta::Counts, zvaigulta::Refusal>) -> Result<Counts, zvaigulta::Refusal> {
    answer.map(|c| Counts { records: c.records, items: c.items })
}

/// The batch protocol's word for a kind of file.
pub fn kind(sheet: bool) -> &'static str {
    if sheet {
        "sheet"
    } else {
        "index"
    }
}

/// Judges by both.
pub fn judge(sheet: bool, buffer: &[u8], used: usize, answers: &mut Answers) -> Result<(), String> {
    let (answer, right) = if sheet {
        (zvaigulta::judge_sheet(buffer, used), judge::sheet(buffer, used))
    } else {
        (zvaigulta::judge_index(buffer, used), judge::index(buffer, used))
    };
    answers.same(|| format!("judge {} {used} {}", kind(sheet), hex(buffer)), counted(answer), right)
}

/// A file with up to `damages` damages in a buffer that is sometimes longer, and a used length that is sometimes wrong.
fn some_file(r: &mut Random, sheet: bool, damages: usize) -> (Vec<u8>, usize) {
    let size = r.below(5);
    let mut file = if sheet { sheets::sheet(r, size) } else { sheets::index(r) };
    for _ in 0..r.below(damages + 1) {
        if !file.is_empty() {
            file = sheets::damaged(r, &file);
        }
    }
    let used = file.len();
    if r.once_in(4) {
        file.extend((0..r.below(3 * RECORD)).map(|_| b'~'));
    }
    let odd =
        [0, 1, RECORD, used.wrapping_sub(1), used + 1, used + RECORD, 200_001 * RECORD, usize::MAX, usize::MAX / RECORD * RECORD];
    let used = if r.once_in(30) { *r.pick(&odd) } else { used };
    (file, used)
}

fn judging(r: &mut Random, sheet: bool, cases: usize, answers: &mut Answers) -> Result<(), String> {
    for _ in 0..cases {
        let (file, used) = some_file(r, sheet, 2);
        judge(sheet, &file, used, answers)?;
    }
    Ok(())
}

pub fn sheets(r: &mut Random, cases: usize, answers: &mut Answers) -> Result<(), String> {
    judging(r, true, cases, answers)
}

pub fn indexes(r: &mut Random, cases: usize, answers: &mut Answers) -> Result<(), String> {
    judging(r, false, cases, answers)
}

/// The second buffer is just long enough, a byte or a record too short, or longer; all of it is compared.
pub fn normal_forms(r: &mut Random, cases: usize, answers: &mut Answers) -> Result<(), String> {
    for _ in 0..cases {
        let sheet = !r.once_in(4);
        let (file, used) = some_file(r, sheet, 1);
        let length = used.min(file.len());
        let room =
            *r.pick(&[length, length, length.saturating_sub(1), length.saturating_sub(RECORD), length + RECORD, length + 1, 0]);
        let before = vec![b'.'; room];
        let (mut ours, mut theirs) = (before.clone(), before.clone());
        let (answer, right) = if sheet {
            (zvaigulta::normal_sheet(&file, used, &mut ours), normal::sheet(&file, used, &mut theirs))
        } else {
            (zvaigulta::normal_index(&file, used, &mut ours), normal::index(&file, used, &mut theirs))
        };
        let line = || format!("normal {} {used} {} {}", kind(sheet), hex(&file), hex(&before));
        answers.same(line, answer, right)?;
        if ours != theirs {
            return Err(format!("the second buffers differ: {}", line()));
        }
    }
    Ok(())
}

pub fn ways_up(r: &mut Random, cases: usize, answers: &mut Answers) -> Result<(), String> {
    for _ in 0..cases {
        let (file, used) = some_file(r, true, 1);
        let records = file.len() / RECORD;
        let some = r.below(records + 2);
        let number = *r.pick(&[some, some, some, some, 0, 1, records, records + 1, usize::MAX]);
        let ours = zvaigulta::way_up(&file, used, number).map(|way| (way.header, way.passed));
        answers.same(|| format!("up {used} {number} {}", hex(&file)), ours, way_up::up(&file, used, number as u64))?;
    }
    Ok(())
}

/// The line that the program prints, in a buffer that holds it, is as long as it, or is a byte too short.
pub fn reports(r: &mut Random, cases: usize, answers: &mut Answers) -> Result<(), String> {
    for n in 0..cases {
        let sheet = !r.once_in(4);
        let (mut file, _) = some_file(r, sheet, 2);
        if n % 100 == 0 {
            file.resize(65_520 + r.below(2), b' ');
        }
        let line = reference::program(&file) + "\n";
        let room = *r.pick(&[65, line.len(), line.len() - 1]);
        let mut ours = vec![b'.'; room];
        let mut right = Err(Refusal { number: 15, record: 0 });
        let mut left = ours.clone();
        if line.len() <= room {
            right = Ok(line.len());
            left[..line.len()].copy_from_slice(line.as_bytes());
        }
        let answer = zvaigulta::report(&file, &mut ours);
        answers.same(|| format!("main {}", hex(&file)), answer, right)?;
        if ours != left {
            return Err(format!("the line is {ours:?}: main {}", hex(&file)));
        }
    }
    Ok(())
}
