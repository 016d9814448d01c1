//! Files with line ends: judging them, and the writers over and back.

use crate::files::{counted, kind};
use crate::Answers;
use reference::line_calls::{self, marked, Lent, Writing};
use reference::protocol::hex;
use reference::random::Random;
use reference::{lines, Refusal};

/// Judges by both.
pub fn judge(sheet: bool, buffer: &[u8], used: usize, answers: &mut Answers) -> Result<(), String> {
    let (answer, right) = if sheet {
        (zvaigulta::judge_sheet_lines(buffer, used), lines::sheet(buffer, used))
    } else {
        (zvaigulta::judge_index_lines(buffer, used), lines::index(buffer, used))
    };
    answers.same(|| format!("judge86 {} {used} {}", kind(sheet), hex(buffer)), counted(answer), right)
}

pub fn sheets(r: &mut Random, cases: usize, answers: &mut Answers) -> Result<(), String> {
    (0..cases).try_for_each(|_| {
        let lent = line_calls::judging(r, true);
        judge(true, &lent.buffer, lent.used, answers)
    })
}

pub fn indexes(r: &mut Random, cases: usize, answers: &mut Answers) -> Result<(), String> {
    (0..cases).try_for_each(|_| {
        let lent = line_calls::judging(r, false);
        judge(false, &lent.buffer, lent.used, answers)
    })
}

/// Writes a file's form with or without line ends to a target.
type Write<R> = fn(&[u8], usize, &mut [u8]) -> Result<usize, R>;

/// A writer of the library, the reference's, and the batch protocol's word for it.
struct Writer {
    command: &'static str,
    proved: Write<zvaigulta::Refusal>,
    reference: Write<Refusal>,
}

const TO: Writer = Writer { command: "to86", proved: zvaigulta::to_lines, reference: lines::to_lines };
const FROM: Writer = Writer { command: "from86", proved: zvaigulta::from_lines, reference: lines::from_lines };

impl Writer {
    /// Writes by both and compares the whole target; answers what was written, where the call was accepted.
    fn run(&self, call: &Writing, answers: &mut Answers) -> Result<Option<Vec<u8>>, String> {
        let Lent { buffer, used } = &call.from;
        let (mut ours, mut theirs) = (call.target.clone(), call.target.clone());
        let answer = (self.proved)(buffer, *used, &mut ours);
        let right = (self.reference)(buffer, *used, &mut theirs);
        let line = || format!("{} {used} {} {}", self.command, hex(buffer), hex(&call.target));
        answers.same(line, answer, right)?;
        if ours != theirs {
            return Err(format!("the targets differ: {}", line()));
        }
        Ok(right.ok().map(|length| ours[..length].to_vec()))
    }

    /// A call; what it wrote, where it is accepted, goes back by the other writer and is the file that it was.
    fn over_and_back(&self, back: &Writer, call: &Writing, answers: &mut Answers) -> Result<(), String> {
        let Some(buffer) = self.run(call, answers)? else {
            return Ok(());
        };
        let file = &call.from.buffer[..call.from.used];
        let returned = Writing { from: Lent { used: buffer.len(), buffer }, target: marked(file.len()) };
        match back.run(&returned, &mut Answers::default())? {
            Some(bytes) if bytes == file => Ok(()),
            _ => Err(format!("not the same bytes over and back: {} {} {}", self.command, call.from.used, hex(&call.from.buffer))),
        }
    }
}

pub fn to_lines(r: &mut Random, cases: usize, answers: &mut Answers) -> Result<(), String> {
    (0..cases).try_for_each(|_| TO.over_and_back(&FROM, &line_calls::to_lines(r), answers))
}

pub fn from_lines(r: &mut Random, cases: usize, answers: &mut Answers) -> Result<(), String> {
    (0..cases).try_for_each(|_| FROM.over_and_back(&TO, &line_calls::from_lines(r), answers))
}

/// Writes a whole file plain, with just the room that it takes.
pub fn without_ends(file: &[u8], answers: &mut Answers) -> Result<(), String> {
    let target = marked(file.len() / lines::LINE * reference::RECORD);
    let call = Writing { from: Lent { buffer: file.to_vec(), used: file.len() }, target };
    FROM.run(&call, answers).map(|_| ())
}
