//! Sheets with a directory of layers: judging them, appending a directory and jumping to a layer.

use crate::files::counted;
use crate::Answers;
use reference::directory::{described, Edition, Layer, Reader, FIRST, NEW, OLD, SECOND};
use reference::directory_calls::{self, Jumping};
use reference::line_calls::Lent;
use reference::protocol::hex;
use reference::random::Random;
use reference::RECORD;
use zvaigulta::{Counts, Refusal};

/// The calls that came with an edition, by the library and by the reference.
pub struct Calls {
    /// What the batch protocol has behind their words.
    mark: &'static str,
    /// The edition that is appended.
    pub edition: &'static Edition,
    /// How the reference judges and jumps.
    pub reader: Reader,
    /// The library's judgement.
    pub judge: fn(&[u8], usize) -> Result<Counts, Refusal>,
    /// The library's append.
    pub append: fn(&mut [u8], usize) -> Result<usize, Refusal>,
    /// The library's jump.
    pub jump: fn(&[u8], usize, usize) -> Result<Layer, Refusal>,
}

/// The calls of order 5. They find headers alone.
pub const OLD_CALLS: Calls = Calls {
    mark: "",
    edition: &FIRST,
    reader: OLD,
    judge: zvaigulta::judge_directory,
    append: zvaigulta::append_directory,
    jump: |file, used, layer| zvaigulta::jump(file, used, layer).map(|header| Layer { header, total: 0, last: 0 }),
};

/// The calls of order 13, which append the second edition and read both.
pub const NEW_CALLS: Calls = Calls {
    mark: "2",
    edition: &SECOND,
    reader: NEW,
    judge: zvaigulta::judge_either_edition,
    append: zvaigulta::append_second_edition,
    jump: |file, used, layer| {
        let found = zvaigulta::jump_either_edition(file, used, layer)?;
        Ok(Layer { header: found.header, total: found.total, last: found.last })
    },
};

/// A call that only reads has left every byte.
fn unchanged(before: &[u8], after: &[u8], line: impl FnOnce() -> String) -> Result<(), String> {
    if before == after {
        return Ok(());
    }
    Err(format!("the buffer was changed: {}", line()))
}

impl Calls {
    /// Judges by both.
    pub fn judged(&self, buffer: &[u8], used: usize, answers: &mut Answers) -> Result<(), String> {
        let lent = buffer.to_vec();
        let line = || format!("directory{} {used} {}", self.mark, hex(buffer));
        answers.same(line, counted((self.judge)(&lent, used)), self.reader.sheet(buffer, used))?;
        unchanged(buffer, &lent, line)
    }

    /// Jumps by both.
    fn jumped(&self, call: &Jumping, answers: &mut Answers) -> Result<(), String> {
        let Jumping { from: Lent { buffer, used }, layer } = call;
        let lent = buffer.clone();
        let line = || format!("jump{} {used} {} {layer}", self.mark, hex(buffer));
        answers.same(line, (self.jump)(&lent, *used, *layer as usize), self.reader.jump(buffer, *used, *layer))?;
        unchanged(buffer, &lent, line)
    }

    /// Appends by both and compares the whole buffer; answers the file with its directory, where the call was accepted.
    fn appended(&self, call: &Lent, answers: &mut Answers) -> Result<Option<Vec<u8>>, String> {
        let Lent { buffer, used } = call;
        let (mut ours, mut theirs) = (buffer.clone(), buffer.clone());
        let answer = (self.append)(&mut ours, *used);
        let right = self.edition.append(&mut theirs, *used);
        let line = || format!("append{} {used} {}", self.mark, hex(buffer));
        answers.same(line, answer, right)?;
        if ours != theirs {
            return Err(format!("the buffers differ: {}", line()));
        }
        if right.is_err() {
            unchanged(buffer, &ours, line)?;
        }
        Ok(right.ok().map(|length| ours[..length].to_vec()))
    }

    /// What was appended to a sheet of so many bytes is accepted by both, and the jump to each layer gives what counting from the front gives.
    fn ours_passes(&self, file: &[u8], sheet: usize) -> Result<(), String> {
        let mut accepted = Answers::default();
        self.judged(file, file.len(), &mut accepted)?;
        let (walked, _) = reference::judge::accepted(file, sheet).expect("an accepted sheet");
        let layers = described(&walked, sheet / RECORD);
        let right = |(n, layer)| (self.jump)(file, file.len(), n) == Ok(self.edition.finds(layer));
        if accepted.have(&[0]) && (1..).zip(&layers).all(right) {
            return Ok(());
        }
        Err(format!("refused, or another jump, after an append: directory{} {} {}", self.mark, file.len(), hex(file)))
    }
}

pub fn judging(r: &mut Random, cases: usize, answers: &mut Answers) -> Result<(), String> {
    (0..cases).try_for_each(|_| {
        let lent = directory_calls::judging(r, &FIRST);
        OLD_CALLS.judged(&lent.buffer, lent.used, answers)
    })
}

pub fn judging_either(r: &mut Random, cases: usize, answers: &mut Answers) -> Result<(), String> {
    (0..cases).try_for_each(|_| {
        let edition = directory_calls::some_edition(r);
        let lent = directory_calls::judging(r, edition);
        NEW_CALLS.judged(&lent.buffer, lent.used, answers)
    })
}

fn appending_by(calls: &Calls, r: &mut Random, cases: usize, answers: &mut Answers) -> Result<(), String> {
    (0..cases).try_for_each(|_| {
        let call = directory_calls::appending(r, calls.edition);
        let file = calls.appended(&call, answers)?;
        file.map_or(Ok(()), |file| calls.ours_passes(&file, call.used))
    })
}

pub fn appending(r: &mut Random, cases: usize, answers: &mut Answers) -> Result<(), String> {
    appending_by(&OLD_CALLS, r, cases, answers)
}

pub fn appending_the_second(r: &mut Random, cases: usize, answers: &mut Answers) -> Result<(), String> {
    appending_by(&NEW_CALLS, r, cases, answers)
}

pub fn jumping(r: &mut Random, cases: usize, answers: &mut Answers) -> Result<(), String> {
    (0..cases).try_for_each(|_| OLD_CALLS.jumped(&directory_calls::jumping(r, &FIRST), answers))
}

pub fn jumping_in_either(r: &mut Random, cases: usize, answers: &mut Answers) -> Result<(), String> {
    (0..cases).try_for_each(|_| {
        let edition = directory_calls::some_edition(r);
        NEW_CALLS.jumped(&directory_calls::jumping(r, edition), answers)
    })
}

/// Files of the second edition, judged and jumped in by the old calls.
pub fn old_calls_on_the_second(r: &mut Random, cases: usize, answers: &mut Answers) -> Result<(), String> {
    (0..cases).try_for_each(|_| {
        let call = directory_calls::jumping(r, &SECOND);
        OLD_CALLS.judged(&call.from.buffer, call.from.used, answers)?;
        OLD_CALLS.jumped(&call, answers)
    })
}
