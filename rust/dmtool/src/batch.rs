//! `batch`: the line protocol of test benches. One command to a line, one answer to a line.

use crate::arguments::Arguments;
use crate::failure::{output_failed, Done, Failure, FINE};
use crate::words::{hex, Words};
use std::io::{BufRead, Write};
use zvaigulta::{FileKind, Form, Refusal};

/// Answers every line of the input, each as soon as it is read.
pub fn run(arguments: &Arguments, input: &mut impl BufRead, out: &mut impl Write) -> Done {
    let [] = arguments.exactly("batch, and nothing behind it")?;
    let mut line = Vec::new();
    loop {
        line.clear();
        let read = input.read_until(b'\n', &mut line);
        let read = read.map_err(|e| Failure::File(format!("standard input cannot be read: {e}; start the bench again")))?;
        if read == 0 {
            return Ok(FINE);
        }
        let answer = std::str::from_utf8(&line).map_err(|_| "the line is not text".to_string()).and_then(answer);
        let text = answer.unwrap_or_else(|reason| format!("error {reason}"));
        writeln!(out, "{text}").and_then(|()| out.flush()).map_err(output_failed)?;
    }
}

/// The answer to a line, or why it is no command.
fn answer(line: &str) -> Result<String, String> {
    let mut words = Words::of(line);
    let name = words.word("a command")?;
    let command = match name {
        "judge" => judge,
        "judge86" => judge_lines,
        "to86" => to_lines,
        "from86" => from_lines,
        "read" => read,
        "write" => write,
        "join" => join,
        "split" => split,
        "normal" => normal,
        "insert" => insert,
        "remove" => remove,
        "up" => up,
        "directory" => directory,
        "append" => append,
        "jump" => jump,
        "directory2" => directory_either,
        "append2" => append_second,
        "jump2" => jump_either,
        "main" => program,
        _ => return Err("there is no such command".to_string()),
    };
    let answer = command(&mut words)?;
    words.end()?;
    Ok(answer)
}

/// A command's answer, or what is wrong with its words.
type Answer = Result<String, String>;

fn said(answer: Result<String, Refusal>) -> String {
    match answer {
        Ok(text) => format!("ok {text}"),
        Err(refusal) => format!("no {} {}", refusal.number(), refusal.record.unwrap_or(0)),
    }
}

fn kind(words: &mut Words) -> Result<FileKind, String> {
    match words.word("sheet or index")? {
        "sheet" => Ok(FileKind::Sheet),
        "index" => Ok(FileKind::Index),
        _ => Err("sheet or index is due".to_string()),
    }
}

fn judge(words: &mut Words) -> Answer {
    judge_in(Form::Plain, words)
}

fn judge_lines(words: &mut Words) -> Answer {
    judge_in(Form::Lines, words)
}

fn judge_in(form: Form, words: &mut Words) -> Answer {
    let (kind, used, buffer) = (kind(words)?, words.size("USED")?, words.bytes("BUF")?);
    Ok(said(kind.judge_in(form, &buffer, used).map(|c| format!("{} {}", c.records, c.items))))
}

fn to_lines(words: &mut Words) -> Answer {
    let (used, buffer, mut target) = (words.size("USED")?, words.bytes("BUF")?, words.bytes("BUF2")?);
    Ok(said(zvaigulta::to_lines(&buffer, used, &mut target).map(|n| format!("{n} {}", hex(&target)))))
}

fn from_lines(words: &mut Words) -> Answer {
    let (used, buffer, mut target) = (words.size("USED")?, words.bytes("BUF")?, words.bytes("BUF2")?);
    Ok(said(zvaigulta::from_lines(&buffer, used, &mut target).map(|n| format!("{n} {}", hex(&target)))))
}

fn read(words: &mut Words) -> Answer {
    let column = words.bytes("BYTES")?;
    Ok(said(zvaigulta::read_column(&column).map(|n| n.to_string())))
}

fn write(words: &mut Words) -> Answer {
    let (width, value) = (words.allowed_or_not("WIDTH")?, words.signed("VALUE")?);
    // Widths above 18 are all refused alike, so no more bytes than 19 are ever lent.
    let mut column = vec![b' '; width.min(19) as usize];
    Ok(said(zvaigulta::write_column(&mut column, value).map(|()| hex(&column))))
}

fn join(words: &mut Words) -> Answer {
    let (unit, whole, fraction) = (words.allowed_or_not("UNIT")?, words.signed("WHOLE")?, words.signed("FRACTION")?);
    Ok(said(zvaigulta::join(unit.into(), whole, fraction).map(|n| n.to_string())))
}

fn split(words: &mut Words) -> Answer {
    let (unit, millimetres) = (words.allowed_or_not("UNIT")?, words.signed("MM")?);
    Ok(said(zvaigulta::split(unit.into(), millimetres).map(|c| format!("{} {}", c.whole, c.fraction))))
}

fn normal(words: &mut Words) -> Answer {
    let (kind, used, buffer, mut second) = (kind(words)?, words.size("USED")?, words.bytes("BUF")?, words.bytes("BUF2")?);
    Ok(said(kind.normal(&buffer, used, &mut second).map(|n| format!("{n} {}", hex(&second)))))
}

fn insert(words: &mut Words) -> Answer {
    let (used, place) = (words.size("USED")?, words.size("PLACE")?);
    let (mut buffer, block) = (words.bytes("BUF")?, words.bytes("BLOCK")?);
    Ok(said(zvaigulta::insert(&mut buffer, used, place, &block).map(|n| format!("{n} {}", hex(&buffer)))))
}

fn remove(words: &mut Words) -> Answer {
    let (used, place, mut buffer) = (words.size("USED")?, words.size("PLACE")?, words.bytes("BUF")?);
    Ok(said(zvaigulta::remove(&mut buffer, used, place).map(|n| format!("{n} {}", hex(&buffer)))))
}

fn up(words: &mut Words) -> Answer {
    let (used, record, buffer) = (words.size("USED")?, words.size("RECORD")?, words.bytes("BUF")?);
    Ok(said(zvaigulta::way_up(&buffer, used, record).map(|way| format!("{} {}", way.header.unwrap_or(0), way.passed))))
}

fn directory(words: &mut Words) -> Answer {
    let (used, buffer) = (words.size("USED")?, words.bytes("BUF")?);
    Ok(said(zvaigulta::judge_directory(&buffer, used).map(|c| format!("{} {}", c.records, c.items))))
}

fn append(words: &mut Words) -> Answer {
    let (used, mut buffer) = (words.size("USED")?, words.bytes("BUF")?);
    Ok(said(zvaigulta::append_directory(&mut buffer, used).map(|n| format!("{n} {}", hex(&buffer)))))
}

fn jump(words: &mut Words) -> Answer {
    let (used, buffer, layer) = (words.size("USED")?, words.bytes("BUF")?, words.size("N")?);
    Ok(said(zvaigulta::jump(&buffer, used, layer).map(|header| header.to_string())))
}

fn directory_either(words: &mut Words) -> Answer {
    let (used, buffer) = (words.size("USED")?, words.bytes("BUF")?);
    Ok(said(zvaigulta::judge_either_edition(&buffer, used).map(|c| format!("{} {}", c.records, c.items))))
}

fn append_second(words: &mut Words) -> Answer {
    let (used, mut buffer) = (words.size("USED")?, words.bytes("BUF")?);
    Ok(said(zvaigulta::append_second_edition(&mut buffer, used).map(|n| format!("{n} {}", hex(&buffer)))))
}

fn jump_either(words: &mut Words) -> Answer {
    let (used, buffer, layer) = (words.size("USED")?, words.bytes("BUF")?, words.size("N")?);
    let found = zvaigulta::jump_either_edition(&buffer, used, layer);
    Ok(said(found.map(|layer| format!("{} {} {}", layer.header, layer.total, layer.last))))
}

/// What the proved program prints on its standard input, without the line end.
fn program(words: &mut Words) -> Answer {
    let input = words.bytes("BYTES")?;
    let mut line = [0; 65];
    let length = zvaigulta::report(&input, &mut line).map_err(|refusal| refusal.to_string())?;
    Ok(String::from_utf8_lossy(&line[..length]).trim_end_matches('\n').to_string())
}
