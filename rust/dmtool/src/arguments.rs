//! The words behind a subcommand.

use crate::failure::Failure;
use std::ffi::{OsStr, OsString};
use zvaigulta::{Edition, Form, Reading};

/// Which options a subcommand takes, beside `--help`.
#[derive(Clone, Copy, Debug, Default)]
pub struct Taken {
    /// `-o OTHER`, `--force` and `--no-lock`.
    pub output: bool,
    /// `--lines` and `--plain`.
    pub form: bool,
    /// `--directory` and `--no-directory`.
    pub directory: bool,
    /// `--to lines|plain` and `--mend`.
    pub convert: bool,
    /// `--append`, `--remove`, `--check` and `--edition 1|2`.
    pub action: bool,
}

/// What is done to a directory.
#[derive(Clone, Copy, Debug, PartialEq, Eq)]
pub enum Action {
    /// `--append`.
    Append,
    /// `--remove`.
    Remove,
    /// `--check`.
    Check,
}

/// The words that are no options, and the options.
#[derive(Debug, Default)]
pub struct Arguments {
    /// Files, places and record numbers, in order.
    pub words: Vec<OsString>,
    /// `-o OTHER`.
    pub output: Option<OsString>,
    /// `--force`: `-o OTHER` may replace another file.
    pub force: bool,
    /// `--no-lock`: a file is replaced without its lock.
    pub no_lock: bool,
    /// `--lines` or `--plain`: the form in which a file is read, whatever it seems to be.
    pub form: Option<Form>,
    /// `--directory` or `--no-directory`: whether a file is read with a directory behind its sheet, whatever it seems to be.
    pub directory: Option<bool>,
    /// What is done to a directory.
    pub action: Option<Action>,
    /// `--edition 1|2`: the edition of a directory that is appended.
    pub edition: Option<Edition>,
    /// `--to lines|plain`.
    pub to: Option<Form>,
    /// `--mend`: line ends of another kind are put right.
    pub mend: bool,
    /// `--help` or `-h`.
    pub help: bool,
}

impl Arguments {
    /// Takes the words apart. Behind `--` no word is an option; `-` alone is standard input.
    pub fn parse(words: &[OsString], taken: Taken) -> Result<Arguments, Failure> {
        let mut found = Arguments::default();
        let mut rest = words.iter();
        while let Some(word) = rest.next() {
            match word.to_string_lossy().as_ref() {
                "--" => found.words.extend(rest.by_ref().cloned()),
                "--help" | "-h" => found.help = true,
                "--force" if taken.output => found.force = true,
                "--no-lock" if taken.output => found.no_lock = true,
                "--mend" if taken.convert => found.mend = true,
                "-o" | "--output" if taken.output => found.set_output(rest.next())?,
                "--lines" if taken.form => found.set_form(Form::Lines)?,
                "--plain" if taken.form => found.set_form(Form::Plain)?,
                "--directory" if taken.directory => found.set_directory(true)?,
                "--no-directory" if taken.directory => found.set_directory(false)?,
                "--to" if taken.convert => found.set_to(rest.next())?,
                "--append" if taken.action => found.set_action(Action::Append)?,
                "--remove" if taken.action => found.set_action(Action::Remove)?,
                "--check" if taken.action => found.set_action(Action::Check)?,
                "--edition" if taken.action => found.set_edition(rest.next())?,
                option if option.starts_with('-') && option.len() > 1 => {
                    return Err(Failure::Usage(format!(
                        "there is no option '{option}' here (put -- before a file of that name)"
                    )));
                }
                _ => found.words.push(word.clone()),
            }
        }
        found.checked(taken)
    }

    fn set_output(&mut self, other: Option<&OsString>) -> Result<(), Failure> {
        if self.output.is_some() {
            return Err(Failure::Usage("-o stands there twice; one place is enough".to_string()));
        }
        let other = other.ok_or_else(|| Failure::Usage("-o needs a file name behind it".to_string()))?;
        self.output = Some(other.clone());
        Ok(())
    }

    fn set_form(&mut self, form: Form) -> Result<(), Failure> {
        match self.form.replace(form).filter(|before| *before != form) {
            Some(_) => Err(Failure::Usage("--lines and --plain do not go together; give one of them".to_string())),
            None => Ok(()),
        }
    }

    fn set_directory(&mut self, directory: bool) -> Result<(), Failure> {
        match self.directory.replace(directory).filter(|before| *before != directory) {
            Some(_) => Err(Failure::Usage("--directory and --no-directory do not go together; give one of them".to_string())),
            None => Ok(()),
        }
    }

    fn set_action(&mut self, action: Action) -> Result<(), Failure> {
        match self.action.replace(action).filter(|before| *before != action) {
            Some(_) => Err(Failure::Usage("--append, --remove and --check do not go together; give one of them".to_string())),
            None => Ok(()),
        }
    }

    fn set_edition(&mut self, word: Option<&OsString>) -> Result<(), Failure> {
        let edition = match word.map(|word| word.to_string_lossy()).as_deref() {
            Some("1") => Edition::First,
            Some("2") => Edition::Second,
            _ => return Err(Failure::Usage("--edition needs 1 or 2 behind it".to_string())),
        };
        match self.edition.replace(edition).filter(|before| *before != edition) {
            Some(_) => Err(Failure::Usage("--edition stands there twice; a directory is of one edition".to_string())),
            None => Ok(()),
        }
    }

    fn set_to(&mut self, word: Option<&OsString>) -> Result<(), Failure> {
        let form = match word.map(|word| word.to_string_lossy()).as_deref() {
            Some("lines") => Form::Lines,
            Some("plain") => Form::Plain,
            _ => return Err(Failure::Usage("--to needs lines or plain behind it".to_string())),
        };
        match self.to.replace(form) {
            Some(_) => Err(Failure::Usage("--to stands there twice; one form is enough".to_string())),
            None => Ok(()),
        }
    }

    /// How a file of these bytes is read: as asked for, else as recognised.
    pub fn reading_of(&self, bytes: &[u8]) -> Reading {
        let form = self.form.unwrap_or_else(|| Form::of(bytes));
        match self.directory.or((self.action == Some(Action::Check)).then_some(true)) {
            Some(directory) => Reading { form, directory },
            None => Reading::in_form(form, bytes),
        }
    }

    /// Whether an option says where a result goes, or how.
    fn writes(&self) -> bool {
        self.output.is_some() || self.force || self.no_lock
    }

    /// That no two options contradict each other. Beside `--help` nothing is tested.
    fn checked(self, taken: Taken) -> Result<Arguments, Failure> {
        let only_reads = taken.action && !matches!(self.action, Some(Action::Append | Action::Remove));
        let of_directory = matches!(self.action, Some(Action::Remove | Action::Check));
        let rules = [
            (only_reads && self.writes(), "-o, --force and --no-lock go with --append or --remove"),
            (
                self.directory == Some(false) && of_directory,
                "--no-directory does not go with --remove or --check, which are about the directory",
            ),
            (self.edition.is_some() && of_directory, "--edition goes with --append; --remove and --check take either edition"),
            (self.force && self.output.is_none(), "--force goes with -o OTHER: it lets the result replace another file"),
            (
                self.mend && self.form == Some(Form::Plain),
                "--mend is about line ends and does not go with --plain; give one of them",
            ),
        ];
        match rules.into_iter().find(|(broken, _)| *broken && !self.help) {
            Some((_, words)) => Err(Failure::Usage(words.to_string())),
            None => Ok(self),
        }
    }

    /// The words, as many as a subcommand takes; `usage` names them.
    pub fn exactly<const N: usize>(&self, usage: &str) -> Result<[&OsStr; N], Failure> {
        let words: Vec<&OsStr> = self.words.iter().map(OsString::as_os_str).collect();
        words.try_into().map_err(|_| Failure::Usage(format!("the words must be: {usage}")))
    }
}

/// A record number from the command line.
pub fn record_number(word: &OsStr, name: &str) -> Result<usize, Failure> {
    number(word, name, "a record number")
}

/// A number from the command line; `what` it is.
pub fn number(word: &OsStr, name: &str, what: &str) -> Result<usize, Failure> {
    let text = word.to_string_lossy();
    let digits = !text.is_empty() && text.bytes().all(|b| b.is_ascii_digit());
    let number = if digits { text.parse().ok() } else { None };
    number.ok_or_else(|| Failure::Usage(format!("{name} must be {what}, counted from 1, and is '{text}'")))
}
