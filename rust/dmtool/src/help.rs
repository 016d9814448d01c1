//! The texts of `--help`.

use crate::failure::{output_failed, Done, FINE};
use std::io::Write;

pub const OVERVIEW: &str = "\
dmtool: judges, explains, shows and edits digital mapping files by the proved library.

Usage: dmtool SUBCOMMAND ...

  judge FILE...                  one line a file: accepted, or refused and why
  explain FILE                   the refused record, with the columns at fault marked
  show FILE [FROM [TO]]          records with their columns named
  insert FILE PLACE BLOCKFILE    puts an item before a record
  remove FILE PLACE              takes out the item at a record
  up FILE RECORD                 the headers above a record
  normal FILE                    the file with every number in written form
  convert FILE --to lines|plain  the file with line ends, or without
  directory FILE                 the layers by the directory behind a sheet; appends it, takes it off, checks it
  jump FILE LAYER                the record of a layer's header, by the directory
  batch                          the line protocol of test benches

  dmtool SUBCOMMAND --help       more about one of them
  dmtool --version               the edition

A FILE - is standard input. A file that starts \"I \" is taken as an index, any other as a sheet. Records number from 1. Files whose
records end in carriage return and line feed, 86 bytes in all, are recognised, and answers say '(line ends)'; --lines or --plain
behind a subcommand reads a file in that form, whatever it seems to be. So are sheets with a directory of layers behind them, and
answers say '(directory of 2 layers)', of one of edition 2 '(directory of 2 layers, edition 2)'; --directory or --no-directory
overrules that.
Exit status: 0 fine; 1 refused; 2 wrong words, or a file that cannot be read or written.
";

/// What every subcommand but batch says of the form of a file.
macro_rules! form {
    () => {
        "
A file with line ends (carriage return and line feed behind each record) is known by them, also where some of them are broken.

  --lines      reads FILE with line ends, whatever it seems to be
  --plain      reads FILE without
"
    };
}

/// What the subcommands that read a sheet with a directory or without say of it.
macro_rules! directory {
    () => {
        "
A directory of layers behind a sheet is known by its last record, which starts \"ZE\", in edition 2 \"YE\".

  --directory  reads FILE with a directory, whatever it seems to be
  --no-directory  reads FILE without

"
    };
}

const JUDGE: &str = concat!(
    "\
Usage: dmtool judge FILE... [--lines | --plain] [--directory | --no-directory]

Judges each file and prints one line for it:

  sheet.dm: accepted 9 records 1 items
  other.dm: refused 10 at record 6: a count differs from what the file holds
  field.dm: accepted 9 records 1 items (line ends)
  plot.dm: accepted 28 records 8 items (directory of 2 layers)

A file that cannot be read is named on standard error, and the list goes on. Where judging a list takes longer than a second, standard
error is a terminal and the answers go elsewhere, a line there says how far it has come.
",
    form!(),
    directory!(),
    "\
Exit status: 0 only if every file is accepted; 2 if one could not be read; else 1.
"
);

const EXPLAIN: &str = concat!(
    "\
Usage: dmtool explain FILE [--lines | --plain] [--directory | --no-directory]

Judges the file. Where it is refused, says what to look at first, then prints the refused record with its columns named, those at
fault marked by > with the reason, and of other records that have to do with it the marked columns. The refusal and its record are
the proved library's; the rest is an explanation of it.
",
    form!(),
    directory!(),
    "\
Exit status: 0 accepted; 1 refused; 2 the file cannot be read.
"
);

const SHOW: &str = concat!(
    "\
Usage: dmtool show FILE [FROM [TO]] [--lines | --plain] [--directory | --no-directory]

Prints the judgement, then a line for each record from FROM (else 1) to TO (else the last): its number, what it is, its level, and its columns
by name. Text stands in quotation marks without the spaces at its end; bytes that are not printable ASCII as \\x8f; a malformed integer in quotation
marks behind a ?. Blank columns and empty texts are left out. Behind a refusal the names are the best guess.
",
    form!(),
    directory!(),
    "\
Exit status: 0 shown, whatever the judgement; 2 wrong words, or the file cannot be read or has no record FROM.
"
);

/// What insert, remove, normal and convert say of a file that is replaced.
macro_rules! replacing {
    () => {
        "
A file is replaced whole or not at all: the result is written beside it, synced to the disk and renamed over it, with owner and
permissions kept. It is locked meanwhile, so that two edits at once are done one after the other. A file that you may not write,
that is marked read-only or that has several names (hard links) stays as it is.

  -o OTHER     writes the result to OTHER and leaves FILE; - is standard output. OTHER must not exist yet, unless it is FILE
               itself, a device or a pipe
  --force      lets -o replace an OTHER that exists
  --no-lock    replaces a file without its lock, for shares that have no locks; only where nobody else edits it
  --lines      reads FILE with line ends (carriage return and line feed behind each record), whatever it seems to be
  --plain      reads FILE without
"
    };
}

/// What the edits say of a directory.
macro_rules! made_anew {
    () => {
        "  --directory  reads FILE with a directory of layers behind its sheet, whatever it seems to be
  --no-directory  reads FILE without

A directory behind the sheet is taken off and made anew, in its edition. Where it is wrong nothing is changed: 'dmtool explain FILE' says what to do.
"
    };
}

const INSERT: &str = concat!(
    "\
Usage: dmtool insert FILE PLACE BLOCKFILE [-o OTHER [--force]] [--no-lock] [--lines | --plain] [--directory | --no-directory]

Puts the item in BLOCKFILE (an element, grid or net with its data records) into the sheet before the record PLACE; 'end' is one
past the last record. The header above and the sheet's counts are brought up to date. The result replaces FILE, unless -o names
another place. A sheet with line ends keeps them; the block may have them or not.
",
    replacing!(),
    made_anew!(),
    "
Exit status: 0 done; 1 refused, and no file is changed; 2 wrong words, or a file cannot be read or written.
"
);

const REMOVE: &str = concat!(
    "\
Usage: dmtool remove FILE PLACE [-o OTHER [--force]] [--no-lock] [--lines | --plain] [--directory | --no-directory]

Takes the item that starts at the record PLACE, with its data records, out of the sheet. The header above and the sheet's counts
are brought up to date. The result replaces FILE, unless -o names another place. A sheet with line ends keeps them.
",
    replacing!(),
    made_anew!(),
    "
Exit status: 0 done; 1 refused, and no file is changed; 2 wrong words, or a file cannot be read or written.
"
);

const UP: &str = concat!(
    "\
Usage: dmtool up FILE RECORD [--lines | --plain] [--directory | --no-directory]

Prints the header above a record of a sheet, how many headers the way up to its layer passes, and their record numbers. A data record answers as its
item.
",
    form!(),
    directory!(),
    "\
Exit status: 0 answered; 1 the sheet is refused, or the record is none of its layers'; 2 wrong words, or the file cannot be read.
"
);

const NORMAL: &str = concat!(
    "\
Usage: dmtool normal FILE [-o OTHER [--force]] [--no-lock] [--lines | --plain] [--directory | --no-directory]

Writes the file with every judged integer in written form (shortest digits, spaces in front) to standard output, or to the place
that -o names, which may be FILE itself. Nothing is written where the file is refused. A file with line ends keeps them.
",
    replacing!(),
    made_anew!(),
    "
Exit status: 0 done; 1 refused, and no file is changed; 2 wrong words, or a file cannot be read or written.
"
);

const CONVERT: &str = concat!(
    "\
Usage: dmtool convert FILE --to lines|plain [--mend] [-o OTHER [--force]] [--no-lock] [--lines | --plain]

Writes the records of a file or a block with carriage return and line feed behind each (--to lines), or end to end (--to plain).
Nothing else is judged or changed: over and back gives the same bytes. The result replaces FILE, unless -o names another place.

  --mend       takes line ends of another kind as well: line feed or carriage return alone, the two the wrong way round, two other
               bytes in their place, none behind a record, one behind the last alone, an end-of-file mark; each record must have its 84
               bytes; not together with --plain
",
    replacing!(),
    "
Exit status: 0 done, also where the file has that form already; 1 refused (1: the length; 18: a line end), and no file is changed;
2 wrong words, or a file cannot be read or written.
"
);

const DIRECTORY: &str = concat!(
    "\
Usage: dmtool directory FILE [--append | --remove] [--edition 1|2] [-o OTHER [--force]] [--no-lock]
              [--lines | --plain] [--directory | --no-directory]
       dmtool directory --check FILE... [--lines | --plain]

A sheet may have a directory of its layers behind its last record: records that start \"Z \", each with the record numbers of up to eleven
layer headers, and one record \"ZE\" with the number of the first of them and the number of layers. In edition 2 the records start \"Y \" and hold
header, item total and last record of up to three layers; the last one, \"YE\", states the edition too.

Without --append, --remove or --check prints the judgement, and a line for each layer: its number, the record of its header, its records
(the header included) and items, in edition 2 as its total, with its last record, and the columns of the header that name it. Of a sheet
without a directory, the one that --append appends.

  --append     appends the directory to a sheet that has none, in edition 1 if not said. One that is there already and right stays as it is,
               unless --edition asks for the other edition: then it is taken off, and that one appended
  --edition N  the edition of the directory to append, 1 or 2
  --remove     takes the directory off, right or wrong, where the sheet before it is accepted and nothing but records that start \"Z \",
               \"ZE\", \"Y \" or \"YE\" stands behind that
  --check      judges each file with its directory and prints one line for it, as 'dmtool judge --directory' does
  --directory  reads FILE with a directory, whatever it seems to be
  --no-directory  reads FILE without: a sheet whose last record is text that looks like the end of a directory gets one so by --append
",
    replacing!(),
    "
Exit status: 0 shown, done, or every file checked is accepted with its directory; 1 refused, and no file is changed; 2 wrong words, or a
file cannot be read or written.
"
);

const JUMP: &str = concat!(
    "\
Usage: dmtool jump FILE LAYER [--lines | --plain]

Prints the record number of the header of a layer, layers counted from 1, and the columns of the header that name it; by a directory of edition 2
also the layer's item total and last record, which edition 1 does not state. The file is judged with its directory, which then answers: nothing
is counted from the front.
",
    form!(),
    "
Exit status: 0 answered; 1 the file or its directory is refused, or there is no such layer; 2 wrong words, or the file cannot be read.
"
);

const BATCH: &str = "\
Usage: dmtool batch

Reads one command a line from standard input and answers each with one line, at once. Bytes are lower-case hex, - for none; numbers are decimal.

  judge sheet|index USED BUF           ok RECORDS ITEMS
  judge86 sheet|index USED BUF         ok RECORDS ITEMS, with line ends
  to86 USED BUF BUF2                   ok LENGTH BUF2-AFTER, line ends put in
  from86 USED BUF BUF2                 ok LENGTH BUF2-AFTER, line ends taken out
  read BYTES                           ok VALUE
  write WIDTH VALUE                    ok BYTES
  join UNIT WHOLE FRACTION             ok MM
  split UNIT MM                        ok WHOLE FRACTION
  normal sheet|index USED BUF BUF2     ok LENGTH BUF2-AFTER
  insert USED PLACE BUF BLOCK          ok NEWUSED BUF-AFTER
  remove USED PLACE BUF                ok NEWUSED BUF-AFTER
  up USED RECORD BUF                   ok HEADER PASSED (HEADER 0 for none)
  directory USED BUF                   ok RECORDS ITEMS, of a sheet with its directory
  append USED BUF                      ok NEWUSED BUF-AFTER, a directory appended
  jump USED BUF N                      ok RECORD, the header of layer N
  directory2 USED BUF                  ok RECORDS ITEMS, of a sheet with its directory of either edition
  append2 USED BUF                     ok NEWUSED BUF-AFTER, a directory of edition 2 appended
  jump2 USED BUF N                     ok RECORD TOTAL LAST, layer N (TOTAL and LAST 0 for edition 1)
  main BYTES                           what the program dm prints on that input

A refusal is 'no NUMBER RECORD'; a line that is no command is 'error REASON'.
Exit status: 0 at the end of the input; 2 where it cannot be read or the answers cannot be written.
";

/// The text of a subcommand, if there is one of that name.
pub fn of(name: &str) -> Option<&'static str> {
    let all = [
        ("judge", JUDGE),
        ("explain", EXPLAIN),
        ("show", SHOW),
        ("insert", INSERT),
        ("remove", REMOVE),
        ("up", UP),
        ("normal", NORMAL),
        ("convert", CONVERT),
        ("directory", DIRECTORY),
        ("jump", JUMP),
        ("batch", BATCH),
    ];
    all.into_iter().find(|(known, _)| *known == name).map(|(_, text)| text)
}

/// Prints a text.
pub fn print(text: &str, out: &mut impl Write) -> Done {
    out.write_all(text.as_bytes()).map_err(output_failed)?;
    Ok(FINE)
}
