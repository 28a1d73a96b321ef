//! Judges the text on standard input and prints number, tab, line, LF.
//!
//! `--tables` also prints the five tables, a line each: name, lent length, used
//! length, and the used entries parted by commas (`-` for none), parted by tabs. The
//! rest of a table is zero. `--compare` decides every small instance in both ways.
//! `--words [SPACE]` prints the rows of an accepted text in words instead, if they fit
//! into so many bytes, or else 1,048,576; and number, tab, line if they don't, or if the
//! text is refused. `--listed` judges each line of standard input, a text as the corpus lists
//! it, and prints a line for each. `--opening` opens the text of the corpus that each line names,
//! in the current folder, and prints number, line and the five counts. `--adding` answers each
//! line as a case of adding a row.

use second::adding::Adding;
use second::escapes::unescaped;
use second::judge::{Deciding, LEAST, judge, judge_closely};
use second::open::open;
use second::words;
use std::cell::Cell;
use std::io::{BufRead, Read, Write};
use std::path::Path;

/// What the command lends for words.
const SPACE: usize = 1 << 20;

fn main() -> std::io::Result<()> {
    let options: Vec<String> = std::env::args().skip(1).collect();
    let asked = |option: &str| options.iter().any(|given| given == option);
    let mut out = std::io::stdout().lock();
    if asked("--listed") {
        for line in std::io::stdin().lock().lines() {
            let judgement = judge(&unescaped(&line?).expect("a text as the corpus lists it"), &LEAST);
            writeln!(out, "{}\t{}", judgement.number, judgement.line)?;
        }
        return Ok(());
    }
    if asked("--opening") {
        for name in std::io::stdin().lock().lines() {
            let opening = open(&std::fs::read(format!("{}.txt", name?))?, &LEAST);
            let counts = opening.counts.listed().map(|count| count.to_string()).join("\t");
            writeln!(out, "{}\t{}\t{counts}", opening.number, opening.line)?;
        }
        return Ok(());
    }
    if asked("--adding") {
        let mut adding = Adding::new(Path::new("."));
        for case in std::io::stdin().lock().lines() {
            writeln!(out, "{}", adding.answer(&case?).expect("a case as the corpus lists it"))?;
        }
        return Ok(());
    }
    let mut text = vec![];
    std::io::stdin().lock().read_to_end(&mut text)?;
    let compared = Cell::new(0);
    let deciding = if asked("--compare") { Deciding::Compared(&compared) } else { Deciding::Fast };
    let (judgement, derivation) = judge_closely(&text, &LEAST, deciding);
    if asked("--words") {
        let space = options.iter().skip_while(|option| *option != "--words").nth(1);
        let space = space.map_or(SPACE, |space| space.parse().expect("a number of bytes"));
        let answer = words::answer(&judgement, derivation.as_ref(), space);
        return match answer.number {
            0 => out.write_all(answer.words.split(|&byte| byte == 0).next().unwrap_or_default()),
            _ => writeln!(out, "{}\t{}", answer.number, answer.line),
        };
    }
    writeln!(out, "{}\t{}", judgement.number, judgement.line)?;
    if asked("--tables") {
        for (name, (table, used)) in judgement.tables.zip(judgement.used).listed() {
            let entries: Vec<String> = table[..used].iter().map(u16::to_string).collect();
            let entries = if used == 0 { "-".into() } else { entries.join(",") };
            writeln!(out, "{name}\t{}\t{used}\t{entries}", table.len())?;
        }
    }
    Ok(())
}
