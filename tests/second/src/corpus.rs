//! The corpus: texts with the answers that the papers ask for.
//!
//! No answer here comes from a checker. A number stands beside its text, or follows
//! from how the text is built; a line is stated, or counted while building.

mod adding;
mod by_hand;
mod constraints;
mod examples;
mod families;
mod handed_in;
mod limits;
mod models;
mod numbers;
mod opening;
mod pairs;
mod row_texts;
mod rows;
mod rule_words;
mod run_limits;
mod runs;
mod steps;
mod swaps;
mod texts;
mod words;

use crate::escapes::escaped;
use std::collections::BTreeMap;
use std::path::Path;

/// A text and the answer it earns. The name is `group/what_it_shows`. In some, what is
/// printed where its words are asked for: the sentences, or number, tab, line.
#[derive(Clone, Debug)]
pub struct Case {
    pub name: String,
    pub text: Vec<u8>,
    pub number: u16,
    pub line: usize,
    pub words: Option<Vec<u8>>,
    /// The case that is the same but for runs: all that is answered, stored and told is equal.
    pub plain: Option<String>,
}

impl Case {
    pub fn group(&self) -> &str {
        self.name.split_once('/').expect("a case is in a group").0
    }
}

/// All cases, sorted by name.
pub fn cases() -> Vec<Case> {
    let groups = [
        examples::cases(),
        texts::cases(),
        numbers::cases(),
        pairs::cases(),
        rule_words::cases(),
        limits::cases(),
        models::cases(),
        constraints::cases(),
        steps::cases(),
        swaps::cases(),
        families::cases(),
        words::cases(),
        runs::cases(),
        run_limits::cases(),
        opening::cases(),
        row_texts::texts(),
    ];
    let mut cases = groups.concat();
    cases.extend(run_limits::rewritten(&cases));
    cases.sort_by(|a, b| a.name.cmp(&b.name));
    cases
}

/// The cases whose texts stand in one file, and those that are files of their own.
fn listed_and_in_files() -> (Vec<Case>, Vec<Case>) {
    cases().into_iter().partition(|case| case.group() == rule_words::GROUP)
}

/// The files of the corpus folder, by path inside it.
pub fn files() -> BTreeMap<String, Vec<u8>> {
    let (listed, cases) = listed_and_in_files();
    let in_full = |case: &Case| format!("{}\t{}\t{}\n", escaped(&case.text), case.number, case.line);
    let listed: String = listed.iter().map(in_full).collect();
    let answer = |case: &Case| format!("{}\t{}\t{}\n", case.name, case.number, case.line);
    let answers: String = cases.iter().map(answer).collect();
    let pair = |case: &Case| case.plain.as_ref().map(|plain| format!("{}\t{plain}\n", case.name));
    let pairs: String = cases.iter().filter_map(pair).collect();
    let (opening, adding) = (opening::answers(&cases), adding::listed(&cases));
    let of_case = |case: Case| {
        let words = case.words.map(|words| (format!("{}.words", case.name), words));
        [(format!("{}.txt", case.name), case.text)].into_iter().chain(words)
    };
    let texts = cases.into_iter().flat_map(of_case);
    let lists = [
        ("answers.tsv", answers),
        ("plain.tsv", pairs),
        ("rule_words.tsv", listed),
        ("opening.tsv", opening),
        ("opened.tsv", opening::tables()),
        ("adding.tsv", adding),
    ];
    texts.chain(lists.map(|(name, list)| (name.into(), list.into_bytes()))).collect()
}

/// Writes the corpus into a folder.
pub fn write(folder: &Path) -> std::io::Result<()> {
    for (name, content) in files() {
        let path = folder.join(name);
        std::fs::create_dir_all(path.parent().expect("a file is in a folder"))?;
        std::fs::write(path, content)?;
    }
    Ok(())
}

/// A case written out byte by byte.
fn raw(name: &str, number: u16, line: usize, text: impl Into<Vec<u8>>) -> Case {
    Case { name: name.into(), text: text.into(), number, line, words: None, plain: None }
}

/// A refused case, whose number and line are printed in the place of its words too.
fn untold(case: Case) -> Case {
    let printed = format!("{}\t{}\n", case.number, case.line);
    Case { words: Some(printed.into_bytes()), ..case }
}

/// A case written as the paper writes its whole file: ` / ` between lines, a space
/// for each tab.
fn plain(name: &str, number: u16, line: usize, lines: &str) -> Case {
    raw(name, number, line, tabbed(lines))
}

fn tabbed(lines: &str) -> String {
    lines.split(" / ").map(|line| line.replace(' ', "\t") + "\n").collect()
}

#[cfg(test)]
mod tests {
    use super::*;
    use crate::judge::{Deciding, LEAST, judge, judge_closely};
    use crate::rewrite;
    use std::cell::Cell;
    use std::collections::BTreeSet;

    #[test]
    fn names_are_used_once() {
        let names: BTreeSet<String> = cases().into_iter().map(|case| case.name).collect();
        assert_eq!(names.len(), cases().len());
    }

    #[test]
    fn no_text_stands_under_two_names() {
        let mut names = BTreeMap::new();
        let again =
            |case: Case| names.insert(case.text, case.name.clone()).map(|earlier| (earlier, case.name));
        let repeated: Vec<(String, String)> = cases().into_iter().filter_map(again).collect();
        assert!(repeated.is_empty(), "{repeated:#?}");
    }

    #[test]
    fn second_checker_answers_as_the_corpus_says() {
        let differs = |case: &Case| {
            let compared = Cell::new(0);
            let (judgement, _) = judge_closely(&case.text, &LEAST, Deciding::Compared(&compared));
            let found = (judgement.number, judgement.line);
            (found != (case.number, case.line)).then(|| format!("{} earns {found:?}", case.name))
        };
        let different: Vec<String> = cases().iter().filter_map(differs).collect();
        assert!(different.is_empty(), "{different:#?}");
    }

    #[test]
    fn runs_change_nothing() {
        let cases = cases();
        let texts: BTreeMap<&str, &[u8]> =
            cases.iter().map(|case| (case.name.as_str(), case.text.as_slice())).collect();
        for case in &cases {
            if let Some(plain) = &case.plain {
                assert_eq!(
                    rewrite::in_runs(&case.text),
                    rewrite::in_runs(texts[plain.as_str()]),
                    "{}",
                    case.name
                );
                assert!(judge(&case.text, &LEAST) == judge(texts[plain.as_str()], &LEAST), "{}", case.name);
            }
        }
    }

    #[test]
    fn folder_holds_what_is_written_here() {
        let folder = Path::new(env!("CARGO_MANIFEST_DIR")).join("../corpus");
        let mut found = BTreeMap::new();
        for group in std::fs::read_dir(&folder).expect("the corpus folder").map(|e| e.unwrap().path()) {
            let files = match group.is_dir() {
                true => std::fs::read_dir(group).unwrap().map(|e| e.unwrap().path()).collect(),
                false => vec![group],
            };
            for file in files {
                let name = file.strip_prefix(&folder).unwrap().to_str().unwrap().replace('\\', "/");
                found.insert(name, std::fs::read(file).unwrap());
            }
        }
        let expected = files();
        assert_eq!(found.keys().collect::<Vec<_>>(), expected.keys().collect::<Vec<_>>());
        for (name, content) in expected {
            assert!(found[&name] == content, "{name} is not what is written here");
        }
    }

    #[test]
    fn every_number_but_1_and_14_is_earned() {
        let earned: BTreeSet<u16> = cases().iter().map(|case| case.number).collect();
        assert!(earned.into_iter().eq((0..=18).filter(|number| ![1, 14].contains(number))));
    }
}
