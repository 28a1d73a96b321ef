//! Texts with the words that their rows are told in. What is expected is written here by
//! hand, or put together naively from the text's lines.

use super::limits::{negations, same_rows, up_to};
use super::{Case, raw, rows, tabbed};
use crate::judge::{MOST_ATOMS, MOST_ON_A_SIDE};
use std::path::Path;

/// So many bytes the command lends.
pub const LENT: usize = 1 << 20;

/// What the command prints of words that don't fit.
const NO_ROOM: &str = "14\t0\n";

/// A row of each rule out of the rest of the corpus, and its sentence.
#[rustfmt::skip]
pub const SENTENCES: [(&str, &str); 38] = [
    ("rule_def/anything_on_the_right",
        r#"Row 0: only atoms are given, so the negation of an atom that is not given holds by default; about the formula not "p"; from no other row; if these are all that is given: "q"; then in every equilibrium model at least one of these alternatives holds: "p", not "p", ("q" and "r"), contradiction."#),
    ("rule_same/compound",
        r#"Row 0: a given formula is itself one of the alternatives; about the formula (if "p" then not "q"); from no other row; if these are all that is given: (if "p" then not "q"); then in every equilibrium model at least one of these alternatives holds: (if "p" then not "q"), "r"."#),
    ("rule_andl/compound_parts",
        r#"Row 1: two given parts are given together as their conjunction; about the formula (("s" or "t") and not "t"); from row 0; if these are all that is given: "c", "g", (("s" or "t") and not "t"); then in every equilibrium model at least one of these alternatives holds: "c", "h"."#),
    ("rule_andr/plain",
        r#"Row 2: each of two parts is shown as an alternative, so their conjunction is one; about the formula ("p" and "q"); from row 0 and row 1; if these are all that is given: "c", "g"; then in every equilibrium model at least one of these alternatives holds: "c", "h", ("p" and "q")."#),
    ("rule_wr/to_an_empty_succedent",
        r#"Row 2: one more alternative is added to those already shown; about the formula "p"; from row 1; if these are all that is given: contradiction; then in every equilibrium model at least one of these alternatives holds: "p"."#),
    ("rule_bot/last_on_the_right",
        r#"Row 1: contradiction is dropped from the alternatives, as it never holds; about the formula contradiction; from row 0; if these are all that is given: contradiction, "p"; then there is no equilibrium model."#),
    ("rule_orr/bare",
        r#"Row 1: two alternatives are put together as their disjunction; about the formula ("p" or "q"); from row 0; if these are all that is given: "c"; then in every equilibrium model at least one of these alternatives holds: "c", ("p" or "q")."#),
    ("rule_orl/plain",
        r#"Row 2: each part of a given disjunction is taken in turn, the second with the first as one more alternative; about the formula ("p" or "q"); from row 0 and row 1; if these are all that is given: "c", "g", ("p" or "q"); then in every equilibrium model at least one of these alternatives holds: "c", "h"."#),
    ("rule_notl/compound_parts",
        r#"Row 1: an alternative is dropped, as its negation is given; about the formula not ("s" or "t"); from row 0; if these are all that is given: "c", "g", not ("s" or "t"); then in every equilibrium model at least one of these alternatives holds: "c", "h"."#),
    ("rule_impr/plain",
        r#"Row 1: an implication takes the place of its second part among the alternatives, and its first part is no longer given; about the formula (if "p" then "q"); from row 0; if these are all that is given: "c", "g"; then in every equilibrium model at least one of these alternatives holds: "c", "h", (if "p" then "q")."#),
    ("rule_impl/bare",
        r#"Row 2: an implication is given, as the first row has its second part given and shows its first part negated, the second its first part; about the formula (if "p" then "q"); from row 0 and row 1; if these are all that is given: "c", (if "p" then "q"); then in every equilibrium model at least one of these alternatives holds: "c"."#),
    ("rule_notr/bare",
        r#"Row 1: a formula is no longer given, and its negation is one more alternative; about the formula not "p"; from row 0; if these are all that is given: "c"; then in every equilibrium model at least one of these alternatives holds: "c", not "p"."#),
    ("rule_rcut/two_succedents_join",
        r#"Row 2: a formula that the first row has as an alternative and the second row as given is cut out, and the rest is joined; about the formula "p"; from row 0 and row 1; if these are all that is given: "c"; then in every equilibrium model at least one of these alternatives holds: "c", "r", "q"."#),
    ("rule_unst/all_chosen",
        r#"Row 27: the one set of atoms that is left as a model is not stable, as the second row shows, so any alternatives may stand; about no single formula; from row 21 and row 26; if these are all that is given: not not "q", not not "p"; then there is no equilibrium model."#),
    ("rule_xini/all_that_it_allows",
        r#"Row 0: the counter-case can be read off, as there are only atoms, contradiction and negations of these; about no single formula; from no other row; there is a counter-case in here-and-there where all of these hold: not contradiction, "p", not "q"; and none of these holds: contradiction, "q", "r", not "r", not "p"."#),
    ("rule_xnnl/bare",
        r#"Row 1: a double negation holds in the counter-case, as the single negation does not; about the formula not not "p"; from row 0; there is a counter-case in here-and-there where all of these hold: not not "p"; and nothing need fail."#),
    ("rule_xnnr/compound_parts",
        r#"Row 2: a double negation does not hold in the counter-case, as the single negation does; about the formula not not ("s" or "t"); from row 1; there is a counter-case in here-and-there where all of these hold: "g"; and none of these holds: "h", not not ("s" or "t")."#),
    ("rule_xandl/plain",
        r#"Row 1: a conjunction holds in the counter-case, as both its parts do; about the formula ("p" and "q"); from row 0; there is a counter-case in here-and-there where all of these hold: "g", ("p" and "q"); and none of these holds: "h"."#),
    ("rule_xandr1/compound_parts",
        r#"Row 2: a conjunction does not hold in the counter-case, as its first part does not; about the formula (("s" or "t") and not "t"); from row 1; there is a counter-case in here-and-there where all of these hold: "g"; and none of these holds: "h", (("s" or "t") and not "t")."#),
    ("rule_xandr2/bare",
        r#"Row 1: a conjunction does not hold in the counter-case, as its second part does not; about the formula ("p" and "q"); from row 0; there is a counter-case in here-and-there where nothing need hold; and none of these holds: ("p" and "q")."#),
    ("rule_xorr/plain",
        r#"Row 1: a disjunction does not hold in the counter-case, as neither of its parts does; about the formula ("p" or "q"); from row 0; there is a counter-case in here-and-there where all of these hold: "g"; and none of these holds: "h", ("p" or "q")."#),
    ("rule_xorl1/bare",
        r#"Row 1: a disjunction holds in the counter-case, as its first part does; about the formula ("p" or "q"); from row 0; there is a counter-case in here-and-there where all of these hold: ("p" or "q"); and nothing need fail."#),
    ("rule_xorl2/bare",
        r#"Row 1: a disjunction holds in the counter-case, as its second part does; about the formula ("p" or "q"); from row 0; there is a counter-case in here-and-there where all of these hold: ("p" or "q"); and nothing need fail."#),
    ("rule_ximpl1/bare",
        r#"Row 1: an implication holds in the counter-case, as neither its first part nor the negation of its second part does; about the formula (if "p" then "q"); from row 0; there is a counter-case in here-and-there where all of these hold: (if "p" then "q"); and nothing need fail."#),
    ("rule_ximpl2/bare",
        r#"Row 1: an implication holds in the counter-case, as its second part does; about the formula (if "p" then "q"); from row 0; there is a counter-case in here-and-there where all of these hold: (if "p" then "q"); and nothing need fail."#),
    ("rule_ximpl3/bare",
        r#"Row 1: an implication holds in the counter-case, as the negation of its first part does; about the formula (if "p" then "q"); from row 0; there is a counter-case in here-and-there where all of these hold: (if "p" then "q"); and nothing need fail."#),
    ("rule_ximpr1/bare",
        r#"Row 1: an implication does not hold in the counter-case, as its first part does and its second part does not; about the formula (if "p" then "q"); from row 0; there is a counter-case in here-and-there where nothing need hold; and none of these holds: (if "p" then "q")."#),
    ("rule_ximpr2/bare",
        r#"Row 1: an implication does not hold in the counter-case, as the negation of its second part does and that of its first part does not; about the formula (if "p" then "q"); from row 0; there is a counter-case in here-and-there where nothing need hold; and none of these holds: (if "p" then "q")."#),
    ("rule_xnimpl/bare",
        r#"Row 1: a negated implication holds in the counter-case, as the negation of its second part does and that of its first part does not; about the formula not (if "p" then "q"); from row 0; there is a counter-case in here-and-there where all of these hold: not (if "p" then "q"); and nothing need fail."#),
    ("rule_xnimpr1/bare",
        r#"Row 1: a negated implication does not hold in the counter-case, as the negation of its first part does; about the formula not (if "p" then "q"); from row 0; there is a counter-case in here-and-there where nothing need hold; and none of these holds: not (if "p" then "q")."#),
    ("rule_xnimpr2/bare",
        r#"Row 1: a negated implication does not hold in the counter-case, as the negation of its second part does not; about the formula not (if "p" then "q"); from row 0; there is a counter-case in here-and-there where nothing need hold; and none of these holds: not (if "p" then "q")."#),
    ("rule_xnandl1/bare",
        r#"Row 1: a negated conjunction holds in the counter-case, as the negation of its first part does; about the formula not ("p" and "q"); from row 0; there is a counter-case in here-and-there where all of these hold: not ("p" and "q"); and nothing need fail."#),
    ("rule_xnandl2/bare",
        r#"Row 1: a negated conjunction holds in the counter-case, as the negation of its second part does; about the formula not ("p" and "q"); from row 0; there is a counter-case in here-and-there where all of these hold: not ("p" and "q"); and nothing need fail."#),
    ("rule_xnandr/plain",
        r#"Row 1: a negated conjunction does not hold in the counter-case, as the negation of neither part does; about the formula not ("p" and "q"); from row 0; there is a counter-case in here-and-there where all of these hold: "g"; and none of these holds: "h", not ("p" and "q")."#),
    ("rule_xnorl/bare",
        r#"Row 1: a negated disjunction holds in the counter-case, as the negations of both its parts do; about the formula not ("p" or "q"); from row 0; there is a counter-case in here-and-there where all of these hold: not ("p" or "q"); and nothing need fail."#),
    ("rule_xnorr1/bare",
        r#"Row 1: a negated disjunction does not hold in the counter-case, as the negation of its first part does not; about the formula not ("p" or "q"); from row 0; there is a counter-case in here-and-there where nothing need hold; and none of these holds: not ("p" or "q")."#),
    ("rule_xnorr2/bare",
        r#"Row 1: a negated disjunction does not hold in the counter-case, as the negation of its second part does not; about the formula not ("p" or "q"); from row 0; there is a counter-case in here-and-there where nothing need hold; and none of these holds: not ("p" or "q")."#),
    ("rule_swap/b_kept",
        r#"Row 1: a formula takes the place of a given one that holds in the same cases of here-and-there; about the formula ("p" and "q"); from row 0; if these are all that is given: "c", ("q" and "p"), ("p" and "q"); then in every equilibrium model at least one of these alternatives holds: "c"."#),
];

/// The words of 01's whole file.
pub const WHOLE_FILE: &str = r#"Row 0: a given formula is itself one of the alternatives; about the formula "p"; from no other row; if these are all that is given: "p"; then in every equilibrium model at least one of these alternatives holds: "p", contradiction.
Row 1: an alternative is dropped, as its negation is given; about the formula not "p"; from row 0; if these are all that is given: "p", not "p"; then in every equilibrium model at least one of these alternatives holds: contradiction.
Row 2: a formula is no longer given, and its negation is one more alternative; about the formula not not "p"; from row 1; if these are all that is given: "p"; then in every equilibrium model at least one of these alternatives holds: contradiction, not not "p".
Row 3: only atoms are given, so the negation of an atom that is not given holds by default; about the formula not "p"; from no other row; if nothing is given; then in every equilibrium model at least one of these alternatives holds: not "p", contradiction.
Row 4: an implication is given, as the first row has its second part given and shows its first part negated, the second its first part; about the formula (if not "p" then "p"); from row 2 and row 3; if these are all that is given: (if not "p" then "p"); then in every equilibrium model at least one of these alternatives holds: contradiction.
"#;

/// What the rule means: the words between the first colon and the first semicolon of its
/// sentence above.
fn meaning(rule: &str) -> &'static str {
    let of_rule = |(name, _): &&(&str, &str)| name.split_once('/').unwrap().0 == format!("rule_{rule}");
    let (_, sentence) = SENTENCES.iter().find(of_rule).expect("a rule of the table");
    sentence.split_once(": ").unwrap().1.split_once("; ").unwrap().0
}

/// The words of the rows of an accepted text, line by line. Each formula is written out
/// in full as its line is met, so the words must not be too long for that.
fn told(text: &str) -> String {
    let (mut names, mut formulas, mut words): (Vec<&str>, Vec<String>, String) = Default::default();
    for line in text.lines() {
        let fields: Vec<&str> = line.split('\t').collect();
        let formula = |field: &str| formulas[field.parse::<usize>().unwrap()].clone();
        let list = |field: &str| -> Vec<String> {
            field.split(',').filter(|_| field != "-").map(String::from).collect()
        };
        let side = |field: &str| -> Vec<String> { list(field).iter().map(|item| formula(item)).collect() };
        match fields[..] {
            ["A", _, name] => names.push(name),
            ["F", _, word, first, second] => {
                let formula = match word {
                    "bot" => "contradiction".into(),
                    "atom" => format!("\"{}\"", names[first.parse::<usize>().unwrap()]),
                    "not" => format!("not {}", formula(first)),
                    "and" => format!("({} and {})", formula(first), formula(second)),
                    "or" => format!("({} or {})", formula(first), formula(second)),
                    "imp" => format!("(if {} then {})", formula(first), formula(second)),
                    _ => panic!("not a formula: {line}"),
                };
                formulas.push(formula);
            }
            ["N", number, rule, principal, premises, left, right] => {
                let principal = match principal {
                    "-" => "about no single formula".into(),
                    _ => format!("about the formula {}", formula(principal)),
                };
                let premises = match &list(premises)[..] {
                    [] => "from no other row".into(),
                    premises => format!("from row {}", premises.join(" and row ")),
                };
                let sides = match (rule.starts_with('x'), &side(left)[..], &side(right)[..]) {
                    (false, left, right) => [
                        match left {
                            [] => "if nothing is given".into(),
                            _ => format!("if these are all that is given: {}", left.join(", ")),
                        },
                        match right {
                            [] => "then there is no equilibrium model".into(),
                            _ => format!(
                                "then in every equilibrium model at least one of these alternatives holds: {}",
                                right.join(", ")
                            ),
                        },
                    ],
                    (true, left, right) => {
                        let there_is = "there is a counter-case in here-and-there where";
                        [
                            match left {
                                [] => format!("{there_is} nothing need hold"),
                                _ => format!("{there_is} all of these hold: {}", left.join(", ")),
                            },
                            match right {
                                [] => "and nothing need fail".into(),
                                _ => format!("and none of these holds: {}", right.join(", ")),
                            },
                        ]
                    }
                };
                let [left, right] = sides;
                let meaning = meaning(rule);
                words += &format!("Row {number}: {meaning}; {principal}; {premises}; {left}; {right}.\n");
            }
            _ => {}
        }
    }
    words
}

/// An accepted case and what the command prints of it.
fn printed(name: &str, text: String, words: impl Into<Vec<u8>>) -> Case {
    let lines = text.lines().count();
    Case { words: Some(words.into()), ..raw(&format!("words/{name}"), 0, lines, text) }
}

/// A case whose words are put together from its lines.
fn naive(name: &str, text: String) -> Case {
    let words = told(&text);
    printed(name, text, words)
}

/// A case from rows with formulas in place of numbers.
fn derived(name: &str, rows: &str) -> Case {
    let case = rows::accepted(name, rows).unwrap_or_else(|| panic!("no derivation: {rows}"));
    naive(name, String::from_utf8(case.text).unwrap())
}

pub fn cases() -> Vec<Case> {
    let mut cases = vec![
        naive("chilled_weight", plant_example()),
        derived("every_rule", EVERY_RULE),
        printed("names_like_words", tabbed(NAMES_LIKE_WORDS), NAMES_LIKE_WORDS_TOLD),
        printed("names_of_24_bytes", tabbed(LONG_NAMES), LONG_NAMES_TOLD),
        printed("empty_sides", tabbed(EMPTY_SIDES), EMPTY_SIDES_TOLD),
        naive("64_on_each_side", sixty_four_on_each_side()),
        naive("rows_from_1000_on", negations(1) + &same_rows(1001) + &tabbed("N 1001 wr 0 1000 0 0 / C 0 0")),
        printed("1048576_bytes", words_of(LENT), told(&words_of(LENT))),
        printed("1048577_bytes", words_of(LENT + 1), NO_ROOM),
    ];
    cases.extend(deep_formulas());
    cases.extend(shared_parts());
    for (one, one_rows, other, other_rows) in DIFFERENT {
        cases.extend([derived(one, one_rows), derived(other, other_rows)]);
    }
    for (one, one_text, other, other_text) in EQUAL {
        cases.extend([naive(one, tabbed(one_text)), naive(other, tabbed(other_text))]);
    }
    cases
}

/// examples/chilled_weight.elk
fn plant_example() -> String {
    let file = Path::new(env!("CARGO_MANIFEST_DIR")).join("../../examples/chilled_weight.elk");
    std::fs::read_to_string(file).expect("the plant example")
}

const EVERY_RULE: &str = "
    def ~p - - => p,~p
    def ~p - - => q,~p
    def ~q - p => ~p,~q
    def ~p - q => p,~p,~q
    same p - p => p
    same p - p,q => p
    same q - p,q => q
    same # - # => #
    same q - q => q,~~p
    same q - q,~p->q => p,q
    andl p&q 5 p&q => p
    andr p&q 5,6 p,q => p&q
    wr q 4 p => p,q
    bot # 7 # => -
    orr p|q 9 q,~p->q => p|q
    orl p|q 2,3 p|q => ~p,~q
    notl ~~p 0 ~~p => p
    impr p->q 6 q => p->q
    impl ~p->q 8,1 ~p->q => q
    notr ~q 5 p => p,~q
    rcut q 18,14 ~p->q => p|q
    xini - - - ; p,~p
    xini - - ~p ; -
    xini - - p,q ; -
    xini - - - ; p
    xini - - - ; q
    xini - - p ; -
    xini - - q ; -
    xini - - - ; p,~q
    xini - - p ; q
    xini - - ~q ; ~p
    xini - - - ; ~q
    xini - - ~q ; -
    xini - - - ; ~p,~q
    xini - - ~p,~q ; -
    xini - - - ; ~p
    xini - - ~# ; #
    xnnl ~~p 21 ~~p ; p,~p
    xnnr ~~p 22 - ; ~~p
    xandl p&q 23 p&q ; -
    xandr1 p&q 24 - ; p&q
    xandr2 p&q 25 - ; p&q
    xorr p|~p 37 ~~p ; p|~p
    xorl1 p|q 26 p|q ; -
    xorl2 p|q 27 p|q ; -
    ximpl1 p->q 28 p->q ; -
    ximpl2 p->q 27 p->q ; -
    ximpl3 p->q 22 p->q ; -
    ximpr1 p->q 29 - ; p->q
    ximpr2 p->q 30 - ; p->q
    xnimpl ~(p->q) 30 ~(p->q) ; -
    xnimpr1 ~(p->q) 22 - ; ~(p->q)
    xnimpr2 ~(p->q) 31 - ; ~(p->q)
    xnandl1 ~(p&q) 22 ~(p&q) ; -
    xnandl2 ~(p&q) 32 ~(p&q) ; -
    xnandr ~(p&q) 33 - ; ~(p&q)
    xnorl ~(p|q) 34 ~(p|q) ; -
    xnorr1 ~(p|q) 35 - ; ~(p|q)
    xnorr2 ~(p|q) 31 - ; ~(p|q)
    unst - 16,42 ~~p => -
    swap ~(p->#) 16 ~(p->#) => p
";

const NAMES_LIKE_WORDS: &str = "A 0 not / A 1 contradiction / A 2 and / A 3 or / A 4 if / A 5 then / A 6 row / \
    F 0 atom 0 - / F 1 not 0 - / F 2 atom 1 - / F 3 bot - - / F 4 atom 2 - / F 5 and 4 4 / F 6 atom 3 - / \
    F 7 or 6 6 / F 8 atom 4 - / F 9 atom 5 - / F 10 imp 8 9 / F 11 atom 6 - / \
    N 0 same 1 - 0,1,2,3 1,5,7,10,11 / N 1 same 0 - 0 0 / M 0 / C 0 0";

const NAMES_LIKE_WORDS_TOLD: &str = r#"Row 0: a given formula is itself one of the alternatives; about the formula not "not"; from no other row; if these are all that is given: "not", not "not", "contradiction", contradiction; then in every equilibrium model at least one of these alternatives holds: not "not", ("and" and "and"), ("or" or "or"), (if "if" then "then"), "row".
Row 1: a given formula is itself one of the alternatives; about the formula "not"; from no other row; if these are all that is given: "not"; then in every equilibrium model at least one of these alternatives holds: "not".
"#;

const LONG_NAMES: &str = "A 0 abcdefghijklmnopqrstuvwx / A 1 y0123456789_0123456789__ / A 2 z / \
    F 0 atom 2 - / F 1 atom 1 - / F 2 atom 0 - / N 0 same 2 - 1,2 0,2 / M 0,1 / C 1,2 0,2";

const LONG_NAMES_TOLD: &str = r#"Row 0: a given formula is itself one of the alternatives; about the formula "abcdefghijklmnopqrstuvwx"; from no other row; if these are all that is given: "y0123456789_0123456789__", "abcdefghijklmnopqrstuvwx"; then in every equilibrium model at least one of these alternatives holds: "z", "abcdefghijklmnopqrstuvwx".
"#;

/// Each side is empty in one row, and both in a refutation.
const EMPTY_SIDES: &str = "A 0 p / F 0 bot - - / F 1 atom 0 - / F 2 not 1 - / \
    N 0 xini - - - - / N 1 xini - - - 1 / N 2 xini - - 1 - / N 3 def 2 - - 2 / N 4 same 0 - 0 0 / N 5 bot 0 4 0 - / C 0 -";

const EMPTY_SIDES_TOLD: &str = r#"Row 0: the counter-case can be read off, as there are only atoms, contradiction and negations of these; about no single formula; from no other row; there is a counter-case in here-and-there where nothing need hold; and nothing need fail.
Row 1: the counter-case can be read off, as there are only atoms, contradiction and negations of these; about no single formula; from no other row; there is a counter-case in here-and-there where nothing need hold; and none of these holds: "p".
Row 2: the counter-case can be read off, as there are only atoms, contradiction and negations of these; about no single formula; from no other row; there is a counter-case in here-and-there where all of these hold: "p"; and nothing need fail.
Row 3: only atoms are given, so the negation of an atom that is not given holds by default; about the formula not "p"; from no other row; if nothing is given; then in every equilibrium model at least one of these alternatives holds: not "p".
Row 4: a given formula is itself one of the alternatives; about the formula contradiction; from no other row; if these are all that is given: contradiction; then in every equilibrium model at least one of these alternatives holds: contradiction.
Row 5: contradiction is dropped from the alternatives, as it never holds; about the formula contradiction; from row 4; if these are all that is given: contradiction; then there is no equilibrium model.
"#;

/// Atoms with these names, and a formula of each, by the same numbers.
fn atoms(names: &[String]) -> String {
    let mut text = String::new();
    for (k, name) in names.iter().enumerate() {
        text += &format!("A\t{k}\t{name}\n");
    }
    for k in 0..names.len() {
        text += &format!("F\t{k}\tatom\t{k}\t-\n");
    }
    text
}

fn sixty_four_on_each_side() -> String {
    let names: Vec<String> = (0..MOST_ATOMS).map(|k| format!("side_{k}")).collect();
    let all = up_to(MOST_ON_A_SIDE);
    atoms(&names) + &tabbed(&format!("N 0 same 63 - {all} {all} / N 1 same 0 - 0 0 / M 0 / C 0 0"))
}

/// A text whose words have exactly so many bytes. Row 0 has 63 atoms on its left, whose
/// names make up what is missing after so many wide rows.
fn words_of(bytes: usize) -> String {
    const MOST_SPARE: usize = 21;
    let text = |wide_rows: usize, mut spare: usize| {
        let name = |k: usize| {
            let more = spare.min(MOST_SPARE);
            spare -= more;
            format!("a{k}{}", "_".repeat(more))
        };
        let names: Vec<String> = (0..MOST_ATOMS - 1).map(name).collect();
        assert_eq!(spare, 0, "names that make up for it");
        let doubled = "F 63 bot - - / F 64 not 63 - / F 65 and 64 64 / F 66 and 65 65 / F 67 and 66 66";
        let first = format!("N 0 same 63 - {} 63", up_to(MOST_ON_A_SIDE));
        let wide = (1..=wide_rows).map(|k| format!("N\t{k}\tsame\t67\t-\t67\t67\n"));
        atoms(&names) + &tabbed(doubled) + &tabbed(&first) + &wide.collect::<String>() + "M\t-\nC\t67\t67\n"
    };
    let first = told(&text(0, 0)).len();
    let without_number = told(&text(1, 0)).len() - first - "1".len();
    let wide = |k: usize| without_number + k.to_string().len();
    let (mut length, mut rows) = (first, 0);
    while length + wide(rows + 1) <= bytes {
        rows += 1;
        length += wide(rows);
    }
    text(rows, bytes - length)
}

/// Formula 0 is p, and each further one of 1,023 is made of the one before it.
fn chain(line: impl Fn(usize) -> String) -> String {
    let chained = (1..1024).map(|k| tabbed(&format!("F {k} {}", line(k - 1))));
    tabbed("A 0 p / F 0 atom 0 -") + &chained.collect::<String>()
}

fn deep_formulas() -> Vec<Case> {
    let row = tabbed("N 0 same 1023 - 1023 1023");
    let told = |formula: String| {
        format!(
            "Row 0: a given formula is itself one of the alternatives; about the formula {formula}; \
            from no other row; if these are all that is given: {formula}; \
            then in every equilibrium model at least one of these alternatives holds: {formula}.\n"
        )
    };
    let times = |words: &str| words.repeat(1023);
    let negated = told(times("not ") + "\"p\"");
    let rightwards = told(times("(if \"p\" then ") + "\"p\"" + &times(")"));
    let leftwards = told(times("(if ") + "\"p\"" + &times(" then \"p\")"));
    let conjoined = told(times("(") + "\"p\"" + &times(" and \"p\")"));
    // As a sheet, the first means ~p, the next two nothing, and the last p.
    let [nothing, p] = ["M - / C 1023 1023", "M 0 / C 1023 1023"].map(|end| row.clone() + &tabbed(end));
    vec![
        printed("1023_negations", chain(|last| format!("not {last} -")) + &nothing, negated),
        printed(
            "1023_implications_to_the_right",
            chain(|last| format!("imp 0 {last}")) + &nothing,
            rightwards,
        ),
        printed("1023_implications_to_the_left", chain(|last| format!("imp {last} 0")) + &nothing, leftwards),
        printed("1023_conjunctions_to_the_left", chain(|last| format!("and {last} 0")) + &p, conjoined),
    ]
}

/// Formula 1023 has more than 2^1000 bytes of words, or 2^760 where one word of four has
/// one part only. Lengths that wrap around at a power of 2 would be small.
fn shared_parts() -> Vec<Case> {
    let doubled = chain(|last| format!("and {last} {last}"));
    // The last word is `imp`, so that formula 1023 holds everywhere.
    let mixed = chain(|last| match last % 4 {
        0 => format!("or {last} {last}"),
        1 => format!("and {last} {last}"),
        2 => format!("imp {last} {last}"),
        _ => format!("not {last} -"),
    });
    let on_both_sides = |model: &str| tabbed(&format!("N 0 same 1023 - 1023 1023 / M {model} / C 1023 1023"));
    let added_last =
        tabbed("N 0 same 0 - 0 0 / N 1 same 0 - 0 0 / N 2 wr 1023 1 0 0,1023 / M 0 / C 0 0,1023");
    let twelve_deep: String = doubled.split_inclusive('\n').take(14).collect();
    let at_twelve = tabbed("N 0 same 12 - 12 12 / N 1 wr 0 0 12 0,12 / M 0 / C 12 0,12");
    let alone = "Row 0: a given formula is itself one of the alternatives; about the formula \"p\"; \
        from no other row; if these are all that is given: \"p\"; \
        then in every equilibrium model at least one of these alternatives holds: \"p\".\n";
    vec![
        printed("shared_parts_on_both_sides", doubled.clone() + &on_both_sides("0"), NO_ROOM),
        printed("shared_parts_of_every_word", mixed + &on_both_sides("-"), NO_ROOM),
        printed("shared_parts_in_the_last_row", doubled.clone() + &added_last, NO_ROOM),
        printed("shared_parts_in_no_row", doubled + &tabbed("N 0 same 0 - 0 0 / M 0 / C 0 0"), alone),
        naive("shared_parts_that_fit", twelve_deep + &at_twelve),
    ]
}

/// Pairs of derivations that differ in what is told; each is a name and rows.
#[rustfmt::skip]
const DIFFERENT: &[(&str, &str, &str, &str)] = &[
    ("falsum_added_by_wr", "same p - p => p,q,#\nwr # 0 p => p,q,#",
        "falsum_kept_by_bot", "same p - p => p,q,#\nbot # 0 p => p,q,#"),
    ("equal_parts_by_xandr1", "xini - - - ; p\nxandr1 p&p 0 - ; p&p",
        "equal_parts_by_xandr2", "xini - - - ; p\nxandr2 p&p 0 - ; p&p"),
    ("equal_parts_by_xorl1", "xini - - p ; -\nxorl1 p|p 0 p|p ; -",
        "equal_parts_by_xorl2", "xini - - p ; -\nxorl2 p|p 0 p|p ; -"),
    ("equal_parts_by_xnandl1", "xini - - ~p ; -\nxnandl1 ~(p&p) 0 ~(p&p) ; -",
        "equal_parts_by_xnandl2", "xini - - ~p ; -\nxnandl2 ~(p&p) 0 ~(p&p) ; -"),
    ("equal_parts_by_xnorr1", "xini - - - ; ~p\nxnorr1 ~(p|p) 0 - ; ~(p|p)",
        "equal_parts_by_xnorr2", "xini - - - ; ~p\nxnorr2 ~(p|p) 0 - ; ~(p|p)"),
    ("implied_negation_by_ximpl2", "xini - - ~p ; -\nximpl2 p->~p 0 p->~p ; -",
        "implied_negation_by_ximpl3", "xini - - ~p ; -\nximpl3 p->~p 0 p->~p ; -"),
    ("disjunction_in_a_sequent", "def ~p - q => ~p,~r\norr ~p|~r 0 q => ~p|~r\nsame c - c => c",
        "disjunction_in_a_refutation", "xini - - q ; ~p,~r\nxorr ~p|~r 0 q ; ~p|~r\nsame c - c => c"),
    ("default_in_a_sequent", "def ~p - q => ~p\nsame c - c => c",
        "default_in_a_refutation", "xini - - q ; ~p\nsame c - c => c"),
    ("negation_added_by_wr", "same p - p => p\nwr ~p 0 p => p,~p",
        "negation_added_by_notr", "same p - p => p\nnotr ~p 0 p => p,~p"),
    ("disjunction_added_by_wr", "same p - p => p,q\nwr p|q 0 p => p,q,p|q",
        "disjunction_added_by_orr", "same p - p => p,q\norr p|q 0 p => p,q,p|q"),
    ("implication_added_by_wr", "same p - p => p,q\nwr p->q 0 p => p,q,p->q",
        "implication_added_by_impr", "same p - p => p,q\nimpr p->q 0 p => p,q,p->q"),
    ("conjunction_put_together_by_andl", "same p - p => p,r\nandl p&p 0 p&p => p,r",
        "conjunction_put_in_by_swap", "same p - p => p,r\nswap p&p 0 p&p => p,r"),
    ("row_repeated_by_notl", "same p - p,~p => p,r\nnotl ~p 0 p,~p => p,r",
        "row_repeated_by_swap", "same p - p,~p => p,r\nswap ~p 0 p,~p => p,r"),
    ("premises_in_one_order", "same p - p => p\nsame p - p => p\nandr p&p 0,1 p => p&p",
        "premises_in_the_other_order", "same p - p => p\nsame p - p => p\nandr p&p 1,0 p => p&p"),
    ("premise_of_one_row", "same p - p => p\nsame p - p => p\nwr q 0 p => p,q",
        "premise_of_another_row", "same p - p => p\nsame p - p => p\nwr q 1 p => p,q"),
    ("principal_of_one_formula", "same p - p,q => p,q",
        "principal_of_another_formula", "same q - p,q => p,q"),
    ("side_of_the_left", "same p - p,q => p",
        "side_of_the_right", "same p - p => p,q"),
    ("nested_to_the_left", "same p&q - (p&q)&r,p&q => p&q",
        "nested_to_the_right", "same p&q - p&(q&r),p&q => p&q"),
    ("implications_to_the_left", "same p - (p->q)->r,p => p",
        "implications_to_the_right", "same p - p->(q->r),p => p"),
    ("negation_inside_brackets", "same r - (~p)&q,r => r",
        "negation_outside_brackets", "same r - ~(p&q),r => r"),
    ("negation_of_the_first_part", "same p - ~p->q,p => p",
        "negation_of_the_implication", "same p - ~(p->q),p => p"),
    ("parts_in_one_order", "same p&q - p&q => p&q",
        "parts_in_the_other_order", "same q&p - q&p => q&p"),
    ("implication_of_p_and_q", "same p->q - p->q => p->q",
        "implication_of_q_and_p", "same q->p - q->p => q->p"),
    ("a_conjunction_of_two", "same p&r - p&r => p&r",
        "a_disjunction_of_two", "same p|r - p|r => p|r"),
    ("falsum_itself", "same # - # => #,r\nsame c - c => c",
        "an_atom_called_contradiction", "same contradiction - contradiction => contradiction,r\nsame c - c => c"),
    ("a_negation", "same ~p - ~p => ~p,r",
        "an_atom_called_not_p", "same not_p - not_p => not_p,r"),
    ("an_atom_of_one_name", "same p - p => p,r",
        "an_atom_of_another_name", "same q - q => q,r"),
    ("one_row", "same p - p => p,r,s",
        "one_row_twice", "same p - p => p,r,s\nsame p - p => p,r,s"),
];

/// Pairs of texts that differ, and whose rows are the same all the same.
#[rustfmt::skip]
const EQUAL: &[(&str, &str, &str, &str)] = &[
    ("formula_numbers", "A 0 u / F 0 atom 0 - / F 1 bot - - / N 0 same 0 - 0 0 / M 0 / C 0 0",
        "formula_numbers_exchanged", "A 0 u / F 0 bot - - / F 1 atom 0 - / N 0 same 1 - 1 1 / M 0 / C 1 1"),
    ("atom_numbers", "A 0 u / A 1 v / F 0 atom 0 - / F 1 atom 1 - / N 0 same 0 - 0,1 0 / M 0,1 / C 0,1 0",
        "atom_numbers_exchanged", "A 0 v / A 1 u / F 0 atom 1 - / F 1 atom 0 - / N 0 same 0 - 0,1 0 / M 0,1 / C 0,1 0"),
    ("all_items_used", "A 0 w / F 0 atom 0 - / N 0 same 0 - 0 0 / M 0 / C 0 0",
        "items_that_no_row_uses", "A 0 u / A 1 w / F 0 bot - - / F 1 atom 1 - / F 2 not 1 - / F 3 and 2 0 / N 0 same 1 - 1 1 / M 1 / C 1 1"),
    ("one_model", "A 0 u / A 1 v / F 0 atom 0 - / F 1 atom 1 - / F 2 or 0 1 / N 0 same 2 - 2 2 / M 0 / C 2 2",
        "another_model", "A 0 u / A 1 v / F 0 atom 0 - / F 1 atom 1 - / F 2 or 0 1 / N 0 same 2 - 2 2 / M 1 / C 2 2"),
];

#[cfg(test)]
mod tests {
    use super::super::cases;
    use super::*;
    use crate::judge::{Deciding, LEAST, Tables, judge, judge_closely};
    use crate::reading;
    use crate::rules::ELK;
    use crate::words::{Answer, MEANINGS, length, words};
    use std::collections::BTreeSet;
    use std::sync::LazyLock;

    static CASES: LazyLock<Vec<Case>> = LazyLock::new(cases);

    fn case(name: &str) -> &'static Case {
        CASES.iter().find(|case| case.name == name).unwrap_or_else(|| panic!("no case {name}"))
    }

    /// What is printed where the words of a case are asked for.
    fn expected(case: &Case) -> &[u8] {
        case.words.as_deref().unwrap_or_else(|| panic!("no words of {}", case.name))
    }

    /// What the command prints.
    fn print(answer: &Answer) -> Vec<u8> {
        match answer.number {
            0 => answer.words.iter().copied().take_while(|&byte| byte != 0).collect(),
            _ => format!("{}\t{}\n", answer.number, answer.line).into_bytes(),
        }
    }

    fn sentences(words: &[u8]) -> Vec<String> {
        String::from_utf8(words.to_vec()).unwrap().lines().map(String::from).collect()
    }

    fn told_cases() -> impl Iterator<Item = &'static Case> {
        CASES.iter().filter(|case| case.words.as_ref().is_some_and(|words| words.starts_with(b"Row ")))
    }

    #[test]
    fn second_checker_tells_what_is_expected() {
        for case in CASES.iter().filter(|case| case.words.is_some()) {
            assert!(print(&words(&case.text, &LEAST, LENT)) == expected(case), "{}", case.name);
        }
    }

    #[test]
    fn a_row_of_every_rule() {
        let mut rules = BTreeSet::new();
        for (name, sentence) in SENTENCES {
            let told = sentences(&print(&words(&case(name).text, &LEAST, LENT)));
            let number = sentence.strip_prefix("Row ").unwrap().split_once(':').unwrap().0;
            assert_eq!(told[number.parse::<usize>().unwrap()], sentence, "{name}");
            rules.insert(name.strip_prefix("rule_").unwrap().split_once('/').unwrap().0);
        }
        assert_eq!(rules, ELK.rules.iter().map(|rule| rule.name).collect());
        for (rule, (name, phrase)) in ELK.rules.iter().zip(MEANINGS) {
            assert_eq!((rule.name, meaning(rule.name)), (name, phrase));
        }
    }

    #[test]
    fn no_two_rules_mean_the_same() {
        let phrases: BTreeSet<&str> = MEANINGS.iter().map(|&(_, phrase)| phrase).collect();
        assert_eq!(phrases.len(), ELK.rules.len());
        assert!(phrases.iter().all(|phrase| !phrase.contains(';') && phrase.is_ascii()));
    }

    /// The page has the same table.
    #[test]
    fn meanings_of_the_page() {
        let page = Path::new(env!("CARGO_MANIFEST_DIR")).join("../../docs/FORMAT.md");
        let page = std::fs::read_to_string(page).unwrap();
        let rows = MEANINGS.map(|(rule, phrase)| format!("| `{rule}` | {phrase} |\n"));
        assert!(page.contains(&rows.concat()));
    }

    /// Exactly the words, one byte less, none, one more and many more.
    #[test]
    fn lent_texts_of_several_lengths() {
        for case in told_cases() {
            let expected = expected(case);
            let judgement = judge(&case.text, &LEAST);
            let zero = LEAST.map(|length| vec![0; length]);
            for space in [expected.len(), expected.len() + 1, expected.len() + 5_000] {
                let answer = words(&case.text, &LEAST, space);
                assert_eq!((answer.number, answer.line), (0, case.line), "{}", case.name);
                assert!(answer.tables == judgement.tables, "{}", case.name);
                assert_eq!(answer.words.len(), space);
                assert!(answer.words[..expected.len()] == *expected, "{}", case.name);
                assert!(answer.words[expected.len()..].iter().all(|&byte| byte == 0), "{}", case.name);
            }
            for space in [expected.len() - 1, expected.len() / 2, 1, 0] {
                let answer = words(&case.text, &LEAST, space);
                let refused = Answer { number: 14, line: 0, tables: zero.clone(), words: vec![0; space] };
                assert!(answer == refused, "{} in {space}", case.name);
            }
        }
    }

    #[test]
    fn a_refused_text_is_not_told() {
        let refused = |text: &[u8], lent: &Tables<usize>, space: usize| {
            let answer = words(text, lent, space);
            assert!(answer.tables == lent.clone().map(|length| vec![0; length]));
            assert!(answer.words == vec![0; space]);
            (answer.number, answer.line)
        };
        let whole_file = &case("examples/whole_file").text;
        let short = Tables { left: LEAST.left - 1, ..LEAST };
        for space in [0, 1, 5_000] {
            assert_eq!(refused(whole_file, &short, space), (1, 0));
            assert_eq!(refused(&case("limits/65537_bytes").text, &LEAST, space), (2, 0));
            assert_eq!(refused(&case("examples/empty_text").text, &LEAST, space), (13, 1));
            let swapped = case("examples/whole_file_with_premises_swapped");
            assert_eq!(refused(&swapped.text, &LEAST, space), (11, 11));
        }
    }

    /// Words read back as the rows, and their length is known before they are written.
    #[test]
    fn words_tell_the_rows() {
        for case in told_cases() {
            let expected = expected(case);
            let (_, derivation) = judge_closely(&case.text, &LEAST, Deciding::Fast);
            let derivation = derivation.unwrap();
            assert_eq!(length(&derivation), expected.len() as u64, "{}", case.name);
            assert!(!expected.contains(&0), "{}", case.name);
            assert!(reading::read(expected) == Some(reading::told(&derivation)), "{}", case.name);
        }
        let (_, derivation) =
            judge_closely(&case("words/shared_parts_on_both_sides").text, &LEAST, Deciding::Fast);
        assert_eq!(length(&derivation.unwrap()), u64::MAX);
    }

    #[test]
    fn pairs_that_differ_in_words() {
        for (one, _, other, _) in DIFFERENT {
            let [one, other] = [one, other].map(|name| case(&format!("words/{name}")));
            assert!(expected(one) != expected(other), "{} and {}", one.name, other.name);
            let told = [one, other].map(|case| words(&case.text, &LEAST, LENT).words);
            assert!(told[0] != told[1], "{} and {}", one.name, other.name);
        }
    }

    #[test]
    fn pairs_with_equal_words() {
        for (one, _, other, _) in EQUAL {
            let [one, other] = [one, other].map(|name| case(&format!("words/{name}")));
            assert!(one.text != other.text);
            assert!(expected(one) == expected(other), "{} and {}", one.name, other.name);
            let told = [one, other].map(|case| words(&case.text, &LEAST, LENT).words);
            assert!(told[0] == told[1], "{} and {}", one.name, other.name);
        }
    }
}
