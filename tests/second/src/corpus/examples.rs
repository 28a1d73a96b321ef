//! Every example of the paper, and its rows that look sound.

use super::{Case, plain, rows, untold, words};

const WHOLE_FILE: &str = "A 0 p / F 0 atom 0 - / F 1 not 0 - / F 2 imp 1 0 / F 3 bot - - / F 4 not 1 - / \
    N 0 same 0 - 0 0,3 / N 1 notl 1 0 0,1 3 / N 2 notr 4 1 0 3,4 / N 3 def 1 - - 1,3 / \
    N 4 impl 2 2,3 2 3 / C 2 3";

pub fn cases() -> Vec<Case> {
    let swapped = WHOLE_FILE.replace("2,3 2 3", "3,2 2 3");
    let unclaimed = WHOLE_FILE.strip_suffix(" / C 2 3").unwrap();
    let mut cases = vec![
        Case { words: Some(words::WHOLE_FILE.into()), ..plain("examples/whole_file", 0, 12, WHOLE_FILE) },
        untold(plain("examples/whole_file_with_premises_swapped", 11, 11, &swapped)),
        untold(plain("examples/whole_file_without_claim", 13, 12, unclaimed)),
        untold(super::raw("examples/empty_text", 13, 1, "")),
        untold(plain("examples/only_an_atom_and_an_empty_claim", 12, 2, "A 0 p / C - -")),
    ];
    cases.extend(rows::group("examples", DERIVATIONS));
    cases.extend(rows::group("look_sound", LOOK_SOUND));
    cases
}

/// Derivations of the paper on the calculus, and of the sheets of condition 3.
const DERIVATIONS: &str = "
accepted example_2_excludes_a_disjunct
    def ~b - a => ~b
    def ~b - a => ~b,b
    impl b->a 0,1 a,b->a => ~b
    same a - b,a => ~b,a
    same b - b => ~b,b,a
    impl b->a 3,4 b,b->a => ~b,a
    orl a|b 2,5 a|b,b->a => ~b
    andl (a|b)&(b->a) 6 (a|b)&(b->a) => ~b
accepted example_4_a_positive_loop_supports_nothing
    prove a->b,b->a => ~a
accepted example_5_an_infeasible_sheet
    prove ~c->(a|b),~(a&d),~b,d => #
accepted falsum_alone_entails_nothing
    prove # => -
accepted double_negation_has_no_equilibrium_model
    prove ~~p => #
accepted disjunction_gives_one_disjunct
    prove a|b => a&~b,b&~a
accepted excluded_middle_leaves_a_choice
    prove a|~a => a,~a
accepted loop_with_a_disjunction_gives_both
    prove a|b,a->b,b->a => a&b
accepted even_negative_cycle_with_a_consequence
    prove ~a->b,~b->a,a->c => (a&c)&~b,b&(~a&~c)
";

const LOOK_SOUND: &str = "
accepted nothing_gives_not_a
    def ~a - - => ~a
refused 11 adding_to_the_left_by_wr
    def ~a - - => ~a
    wr ~a 0 a => ~a
refused 11 adding_to_the_left_by_def
    def ~a - a => ~a
refused 11 adding_to_the_left_by_rcut
    def ~a - - => ~a
    same ~a - ~a,a => ~a
    rcut ~a 0,1 a => ~a
refused 11 adding_what_is_derived_to_the_left
    def ~a - - => ~a
    prove - => a|~a
    rcut a|~a 1,0 a|~a => ~a
refused 11 def_whenever_p_itself_is_not_on_the_left
    def ~p - q,q->p => ~p
accepted xini_with_p_and_not_p_on_the_right
    xini - - - ; p,~p
refused 10 refutation_as_premise_of_wr
    xini - - - ; p
    wr q 0 - => p,q
refused 10 refutation_as_premise_of_notl
    xini - - - ; p
    notl ~p 0 ~p => -
refused 11 unst_with_v_from_the_file
    atoms p,q
    prove ~~p => p&~q
    refute ~~p,~q ; p|~p
    unst - 0,1 ~~p => #
refused 10 sequent_as_premise_of_a_refutation
    same p - p => p
    xandl p&p 0 p&p ; p
";
