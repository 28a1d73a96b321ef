//! Constraints that join a sheet: the rows that derive the claim from the new sheet, rows that
//! come near, and the M line, which is judged afresh.

use super::{Case, plain, rows};

pub fn cases() -> Vec<Case> {
    let derivations = [SHEETS, FORBIDDEN, NONE_LEFT, SEVERAL, NEGATIONS_NEARLY, IMPLICATIONS_NEARLY, FACTS];
    let mut cases: Vec<Case> = derivations.iter().flat_map(|text| rows::group("constraints", text)).collect();
    let case =
        |&(name, line, text): &(&str, usize, &str)| plain(&format!("constraints/{name}"), 12, line, text);
    cases.extend(CLAIMS.iter().map(case));
    cases
}

/// Both forms joined to small sheets. The models of the new sheet are those of the old one that
/// do not satisfy what is forbidden: an M line is right where it names one of these.
const SHEETS: &str = "
accepted fact_and_an_atom_that_the_sheet_lacks
    model p
    same p - p => p
    join ~q
accepted fact_and_an_atom_that_the_sheet_lacks_to_falsum
    model p
    same p - p => p
    join q->#
accepted empty_sheet_and_what_it_leaves_out
    model -
    def ~p - - => ~p
    join ~p
accepted empty_sheet_and_what_it_leaves_out_to_falsum
    model -
    def ~p - - => ~p
    join p->#
accepted disjunction_with_the_model_that_is_left
    model p
    same p|q - p|q => p|q
    join ~q
accepted disjunction_to_falsum_with_the_model_that_is_left
    model p
    same p|q - p|q => p|q
    join q->#
refused 17 disjunction_with_the_model_that_is_gone
    model q
    same p|q - p|q => p|q
    join ~q
refused 17 disjunction_to_falsum_with_the_model_that_is_gone
    model q
    same p|q - p|q => p|q
    join q->#
refused 15 disjunction_without_a_model
    same p|q - p|q => p|q
    join ~q
accepted choice_forbidden
    model -
    same a|~a - a|~a => a|~a
    join ~a
refused 17 choice_forbidden_with_the_model_that_is_gone
    model a
    same a|~a - a|~a => a|~a
    join ~a
accepted choice_forced
    model a
    same a|~a - a|~a => a|~a
    join ~~a
refused 17 choice_forced_to_falsum_with_the_model_that_is_gone
    model -
    same a|~a - a|~a => a|~a
    join ~a->#
accepted rules_and_an_exception_that_there_is_not
    model p,q,s
    same q - p,q,~r->s => q,~p
    same p - p,~r->s => q,p
    impl p->q 0,1 p,p->q,~r->s => q
    join r->#
refused 17 rules_and_the_default_that_gave_the_model
    model p,q,s
    same q - p,q,~r->s => q,~p
    same p - p,~r->s => q,p
    impl p->q 0,1 p,p->q,~r->s => q
    join ~s
accepted nothing_claimed
    same # - # => #
    bot # 0 # => -
    join ~p
accepted nothing_claimed_to_falsum
    same # - # => #
    bot # 0 # => -
    join p->#
refused 15 nothing_claimed_with_a_model
    model -
    same # - # => #
    bot # 0 # => -
    join ~p
accepted falsum_claimed
    same p - p => p,#
    notl ~p 0 p,~p => #
    join ~q
accepted falsum_claimed_to_falsum
    same p - p => p,#
    notl ~p 0 p,~p => #
    join q->#
";

/// What may be forbidden.
const FORBIDDEN: &str = "
accepted falsum_forbidden
    model p
    same p - p => p
    join ~#
accepted falsum_forbidden_to_falsum
    model p
    same p - p => p
    join #->#
accepted conjunction_of_both_disjuncts
    model q
    same p|q - p|q => p|q
    join ~(p&q)
refused 17 conjunction_of_the_facts
    model p,q
    same p - p,q => p
    join (p&q)->#
accepted disjunction_with_an_atom_that_the_sheet_lacks
    model p
    same p|q - p|q => p|q
    join (q|r)->#
accepted implication_that_fails_in_the_model
    model p
    same p|q - p|q => p|q
    join ~(p->q)
refused 17 implication_that_holds_in_the_model
    model q
    same p|q - p|q => p|q
    join (p->q)->#
accepted formula_of_the_right_side
    model p
    same p - p => p,q
    join ~q
accepted formula_that_leaves_the_right_side
    model p
    same p - p => p,q
    same q - q => p,q
    orl p|q 0,1 p|q => p,q
    notl ~q 2 p|q,~q => p
refused 17 atom_of_the_constraint_alone_in_the_model
    model p,q
    same p - p => p
    join ~q
refused 17 atom_of_a_constraint_that_holds_there
    model p,q
    same p - p => p
    join ~(q&r)
refused 17 atom_that_the_constraint_asks_for
    model p,q
    same p - p => p
    join ~~q
";

/// Sheets of which no model is left. That the claim is still entailed does not confirm it; what
/// it reports then is a contradiction.
const NONE_LEFT: &str = "
refused 17 only_fact_forbidden_with_its_model
    model p
    same p - p => p
    join ~p
refused 17 only_fact_forbidden_with_nothing
    model -
    same p - p => p
    join ~p
refused 15 only_fact_forbidden_without_a_model
    same p - p => p
    join ~p
accepted only_fact_forbidden_shown_by_falsum
    same p - p => p
    wr # 0 p => p,#
    notl ~p 1 p,~p => #
refused 15 only_fact_forbidden_shown_by_falsum_with_its_old_model
    model p
    same p - p => p
    wr # 0 p => p,#
    notl ~p 1 p,~p => #
refused 17 only_fact_forbidden_to_falsum_with_its_model
    model p
    same p - p => p
    join p->#
accepted only_fact_forbidden_to_falsum_shown_by_nothing
    same p - p => p
    same # - p,# => ~p,#
    bot # 1 p,# => ~p
    impl p-># 2,0 p,p-># => -
refused 17 formula_of_the_sheet_forbidden
    model p
    same p|q - p|q => p|q
    join ~(p|q)
refused 17 double_negation_joins_the_empty_sheet
    model -
    def ~p - - => ~p
    join ~~p
refused 17 double_negation_joins_the_empty_sheet_with_its_atom
    model p
    def ~p - - => ~p
    join ~~p
refused 17 both_disjuncts_forbidden
    model p
    same p|q - p|q => p|q
    join ~p
    join ~q
accepted both_disjuncts_forbidden_shown_by_falsum
    same p - p => p,q,#
    same q - q => p,q,#
    orl p|q 0,1 p|q => p,q,#
    notl ~p 2 p|q,~p => q,#
    notl ~q 3 p|q,~p,~q => #
";

/// Constraints that join one after the other, or are there already.
const SEVERAL: &str = "
accepted both_forms
    model p
    same p - p => p
    join ~q
    join q->#
accepted negation_that_is_there
    model p
    same p - p,~q => p
    join ~q
accepted implication_that_is_there
    model p
    same p - p,q-># => p
    join q->#
accepted one_form_for_the_other_by_swap
    model p
    same p - p => p
    join ~q
    swap q-># 1 p,q-># => p
refused 17 constraint_against_a_constraint
    model p
    same p - p,~q => p
    join ~~q
accepted two_of_three_disjuncts
    model p
    same p|q|r - p|q|r => p|q|r
    join ~q
    join r->#
refused 17 two_of_three_disjuncts_with_a_model_that_is_gone
    model q
    same p|q|r - p|q|r => p|q|r
    join ~q
    join r->#
";

/// From p => p to p,~q => p.
const NEGATIONS_NEARLY: &str = "
refused 11 negation_without_weakening
    same p - p => p
    notl ~q 0 p,~q => p
refused 11 negation_after_another_weakening
    same p - p => p
    wr r 0 p => p,r
    notl ~q 1 p,~q => p
refused 11 negation_after_its_own_weakening
    same p - p => p
    wr ~q 0 p => p,~q
    notl ~q 1 p,~q => p
refused 10 negation_from_both_rows
    same p - p => p
    wr q 0 p => p,q
    notl ~q 0,1 p,~q => p
refused 10 negation_from_a_refutation
    xini - - p ; q
    notl ~q 0 p,~q => -
refused 11 negation_joins_the_right
    same p - p => p
    wr q 0 p => p,q
    notl ~q 1 p => p,~q
refused 11 negation_joins_the_right_by_notr
    same p - p => p
    wr q 0 p => p,q
    notr ~q 1 p => p,~q
refused 11 negation_joins_both_sides
    same p - p => p
    wr q 0 p => p,q
    notl ~q 1 p,~q => p,~q
refused 11 negation_by_impl
    same p - p => p
    wr q 0 p => p,q
    same # - p,# => p,~q,#
    bot # 2 p,# => p,~q
    impl ~q 3,1 p,~q => p
";

/// From p => p to p,q-># => p.
const IMPLICATIONS_NEARLY: &str = "
refused 11 implication_without_weakening
    same p - p => p
    same # - p,# => p,~q,#
    bot # 1 p,# => p,~q
    impl q-># 2,0 p,q-># => p
refused 11 implication_without_same
    same p - p => p
    wr q 0 p => p,q
    bot # 1 p,# => p,~q
refused 11 implication_without_bot
    same p - p => p
    wr q 0 p => p,q
    same # - p,# => p,~q,#
    impl q-># 2,1 p,q-># => p
accepted implication_without_bot_beside_falsum
    model p
    same p - p => p,#
    wr q 0 p => p,q,#
    same # - p,# => p,~q,#
    impl q-># 2,1 p,q-># => p,#
refused 11 implication_without_the_negation_beside_falsum
    same p - p => p
    wr q 0 p => p,q
    same # - p,# => p,#
    bot # 2 p,# => p
    impl q-># 3,1 p,q-># => p
refused 11 implication_with_premises_exchanged
    same p - p => p
    wr q 0 p => p,q
    same # - p,# => p,~q,#
    bot # 2 p,# => p,~q
    impl q-># 1,3 p,q-># => p
refused 10 implication_from_the_weakening_alone
    same p - p => p
    wr q 0 p => p,q
    impl q-># 1 p,q-># => p
refused 10 implication_from_bot_alone
    same p - p => p
    wr q 0 p => p,q
    same # - p,# => p,~q,#
    bot # 2 p,# => p,~q
    impl q-># 3 p,q-># => p
refused 11 implication_by_notl
    same p - p => p
    wr q 0 p => p,q
    notl q-># 1 p,q-># => p
refused 11 implication_to_another_atom
    same p - p => p
    wr q 0 p => p,q
    same # - p,# => p,~q,#
    bot # 2 p,# => p,~q
    impl q->r 3,1 p,q->r => p
accepted implication_to_another_atom_from_its_own_row
    model p
    same p - p => p
    wr q 0 p => p,q
    same p - p,r => p,~q
    impl q->r 2,1 p,q->r => p
refused 11 implication_to_what_means_falsum
    same p - p => p
    wr q 0 p => p,q
    same # - p,# => p,~q,#
    bot # 2 p,# => p,~q
    impl q->#&# 3,1 p,q->#&# => p
refused 11 implication_from_falsum
    same p - p => p
    wr q 0 p => p,q
    same # - p,# => p,~q,#
    bot # 2 p,# => p,~q
    impl #->q 3,1 p,#->q => p
";

/// Facts in the place of constraints: => ~a holds, and a => ~a does not.
const FACTS: &str = "
refused 11 fact_in_the_place_of_the_negation
    def ~a - - => ~a
    wr a 0 - => ~a,a
    notl ~a 1 a => ~a
refused 11 fact_as_the_principal
    def ~a - - => ~a
    wr a 0 - => ~a,a
    notl a 1 a => ~a
refused 11 fact_in_the_place_of_the_implication
    def ~a - - => ~a
    wr a 0 - => ~a,a
    same # - # => ~a,#
    bot # 2 # => ~a
    impl a-># 3,1 a => ~a
refused 11 fact_by_weakening
    def ~a - - => ~a
    wr a 0 a => ~a,a
refused 11 fact_by_def
    def ~a - - => ~a
    def ~a - a => ~a
";

/// Claims that are not the last row's: line and text.
#[rustfmt::skip]
const CLAIMS: [(&str, usize, &str); 5] = [
    ("old_sheet_claimed_after_the_new_rows", 10, "A 0 p / A 1 q / F 0 atom 0 - / F 1 atom 1 - / F 2 not 1 - / \
        N 0 same 0 - 0 0 / N 1 wr 1 0 0 0,1 / N 2 notl 2 1 0,2 0 / M 0 / C 0 0"),
    ("new_sheet_claimed_before_its_rows", 8, "A 0 p / A 1 q / F 0 atom 0 - / F 1 atom 1 - / F 2 not 1 - / \
        N 0 same 0 - 0 0 / M 0 / C 0,2 0"),
    ("new_sheet_claimed_after_the_weakening", 9, "A 0 p / A 1 q / F 0 atom 0 - / F 1 atom 1 - / F 2 not 1 - / \
        N 0 same 0 - 0 0 / N 1 wr 1 0 0 0,1 / M 0 / C 0,2 0"),
    ("fact_claimed_after_the_new_rows", 10, "A 0 p / A 1 q / F 0 atom 0 - / F 1 atom 1 - / F 2 not 1 - / \
        N 0 same 0 - 0 0 / N 1 wr 1 0 0 0,1 / N 2 notl 2 1 0,2 0 / M 0,1 / C 0,1 0"),
    ("old_sheet_claimed_after_the_implication", 14, "A 0 p / A 1 q / F 0 atom 0 - / F 1 atom 1 - / F 2 bot - - / \
        F 3 not 1 - / F 4 imp 1 2 / N 0 same 0 - 0 0 / N 1 wr 1 0 0 0,1 / N 2 same 2 - 0,2 0,2,3 / \
        N 3 bot 2 2 0,2 0,3 / N 4 impl 4 3,1 0,4 0 / M 0 / C 0 0"),
];
