//! Rows by hand for the rules whose conditions are their own, and for what is easily
//! misread in the others. In each refused case one thing alone is wrong.

use super::{Case, rows};

pub fn cases() -> Vec<Case> {
    let groups = [
        ("rule_def", DEF),
        ("rule_same", SAME),
        ("rule_wr", WR),
        ("rule_bot", BOT),
        ("rule_rcut", RCUT),
        ("rule_unst", UNST),
        ("rule_xini", XINI),
        ("rule_orl", ORL),
        ("rule_impl", IMPL),
        ("rule_notl", NOTL),
        ("rule_ximpl1", XIMPL1),
    ];
    groups.iter().flat_map(|(group, text)| rows::group(group, text)).collect()
}

const DEF: &str = "
accepted nothing_on_the_left
    def ~p - - => ~p
accepted atoms_on_the_left
    def ~p - q,r => ~p
accepted anything_on_the_right
    def ~p - q => p,~p,q&r,#
accepted another_default_on_the_right
    def ~p - q => ~p,~q
refused 11 p_on_the_left
    def ~p - p => ~p
refused 11 p_among_atoms_on_the_left
    def ~p - p,q,r => ~p
refused 11 negated_atom_on_the_left
    def ~p - q,~r => ~p
refused 11 principal_on_the_left_too
    def ~p - ~p => ~p
refused 11 compound_on_the_left
    def ~p - q&r => ~p
refused 11 falsum_on_the_left
    def ~p - # => ~p
refused 11 falsum_among_atoms_on_the_left
    def ~p - q,#,r => ~p
refused 11 principal_not_on_the_right
    def ~p - q => p,r
refused 11 another_default_is_on_the_right
    def ~p - q => ~r
refused 11 nothing_on_the_right
    def ~p - q => -
refused 11 principal_negates_falsum
    def ~# - q => ~#
refused 11 principal_negates_a_negation
    def ~~p - q => ~~p
refused 11 principal_negates_a_conjunction
    def ~(p&r) - q => ~(p&r)
refused 11 principal_is_an_atom
    def p - q => p
refused 11 principal_is_falsum
    def # - q => #
";

const SAME: &str = "
accepted alone
    same p|q - p|q => p|q
accepted among_others
    same p - p,q,~r => p,r,#
accepted compound
    same p->~q - p->~q => p->~q,r
accepted falsum
    same # - #,p => #,q
accepted everything_in_common
    same q - p,q,r => p,q,r
refused 11 only_on_the_left
    same p - p,q => r
refused 11 only_on_the_right
    same p - q => p
refused 11 on_neither_side
    same p - q => r
refused 11 another_formula_in_common
    same p - p,q => q
refused 11 another_formula_in_common_and_this_on_the_right
    same p - q => p,q
refused 11 negation_on_the_right
    same p - p => ~p
refused 11 empty_sides
    same p - - => -
refused 11 classical_double_negation
    same p - p => ~~p
";

const WR: &str = "
accepted to_an_empty_succedent
    same # - # => #
    bot # 0 # => -
    wr p 1 # => p
accepted formula_that_is_there
    same p - p => p,q
    wr q 0 p => p,q
accepted falsum_added
    same p - p => p
    wr # 0 p => p,#
accepted formula_of_the_antecedent
    same p - p,q => p
    wr q 0 p,q => p,q
refused 11 two_formulas_at_once
    same p - p => p
    wr q 0 p => p,q,r
refused 11 formula_lost
    same p - p => p,q
    wr r 0 p => p,r
refused 11 antecedent_grows
    same p - p => p
    wr q 0 p,q => p,q
refused 11 antecedent_shrinks
    same p - p,r => p
    wr q 0 p => p,q
refused 11 principal_is_not_what_is_added
    same p - p => p
    wr r 0 p => p,q
refused 11 left_weakening
    same p - p => p
    wr q 0 p,q => p
";

const BOT: &str = "
accepted last_on_the_right
    same # - #,p => #
    bot # 0 #,p => -
accepted among_others
    same p - p,q => p,r,#
    bot # 0 p,q => p,r
accepted falsum_stays
    same p - p => p,#
    bot # 0 p => p,#
refused 11 premise_lacks_falsum
    same p - p => p
    bot # 0 p => p
refused 11 falsum_comes
    same p - p => p
    bot # 0 p => p,#
refused 11 principal_is_another_formula
    same p - p => p,q
    bot q 0 p => p
refused 11 principal_is_another_formula_where_falsum_goes
    same p - p => p,#
    bot q 0 p => p
refused 11 principal_is_negated_falsum_where_falsum_goes
    same p - p => p,#
    bot ~# 0 p => p
refused 11 principal_is_a_true_formula
    same p - p => p,~#
    bot ~# 0 p => p
refused 11 another_formula_lost_too
    same p - p => p,q,#
    bot # 0 p => p
refused 11 another_formula_comes
    same p - p => p,#
    bot # 0 p => p,q
refused 11 falsum_lost_on_the_left
    same p - p,# => p,#
    bot # 0 p => p
refused 11 antecedent_grows
    same p - p => p,#
    bot # 0 p,q => p
";

const RCUT: &str = "
accepted two_succedents_join
    same c - c => c,r,p
    same c - c,p => c,q
    rcut p 0,1 c => c,r,q
accepted second_succedent_is_new
    same c - c => c,p
    same p - c,p => p
    rcut p 0,1 c => c,p
accepted cut_formula_in_q
    same c - c => c,p
    same c - c,p => c,p,q
    rcut p 0,1 c => c,p,q
accepted cut_formula_in_r
    same c - c => c,p
    same c - c,p => c,q
    rcut p 0,1 c => c,p,q
accepted cut_formula_in_r_and_in_q
    same c - c => c,p
    same c - c,p => c,p
    rcut p 0,1 c => c,p
accepted cut_formula_in_l
    same p - p => p,q
    same p - p => p,r
    rcut p 0,1 p => p,q,r
accepted r_is_empty
    prove ~~p => p
    same ~~p - ~~p,p => ~~p
    rcut p 0,1 ~~p => ~~p
accepted q_is_empty
    same c - c => c,#
    same # - c,# => #
    bot # 1 c,# => -
    rcut # 0,2 c => c
accepted both_are_empty
    prove p&~p => #
    same # - p&~p,# => #
    bot # 1 p&~p,# => -
    rcut # 0,2 p&~p => -
accepted one_premise_twice
    same c - c,p => c,p
    rcut p 0,0 c,p => c,p
accepted compound_cut_formula
    same c - c => c,p->q
    same c - c,p->q => c,r
    rcut p->q 0,1 c => c,r
refused 11 cut_formula_not_in_first_succedent
    same c - c => c
    same c - c,p => c,q
    rcut p 0,1 c => c,q
refused 11 cut_formula_not_in_second_antecedent
    same c - c => c,p
    same c - c => c,q
    rcut p 0,1 c => c,q
refused 11 premises_swapped
    same c - c => c,r,p
    same c - c,p => c,q
    rcut p 1,0 c => c,r,q
refused 11 second_premise_has_more_on_the_left
    same c - c => c,p
    same c - c,p,q => c
    rcut p 0,1 c => c
refused 11 first_premise_has_more_on_the_left
    same c - c,q => c,p
    same c - c,p => c
    rcut p 0,1 c => c
refused 11 premises_agree_and_conclusion_has_less
    same c - c,q => c,p
    same c - c,q,p => c
    rcut p 0,1 c => c
refused 11 conclusion_has_more_on_the_left
    same c - c => c,p
    same c - c,p => c
    rcut p 0,1 c,q => c
refused 11 left_weakening_by_the_cut_formula
    same c - c => c,p
    same c - c,p => c
    rcut p 0,1 c,p => c
refused 11 cut_formula_on_the_left_of_both_premises
    same p - c,p => p
    same p - c,p => p
    rcut p 0,1 c => p
refused 11 conclusion_lacks_a_formula_of_r
    same c - c => c,r,p
    same c - c,p => c,q
    rcut p 0,1 c => c,q
refused 11 conclusion_lacks_a_formula_of_q
    same c - c => c,r,p
    same c - c,p => c,q
    rcut p 0,1 c => c,r
refused 11 conclusion_has_a_formula_of_neither
    same c - c => c,p
    same c - c,p => c
    rcut p 0,1 c => c,s
refused 11 conclusion_lacks_the_cut_formula_that_q_holds
    same c - c => c,p
    same c - c,p => c,p
    rcut p 0,1 c => c
refused 11 principal_is_another_formula
    same c - c => c,p
    same c - c,p => c
    rcut q 0,1 c => c
";

const ORL: &str = "
accepted first_disjunct_on_the_right_of_all
    same c - c,p => c,p
    same c - c,q => c,p
    orl p|q 0,1 c,p|q => c,p
refused 11 classical_premises
    same c - c,p => c
    same c - c,q => c
    orl p|q 0,1 c,p|q => c
refused 11 classical_premises_with_the_principal_kept
    same c - c,p,p|q => c
    same c - c,q,p|q => c
    orl p|q 0,1 c,p|q => c
refused 11 second_disjunct_on_the_right_of_the_first_premise
    same c - c,p => c,q
    same c - c,q => c
    orl p|q 0,1 c,p|q => c
refused 11 second_disjunct_on_the_right_of_the_second_premise
    same c - c,p => c
    same c - c,q => c,q
    orl p|q 0,1 c,p|q => c
refused 11 both_premises_exclude_the_other_disjunct
    same c - c,p => c,q
    same c - c,q => c,p
    orl p|q 0,1 c,p|q => c
refused 11 negation_in_place_of_the_first_disjunct
    same c - c,p => c
    same c - c,q => c,~p
    orl p|q 0,1 c,p|q => c
refused 11 first_disjunct_stays_on_the_right
    same c - c,p => c
    same c - c,q => c,p
    orl p|q 0,1 c,p|q => c,p
refused 11 disjuncts_turned_round
    same c - c,p => c
    same c - c,q => c,p
    orl q|p 0,1 c,q|p => c
";

const IMPL: &str = "
accepted negated_premise_on_the_right_of_all
    same c - c,q => c,~p
    same c - c => c,p,~p
    impl p->q 0,1 c,p->q => c,~p
accepted consequent_kept_in_all
    same c - c,q => c,~p
    same c - c,q => c,p
    impl p->q 0,1 c,q,p->q => c
accepted negation_as_antecedent
    same c - c,q => c,~~p
    same c - c => c,~p
    impl ~p->q 0,1 c,~p->q => c
refused 11 classical_premises
    same c - c,q => c
    same c - c => c,p
    impl p->q 0,1 c,p->q => c
refused 11 classical_premises_with_the_negation_in_the_file
    also ~p
    same c - c,q => c
    same c - c => c,p
    impl p->q 0,1 c,p->q => c
refused 11 premises_in_the_classical_order
    same c - c => c,p
    same c - c,q => c,~p
    impl p->q 0,1 c,p->q => c
refused 11 negated_consequent
    same c - c,q => c,~q
    same c - c => c,p
    impl p->q 0,1 c,p->q => c
refused 11 antecedent_of_the_implication_unnegated
    same c - c,q => c,p
    same c - c => c,p
    impl p->q 0,1 c,p->q => c
refused 11 consequent_in_one_premise_and_in_the_conclusion
    same c - c,q => c,~p
    same c - c => c,p
    impl p->q 0,1 c,q,p->q => c
refused 11 implication_turned_round
    same c - c,q => c,~p
    same c - c => c,p
    impl q->p 0,1 c,q->p => c
";

const NOTL: &str = "
accepted falsum_negated
    same p - p => p,#
    notl ~# 0 p,~# => p
accepted row_repeats_its_premise
    same p - p,~p => p
    notl ~p 0 p,~p => p
refused 11 double_negation_from_the_atom
    same c - c => c,p
    notl ~~p 0 c,~~p => c
refused 11 atom_from_its_negation
    same c - c => c,~p
    notl p 0 c,p => c
";

const XIMPL1: &str = "
refused 11 negation_lacking_in_the_file
    xini - - g ; p
    ximpl1 p->q 0 g,p->q ; -
refused 11 consequent_in_place_of_its_negation
    xini - - g ; p,q
    ximpl1 p->q 0 g,p->q ; -
";

const XINI: &str = "
accepted empty_sides
    xini - - - ; -
accepted atoms_on_both_sides
    xini - - p,q ; r
accepted negated_atoms_on_both_sides
    xini - - ~p ; ~q
accepted p_on_the_left_and_not_p_on_the_right
    xini - - p ; ~p
accepted not_p_on_the_left_and_p_on_the_right
    xini - - ~p ; p
accepted p_and_not_p_on_the_right
    xini - - q ; p,~p
accepted falsum_on_the_right
    xini - - - ; #
accepted negated_falsum_on_the_left
    xini - - ~# ; -
accepted all_that_it_allows
    xini - - ~#,p,~q ; #,r,~r,~p,q
refused 11 p_on_both_sides
    xini - - p ; p
refused 11 not_p_on_both_sides
    xini - - ~p ; ~p
refused 11 one_of_many_on_both_sides
    xini - - p,q,~r ; q,~p
refused 11 p_and_not_p_on_the_left
    xini - - p,~p ; -
refused 11 p_and_not_p_on_the_left_among_others
    xini - - p,q,~q ; r
refused 11 falsum_on_the_left
    xini - - # ; -
refused 11 falsum_on_both_sides
    xini - - # ; #
refused 11 negated_falsum_on_the_right
    xini - - - ; ~#
refused 11 negated_falsum_on_both_sides
    xini - - ~# ; ~#
refused 11 double_negation_on_the_left
    xini - - ~~p ; -
refused 11 double_negation_on_the_right
    xini - - - ; ~~p
refused 11 double_negation_of_falsum_on_the_right
    xini - - - ; ~~#
refused 11 conjunction_on_the_left
    xini - - p&q ; -
refused 11 disjunction_on_the_right
    xini - - - ; p|q
refused 11 implication_on_the_left
    xini - - p->q ; -
refused 11 implication_on_the_right
    xini - - - ; p->q
refused 11 negated_conjunction_on_the_left
    xini - - ~(p&q) ; -
refused 11 negated_disjunction_on_the_right
    xini - - - ; ~(p|q)
";

const UNST: &str = "
accepted one_atom
    same p - p => p
    notr ~p 0 - => p,~p
    notl ~~p 1 ~~p => p
    xini - - - ; p,~p
    xnnl ~~p 3 ~~p ; p,~p
    xorr p|~p 4 ~~p ; p|~p
    unst - 2,5 ~~p => #
accepted empty_succedent
    prove ~~p => p
    refute ~~p ; p|~p
    unst - 0,1 ~~p => -
accepted any_succedent
    prove ~~p => p
    refute ~~p ; p|~p
    unst - 0,1 ~~p => p,~p,q->r,#
accepted k_on_the_right_too
    prove ~~p => p
    refute ~~p ; p|~p
    unst - 0,1 ~~p => p
accepted chosen_before_rest
    prove ~~p,~q => p&~q
    refute ~~p,~q ; p|~p
    unst - 0,1 ~~p,~q => -
accepted rest_before_chosen
    prove ~p,~~q => ~p&q
    refute ~p,~~q ; q|~q
    unst - 0,1 ~p,~~q => -
accepted all_chosen
    prove ~~p,~~q => p&q
    refute ~~p,~~q ; (p|~p)&(q|~q)
    unst - 0,1 ~~p,~~q => -
accepted three_atoms_mixed
    prove ~~p,~q,~~r => p&(~q&r)
    refute ~~p,~q,~~r ; (p|~p)&(r|~r)
    unst - 0,1 ~~p,~q,~~r => -
accepted three_atoms_all_chosen
    prove ~~p,~~q,~~r => p&(q&r)
    refute ~~p,~~q,~~r ; (p|~p)&((q|~q)&(r|~r))
    unst - 0,1 ~~p,~~q,~~r => -
accepted negations_join_the_antecedent
    prove ~~(p&~q) => p&~q
    refute ~~(p&~q),~~p,~q ; p|~p
    unst - 0,1 ~~(p&~q) => -
accepted one_negation_in_the_antecedent_before
    prove ~~(p&~q),~q => p&~q
    refute ~~(p&~q),~~p,~q ; p|~p
    unst - 0,1 ~~(p&~q),~q => -
accepted any_model_of_many_may_be_chosen
    prove ~~(p|q) => ~p&q
    refute ~~(p|q),~~q,~p ; q|~q
    unst - 0,1 ~~(p|q) => #
accepted atoms_deep_in_the_antecedent
    prove ~~(p&(q->(q|(r->r)))),~(q|r) => p&(~q&~r)
    refute ~~(p&(q->(q|(r->r)))),~(q|r),~~p,~q,~r ; p|~p
    unst - 0,1 ~~(p&(q->(q|(r->r)))),~(q|r) => -
accepted order_of_atom_numbers_against_formula_numbers
    also ~q,q,~p,p
    prove ~~p,~q => p&~q
    refute ~~p,~q ; p|~p
    unst - 0,1 ~~p,~q => -
accepted order_of_atom_numbers_against_names
    atoms q,p
    prove ~~p,~q => ~q&p
    refute ~~p,~q ; p|~p
    unst - 0,1 ~~p,~q => -
refused 11 order_of_names_against_atom_numbers
    atoms q,p
    prove ~~p,~q => p&~q
    refute ~~p,~q ; p|~p
    unst - 0,1 ~~p,~q => -
accepted atoms_of_the_file_outside_the_antecedent
    atoms o,p,q
    also o,q
    prove ~~p => p
    refute ~~p ; p|~p
    unst - 0,1 ~~p => q
    same q - q => q
refused 11 v_from_the_file
    atoms p,q
    prove ~~p => p&~q
    refute ~~p,~q ; p|~p
    unst - 0,1 ~~p => -
refused 11 v_from_the_succedent
    prove ~~p => p&~q
    refute ~~p,~q ; p|~p
    unst - 0,1 ~~p => q
refused 11 s_is_empty_and_e_absent
    prove ~~~p => ~p
    refute ~~~p,~p ; -
    unst - 0,1 ~~~p => #
refused 11 s_is_empty_and_e_falsum
    prove ~~~p => ~p
    refute ~~~p,~p ; #
    unst - 0,1 ~~~p => #
refused 11 no_atoms_and_a_true_k
    prove - => ~#
    refute - ; #
    unst - 0,1 - => #
refused 11 no_atoms_and_nothing_right
    prove # => -
    refute - ; -
    unst - 0,1 # => -
refused 11 k_in_falling_order
    prove ~~p,~q => ~q&p
    refute ~~p,~q ; p|~p
    unst - 0,1 ~~p,~q => -
refused 11 k_with_the_chosen_first
    prove ~p,~~q => q&~p
    refute ~p,~~q ; q|~q
    unst - 0,1 ~p,~~q => -
refused 11 k_nested_to_the_left
    prove ~~p,~q,~~r => (p&~q)&r
    refute ~~p,~q,~~r ; (p|~p)&(r|~r)
    unst - 0,1 ~~p,~q,~~r => -
refused 11 k_lacks_an_atom_of_the_rest
    prove ~~p,~q => p
    refute ~~p,~q ; p|~p
    unst - 0,1 ~~p,~q => -
refused 11 k_lacks_an_atom_of_s
    prove ~~p,~~q => p
    refute ~~p,~~q ; (p|~p)&(q|~q)
    unst - 0,1 ~~p,~~q => -
refused 11 k_names_an_atom_twice
    prove ~~p => p&p
    refute ~~p ; p|~p
    unst - 0,1 ~~p => -
refused 11 k_with_double_negation
    prove ~~p => ~~p
    refute ~~p ; p|~p
    unst - 0,1 ~~p => -
refused 11 k_as_separate_formulas
    prove ~~p,~q => p,~q
    refute ~~p,~q ; p|~p
    unst - 0,1 ~~p,~q => -
refused 11 k_beside_another_formula
    prove ~~p => p,#
    refute ~~p ; p|~p
    unst - 0,1 ~~p => -
refused 11 k_absent
    prove ~~p => -
    refute ~~p ; p|~p
    unst - 0,1 ~~p => -
refused 11 k_disjoins
    prove ~~p,~q => p|~q
    refute ~~p,~q ; p|~p
    unst - 0,1 ~~p,~q => -
refused 11 k_chooses_otherwise_than_the_refutation
    prove ~~(p|q) => p&~q
    refute ~~(p|q),~~q,~p ; q|~q
    unst - 0,1 ~~(p|q) => -
refused 11 e_turned_round
    prove ~~p => p
    refute ~~p ; ~p|p
    unst - 0,1 ~~p => -
refused 11 e_in_falling_order
    prove ~~p,~~q => p&q
    refute ~~p,~~q ; (q|~q)&(p|~p)
    unst - 0,1 ~~p,~~q => -
refused 11 e_nested_to_the_left
    prove ~~p,~~q,~~r => p&(q&r)
    refute ~~p,~~q,~~r ; ((p|~p)&(q|~q))&(r|~r)
    unst - 0,1 ~~p,~~q,~~r => -
refused 11 e_decides_the_rest_too
    prove ~~p,~q => p&~q
    refute ~~p,~q ; (p|~p)&(q|~q)
    unst - 0,1 ~~p,~q => -
refused 11 e_lacks_an_atom_of_s
    prove ~~p,~~q => p&q
    refute ~~p,~~q ; p|~p
    unst - 0,1 ~~p,~~q => -
refused 11 e_as_separate_formulas
    prove ~~p,~~q => p&q
    refute ~~p,~~q ; p|~p,q|~q
    unst - 0,1 ~~p,~~q => -
refused 11 e_beside_another_formula
    prove ~~p => p
    refute ~~p ; p|~p,#
    unst - 0,1 ~~p => -
refused 11 e_absent
    prove ~~p => p
    refute ~~p ; -
    unst - 0,1 ~~p => -
refused 11 e_is_the_chosen_atom
    prove ~~p => p
    refute ~~p ; p
    unst - 0,1 ~~p => -
refused 11 double_negation_of_s_missing
    prove ~~(p&~q) => p&~q
    refute ~~(p&~q),~q ; p|~p
    unst - 0,1 ~~(p&~q) => -
refused 11 negation_of_the_rest_missing
    prove ~~(p&~q) => p&~q
    refute ~~(p&~q),~~p ; p|~p
    unst - 0,1 ~~(p&~q) => -
refused 11 double_negation_of_the_rest_added
    prove ~~(p|q) => p&~q
    refute ~~(p|q),~~p,~~q ; p|~p
    unst - 0,1 ~~(p|q) => -
refused 11 atom_of_s_added
    prove ~~p,~~q => p&q
    refute ~~p,~~q,p ; (p|~p)&(q|~q)
    unst - 0,1 ~~p,~~q => -
refused 11 another_formula_added_to_the_refutation
    prove ~~p => p
    refute ~~p,~# ; p|~p
    unst - 0,1 ~~p => -
refused 11 refutation_lacks_a_formula_of_the_antecedent
    prove ~~p,p->p => p
    refute ~~p ; p|~p
    unst - 0,1 ~~p,p->p => -
refused 11 first_premise_has_more_on_the_left
    prove ~~p,p->p => p
    refute ~~p ; p|~p
    unst - 0,1 ~~p => -
refused 11 first_premise_has_less_on_the_left
    prove ~~p => p
    refute ~~p,p->p ; p|~p
    unst - 0,1 ~~p,p->p => -
refused 11 conclusion_has_less_on_the_left
    prove ~~p,p->p => p
    refute ~~p,p->p ; p|~p
    unst - 0,1 ~~p => -
refused 11 first_premise_holds_the_added_negations
    prove ~~(p&~q),~~p,~q => p&~q
    refute ~~(p&~q),~~p,~q ; p|~p
    unst - 0,1 ~~(p&~q) => -
refused 10 premises_swapped
    prove ~~p => p
    refute ~~p ; p|~p
    unst - 1,0 ~~p => -
";
