//! Rows of `swap`: formulas that hold in the same pairs and some that nearly do, sets that
//! may hold A, B or both, several B to choose from, formulas over 4 to 8 atoms that one pair
//! alone tells apart, and 8 atoms and more.

use super::limits::{atom_formulas, atoms};
use super::{Case, raw, rows, tabbed};
use crate::draft::list;
use crate::judge::{MOST_ATOMS, MOST_FORMULAS, MOST_ON_A_SIDE};

/// Conjunctions of so many atoms, which the rows below call by these words.
const WIDE: [(&str, &str); 2] =
    [("EIGHT", "(a&(b&(d&(e&(f&(g&(h&i)))))))"), ("NINE", "(a&(b&(d&(e&(f&(g&(h&(i&j))))))))")];

pub fn cases() -> Vec<Case> {
    let written_out = |rows: &str| {
        WIDE.iter().fold(rows.into(), |rows: String, (word, formula)| rows.replace(word, formula))
    };
    let mut cases = vec![];
    for text in [MEANING, SIDES, CHOICE, ATOMS, PLACES] {
        cases.extend(rows::group("rule_swap", &written_out(text)));
    }
    cases.extend(rows::group("rule_swap", &single_pairs()));
    cases.extend(rows::group("rule_swap", &clashing_atoms()));
    cases.extend(claims());
    cases.extend(atoms_by_number());
    cases.extend(shared_parts());
    cases.extend(choices_on_a_full_side());
    cases
}

/// One formula for another, alone on the left.
const MEANING: &str = "
accepted parts_commuted
    same q|p - q|p => q|p
    swap p|q 0 p|q => q|p
accepted triple_negation_for_negation
    same ~p - ~p => ~p
    swap ~~~p 0 ~~~p => ~p
accepted negation_for_triple_negation
    same ~~~p - ~~~p => ~~~p
    swap ~p 0 ~p => ~~~p
accepted contradiction_for_falsum
    same # - # => #
    swap p&~p 0 p&~p => #
accepted falsum_for_contradiction
    same p&~p - p&~p => p&~p
    swap # 0 # => p&~p
accepted contradiction_for_contradiction
    same q&~q - q&~q => q&~q
    swap p&~p 0 p&~p => q&~q
accepted identity_for_truth
    same ~# - ~# => ~#
    swap p->p 0 p->p => ~#
accepted truth_for_identity
    same p->p - p->p => p->p
    swap ~# 0 ~# => p->p
accepted no_atoms_at_all
    same p - #->#,p => p
    swap ~# 0 ~#,p => p
accepted implications_for_disjunction
    same p|q - p|q => p|q
    swap ((p->q)->q)&((q->p)->p) 0 ((p->q)->q)&((q->p)->p) => p|q
accepted disjunction_for_implications
    same ((p->q)->q)&((q->p)->p) - ((p->q)->q)&((q->p)->p) => ((p->q)->q)&((q->p)->p)
    swap p|q 0 p|q => ((p->q)->q)&((q->p)->p)
accepted negated_conjunction
    same ~p|~q - ~p|~q => ~p|~q
    swap ~(p&q) 0 ~(p&q) => ~p|~q
accepted negated_implication
    same ~~p&~q - ~~p&~q => ~~p&~q
    swap ~(p->q) 0 ~(p->q) => ~~p&~q
accepted implication_from_a_negation
    same ~p->q - ~p->q => ~p->q
    swap ~~p|q 0 ~~p|q => ~p->q
accepted weak_excluded_middle_for_truth
    same ~# - ~# => ~#
    swap ~p|~~p 0 ~p|~~p => ~#
accepted linearity_for_truth
    same ~# - ~# => ~#
    swap (p->q)|(q->p) 0 (p->q)|(q->p) => ~#
accepted no_third_world_for_truth
    same ~# - ~# => ~#
    swap p|((p->q)|~q) 0 p|((p->q)|~q) => ~#
accepted excluded_middle_for_stability
    same ~~p->p - ~~p->p => ~~p->p
    swap p|~p 0 p|~p => ~~p->p
accepted absorbed_atom
    same p - p => p
    swap p|(p&q) 0 p|(p&q) => p
accepted three_atoms_distributed
    same p&(q|r) - p&(q|r) => p&(q|r)
    swap (p&q)|(p&r) 0 (p&q)|(p&r) => p&(q|r)
refused 11 double_negation_for_atom
    same p - p => p
    swap ~~p 0 ~~p => p
refused 11 atom_for_double_negation
    same ~~p - ~~p => ~~p
    swap p 0 p => ~~p
refused 11 excluded_middle_for_truth
    same ~# - ~# => ~#
    swap p|~p 0 p|~p => ~#
refused 11 disjunction_for_implication
    same p->q - p->q => p->q
    swap ~p|q 0 ~p|q => p->q
refused 11 contraposition_for_implication
    same p->q - p->q => p->q
    swap ~q->~p 0 ~q->~p => p->q
refused 11 implication_for_disjunction
    same p|q - p|q => p|q
    swap ~p->q 0 ~p->q => p|q
refused 11 one_implication_for_disjunction
    same p|q - p|q => p|q
    swap (p->q)->q 0 (p->q)->q => p|q
refused 11 peirce_for_atom
    same p - p => p
    swap (p->q)->p 0 (p->q)->p => p
refused 11 negation_for_falsum
    same # - # => #
    swap ~p 0 ~p => #
refused 11 falsum_for_negation
    same ~p - ~p => ~p
    swap # 0 # => ~p
refused 11 falsum_for_atom
    same p - p => p
    swap # 0 # => p
refused 11 another_atom
    same p - p => p
    swap q 0 q => p
refused 11 conjunct_lost
    same p&q - p&q => p&q
    swap p 0 p => p&q
refused 11 differing_in_the_empty_set_there_alone
    same ~# - ~# => ~#
    swap ~~p|~~q 0 ~~p|~~q => ~#
refused 11 differing_in_all_atoms_there_alone
    same ~# - ~# => ~#
    swap ~(p&q) 0 ~(p&q) => ~#
refused 11 differing_in_the_first_of_two_atoms_here_alone
    same ~# - ~# => ~#
    swap (p&~~q)->q 0 (p&~~q)->q => ~#
refused 11 differing_in_the_last_of_two_atoms_here_alone
    same ~# - ~# => ~#
    swap (q&~~p)->p 0 (q&~~p)->p => ~#
refused 11 differing_in_nothing_here_and_all_there_alone
    same ~# - ~# => ~#
    swap (~~p&~~q)->(p|q) 0 (~~p&~~q)->(p|q) => ~#
refused 11 with_the_same_equilibrium_models_alone
    same ~p->q - ~p->q => ~p->q
    swap q|(q&p) 0 q|(q&p) => ~p->q
";

/// L may hold A, B or both; all else has to agree.
const SIDES: &str = "
accepted a_kept
    same c - c,p&q,q&p => c
    swap p&q 0 c,p&q => c
accepted b_kept
    same c - c,q&p => c
    swap p&q 0 c,p&q,q&p => c
accepted both_kept
    same c - c,p&q,q&p => c
    swap p&q 0 c,p&q,q&p => c
accepted b_is_a
    same p - p => p
    swap p 0 p => p
accepted b_is_a_among_others
    same p - p,q->r,~r => p
    swap q->r 0 p,q->r,~r => p
accepted an_unequal_formula_kept
    same c - c,~~p,p&p => c
    swap p 0 c,~~p,p => c
accepted a_and_b_on_the_right_too
    same p&q - p&q => p&q,q&p
    swap q&p 0 q&p => p&q,q&p
accepted empty_right
    same # - # => #
    bot # 0 # => -
    swap p&~p 1 p&~p => -
refused 11 row_lacks_a
    same c - c,q&p => c
    swap p&q 0 c,q&p => c
refused 11 row_has_another_equal_formula
    same c - c,p&p => c
    swap p 0 c,p|p => c
refused 11 premise_lacks_b
    also q&p
    same c - c => c
    swap p&q 0 c,p&q => c
refused 11 premise_has_nothing_on_the_left
    def ~p - - => ~p
    swap ~# 0 ~# => ~p
refused 11 b_on_the_right_of_the_premise
    same c - c => c,q&p
    swap p&q 0 c,p&q => c,q&p
refused 11 swapped_on_the_right
    same p&q - p&q => p&q
    swap q&p 0 p&q => q&p
refused 11 swapped_on_both_sides
    same p&q - p&q => p&q
    swap q&p 0 q&p => q&p
refused 11 right_gains
    same c - c,q&p => c
    swap p&q 0 c,p&q => c,r
refused 11 right_loses
    same c - c,q&p => c,r
    swap p&q 0 c,p&q => c
refused 11 right_changes
    same c - c,q&p => c,r
    swap p&q 0 c,p&q => c,s
refused 11 right_of_a_repeated_row_changes
    same p - p => p,r
    swap p 0 p => p
refused 11 left_gains
    same c - c,q&p => c
    swap p&q 0 c,r,p&q => c
refused 11 left_loses
    same c - c,r,q&p => c
    swap p&q 0 c,p&q => c
refused 11 left_changes
    same c - c,r,q&p => c
    swap p&q 0 c,s,p&q => c
refused 11 another_formula_lost_with_a_kept
    same c - c,r,p&q,q&p => c
    swap p&q 0 c,p&q => c
refused 11 two_formulas_at_once
    same c - c,p&p,q&q => c
    swap p 0 c,p,q => c
refused 11 truth_dropped
    same p - p,~# => p
    swap p 0 p => p
refused 11 truth_added
    same p - p => p
    swap ~# 0 p,~# => p
";

/// A row that has A more than its premise has as many B as its premise has formulas.
const CHOICE: &str = "
accepted first_of_three_fits
    also q&p,c,r
    same c - q&p,c,r => c
    swap p&q 0 q&p,c,r,p&q => c
accepted second_of_three_fits
    also c,q&p,r
    same c - q&p,c,r => c
    swap p&q 0 q&p,c,r,p&q => c
accepted last_of_three_fits
    also c,r,q&p
    same c - q&p,c,r => c
    swap p&q 0 q&p,c,r,p&q => c
accepted last_of_three_fits_after_near_ones
    also ~~(p&q),p|q,q&p
    same q&p - ~~(p&q),p|q,q&p => q&p
    swap p&q 0 ~~(p&q),p|q,q&p,p&q => q&p
accepted two_of_three_fit
    also q&p,c,p&(q&p)
    same c - q&p,c,p&(q&p) => c
    swap p&q 0 q&p,c,p&(q&p),p&q => c
refused 11 none_of_three_fits
    also ~~(p&q),p|q,p->q
    same p|q - ~~(p&q),p|q,p->q => p|q
    swap p&q 0 ~~(p&q),p|q,p->q,p&q => p|q
refused 11 one_that_fits_is_not_what_goes
    same c - c,q&p,r => c
    swap p&q 0 c,q&p,p&q => c
accepted wide_one_beside_one_that_fits
    also NINE,q&p
    same q&p - NINE,q&p => q&p
    swap p&q 0 NINE,q&p,p&q => q&p
    same c - c => c
accepted one_that_fits_beside_a_wide_one
    also q&p,NINE
    same q&p - NINE,q&p => q&p
    swap p&q 0 NINE,q&p,p&q => q&p
    same c - c => c
accepted a_itself_beside_a_wide_one
    also NINE,p
    same p - NINE,p => p
    swap p 0 NINE,p => p
    same c - c => c
refused 18 wide_one_beside_one_that_differs
    also NINE,p
    same p - NINE,p => p
    swap q 0 NINE,p,q => p
refused 18 one_that_differs_beside_a_wide_one
    also p,NINE
    same p - NINE,p => p
    swap q 0 NINE,p,q => p
accepted fits_in_the_last_of_four_pairings
    also p&q,p&r,p&s,p&t,q&r,q&s,q&t,r&s,r&t,s&t,(s&t)&~s
    same p&q - p&q,p&r,p&s,p&t,q&r,q&s,q&t,r&s,r&t,s&t,(s&t)&~s => p&q
    swap # 0 p&q,p&r,p&s,p&t,q&r,q&s,q&t,r&s,r&t,s&t,(s&t)&~s,# => p&q
refused 11 fits_if_two_atoms_were_one
    also p&r,q&r,p&~q
    same p&r - p&r,q&r,p&~q => p&r
    swap # 0 p&r,q&r,p&~q,# => p&r
refused 11 fits_if_two_atoms_of_an_implication_were_one
    also p&r,q&r,p->q
    same p&r - p&r,q&r,p->q => p&r
    swap ~# 0 p&r,q&r,p->q,~# => p&r
refused 11 none_of_all_pairs_fits
    also p&q,p&r,p&s,p&t,q&r,q&s,q&t,r&s,r&t,s&t
    same p&q - p&q,p&r,p&s,p&t,q&r,q&s,q&t,r&s,r&t,s&t => p&q
    swap # 0 p&q,p&r,p&s,p&t,q&r,q&s,q&t,r&s,r&t,s&t,# => p&q
refused 18 wide_one_beside_all_pairs
    also p&q,p&r,p&s,p&t,q&r,q&s,NINE,q&t,r&s,r&t,s&t
    same p&q - p&q,p&r,p&s,p&t,q&r,q&s,q&t,r&s,r&t,s&t,NINE => p&q
    swap # 0 p&q,p&r,p&s,p&t,q&r,q&s,q&t,r&s,r&t,s&t,NINE,# => p&q
accepted small_one_first_and_a_larger_one_fits
    also p,p&(q&r),(q&r)&p
    same p - p,p&(q&r),(q&r)&p => p
    swap (p&q)&r 0 p,p&(q&r),(q&r)&p,(p&q)&r => p
refused 18 wide_one_goes_while_an_equal_one_stays
    same q&p - NINE,q&p => q&p
    swap p&q 0 q&p,p&q => q&p
refused 11 one_that_differs_goes_while_a_wide_one_stays
    same p - NINE,p => p
    swap q 0 NINE,q => p
";

/// A and B together have 8 atoms, or 9.
const ATOMS: &str = "
accepted eight_atoms
    same EIGHT - EIGHT => EIGHT
    swap ((((((a&b)&d)&e)&f)&g)&h)&i 0 ((((((a&b)&d)&e)&f)&g)&h)&i => EIGHT
accepted eight_atoms_twice
    same EIGHT - EIGHT => EIGHT
    swap EIGHT&EIGHT 0 EIGHT&EIGHT => EIGHT
accepted one_atom_in_a_and_eight_together
    same a|(a&EIGHT) - a|(a&EIGHT) => a|(a&EIGHT)
    swap a 0 a => a|(a&EIGHT)
accepted one_atom_in_b_and_eight_together
    same a - a => a
    swap a|(a&EIGHT) 0 a|(a&EIGHT) => a
accepted eight_atoms_for_falsum
    same # - # => #
    swap #&EIGHT 0 #&EIGHT => #
accepted four_atoms_each_and_eight_together
    same #&(a&(b&(d&e))) - #&(a&(b&(d&e))) => #&(a&(b&(d&e)))
    swap #&(f&(g&(h&i))) 0 #&(f&(g&(h&i))) => #&(a&(b&(d&e)))
accepted nine_atoms_beside_a_and_b
    same c - c,NINE,q&p => c
    swap p&q 0 c,NINE,p&q => c
    same c - c => c
accepted nine_atoms_on_the_right
    same c - c,q&p => c,NINE
    swap p&q 0 c,p&q => c,NINE
    same c - c => c
refused 11 eight_atoms_that_differ
    same EIGHT - EIGHT => EIGHT
    swap a|EIGHT 0 a|EIGHT => EIGHT
refused 11 eight_atoms_that_differ_in_one_pair
    same ~# - ~# => ~#
    swap (a&(b&(d&(e&(f&(g&(h&~~i)))))))->i 0 (a&(b&(d&(e&(f&(g&(h&~~i)))))))->i => ~#
refused 11 eight_atoms_that_differ_where_nothing_holds
    same ~# - ~# => ~#
    swap ~~a|(~~b|(~~d|(~~e|(~~f|(~~g|(~~h|~~i)))))) 0 ~~a|(~~b|(~~d|(~~e|(~~f|(~~g|(~~h|~~i)))))) => ~#
refused 18 nine_atoms
    same NINE - NINE => NINE
    swap NINE&NINE 0 NINE&NINE => NINE
refused 18 nine_atoms_that_differ
    same NINE - NINE => NINE
    swap a|NINE 0 a|NINE => NINE
refused 18 nine_atoms_in_a_repeated_row
    same NINE - NINE => NINE
    swap NINE 0 NINE => NINE
refused 18 eight_atoms_each_and_nine_together
    same EIGHT - EIGHT => EIGHT
    swap b&(d&(e&(f&(g&(h&(i&j)))))) 0 b&(d&(e&(f&(g&(h&(i&j)))))) => EIGHT
refused 18 one_atom_in_a_and_nine_together
    same a|(a&NINE) - a|(a&NINE) => a|(a&NINE)
    swap a 0 a => a|(a&NINE)
refused 18 one_atom_in_b_and_nine_together
    same a - a => a
    swap a|(a&NINE) 0 a|(a&NINE) => a
refused 18 eight_atoms_in_a_and_nine_together
    same #&EIGHT - #&EIGHT => #&EIGHT
    swap #&j 0 #&j => #&EIGHT
refused 18 nine_atoms_for_falsum
    same # - # => #
    swap #&NINE 0 #&NINE => #
refused 18 falsum_for_nine_atoms
    same #&NINE - #&NINE => #&NINE
    swap # 0 # => #&NINE
refused 11 nine_atoms_and_the_row_lacks_a
    same NINE - NINE => NINE
    swap NINE&NINE 0 NINE => NINE
refused 11 nine_atoms_and_the_right_gains
    same NINE - NINE => NINE
    swap NINE&NINE 0 NINE&NINE => NINE,a
refused 11 nine_atoms_and_the_right_loses
    same NINE - NINE => NINE,a
    swap NINE&NINE 0 NINE&NINE => NINE
refused 11 nine_atoms_and_the_left_gains
    same NINE - NINE => NINE
    swap NINE&NINE 0 NINE&NINE,a => NINE
refused 11 nine_atoms_and_the_left_loses
    same NINE - NINE,a => NINE
    swap NINE&NINE 0 NINE&NINE => NINE
refused 11 nine_atoms_and_nothing_left_of_the_premise
    def ~p - - => ~p
    swap NINE 0 NINE => ~p
refused 10 nine_atoms_and_no_principal
    same NINE - NINE => NINE
    swap - 0 NINE&NINE => NINE
refused 10 nine_atoms_and_two_premises
    same NINE - NINE => NINE
    swap NINE&NINE 0,0 NINE&NINE => NINE
refused 10 nine_atoms_and_no_premise
    swap NINE - NINE => NINE
refused 10 nine_atoms_and_a_refutation_as_premise
    xini - - a ; p
    swap NINE 0 NINE => p
refused 11 nine_atoms_in_another_rule
    same NINE - NINE => NINE
    andl NINE&a 0 NINE&a => NINE
";

/// A row of `swap` is a sequent, whatever rests on it.
const PLACES: &str = "
accepted premise_of_swap
    same p - p => p
    swap p&p 0 p&p => p
    swap p|(p&p) 1 p|(p&p) => p
accepted there_and_back
    same p|q - p|q => p|q
    swap q|p 0 q|p => p|q
    swap p|q 1 p|q => p|q
accepted premise_of_wr
    same p - p => p
    swap p&p 0 p&p => p
    wr q 1 p&p => p,q
accepted premise_of_notr
    same p - p => p
    swap p&p 0 p&p => p
    notr ~(p&p) 1 - => p,~(p&p)
accepted premise_of_andl
    same p - p,q => p
    swap p&p 0 p&p,q => p
    andl (p&p)&q 1 (p&p)&q => p
accepted first_premise_of_orl
    same p - p => p,q
    swap p&p 0 p&p => p,q
    same q - q => p,q,p&p
    orl (p&p)|q 1,2 (p&p)|q => p,q
accepted second_premise_of_orl
    same p - p => p,q
    same q - q => p,q
    swap q&q 1 q&q => p,q
    orl p|(q&q) 0,2 p|(q&q) => p,q
accepted first_premise_of_rcut
    same p - p => p
    swap p&p 0 p&p => p
    same p - p&p,p => p
    rcut p 1,2 p&p => p
accepted second_premise_of_rcut
    same q - q => q,p&p
    same q - q,p => q
    swap p&p 1 q,p&p => q
    rcut p&p 0,2 q => q
accepted both_premises_of_andr
    same p - p => p,q
    swap p&p 0 p&p => p,q
    andr p&p 1,1 p&p => q,p,p&p
accepted first_premise_of_unst
    prove ~~~~p => p
    swap ~~p 0 ~~p => p
    refute ~~p ; p|~p
    unst - 1,2 ~~p => -
refused 10 second_premise_of_unst
    prove ~~p => p
    same ~~p - ~~p,p|~p => p|~p,~~p
    swap ~~p 1 ~~p,p|~p => p|~p,~~p
    unst - 0,2 ~~p => -
refused 10 premise_of_xandl
    same p - p => p
    swap p&p 0 p&p => p
    xandl (p&p)&(p&p) 1 (p&p)&(p&p) ; p
refused 10 premise_of_xnnr
    same c - c,~p => c
    swap ~~~p 0 c,~~~p => c
    xnnr ~~~~p 1 c ; c,~~~~p
refused 10 refutation_as_premise
    xini - - p ; -
    swap p&p 0 p&p => -
refused 10 refutation_that_repeats_as_premise
    xini - - p ; q
    swap p 0 p => q
refused 10 no_premise
    swap p - p => p
refused 10 two_premises
    same p - p => p
    swap p 0,0 p => p
refused 10 no_principal
    same p - p => p
    swap - 0 p => p
";

/// Formulas that tell one pair (H,T) from others. An atom has a value: 0 out of T, 1 in T alone,
/// 2 in H.
struct OnePair {
    /// These all hold in the pair, and elsewhere only with the same T and more in H.
    literals: Vec<String>,
    /// Their conjunction.
    whole: String,
    /// H has more, if T is the same.
    more: String,
}

impl OnePair {
    fn over(atoms: impl IntoIterator<Item = char>, values: &[usize]) -> Self {
        let pair = Vec::from_iter(atoms.into_iter().zip(values.iter().copied()));
        let literal = |&(atom, value): &(char, usize)| format!("{}{atom}", ["~", "~~", ""][value]);
        let literals = Vec::from_iter(pair.iter().map(literal));
        let conjoined = |inner, literal| format!("({literal}&{inner})");
        let whole = literals.iter().cloned().reduce(conjoined).expect("an atom");
        let in_t_alone = pair.iter().filter(|(_, value)| *value == 1).map(|(atom, _)| atom.to_string());
        let more = in_t_alone.reduce(|inner, atom| format!("({atom}|{inner})")).unwrap_or("#".into());
        OnePair { literals, whole, more }
    }

    /// What fails in the pair alone, if T is more than H.
    fn elsewhere(&self) -> String {
        format!("({}->{})", self.whole, self.more)
    }
}

/// 4 to 8 atoms together: formulas that differ in a single pair, in several places among all
/// pairs, and equal ones.
fn single_pairs() -> String {
    let swapped = |heading: String, b: String, a: String| {
        format!(
            "{heading}
                same {b} - {b} => {b}
                swap {a} 0 {a} => {b}
            "
        )
    };
    let differing = |values: &[usize]| {
        let OnePair { whole, more, .. } = OnePair::over('d'.., values);
        let name: String = values.iter().map(usize::to_string).collect();
        let a = format!("{whole}&{more}");
        swapped(format!("refused 11 differing_in_{name}_alone"), whole, a)
    };
    let equal = |count: usize| {
        let pair = OnePair::over('d'.., &Vec::from_iter((0..count).map(|k| k % 3)));
        let implied = |inner, literal: &String| format!("({literal}->{inner})");
        let one_by_one = pair.literals.iter().fold(pair.more.clone(), implied);
        swapped(format!("accepted equal_over_{count}_atoms"), one_by_one, pair.elsewhere())
    };
    let mut text = String::new();
    for count in 4..=8 {
        text += &equal(count);
        for [first, inner, last] in [[0, 0, 0], [0, 0, 1], [0, 2, 2], [1, 1, 1], [2, 2, 1], [2, 2, 2]] {
            text += &differing(&[&[first][..], &vec![inner; count - 2], &[last]].concat());
        }
    }
    for last in [[0, 1, 2], [1, 2, 0], [2, 0, 1]] {
        text += &differing(&[&[2; 5][..], &last].concat());
    }
    text
}

/// Truth for one of four B, with eight of sixteen atoms each: if the first two share eight
/// places, in rising order, the others have two atoms at one place. Those that do not fit
/// fail in one pair alone.
fn clashing_atoms() -> String {
    let case = |heading: &str, fitting: Option<usize>, end: &str| {
        let candidate = |(k, atoms): (usize, &str)| {
            let pair = OnePair::over(atoms.chars(), &[2, 2, 2, 2, 2, 0, 1, 2]);
            let elsewhere = pair.elsewhere();
            if fitting == Some(k) { format!("{elsewhere}|{}", pair.whole) } else { elsewhere }
        };
        let sets = ["defghijk", "lmnopqrs", "defglmno", "hijkpqrs"];
        let candidates = Vec::from_iter(sets.into_iter().enumerate().map(candidate));
        let (first, all) = (&candidates[0], candidates.join(","));
        format!(
            "{heading}
                also {all}
                same {first} - {all} => {first}
                swap ~# 0 {all},~# => {first}
                {end}
            "
        )
    };
    let claimed = "same c - c => c";
    [
        case("accepted second_of_four_with_clashing_atoms_fits", Some(1), claimed),
        case("accepted last_of_four_with_clashing_atoms_fits", Some(3), claimed),
        case("refused 11 none_of_four_with_clashing_atoms_fits", None, ""),
    ]
    .concat()
}

/// What a row of `swap` is claimed to say, and what another row after it is.
fn claims() -> Vec<Case> {
    const SWAPPED: &str = "A 0 p / F 0 atom 0 - / F 1 and 0 0 / N 0 same 0 - 0 0 / N 1 swap 1 0 1 0";
    let case = |name: &str, number, line, end: &str| {
        raw(&format!("rule_swap/{name}"), number, line, tabbed(&format!("{SWAPPED} / {end}")))
    };
    vec![
        case("claimed", 0, 7, "M 0 / C 1 0"),
        case("claim_of_its_premise", 12, 7, "M 0 / C 0 0"),
        case("claim_of_more_on_the_left", 12, 7, "M 0 / C 0,1 0"),
        case("claim_of_more_on_the_right", 12, 7, "M 0 / C 1 0,1"),
        case("claim_of_it_after_a_refutation", 12, 8, "N 2 xini - - 0 - / M 0 / C 1 0"),
        case("claim_of_it_without_a_model", 15, 6, "C 1 0"),
        case("claim_of_it_with_another_model", 17, 6, "M - / C 1 0"),
    ]
}

/// The lines of atoms and of formulas, of which the first are the atoms by their numbers.
#[derive(Clone)]
struct Lines {
    text: String,
    formulas: usize,
}

impl Lines {
    fn over(count: usize) -> Self {
        Lines { text: atoms(count) + &atom_formulas(count), formulas: count }
    }

    fn formula(&mut self, content: String) -> usize {
        self.text += &tabbed(&format!("F {} {content}", self.formulas));
        self.formulas += 1;
        self.formulas - 1
    }

    fn and(&mut self, first: usize, second: usize) -> usize {
        self.formula(format!("and {first} {second}"))
    }

    /// With so many `~` before it.
    fn negated(&mut self, formula: usize, times: usize) -> usize {
        (0..times).fold(formula, |part, _| self.formula(format!("not {part} -")))
    }

    fn joined(&mut self, formulas: impl IntoIterator<Item = usize>) -> usize {
        formulas.into_iter().reduce(|whole, formula| self.and(whole, formula)).expect("a formula")
    }

    /// Said twice, and that twice again, so many times.
    fn doubled(&mut self, formula: usize, times: usize) -> usize {
        (0..times).fold(formula, |part, _| self.and(part, part))
    }

    /// A row with these formulas on its left, and then one by `swap`. If that is to pass, a row of
    /// one atom is claimed.
    fn swap(self, name: &str, number: u16, old: &[usize], principal: usize, new: &[usize]) -> Case {
        let (common, left, swapped) = (old[0], list(old), list(new));
        let rows = format!("N 0 same {common} - {left} {common} / N 1 swap {principal} 0 {swapped} {common}");
        let claim = if number == 0 { " / N 2 same 0 - 0 0 / M 0 / C 0 0" } else { "" };
        let text = self.text + &tabbed(&(rows + claim));
        raw(&format!("rule_swap/{name}"), number, text.lines().count(), text)
    }
}

/// Atoms count as they occur, and not by their numbers.
fn atoms_by_number() -> Vec<Case> {
    let turned = |name: &str, number: u16, chosen: Vec<usize>| {
        let mut lines = Lines::over(MOST_ATOMS);
        let old = lines.joined(chosen.iter().copied());
        let new = lines.joined(chosen.iter().copied().rev());
        lines.swap(name, number, &[old], new, &[new])
    };
    vec![
        turned("atoms_0_and_63", 0, vec![0, 63]),
        turned("atoms_56_to_63", 0, (56..64).collect()),
        turned("atoms_28_to_35", 0, (28..36).collect()),
        turned("every_ninth_atom", 0, (0..64).step_by(9).collect()),
        turned("atoms_0_to_8", 18, (0..9).collect()),
        turned("atoms_28_to_36", 18, (28..37).collect()),
        turned("atoms_55_to_63", 18, (55..64).collect()),
        turned("every_seventh_atom", 18, (0..64).step_by(7).collect()),
        turned("all_64_atoms", 18, (0..64).collect()),
    ]
}

/// Formulas that repeat their parts, up to a thousand deep.
fn shared_parts() -> Vec<Case> {
    let mut deep = Lines::over(2);
    let bottom = deep.and(0, 1);
    let top = deep.doubled(bottom, MOST_FORMULAS - 3);

    let mut near = Lines::over(2);
    let bottoms = [near.and(0, 1), {
        let not_not_q = near.negated(1, 2);
        near.and(0, not_not_q)
    }];
    let [one, other] = bottoms.map(|bottom| near.doubled(bottom, 500));

    let mut negations = Lines::over(1);
    let last = negations.negated(0, MOST_FORMULAS - 1);

    let over = |name: &str, number: u16, count: usize| {
        let mut lines = Lines::over(count);
        let bottom = lines.joined(0..count);
        let top = lines.doubled(bottom, 30);
        lines.swap(name, number, &[bottom], top, &[top])
    };
    vec![
        deep.clone().swap("shared_parts_for_their_bottom", 0, &[bottom], top, &[top]),
        deep.swap("bottom_for_shared_parts", 0, &[top], bottom, &[bottom]),
        near.swap("shared_parts_that_differ_at_the_bottom", 11, &[one], other, &[other]),
        negations.clone().swap("1022_negations_for_two", 0, &[2], last - 1, &[last - 1]),
        negations.clone().swap("1023_negations_for_one", 0, &[1], last, &[last]),
        negations.clone().swap("1022_negations_for_none", 11, &[0], last - 1, &[last - 1]),
        negations.swap("1023_negations_for_two", 11, &[2], last, &[last]),
        over("shared_parts_over_eight_atoms", 0, 8),
        over("shared_parts_over_nine_atoms", 18, 9),
    ]
}

/// Rows with 64 formulas on the left, and 63 or 64 B to choose from: atoms first, then others.
fn choices_on_a_full_side() -> Vec<Case> {
    let mut lines = Lines::over(MOST_ATOMS);
    let wide = lines.joined(2..11);
    let q_and_p = lines.and(1, 0);
    let p_and_q = lines.and(0, 1);
    let filled =
        |last: &[usize], length: usize| Vec::from_iter((0..length - last.len()).chain(last.iter().copied()));
    let added = |name: &str, number: u16, last: &[usize]| {
        let old = filled(last, MOST_ON_A_SIDE - 1);
        let new = [&old[..], &[p_and_q]].concat();
        lines.clone().swap(name, number, &old, p_and_q, &new)
    };
    let repeated = filled(&[p_and_q], MOST_ON_A_SIDE);
    vec![
        added("last_of_63_fits", 0, &[q_and_p]),
        added("last_of_63_fits_after_a_wide_one", 0, &[wide, q_and_p]),
        added("none_of_63_fits", 11, &[]),
        added("none_of_63_fits_and_one_is_wide", 18, &[wide]),
        lines.clone().swap("last_of_64_is_a", 0, &repeated, p_and_q, &repeated),
    ]
}
