//! Makes a case smaller for as long as it stays as it must be.

use cases::Case;

/// A case that still holds and of which nothing single can be taken away: no stretch of its plan, and no word, number or byte that
/// could be zero.
pub fn shrink(case: &Case, holds: impl Fn(&Case) -> bool) -> Case {
    let mut smallest = case.clone();
    while let Some(smaller) = smaller(&smallest, &holds) {
        smallest = smaller;
    }
    smallest
}

/// The case after one pass over all of it, if the pass took something away.
fn smaller(case: &Case, holds: &impl Fn(&Case) -> bool) -> Option<Case> {
    let mut smaller = case.clone();
    shorten_plan(&mut smaller, holds);
    zero_each(&mut smaller, holds, |case| &mut case.config);
    if smaller.owners.is_some() {
        zero_each(&mut smaller, holds, |case| case.owners.as_mut().expect("owners"));
    }
    zero_each(&mut smaller, holds, |case| &mut case.table);
    zero_each(&mut smaller, holds, |case| &mut case.wanted);
    zero_each(&mut smaller, holds, |case| &mut case.numbers);
    zero_each(&mut smaller, holds, |case| &mut case.plan);
    zero_each(&mut smaller, holds, |case| &mut case.lengths);
    zero_each(&mut smaller, holds, |case| &mut case.buffer);
    (smaller != *case).then_some(smaller)
}

/// Takes stretches out of the plan, long ones first, from its end.
fn shorten_plan(case: &mut Case, holds: &impl Fn(&Case) -> bool) {
    let mut stretch = case.plan.len();
    while stretch > 0 {
        let mut end = case.plan.len();
        while end >= stretch {
            let mut shorter = case.clone();
            shorter.plan.drain(end - stretch..end);
            if holds(&shorter) {
                *case = shorter;
            }
            end -= stretch;
        }
        stretch /= 2;
    }
}

/// Sets to zero each item that can be.
fn zero_each<T, P>(case: &mut Case, holds: &impl Fn(&Case) -> bool, part: impl Fn(&mut Case) -> &mut P)
where
    T: Copy + Default + PartialEq,
    P: AsMut<[T]> + ?Sized,
{
    for at in 0..part(case).as_mut().len() {
        let before = std::mem::take(&mut part(case).as_mut()[at]);
        if before != T::default() && !holds(case) {
            part(case).as_mut()[at] = before;
        }
    }
}

#[cfg(test)]
mod tests {
    use super::*;
    use ordinary::{CONFIG_WORDS, TABLE_WORDS};

    #[test]
    fn what_matters_is_left() {
        let case = Case::apply([7; CONFIG_WORDS], [7; TABLE_WORDS], 7, vec![9; 100]);
        let holds = |case: &Case| case.config[3] == 7 && case.table[5] == 7 && case.plan.len() >= 13 && case.plan.contains(&9);
        let small = shrink(&case, holds);
        assert_eq!(small.config.iter().sum::<u64>(), 7);
        assert_eq!(small.table.iter().sum::<u64>(), 7);
        assert_eq!(small.numbers, [0; cases::NUMBERS]);
        assert_eq!((small.plan.len(), small.plan.iter().filter(|&&byte| byte != 0).count()), (13, 1));
    }

    #[test]
    fn what_holds_for_all_shrinks_to_nothing() {
        let case = Case::apply([7; CONFIG_WORDS], [7; TABLE_WORDS], 7, vec![9; 100]);
        assert_eq!(shrink(&case, |_| true), Case::apply([0; CONFIG_WORDS], [0; TABLE_WORDS], 0, Vec::new()));
    }
}
