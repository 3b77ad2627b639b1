//! Work on all processors, with the outcome of work that is done in turn.

use std::sync::atomic::{AtomicUsize, Ordering};
use std::thread;

use crate::agree::Trouble;
use crate::tally::Tally;

/// Asks of each item and counts, up to the first trouble: that of the first item that has some, whichever was found earlier.
pub fn on_all_processors<T: Sync>(
    items: &[T],
    tally: &mut Tally,
    ask: impl Fn(&T, &mut Tally) -> Result<(), Trouble> + Sync,
) -> Result<(), Trouble> {
    let processors = thread::available_parallelism().map_or(1, usize::from);
    let next = AtomicUsize::new(0);
    // Items are taken in their order, so none before the first with trouble is left out.
    let take_and_ask = || {
        let mut counted = Tally::default();
        while let Some((at, item)) = take(items, &next) {
            if let Err(trouble) = ask(item, &mut counted) {
                next.store(items.len(), Ordering::Relaxed);
                return (counted, Some((at, trouble)));
            }
        }
        (counted, None)
    };
    let outcomes: Vec<_> = thread::scope(|scope| {
        let workers: Vec<_> = (0..processors).map(|_| scope.spawn(take_and_ask)).collect();
        workers.into_iter().map(|worker| worker.join().expect("a thread that ends")).collect()
    });
    let (counts, troubles): (Vec<_>, Vec<_>) = outcomes.into_iter().unzip();
    counts.into_iter().for_each(|counted| tally.merge(counted));
    match troubles.into_iter().flatten().min_by_key(|(at, _)| *at) {
        Some((_, trouble)) => Err(trouble),
        None => Ok(()),
    }
}

/// The next item that nobody has taken, and its place.
fn take<'a, T>(items: &'a [T], next: &AtomicUsize) -> Option<(usize, &'a T)> {
    let at = next.fetch_add(1, Ordering::Relaxed);
    items.get(at).map(|item| (at, item))
}

#[cfg(test)]
mod tests {
    use super::*;
    use cases::{Answer, Case};
    use ordinary::{CONFIG_WORDS, TABLE_WORDS};

    fn count(tally: &mut Tally) -> Result<(), Trouble> {
        let (config, table) = ([0; CONFIG_WORDS], [0; TABLE_WORDS]);
        tally.add(&Case::config(config), &Answer { number: 1, places: [0, 0], config, table, edition: 0, left: Vec::new() })
    }

    #[test]
    fn each_item_is_asked_once() {
        let mut tally = Tally::default();
        let outcome = on_all_processors(&[(); 1000], &mut tally, |(), tally| count(tally));
        assert!(outcome.is_ok() && tally.total() == 1000);
    }

    #[test]
    fn the_first_trouble_is_told() {
        let items: Vec<usize> = (0..100).collect();
        let ask = |&item: &usize, tally: &mut Tally| match item {
            40.. => Err(Trouble::new(format!("item {item}"), Case::config([0; CONFIG_WORDS]))),
            _ => count(tally),
        };
        for _ in 0..20 {
            let trouble = on_all_processors(&items, &mut Tally::default(), ask).expect_err("trouble");
            assert!(trouble.to_string().starts_with("DIFFERENCE: item 40\n"));
        }
    }
}
