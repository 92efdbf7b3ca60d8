//! Iterators over a list of one's own: five items, from the front, from the back, and from both ends.

use crate::capnp_base::traits::{Index, IndexIter, IndexMove, ListIter, ShortListIter};

/// The tens: at index 3 stands 30.
#[derive(Clone, Copy)]
struct Tens;

impl<I: Index> IndexMove<I, u64> for Tens {
    fn index_move(&self, index: I) -> u64 {
        10 * u64::from(index.to_number())
    }
}

fn five() -> ListIter<Tens, u64> {
    ListIter::new(Tens, 5)
}

fn short_five() -> ShortListIter<Tens, u64> {
    ShortListIter::new(Tens, 5)
}

/// A call of an iterator.
#[derive(Clone, Copy, Debug)]
enum Step {
    Next,
    NextBack,
    Nth(usize),
    NthItem(usize),
}

use Step::{Next, NextBack, Nth, NthItem};

/// Asserts the answer of each call, and how many items are still to come.
#[track_caller]
fn assert_steps<I: Index>(mut items: IndexIter<Tens, I, u64>, steps: &[(Step, Option<u64>, usize)]) {
    assert_eq!(items.size_hint(), (5, Some(5)));
    for (index, (step, wanted, left)) in steps.iter().enumerate() {
        let item = match *step {
            Next => items.next(),
            NextBack => items.next_back(),
            Nth(skipped) => items.nth(skipped),
            NthItem(skipped) => items.nth_item(skipped),
        };
        assert_eq!(item, *wanted, "step {index}, {step:?}");
        assert_eq!(items.size_hint(), (*left, Some(*left)), "step {index}, {step:?}");
        assert_eq!(items.len(), *left, "step {index}, {step:?}");
    }
}

#[test]
fn five_items_from_both_ends() {
    let steps = [
        (NextBack, Some(40), 4),
        (NthItem(1), Some(10), 2),
        (NthItem(9), None, 0),
        (Next, None, 0),
        (NextBack, None, 0),
    ];
    assert_steps(five(), &steps);
}

#[test]
fn each_item_comes_once() {
    let steps = [
        (Next, Some(0), 4),
        (NextBack, Some(40), 3),
        (Next, Some(10), 2),
        (NextBack, Some(30), 1),
        (Next, Some(20), 0),
        (NextBack, None, 0),
    ];
    assert_steps(five(), &steps);
}

#[test]
fn short_items_from_both_ends() {
    let steps = [
        (NextBack, Some(40), 4),
        (Nth(1), Some(10), 2),
        (NthItem(70_000), None, 0),
        (Next, None, 0),
        (NextBack, None, 0),
    ];
    assert_steps(short_five(), &steps);
}

#[test]
fn a_loop_gives_the_items_in_order() {
    assert_eq!(five().collect::<Vec<_>>(), [0, 10, 20, 30, 40]);
    assert_eq!(short_five().rev().collect::<Vec<_>>(), [40, 30, 20, 10, 0]);
}

#[test]
fn a_list_is_asked_by_its_index() {
    assert_eq!(Tens.index_move(7u32), 70);
    assert_eq!(Tens.index_move(99u16), 990);
}
