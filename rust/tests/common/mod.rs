//! A store for the tests.

use ccfb::{Mark, Store, Time};

/// Streams 7 and 9, of which only that number arrived.
pub fn store_with(highest: u16) -> Store<2> {
    let mut store = Store::new();
    for ssrc in [7, 9] {
        store.arrive(ssrc, highest, Mark::Ect0, Time::At(1)).expect("a free place");
    }
    store
}
