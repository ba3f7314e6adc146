//! A store in borrowed memory.

use ccfb::{Mark, Refusal, Report, StoreIn, Stream, Time, CELLS_OF_A_PLACE, MOST_PLACES};

#[test]
fn only_memory_of_the_right_shape() {
    let mut places = [0; MOST_PLACES + 1];
    let mut cells = vec![0; (MOST_PLACES + 1) * CELLS_OF_A_PLACE];
    for count in 0..=MOST_PLACES + 1 {
        let right = count * CELLS_OF_A_PLACE;
        for length in [0, right.saturating_sub(1), right, right + 1] {
            let Some(cells) = cells.get_mut(..length) else { continue };
            let accepted = length == right && (1..=MOST_PLACES).contains(&count);
            let store = StoreIn::new(&mut places[..count], cells);
            assert_eq!(store.err(), (!accepted).then_some(Refusal::BadStore));
        }
    }
}

#[test]
fn what_is_in_the_memory_is_kept() -> Result<(), Refusal> {
    let (mut places, mut cells) = ([0; 2], [0; 2 * CELLS_OF_A_PLACE]);
    for number in [65_530, 65_533, 4] {
        StoreIn::new(&mut places, &mut cells)?.arrive(7, number, Mark::Ce, Time::Unknown)?;
    }
    let mut store = StoreIn::new(&mut places, &mut cells)?;
    assert_eq!(store.place(0), Ok(Stream { ssrc: 7, highest: 4, oldest: 65_530 }));
    assert_eq!(store.streams().count(), 1);
    store.forget(7)?;
    assert_eq!(StoreIn::new(&mut places, &mut cells)?.streams().count(), 0);
    Ok(())
}

#[test]
fn any_words_are_a_store() -> Result<(), Refusal> {
    for word in [u64::MAX, 1 << 48, 0x0001_0000_0007_0064] {
        let (mut places, mut cells) = ([word; 2], [word; 2 * CELLS_OF_A_PLACE]);
        let store = StoreIn::new(&mut places, &mut cells)?;
        let requests = ccfb::Reporter::new(0).requests(store.streams());
        let mut out = vec![0; requests.room()];
        let packets = store.write(Report { own: 1, rts: 2, limit: 24 }, &requests, &mut out)?;
        assert_eq!(packets.len() == 0, word == u64::MAX);
    }
    Ok(())
}

#[cfg(feature = "alloc")]
#[test]
fn answers_as_an_owned_store() -> Result<(), Refusal> {
    let mut owned = ccfb::Store::<2>::new();
    let (mut places, mut cells) = ([0; 2], [0; 2 * CELLS_OF_A_PLACE]);
    let mut borrowed = StoreIn::new(&mut places, &mut cells)?;
    for (ssrc, number) in [(7, 100), (8, 5), (9, 1), (7, 104), (7, 60_000), (8, 5)] {
        let of_owned = owned.arrive(ssrc, number, Mark::Ect0, Time::At(9));
        assert_eq!(borrowed.arrive(ssrc, number, Mark::Ect0, Time::At(9)), of_owned);
    }
    assert!(borrowed.streams().eq(owned.streams()));
    assert_eq!(format!("{borrowed:?}"), format!("{owned:?}"));
    let requests: Vec<_> = owned.streams().map(Stream::all).collect();
    let (mut out, mut other) = ([0; 100], [0; 100]);
    let report = Report { own: 1, rts: 70, limit: 1_200 };
    let packets = owned.write(report, &requests, &mut out)?;
    assert!(borrowed.write(report, &requests, &mut other)?.eq(packets));
    assert_eq!(borrowed.forget(8), owned.forget(8));
    assert_eq!(borrowed.forget(8), owned.forget(8));
    Ok(())
}
