//! A graph that rebases by itself, beside sets, and read by threads while it is edited.
use edgebpf::{assemble, Batch, Error, Feed, Live, Program, Reduction, Version};
use std::collections::BTreeSet;
use std::sync::atomic::{AtomicBool, Ordering};

fn edges_of(version: &Version) -> BTreeSet<(u32, u32)> {
    (0..version.vertices()).flat_map(|vertex| version.neighbours(vertex).map(move |target| (vertex, target))).collect()
}

#[test]
fn versions_are_numbered_over_all_rebases() {
    let live = Live::with_rebases(20, 7, 200).unwrap();
    let (mut set, mut held, mut state) = (BTreeSet::new(), Vec::new(), 9u64);
    let mut below = |count: u64| {
        state = state.wrapping_mul(6364136223846793005).wrapping_add(1442695040888963407);
        (state >> 33) % count
    };
    for number in 1..200 {
        let (mut batch, before) = (Batch::new(), set.clone());
        for _ in 0..below(70) {
            let edge = (below(20) as u32, below(20) as u32);
            if below(5) < 2 {
                batch.remove(edge.0, edge.1);
                set.remove(&edge);
            } else {
                batch.insert(edge.0, edge.1);
                set.insert(edge);
            }
        }
        let change = live.apply(Feed::B, &batch).unwrap();
        let counts = (set.difference(&before).count() as u64, before.difference(&set).count() as u64);
        assert_eq!((change.number, change.added, change.removed), (number, counts.0, counts.1));
        let (shown, version) = live.numbered().unwrap();
        assert!(version.number() <= 7);
        assert_eq!((shown, edges_of(&version)), (number, set.clone()));
        held.push((version, set.clone()));
    }
    assert!(held[198].0.epoch() > 200 / 7);
    for (version, wanted) in held {
        assert_eq!(edges_of(&version), wanted);
    }
}

#[test]
fn a_graph_begins_with_a_version() {
    let mut store = edgebpf::Store::new(4).unwrap();
    store.apply(Feed::A, &Batch::from_iter([(0, 1), (2, 3)])).unwrap();
    let version = store.pin().unwrap();
    let live = Live::of(&version).unwrap();
    drop(store);
    let (number, first) = live.numbered().unwrap();
    assert_eq!((number, first.epoch(), first.number(), edges_of(&first)), (0, 0, 0, BTreeSet::from([(0, 1), (2, 3)])));
    assert_eq!(live.apply(Feed::A, Batch::new().remove(0, 1).insert(3, 0)).unwrap().number, 1);
    assert_eq!(edges_of(&live.latest().unwrap()), BTreeSet::from([(2, 3), (3, 0)]));
    assert_eq!(edges_of(&version), BTreeSet::from([(0, 1), (2, 3)]));
}

#[test]
fn many_edits_end_an_epoch() {
    let live = Live::with_rebases(4, 4_096, 6).unwrap();
    let batch = Batch::from_iter([(0, 1), (0, 2), (0, 3)]);
    let mut epochs = Vec::new();
    for _ in 0..5 {
        live.apply(Feed::A, &batch).unwrap();
        let version = live.latest().unwrap();
        epochs.push((version.epoch(), version.number()));
    }
    assert_eq!(epochs, [(0, 1), (0, 2), (1, 1), (1, 2), (2, 1)]);
}

#[test]
fn there_is_no_end_to_rebases() {
    let live = Live::with_rebases(70_000, 1, u64::MAX).unwrap();
    let mut set = BTreeSet::new();
    for number in 1..=10_001 {
        let edge = (number as u32 % 5, number as u32);
        set.insert(edge);
        assert_eq!(live.apply(Feed::A, Batch::new().insert(edge.0, edge.1)).unwrap().number, number);
    }
    let version = live.latest().unwrap();
    assert_eq!((version.epoch(), version.number()), (10_000, 1));
    assert_eq!(edges_of(&version), set);
}

#[test]
fn batches_between_rebases_are_at_most_4096() {
    let live = Live::with_rebases(2, u64::MAX, u64::MAX).unwrap();
    for number in 1..=4_097 {
        assert_eq!(live.apply(Feed::A, &Batch::new()).unwrap().number, number);
    }
    assert_eq!((live.latest().unwrap().epoch(), live.latest().unwrap().number()), (1, 1));
}

#[test]
fn what_is_wrong_changes_nothing() {
    assert!(matches!(Live::new(0), Err(Error::VertexCount)));
    let live = Live::with_rebases(4, 0, 0).unwrap();
    for number in 0..3 {
        assert_eq!(live.apply(Feed::A, Batch::new().insert(4, 0)), Err(Error::VertexRange));
        let (shown, version) = live.numbered().unwrap();
        assert_eq!((shown, version.edges()), (number, number));
        live.apply(Feed::A, Batch::new().insert(0, number as u32)).unwrap();
    }
}

#[test]
fn readers_see_whole_versions_in_order() {
    let (live, is_over) = (Live::with_rebases(64, 5, u64::MAX).unwrap(), AtomicBool::new(false));
    let code = assemble("ldxw r0, [r1+4]\nexit").unwrap();
    std::thread::scope(|threads| {
        for _ in 0..3 {
            threads.spawn(|| {
                let target = Program::verify(16, &code).unwrap();
                let (frontier, mut values, mut last) = ((0..64).collect::<Vec<u32>>(), [0; 64], 0);
                while !is_over.load(Ordering::Relaxed) {
                    let (number, version) = live.numbered().unwrap();
                    let totals = version.run(&target, &[], &frontier, Reduction::Sum, &mut values).unwrap();
                    assert!(
                        number >= last && version.edges() == number && totals.total == number * (number.max(1) - 1) / 2
                    );
                    last = number;
                }
            });
        }
        for number in 0..64 {
            live.apply(Feed::D, Batch::new().insert(number, number)).unwrap();
        }
        is_over.store(true, Ordering::Relaxed);
    });
    assert_eq!(live.latest().unwrap().edges(), 64);
}
