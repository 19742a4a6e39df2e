//! Answers that are kept while batches come, on rows that were found by hand and beside answers that are computed again after random batches.
use edgebpf::algorithms::{to_the_end, Failure, Graph, LiveComponents, LiveRank, LiveTriangles, RankOptions};
use edgebpf::{Batch, Error, Feed, Store};

const ENDS: [(u32, u32); 6] = [(0, 1), (0, 2), (1, 2), (2, 3), (3, 4), (5, 6)];

fn both(ends: &[(u32, u32)]) -> Vec<(u32, u32)> {
    ends.iter().flat_map(|&(source, target)| [(source, target), (target, source)]).collect()
}

fn apply(store: &mut Store, inserts: &[(u32, u32)], removes: &[(u32, u32)]) {
    let mut batch: Batch = inserts.iter().copied().collect();
    for &(source, target) in removes {
        batch.remove(source, target);
    }
    store.apply(Feed::A, &batch).unwrap();
}

fn eight() -> Store {
    let mut store = Store::new(8).unwrap();
    apply(&mut store, &both(&ENDS), &[]);
    store
}

#[test]
fn follows_a_stream() {
    let mut store = eight();
    let pin = |store: &Store| store.pin().unwrap();
    let mut parts = LiveComponents::new(pin(&store), to_the_end).unwrap();
    let mut triangles = LiveTriangles::new(pin(&store), to_the_end).unwrap();
    let mut rank = LiveRank::new(pin(&store), 0.85, 1e-6, to_the_end).unwrap();
    for (inserts, removes, labels, all) in [
        (&[(4, 5)][..], &[][..], [0, 0, 0, 0, 0, 0, 0, 7], 1),
        (&[], &[(0, 2)], [0, 0, 0, 0, 0, 0, 0, 7], 0),
        (&[(1, 3)], &[(2, 3)], [0, 0, 0, 0, 0, 0, 0, 7], 0),
        (&[], &[(0, 1), (1, 2), (1, 3)], [0, 1, 2, 3, 3, 3, 3, 7], 0),
        (&[(0, 7), (6, 7), (0, 6)], &[(0, 1)], [0, 1, 2, 0, 0, 0, 0, 0], 1),
    ] {
        let (inserts, removes) = (both(inserts), both(removes));
        apply(&mut store, &inserts, &removes);
        parts.update(pin(&store), &[&inserts, &removes], to_the_end).unwrap();
        triangles.update(pin(&store), &[&removes, &inserts], to_the_end).unwrap();
        rank.update(pin(&store), &[&inserts, &removes], to_the_end).unwrap();
        assert_eq!((parts.labels().unwrap(), triangles.all().unwrap()), (&labels[..], all));
        assert!(rank.apart() <= 1e-6);
    }
    assert_eq!((parts.are_joined(0, 5), parts.are_joined(1, 2)), (Ok(true), Ok(false)));
    assert_eq!((triangles.of(6), triangles.of(5)), (Ok(1), Ok(0)));
}

/// An update that is refused leaves all as it was, and one that is stopped leaves nothing.
#[test]
fn refuses_what_does_not_fit() {
    let mut store = eight();
    let mut parts = LiveComponents::new(store.pin().unwrap(), to_the_end).unwrap();
    let mut triangles = LiveTriangles::new(store.pin().unwrap(), to_the_end).unwrap();
    apply(&mut store, &[(4, 5)], &[]);
    let lame = || store.pin().unwrap();
    assert_eq!(parts.update(lame(), &[], to_the_end), Err(Failure::Edits));
    assert_eq!(parts.update(lame(), &[&[(4, 5)]], to_the_end), Err(Failure::NotMirrored));
    assert_eq!(triangles.update(lame(), &[&[(4, 5)]], to_the_end), Err(Failure::NotMirrored));
    assert_eq!(parts.update(lame(), &[&[(4, 8)]], to_the_end), Err(Failure::Error(Error::VertexRange)));
    let other = Store::new(9).unwrap().pin().unwrap();
    assert_eq!(parts.update(other, &[], to_the_end), Err(Failure::Edits));
    assert_eq!(LiveComponents::new(lame(), to_the_end).err(), Some(Failure::NotMirrored));
    assert_eq!(LiveTriangles::new(lame(), to_the_end).err(), Some(Failure::NotMirrored));
    assert_eq!(LiveRank::new(lame(), 1.0, 1e-6, to_the_end).err(), Some(Failure::Argument));
    assert_eq!(LiveRank::new(lame(), 0.85, 0.0, to_the_end).err(), Some(Failure::Argument));
    assert_eq!((parts.labels().unwrap()[4], triangles.all()), (0, Ok(1)));
    apply(&mut store, &[(5, 4)], &[(2, 3), (3, 2)]);
    let edits = [(4, 5), (5, 4), (2, 3), (3, 2)];
    let stop = |last| {
        let mut asked = 0;
        move |_, _| {
            asked += 1;
            asked <= last
        }
    };
    assert_eq!(parts.update(store.pin().unwrap(), &[&edits], stop(0)), Err(Failure::Stopped));
    assert_eq!(parts.labels().unwrap()[4], 0);
    assert_eq!(parts.update(store.pin().unwrap(), &[&edits], stop(2)), Err(Failure::Stopped));
    assert_eq!(parts.labels(), Err(Failure::CutOff));
    assert_eq!(parts.update(store.pin().unwrap(), &[&edits], to_the_end), Err(Failure::CutOff));
    assert_eq!(triangles.update(store.pin().unwrap(), &[&edits], stop(2)), Err(Failure::Stopped));
    assert_eq!(triangles.all(), Err(Failure::CutOff));
}

#[test]
fn random_streams() {
    let mut state = 7u64;
    let mut below = |bound: u32| {
        state = state.wrapping_mul(6364136223846793005).wrapping_add(1442695040888963407);
        ((state >> 33) as u32) % bound
    };
    for _ in 0..60 {
        let vertices = 1 + below(50);
        let mut some = |most: u32| (0..below(most)).map(|_| (below(vertices), below(vertices))).collect::<Vec<_>>();
        let mut store = Store::new(vertices).unwrap();
        apply(&mut store, &both(&some(2 * vertices)), &[]);
        let pin = |store: &Store| store.pin().unwrap();
        let mut parts = LiveComponents::new(pin(&store), to_the_end).unwrap();
        let mut triangles = LiveTriangles::new(pin(&store), to_the_end).unwrap();
        let mut rank = LiveRank::new(pin(&store), 0.85, 1e-8, to_the_end).unwrap();
        for _ in 0..12 {
            let (inserts, removes) = (both(&some(10)), both(&some(vertices)));
            apply(&mut store, &inserts, &removes);
            parts.update(pin(&store), &[&inserts, &removes], to_the_end).unwrap();
            triangles.update(pin(&store), &[&inserts, &removes], to_the_end).unwrap();
            rank.update(pin(&store), &[&inserts, &removes], to_the_end).unwrap();
            let graph = Graph::of(&pin(&store)).unwrap();
            assert_eq!(parts.labels().unwrap(), graph.components(to_the_end).unwrap());
            let counts = graph.triangles(to_the_end).unwrap();
            assert_eq!((0..vertices).map(|vertex| triangles.of(vertex).unwrap()).collect::<Vec<_>>(), counts);
            let options = RankOptions { within: 1e-13, most: 1_000, ..RankOptions::default() };
            let exact = graph.pagerank(&options, to_the_end).unwrap().ranks;
            let apart: f64 = rank.ranks().unwrap().iter().zip(&exact).map(|(one, other)| (one - other).abs()).sum();
            assert!(apart <= rank.apart() + 1e-11 && rank.apart() <= 1e-8, "{apart} {}", rank.apart());
        }
    }
}
