//! Tests of answers, on a graph whose answers were found by hand.
use edgebpf::{Batch, Feed, Store, Version, NOT_FOUND};

fn graph() -> Version {
    let ends = [(0, 1), (0, 2), (1, 2), (2, 3), (3, 4), (5, 6)];
    let edges: Batch = ends.iter().flat_map(|&(source, target)| [(source, target), (target, source)]).collect();
    let mut store = Store::new(8).unwrap();
    store.apply(Feed::A, &edges).unwrap();
    store.pin().unwrap()
}

#[test]
fn tells_searches() {
    let (version, levels) = (graph(), [0, 1, 1, 2, 3, NOT_FOUND, NOT_FOUND, NOT_FOUND]);
    let parents = [9, 0, 0, 2, 3, 9, 9, 9];
    assert!(version.is_search(0, &levels, &parents));
    assert!(!version.is_search(1, &levels, &parents));
    assert!(!version.is_search(0, &levels[..7], &parents));
    for vertex in 0..8 {
        let mut changed = levels;
        changed[vertex] = 4;
        assert!(!version.is_search(0, &changed, &parents));
    }
}

#[test]
fn tells_components() {
    let (version, labels) = (graph(), [0, 0, 0, 0, 0, 5, 5, 7]);
    let (parents, steps) = ([0, 0, 0, 2, 3, 0, 5, 0], [0, 1, 1, 2, 3, 0, 1, 0]);
    assert!(version.are_components(&labels, &parents, &steps));
    assert!(!version.are_components(&labels, &parents, &[0; 8]));
    assert!(!version.are_components(&[0, 0, 0, 3, 3, 5, 5, 7], &parents, &steps));
    assert!(!version.are_components(&labels, &parents[..7], &steps));
}

#[test]
fn tells_cores() {
    let (version, numbers, places) = (graph(), [2, 2, 2, 1, 1, 1, 1, 0], [5, 6, 7, 2, 1, 3, 4, 0]);
    assert!(version.are_cores(&numbers, &places));
    assert!(!version.are_cores(&[2, 2, 2, 2, 1, 1, 1, 0], &places));
    assert!(!version.are_cores(&[1, 2, 2, 1, 1, 1, 1, 0], &places));
    assert!(!version.are_cores(&numbers, &[5, 6, 7, 1, 2, 3, 4, 0]));
    assert!(!version.are_cores(&numbers, &places[..7]));
}

#[test]
fn tells_independent_sets() {
    let (version, marks) = (graph(), [true, false, false, true, false, true, false, true]);
    assert!(version.is_independent_set(&marks));
    assert!(!version.is_independent_set(&marks[..7]));
    for vertex in 0..8 {
        let mut changed = marks;
        changed[vertex] = !changed[vertex];
        assert!(!version.is_independent_set(&changed));
    }
}
