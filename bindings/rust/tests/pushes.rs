//! Pushes into the values of targets, on graphs whose answers were found by hand.
use edgebpf::{assemble, Batch, Error, Feed, Program, Progress, Reduction, Store, Version};

const Y: [u64; 4] = [1, 10, 100, 1000];

fn graph(vertices: u32, ends: &[(u32, u32)]) -> Version {
    let edges: Batch = ends.iter().copied().collect();
    let mut store = Store::new(vertices).unwrap();
    store.apply(Feed::A, &edges).unwrap();
    store.pin().unwrap()
}

fn small() -> Version {
    graph(4, &[(0, 1), (0, 2), (1, 2), (3, 2)])
}

fn first_number(record: u16) -> Program {
    Program::verify(record, &assemble("ldxdw r0, [r1+16]\nexit").unwrap()).unwrap()
}

#[test]
fn pushes_the_rows() {
    let (version, columns, of_source) = (small(), [&Y[..]], first_number(32));
    let lent = version.with_columns(&columns).unwrap();
    for (reduction, frontier, begins, left, edges, total) in [
        (Reduction::Sum, &[0, 1, 2, 3][..], 0, [0, 1, 1011, 0], 4, 1012),
        (Reduction::Sum, &[0, 1, 2, 3], u64::MAX, [u64::MAX, 0, 1010, u64::MAX], 4, 1012),
        (Reduction::Min, &[0, 1, 2, 3], u64::MAX, [u64::MAX, 1, 1, u64::MAX], 4, 1),
        (Reduction::Max, &[0, 3], 5, [5, 5, 1000, 5], 3, 1000),
        (Reduction::Sum, &[0, 0], 0, [0, 2, 2, 0], 4, 4),
    ] {
        let mut values = [begins; 4];
        let totals = lent.push(&of_source, &[], frontier, reduction, &mut values).unwrap();
        assert_eq!((values, totals.edges, totals.total), (left, edges, total));
        for budget in [0, 1, 10, 1_000] {
            let mut values = [begins; 4];
            let mut push = lent.begin_push(&of_source, &[], frontier, reduction, &mut values).unwrap();
            while !push.is_done() {
                push.step(budget);
            }
            assert_eq!((push.totals().edges, push.totals().total), (edges, total));
            assert_eq!(values, left);
        }
    }
}

#[test]
fn goes_on_from_a_progress() {
    let (version, columns, of_source) = (small(), [&Y[..]], first_number(32));
    let lent = version.with_columns(&columns).unwrap();
    let mut values = [0; 4];
    let mut push = lent.begin_push(&of_source, &[], &[0, 1, 2, 3], Reduction::Sum, &mut values).unwrap();
    push.step(0);
    let at = push.progress();
    assert_eq!((at.vertex, at.place, push.values()), (0, 1, &[0, 1, 0, 0][..]));
    let mut push = lent.resume_push(&of_source, &[], &[0, 1, 2, 3], Reduction::Sum, at, &mut values).unwrap();
    while !push.is_done() {
        push.step(u64::MAX);
    }
    assert_eq!(values, [0, 1, 1011, 0]);
}

fn mirrored() -> Version {
    let ends = [(0, 1), (0, 2), (1, 2), (2, 3), (3, 4), (5, 6)];
    let both: Vec<_> = ends.iter().flat_map(|&(source, target)| [(source, target), (target, source)]).collect();
    graph(8, &both)
}

/// Those whose value is another one than before.
fn changed(before: [u64; 8], values: [u64; 8]) -> Vec<u32> {
    (0..8).filter(|&vertex| before[vertex as usize] != values[vertex as usize]).collect()
}

#[test]
fn labels_components_by_pushes() {
    let (version, of_source) = (mirrored(), first_number(32));
    let (mut labels, mut front, mut fronts) = ([0, 1, 2, 3, 4, 5, 6, 7], (0..8).collect::<Vec<u32>>(), vec![]);
    while !front.is_empty() {
        let before = labels;
        let columns = [&before[..]];
        version.with_columns(&columns).unwrap().push(&of_source, &[], &front, Reduction::Min, &mut labels).unwrap();
        front = changed(before, labels);
        fronts.push(front.clone());
    }
    assert_eq!(labels, [0, 0, 0, 0, 0, 5, 5, 7]);
    assert_eq!(fronts, [vec![1, 2, 3, 4, 6], vec![3, 4], vec![4], vec![]]);
}

/// What is left where every vertex has two neighbours at least.
#[test]
fn takes_out_all_but_the_core() {
    let (version, one) = (mirrored(), Program::verify(16, &assemble("mov r0, 1\nexit").unwrap()).unwrap());
    let mut left: Vec<u64> = (0..8).map(|vertex| u64::from(version.degree(vertex))).collect();
    let (mut is_there, mut rounds) = ([true; 8], 0);
    loop {
        let gone: Vec<u32> = (0..8).filter(|&vertex| is_there[vertex as usize] && left[vertex as usize] < 2).collect();
        if gone.is_empty() {
            break;
        }
        let mut lost = [0; 8];
        version.push(&one, &[], &gone, Reduction::Sum, &mut lost).unwrap();
        for &vertex in &gone {
            is_there[vertex as usize] = false;
        }
        for (number, lost) in left.iter_mut().zip(lost) {
            *number -= lost;
        }
        rounds += 1;
    }
    assert_eq!((is_there, rounds), ([true, true, true, false, false, false, false, false], 2));
}

#[test]
fn searches_by_levels() {
    let (version, of_argument) = (mirrored(), first_number(24));
    let (mut hops, mut front, mut level) = ([u64::MAX; 8], vec![0], 0u64);
    hops[0] = 0;
    while !front.is_empty() {
        level += 1;
        let before = hops;
        version.push(&of_argument, &level.to_le_bytes(), &front, Reduction::Min, &mut hops).unwrap();
        front = changed(before, hops);
    }
    assert_eq!((hops, level), ([0, 1, 1, 2, 3, u64::MAX, u64::MAX, u64::MAX], 4));
}

#[test]
fn refuses_what_does_not_fit() {
    let (version, columns, of_source) = (small(), [&Y[..]], first_number(32));
    let lent = version.with_columns(&columns).unwrap();
    let mut values = [9; 5];
    for count in [3, 5] {
        let pushed = lent.push(&of_source, &[], &[0], Reduction::Sum, &mut values[..count]);
        assert_eq!(pushed, Err(Error::Lengths));
    }
    let values = &mut values[..4];
    assert_eq!(lent.push(&of_source, &[0; 8], &[0], Reduction::Sum, values), Err(Error::ArgumentLength));
    assert_eq!(version.push(&of_source, &[], &[0], Reduction::Sum, values), Err(Error::ArgumentLength));
    let past = Progress { vertex: 2, ..Progress::default() };
    assert_eq!(lent.resume_push(&of_source, &[], &[0], Reduction::Sum, past, values).err(), Some(Error::Progress));
    assert_eq!(values, [9; 4]);
}
