//! Work in steps: the worked rows of a graph of 8 vertices, what is wrong, pauses, and runs that a host ends.
use edgebpf::{assemble, Batch, Error, Feed, Program, Progress, Reduction, Run, Store, Totals, Version, MOST_VERTICES};
use std::time::Instant;

const TARGET: &str = "ldxw r0, [r1+4]\nexit";
const ENDS: [(u32, u32); 6] = [(0, 1), (0, 2), (1, 2), (2, 3), (3, 4), (5, 6)];
const ALL: [u32; 8] = [0, 1, 2, 3, 4, 5, 6, 7];
const VALUES: [u64; 8] = [3, 2, 4, 6, 3, 6, 5, 0];

fn program(text: &str) -> Program {
    Program::verify(16, &assemble(text).unwrap()).unwrap()
}

fn both_ways() -> Batch {
    ENDS.iter().flat_map(|&(source, target)| [(source, target), (target, source)]).collect()
}

fn stored() -> (Store, Version) {
    let mut store = Store::new(8).unwrap();
    store.apply(Feed::A, &both_ways()).unwrap();
    let version = store.pin().unwrap();
    (store, version)
}

/// A program with a bound of 946,010 instructions by local calls, all of which each run takes.
fn hostile() -> Program {
    let mut text = String::new();
    for level in 0..3 {
        text += &format!("f{level}:\n{}mov r0, 0\nexit\n", format!("calllocal f{}\n", level + 1).repeat(21));
    }
    program(&(text + "f3:\n" + &"mov r0, 1\n".repeat(100) + "exit"))
}

fn stands(run: &Run) -> (u32, u32, u64, u64) {
    let at = run.progress();
    (at.vertex, at.place, at.edges, at.total)
}

#[test]
fn a_budget_of_nothing_does_an_edge() {
    let ((_store, version), target) = (stored(), program(TARGET));
    let mut values = [9; 8];
    let mut run = version.begin(&target, &[], &ALL, Reduction::Sum, &mut values).unwrap();
    assert_eq!((stands(&run), run.is_done(), run.values()), ((0, 0, 0, 0), false, &[0; 8][..]));
    let mut stood = Vec::new();
    for _ in 0..14 {
        run.step(0);
        stood.push((stands(&run), run.is_done()));
    }
    assert_eq!(stood[..2], [((0, 1, 1, 1), false), ((1, 0, 2, 3), false)]);
    assert_eq!(stood[2..4], [((1, 1, 3, 3), false), ((2, 0, 4, 5), false)]);
    assert_eq!(stood[9], ((5, 0, 10, 18), false));
    assert_eq!(stood[11..], [((7, 0, 12, 29), false), ((8, 0, 12, 29), true), ((8, 0, 12, 29), true)]);
    assert_eq!((run.progress().used, run.totals()), (0, Totals { edges: 12, total: 29 }));
    assert_eq!(values, VALUES);
}

#[test]
fn budgets_are_used_up() {
    let ((_store, version), target) = (stored(), program(TARGET));
    let mut values = [0; 8];
    let mut run = version.begin(&target, &[], &ALL, Reduction::Sum, &mut values).unwrap();
    let mut stood = Vec::new();
    for _ in 0..5 {
        run.step(40);
        stood.push(stands(&run));
    }
    assert_eq!(stood, [(2, 0, 4, 5), (3, 1, 8, 11), (5, 0, 10, 18), (7, 0, 12, 29), (8, 0, 12, 29)]);
    assert_eq!(run.progress().used, 4 * 40 + 16);
    assert_eq!(values, VALUES);
    let mut run = version.begin(&target, &[], &ALL, Reduction::Sum, &mut values).unwrap();
    run.step(u64::MAX);
    assert_eq!((stands(&run), run.is_done(), run.progress().used), ((8, 0, 12, 29), true, 12 * 6 + 8 * 16));
    assert_eq!(values, VALUES);
}

#[test]
fn vertices_twice_outside_and_none() {
    let ((_store, version), target) = (stored(), program(TARGET));
    let mut values = [5; 3];
    let mut run = version.begin(&target, &[], &[2, 2, 7], Reduction::Min, &mut values).unwrap();
    let mut stood = Vec::new();
    for _ in 0..7 {
        run.step(0);
        stood.push(stands(&run));
    }
    assert_eq!((stood[1], stood[2], stood[3], stood[6]), ((0, 2, 2, 0), (1, 0, 3, 0), (1, 1, 4, 0), (3, 0, 6, 0)));
    assert_eq!(values, [0, 0, u64::MAX]);
    let mut values = [5; 2];
    let mut run = version.begin(&target, &[], &[7, 9], Reduction::Sum, &mut values).unwrap();
    for vertex in 1..=2 {
        run.step(0);
        assert_eq!(stands(&run), (vertex, 0, 0, 0));
    }
    assert_eq!((run.is_done(), values), (true, [0, 0]));
    for (reduction, none) in [(Reduction::Sum, 0), (Reduction::Min, u64::MAX), (Reduction::Max, 0)] {
        let run = version.begin(&target, &[], &[], reduction, &mut []).unwrap();
        assert!(run.is_done());
        assert_eq!(run.finish(4), Ok(Totals { edges: 0, total: none }));
    }
}

#[test]
fn numbers_of_a_frontier() {
    let ((_store, version), target) = (stored(), program(TARGET));
    let frontier = [2, 0, 7, 5];
    assert_eq!(version.numbers_of(&target, &[], &frontier).unwrap(), [0, 1, 3, 1, 2, 6]);
    assert_eq!(version.numbers_of(&target, &[], &ALL), version.numbers(&target, &[]));
    assert_eq!(version.numbers_of(&target, &[], &[9, 7]).unwrap(), []);
    let mut room = [0; 4];
    let mut run = version.begin_numbers(&target, &[], &frontier, Progress::default()).unwrap();
    assert_eq!((run.step(u64::MAX, &mut room), room), (4, [0, 1, 3, 1]));
    let at = run.progress();
    assert_eq!((at.vertex, at.place, at.edges, at.total, run.is_done()), (1, 1, 4, 0, false));
    // Without room for a number nothing is done, but for vertices without edges.
    assert_eq!((run.step(u64::MAX, &mut []), run.progress().vertex), (0, 1));
    let mut later = version.begin_numbers(&target, &[], &frontier, at).unwrap();
    assert_eq!((later.step(u64::MAX, &mut room), room), (2, [2, 6, 3, 1]));
    assert_eq!((later.is_done(), later.progress().vertex, later.progress().edges), (true, 4, 6));
}

#[test]
fn pairs_have_their_records() {
    let (_store, version) = stored();
    let (sources, targets) = ([0, 0, 2, 0, 0, 7, 9, 1], [1, 2, 3, 3, 0, 0, 1, 9]);
    let places_and_degrees = [(0, 2), (1, 2), (2, 3), (2, 2), (2, 2), (0, 0), (0, 0), (2, 2)];
    let ends: Vec<u64> =
        sources.iter().zip(targets).map(|(&source, target)| u64::from(source) | u64::from(target) << 32).collect();
    let places: Vec<u64> =
        places_and_degrees.iter().map(|&(place, degree): &(u64, u64)| place | degree << 32).collect();
    for (part, wanted) in [(0, ends), (8, places)] {
        let word = program(&format!("ldxdw r0, [r1+{part}]\nexit"));
        assert_eq!(version.pairs(&word, &[], &sources, &targets).unwrap(), wanted);
        let mut numbers = [7; 8];
        let mut run = version.begin_pairs(&word, &[], &sources, &targets, &mut numbers).unwrap();
        for count in 1..=8 {
            assert!(!run.is_done());
            run.step(0);
            assert_eq!((run.progress().vertex, run.progress().edges), (count as u32, count as u64));
            assert_eq!(run.numbers()[..count], wanted[..count]);
            assert!(run.numbers()[count..].iter().all(|number| *number == 7));
        }
        assert!(run.is_done());
    }
    let target = program(TARGET);
    let csr = version.csr().unwrap();
    let sources: Vec<u32> = (0..8).flat_map(|vertex| version.neighbours(vertex).map(move |_| vertex)).collect();
    assert_eq!(version.pairs(&target, &[], &sources, &csr.targets), version.numbers(&target, &[]));
}

#[test]
fn what_is_wrong_is_told_before_a_step() {
    let ((_store, version), target) = (stored(), program(TARGET));
    let mut values = [5; 8];
    let begun = version.begin(&target, &[], &ALL[1..], Reduction::Sum, &mut values).err();
    assert_eq!((begun, values), (Some(Error::Lengths), [5; 8]));
    let begun = version.begin(&target, &[1], &ALL, Reduction::Min, &mut values).err();
    assert_eq!((begun, values), (Some(Error::ArgumentLength), [5; 8]));
    // Never read, so the system gives it no memory.
    let many = vec![0; MOST_VERTICES as usize + 1];
    assert_eq!(
        version.begin(&target, &[], &many, Reduction::Sum, &mut vec![0; many.len()]).err(),
        Some(Error::Lengths)
    );
    assert_eq!(version.begin_numbers(&target, &[], &many, Progress::default()).err(), Some(Error::Lengths));
    assert_eq!(version.numbers_of(&target, &[1], &ALL), Err(Error::ArgumentLength));
    assert_eq!(version.pairs(&target, &[], &[0], &[]), Err(Error::Lengths));
    assert_eq!(version.begin_pairs(&target, &[], &[0], &[1], &mut []).err(), Some(Error::Lengths));
    assert_eq!(version.pairs(&target, &[1], &[0], &[1]), Err(Error::ArgumentLength));
    for (vertex, place) in [(9, 0), (8, 1), (0, 3), (7, 1), (u32::MAX, 0), (2, u32::MAX)] {
        let at = Progress { vertex, place, ..Progress::default() };
        assert_eq!(version.resume(&target, &[], &ALL, Reduction::Sum, at, &mut values).err(), Some(Error::Progress));
        assert_eq!(version.begin_numbers(&target, &[], &ALL, at).err(), Some(Error::Progress));
    }
    assert_eq!(Error::Progress.to_string(), "the progress names no place of this frontier");
}

#[test]
fn a_progress_that_a_host_made_up() {
    let ((_store, version), target) = (stored(), program(TARGET));
    // The place after a vertex's last edge is one: the value is what stands there, and counts wrap.
    let mut values = [70, 71, 72, 0, 0, 0, 0, 0];
    let at = Progress { vertex: 2, place: 3, edges: u64::MAX, total: u64::MAX, used: 0 };
    let totals = version.resume(&target, &[], &ALL, Reduction::Sum, at, &mut values).unwrap().finish(1).unwrap();
    assert_eq!((totals, values), (Totals { edges: 4, total: 19 }, [70, 71, 72, 6, 3, 6, 5, 0]));
    // A vertex under way goes on from the value that it finds.
    let mut values = [100, 0, 0, 0, 0, 0, 0, 0];
    let at = Progress { place: 1, edges: 1, total: 1, ..Progress::default() };
    let totals = version.resume(&target, &[], &ALL, Reduction::Sum, at, &mut values).unwrap().finish(1).unwrap();
    assert_eq!((totals, values), (Totals { edges: 12, total: 29 }, [102, 2, 4, 6, 3, 6, 5, 0]));
}

#[test]
fn each_pause_is_handed_to_another_thread() {
    let ((mut store, version), target) = (stored(), program(TARGET));
    let (mut values, mut at, mut calls) = ([0; 8], Progress::default(), 0);
    while (at.vertex as usize) < ALL.len() {
        let (version, target) = (version.share().unwrap(), target.share().unwrap());
        (at, values) = std::thread::spawn(move || {
            let mut run = version.resume(&target, &[], &ALL, Reduction::Sum, at, &mut values).unwrap();
            run.step(0);
            (run.progress(), values)
        })
        .join()
        .unwrap();
        calls += 1;
        // The version stays as it is over batches and a rebase.
        store.apply(Feed::B, Batch::new().remove(0, 2).insert(0, 7).insert(7, calls % 8)).unwrap();
        if calls % 4 == 0 {
            store.rebase().unwrap();
        }
    }
    assert_eq!((calls, at.edges, at.total, values), (13, 12, 29, VALUES));
}

#[test]
fn threads_give_what_one_gives() {
    let mut store = Store::new(200).unwrap();
    store.apply(Feed::A, &(0..20_000).map(|each| (each % 200, each / 200)).collect()).unwrap();
    let (version, target) = (store.pin().unwrap(), program(TARGET));
    let frontier: Vec<u32> = (0..200).rev().chain([3; 50]).collect();
    for (reduction, value, total) in
        [(Reduction::Sum, 4_950, 4_950 * 250), (Reduction::Min, 0, 0), (Reduction::Max, 99, 99)]
    {
        for threads in [0, 1, 2, 3, 7, 64, usize::MAX] {
            for budget in [0, 1_000, 30_000] {
                let mut values = vec![1; 250];
                let mut run = version.begin(&target, &[], &frontier, reduction, &mut values).unwrap();
                run.step(budget);
                assert!(!run.is_done());
                assert_eq!(run.finish(threads), Ok(Totals { edges: 25_000, total }));
                assert_eq!(values, vec![value; 250]);
            }
        }
    }
}

/// A run of a program that takes milliseconds an edge is paused, billed, and dropped.
#[test]
fn a_hostile_program_is_ended() {
    let mut store = Store::new(200).unwrap();
    store.apply(Feed::A, &(0..20_000).map(|each| (each % 200, each / 200)).collect()).unwrap();
    let (version, hostile) = (store.pin().unwrap(), hostile());
    let bound = u64::from(hostile.verdict().bound);
    assert_eq!(bound, 946_010);
    let frontier: Vec<u32> = (0..200).collect();
    let mut values = vec![0; 200];
    let mut run = version.begin(&hostile, &[], &frontier, Reduction::Sum, &mut values).unwrap();
    let begun = Instant::now();
    for edges in 1..=5 {
        run.step(1);
        assert_eq!((run.progress().edges, run.progress().place, run.progress().used), (edges, edges as u32, edges));
    }
    run.step(10 * (bound + 4));
    assert!(run.progress().edges >= 15 && !run.is_done());
    assert_eq!(run.progress().used, 5 + 10 * (bound + 4));
    assert!(begun.elapsed().as_secs() < 10);
}
