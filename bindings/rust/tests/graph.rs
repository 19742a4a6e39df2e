//! What the crate answers, on graphs whose answers were found by hand or by sets.
use edgebpf::{
    assemble, explain, Batch, Error, Feed, NotAssembled, Program, Reduction, Refusal, Store, Version, EDGE_BYTES,
    MOST_EDITS, MOST_VERTICES,
};
use std::collections::BTreeSet;

const TARGET: &str = "ldxw r0, [r1+4]\nexit";

fn program(text: &str, record_length: u16) -> Program {
    Program::verify(record_length, &assemble(text).unwrap()).unwrap()
}

fn edges_of(version: &Version) -> BTreeSet<(u32, u32)> {
    let csr = version.csr().unwrap();
    let mut found = BTreeSet::new();
    for vertex in 0..version.vertices() {
        let (from, to) = (csr.starts[vertex as usize] as usize, csr.starts[vertex as usize + 1] as usize);
        let targets = &csr.targets[from..to];
        assert!(targets.windows(2).all(|pair| pair[0] < pair[1]));
        assert_eq!(version.neighbours(vertex).collect::<Vec<_>>(), targets);
        assert_eq!(version.degree(vertex) as usize, targets.len());
        found.extend(targets.iter().map(|target| (vertex, *target)));
    }
    found
}

#[test]
fn a_version_stays_as_it_is() {
    let mut store = Store::new(4).unwrap();
    let made = store.apply(Feed::A, &Batch::from_iter([(0, 1), (0, 2), (1, 2), (2, 0), (3, 3)])).unwrap();
    assert_eq!((made.added, made.removed, made.number), (5, 0, 1));
    let first = store.pin().unwrap();
    let made = store.apply(Feed::B, Batch::new().remove(1, 2).insert(0, 3).remove(3, 1)).unwrap();
    assert_eq!((made.added, made.removed, made.number), (1, 1, 2));
    let last = store.pin().unwrap();
    drop(store);
    assert_eq!(edges_of(&first), BTreeSet::from([(0, 1), (0, 2), (1, 2), (2, 0), (3, 3)]));
    assert_eq!(edges_of(&last), BTreeSet::from([(0, 1), (0, 2), (0, 3), (2, 0), (3, 3)]));
    assert_eq!((first.number(), first.edges(), first.vertices()), (1, 5, 4));
    assert_eq!((last.number(), last.edges(), last.vertices()), (2, 5, 4));
    assert!(first.has_edge(1, 2) && !last.has_edge(1, 2) && !last.has_edge(9, 9));
    assert_eq!((last.neighbour(0, 1), last.neighbour(0, 3), last.neighbour(9, 0)), (Some(2), None, None));
    assert_eq!((last.degree(u32::MAX), last.slices(u32::MAX).len()), (0, 0));
}

#[test]
fn runs_reduce_the_numbers_of_edges() {
    let mut store = Store::new(4).unwrap();
    store.apply(Feed::A, &Batch::from_iter([(0, 1), (0, 2), (2, 0)])).unwrap();
    let version = store.pin().unwrap();
    let target = program(TARGET, 16);
    let mut values = [9; 3];
    let frontier = [2, 1, 0];
    let totals = version.run(&target, &[], &frontier, Reduction::Sum, &mut values).unwrap();
    assert_eq!((values, totals.edges, totals.total), ([0, 0, 3], 3, 3));
    let totals = version.run(&target, &[], &frontier, Reduction::Min, &mut values).unwrap();
    assert_eq!((values, totals.total), ([0, u64::MAX, 1], 0));
    let totals = version.run(&target, &[], &frontier, Reduction::Max, &mut values).unwrap();
    assert_eq!((values, totals.total), ([0, 0, 2], 2));
    assert_eq!(version.numbers(&target, &[]).unwrap(), [1, 2, 0]);
    let weighted = program("ldxdw r0, [r1+16]\nldxw r2, [r1+4]\nmul r0, r2\nexit", 24);
    assert_eq!(version.numbers(&weighted, &7u64.to_le_bytes()).unwrap(), [7, 14, 0]);
    // The first and the last byte of the longest argument.
    let ends = program("ldxb r0, [r1+16]\nlsh r0, 8\nldxb r2, [r1+255]\nor r0, r2\nexit", 256);
    let argument: Vec<u8> = (1..=240).collect();
    assert_eq!(version.numbers(&ends, &argument).unwrap(), [496; 3]);
    let totals = version.run(&ends, &argument, &frontier, Reduction::Sum, &mut values).unwrap();
    assert_eq!((values, totals.total), ([496, 0, 992], 1488));
    assert_eq!(weighted.share().unwrap().verdict(), weighted.verdict());
    assert_eq!((weighted.verdict().bound, weighted.verdict().frames), (4, 1));
    let calls = program("calllocal f\nexit\nf:\nmov r0, 1\nexit", 16);
    assert_eq!((calls.verdict().bound, calls.verdict().frames), (4, 2));
}

#[test]
fn edits_are_applied_in_their_order() {
    let mut store = Store::new(4).unwrap();
    let made =
        store.apply_arrays(Feed::A, &[0, 0, 0, 1, 1], &[1, 1, 1, 2, 2], &[false, true, false, false, true]).unwrap();
    assert_eq!((made.added, made.removed, made.number), (1, 0, 1));
    let made = store.apply(Feed::C, Batch::new().remove(0, 1).insert(2, 3).remove(2, 3).insert(0, 1)).unwrap();
    assert_eq!((made.added, made.removed, made.number), (0, 0, 2));
    assert_eq!(edges_of(&store.pin().unwrap()), BTreeSet::from([(0, 1)]));
}

#[test]
fn a_rebase_begins_numbers_again() {
    let mut store = Store::new(4).unwrap();
    store.apply(Feed::A, &Batch::from_iter([(0, 1), (0, 2)])).unwrap();
    let first = store.pin().unwrap();
    assert_eq!(store.rebase(), Ok(1));
    let based = store.pin().unwrap();
    let made = store.apply(Feed::D, Batch::new().remove(0, 1)).unwrap();
    assert_eq!((made.added, made.removed, made.number), (0, 1, 1));
    let last = store.pin().unwrap();
    assert_eq!((first.epoch(), first.number(), edges_of(&first)), (0, 1, BTreeSet::from([(0, 1), (0, 2)])));
    assert_eq!((based.epoch(), based.number(), edges_of(&based)), (1, 0, BTreeSet::from([(0, 1), (0, 2)])));
    assert_eq!((last.epoch(), last.number(), edges_of(&last)), (1, 1, BTreeSet::from([(0, 2)])));
    for number in 2..=10_000 {
        assert_eq!(store.rebase(), Ok(number));
    }
    assert_eq!(store.apply(Feed::C, Batch::new().insert(3, 3)).unwrap().number, 1);
    let version = store.pin().unwrap();
    assert_eq!((version.epoch(), edges_of(&version)), (10_000, BTreeSet::from([(0, 2), (3, 3)])));
}

#[test]
fn sorted_edges_are_a_store() {
    // Lists in blocks, in arrays and in trees, over a range's end.
    let is_edge = |vertex: u32, target: u32| vertex == 256 || (vertex * 7 + target) % (vertex % 90 + 2) == 0;
    let lists: Vec<Vec<u32>> =
        (0..1_300).map(|vertex| (0..1_300).filter(|target| is_edge(vertex, *target)).collect()).collect();
    let mut starts = vec![0];
    for list in &lists {
        starts.push(starts[starts.len() - 1] + list.len() as u64);
    }
    let targets = lists.concat();
    let mut store = Store::from_sorted(&starts, &targets).unwrap();
    let version = store.pin().unwrap();
    assert_eq!((version.epoch(), version.number(), version.edges()), (0, 0, targets.len() as u64));
    let csr = version.csr().unwrap();
    assert_eq!((&csr.starts, &csr.targets), (&starts, &targets));
    let made = store.apply(Feed::A, Batch::new().remove(256, 0).insert(256, 0).remove(1_299, 1_298)).unwrap();
    assert_eq!((made.added, made.removed), (0, u64::from(is_edge(1_299, 1_298))));
    let wrong: [(&[u64], &[u32], Error); 10] = [
        (&[], &[], Error::VertexCount),
        (&[0], &[], Error::VertexCount),
        (&[1, 1], &[0], Error::NotSorted),
        (&[0, 2], &[0], Error::NotSorted),
        (&[0, 0], &[0], Error::NotSorted),
        (&[0, 2, 1, 2], &[0, 1], Error::NotSorted),
        (&[0, u64::MAX, 1], &[0], Error::NotSorted),
        (&[0, 2, 2], &[1, 1], Error::NotSorted),
        (&[0, 2, 2], &[9, 1], Error::NotSorted),
        (&[0, 1, 1], &[2], Error::VertexRange),
    ];
    for (starts, targets, error) in wrong {
        assert_eq!(Store::from_sorted(starts, targets).err(), Some(error));
    }
}

#[test]
fn a_branch_has_a_history_of_its_own() {
    let mut store = Store::new(300).unwrap();
    store.apply(Feed::A, &Batch::from_iter((0..299).map(|vertex| (vertex, vertex + 1)))).unwrap();
    store.rebase().unwrap();
    store.apply(Feed::B, Batch::new().remove(0, 1).insert(0, 299)).unwrap();
    let pinned = store.pin().unwrap();
    let mut all = (1..299).map(|vertex| (vertex, vertex + 1)).collect::<BTreeSet<_>>();
    all.insert((0, 299));
    // A branch, and a branch of it, each edited by itself; the one goes on when the other is dropped.
    let mut branch = Store::of(&pinned).unwrap();
    let first = branch.pin().unwrap();
    assert_eq!((first.epoch(), first.number(), first.vertices(), edges_of(&first)), (0, 0, 300, all.clone()));
    let made = branch.apply(Feed::C, Batch::new().insert(7, 7).remove(5, 6)).unwrap();
    assert_eq!((made.added, made.removed, made.number), (1, 1, 1));
    let mut second = Store::of(&branch.pin().unwrap()).unwrap();
    second.apply(Feed::D, Batch::new().insert(5, 6).remove(7, 7).remove(8, 9)).unwrap();
    assert_eq!((second.rebase(), second.pin().unwrap().epoch()), (Ok(1), 1));
    store.apply(Feed::A, Batch::new().insert(1, 1)).unwrap();
    let mut of_branch = all.clone();
    of_branch.insert((7, 7));
    of_branch.remove(&(5, 6));
    let mut of_second = all.clone();
    of_second.remove(&(8, 9));
    assert_eq!(edges_of(&branch.pin().unwrap()), of_branch);
    drop(branch);
    assert_eq!(edges_of(&second.pin().unwrap()), of_second);
    assert_eq!((pinned.epoch(), pinned.number(), edges_of(&pinned)), (1, 1, all.clone()));
    all.insert((1, 1));
    assert_eq!(edges_of(&store.pin().unwrap()), all);
}

/// In any order, a vertex twice, and two that the graph does not have.
#[test]
fn lists_of_many_vertices_come_in_one_call() {
    let mut store = Store::new(8).unwrap();
    store.apply(Feed::A, &Batch::from_iter([(0, 3), (0, 1), (0, 2), (2, 0), (3, 3), (7, 6), (7, 0)])).unwrap();
    let version = store.pin().unwrap();
    let frontier = [7, 0, 1, 7, 8, 2, u32::MAX];
    let lists = version.lists(&frontier).unwrap();
    assert_eq!(lists.starts, [0, 2, 5, 5, 7, 7, 8, 8]);
    assert_eq!(lists.targets, [0, 6, 1, 2, 3, 0, 6, 0]);
    assert_eq!(version.degrees(&frontier).unwrap(), [2, 3, 0, 2, 0, 1, 0]);
    let all: Vec<u32> = (0..8).collect();
    assert_eq!(version.lists(&all).unwrap(), version.csr().unwrap());
    let none = version.lists(&[]).unwrap();
    assert_eq!((none.starts, none.targets), (vec![0], vec![]));
    let without = version.lists(&[1, 99]).unwrap();
    assert_eq!((without.starts, without.targets), (vec![0, 0, 0], vec![]));
    assert_eq!(version.degrees(&[]).unwrap(), []);
    let many = vec![0; MOST_VERTICES as usize + 1];
    assert_eq!(version.lists(&many), Err(Error::Lengths));
    drop(store);
    assert_eq!(version.lists(&[2]).unwrap().targets, [0]);
}

#[test]
fn the_last_vertex_of_the_greatest_graphs() {
    for vertices in [(1 << 20) + 1, MOST_VERTICES] {
        let last = vertices - 1;
        let mut store = Store::new(vertices).unwrap();
        assert_eq!(store.apply(Feed::A, Batch::new().insert(last, last)).unwrap().added, 1);
        assert_eq!(store.apply(Feed::A, Batch::new().insert(last, vertices)), Err(Error::VertexRange));
        let version = store.pin().unwrap();
        assert_eq!((version.vertices(), version.edges(), version.degree(last)), (vertices, 1, 1));
        assert!(version.has_edge(last, last) && !version.has_edge(last, last - 1));
        assert_eq!(version.neighbours(last).collect::<Vec<_>>(), [last]);
        let mut values = [9, 9];
        let totals = version.run(&program(TARGET, 16), &[], &[last, 0], Reduction::Sum, &mut values).unwrap();
        assert_eq!((totals.edges, totals.total, values), (1, u64::from(last), [u64::from(last), 0]));
    }
}

#[test]
fn errors_are_told_and_change_nothing() {
    // `unwrap_err` needs a store that can be shown.
    assert_eq!(Store::new(0).unwrap_err(), Error::VertexCount);
    assert_eq!(Store::new(MOST_VERTICES + 1).err(), Some(Error::VertexCount));
    let mut store = Store::new(4).unwrap();
    store.apply(Feed::A, Batch::new().insert(0, 1)).unwrap();
    assert_eq!(store.apply(Feed::A, Batch::new().insert(0, 2).insert(4, 0)), Err(Error::VertexRange));
    let many = vec![0; MOST_EDITS + 1];
    assert_eq!(store.apply_arrays(Feed::A, &many, &many, &vec![false; MOST_EDITS + 1]), Err(Error::TooManyEdits));
    assert_eq!(store.apply_arrays(Feed::A, &[0], &[2], &[]), Err(Error::Lengths));
    let version = store.pin().unwrap();
    assert_eq!((version.number(), version.edges()), (1, 1));
    let target = program(TARGET, 16);
    let mut values = [5];
    assert_eq!(version.run(&target, &[], &[0, 1], Reduction::Sum, &mut values), Err(Error::Lengths));
    assert_eq!(version.run(&target, &[1], &[0], Reduction::Sum, &mut values), Err(Error::ArgumentLength));
    assert_eq!(values, [5]);
    assert_eq!(version.numbers(&target, &[1]), Err(Error::ArgumentLength));
    assert_eq!(Error::VertexRange.to_string(), "a vertex is not in the graph");
}

#[test]
fn a_batch_may_be_cleared() {
    let mut batch = Batch::new();
    assert!(batch.is_empty());
    assert!(!batch.insert(0, 1).is_empty());
    assert_eq!(batch.remove(0, 2).len(), 2);
    batch.clear();
    assert_eq!((batch.len(), batch.is_empty()), (0, true));
    let mut store = Store::new(4).unwrap();
    assert_eq!(store.apply(Feed::B, batch.insert(1, 2)).unwrap().added, 1);
    assert_eq!(EDGE_BYTES, 16);
}

/// Each edge has the word of the table at its target.
#[test]
fn a_program_reads_its_table() {
    let mut store = Store::new(4).unwrap();
    store.apply(Feed::A, &Batch::from_iter([(0, 1), (0, 3), (2, 0)])).unwrap();
    let version = store.pin().unwrap();
    let code = assemble("ldxw r2, [r1+4]\nand r2, 3\nlsh r2, 2\nadd r3, r2\nldxw r0, [r3+0]\nexit").unwrap();
    let table: Vec<u8> = [40u32, 10, 20, 286].iter().flat_map(|word| word.to_le_bytes()).collect();
    let weighed = Program::with_table(16, &code, &table).unwrap();
    assert_eq!(weighed.verdict().bound, 6);
    let mut values = [9; 3];
    let totals = version.run(&weighed.share().unwrap(), &[], &[0, 1, 2], Reduction::Max, &mut values).unwrap();
    assert_eq!((values, totals.total), ([286, 0, 40], 286));
    let Err(Refusal::Refused(refused)) = Program::with_table(16, &code, &table[..15]) else { panic!("it ends before") };
    assert_eq!((refused.cause, refused.pc), (11, 4));
    assert_eq!(refused.explain().unwrap(), explain(16, &code, &table[..15]).unwrap());
    assert_ne!(refused.explain(), explain(16, &code, &table));
    let Err(Refusal::Refused(refused)) = Program::verify(16, &code) else { panic!("there is no table") };
    assert_eq!((refused.cause, refused.pc), (8, 3));
}

#[test]
fn programs_are_refused_and_explained() {
    let outside = assemble("ldxw r0, [r1+13]\nexit ; the byte after the record").unwrap();
    let Err(Refusal::Refused(refused)) = Program::verify(16, &outside) else { panic!("it is outside the record") };
    assert_eq!((refused.cause, refused.pc), (11, 0));
    assert_eq!(refused.to_string(), "the verifier refuses the program: cause 11 at 0");
    assert_eq!(refused.explain().unwrap(), explain(16, &outside, &[]).unwrap());
    assert!(refused.explain().unwrap().contains("ldxw"));
    let later = assemble("mov r2, 1\nldxw r0, [r1+21]\nexit").unwrap();
    let Err(Refusal::Refused(refused)) = Program::verify(24, &later) else { panic!("it is outside the record") };
    assert_eq!((refused.cause, refused.pc), (11, 1));
    assert!(refused.explain().unwrap().starts_with("program of 3 units, records of 24 bytes\n"));
    let longest = assemble(&("mov r0, 7\n".repeat(4095) + "exit")).unwrap();
    assert_eq!(Program::verify(16, &longest).unwrap().verdict().bound, 4096);
    assert!(explain(16, &longest, &[]).unwrap().ends_with("\naccepted, bound 4096, frames 1\n"));
    // An explanation that is longer than what it is first given room for: each instruction knows twenty slots.
    let slots: String = (1..=20).map(|slot| format!("stdw [r10-{}], {slot}\n", 8 * slot)).collect();
    let spilled = assemble(&(slots + &"mov r0, 1\n".repeat(40) + "exit")).unwrap();
    let told = explain(16, &spilled, &[]).unwrap();
    assert!(told.len() > 256 + 16 * spilled.len() && told.ends_with("\naccepted, bound 61, frames 1\n"));
    assert!(matches!(Program::verify(15, &outside), Err(Refusal::Error(Error::RecordLength))));
    assert!(matches!(Program::verify(16, &outside[1..]), Err(Refusal::Error(Error::CodeLength))));
    assert!(matches!(Program::verify(16, &[]), Err(Refusal::Error(Error::CodeLength))));
    let longer = [0; 4097];
    assert!(matches!(Program::with_table(16, &outside, &longer), Err(Refusal::Error(Error::TableLength))));
    assert_eq!(explain(16, &outside, &longer), Err(Error::TableLength));
    let wrong = assemble("mov r0, 1\nja x").unwrap_err();
    assert_eq!(wrong, NotAssembled::WrongText { line: 2, cause: 4 });
    assert_eq!(wrong.to_string(), "the text means no code: error 4 in line 2");
    assert_eq!(assemble("mov r0, 1\nexit").unwrap().len(), 16);
    assert_eq!(assemble(&"lddw r0, 1\n".repeat(100)).unwrap().len(), 1600);
}

#[test]
fn a_long_list_lies_in_many_slices() {
    // More than a script may have.
    const VERTICES: u32 = (1 << 20) + 1;
    let mut store = Store::new(VERTICES).unwrap();
    for part in 0..4 {
        store.apply(Feed::A, &(0..60_000).map(|each| (7, 4 * each + part)).collect()).unwrap();
    }
    let version = store.pin().unwrap();
    let slices = version.slices(7);
    assert!(slices.len() > 64);
    assert_eq!(slices.concat(), (0..240_000).collect::<Vec<u32>>());
    store.apply(Feed::A, Batch::new().remove(7, 0)).unwrap();
    assert_eq!((version.neighbour(7, 200_000), version.neighbour(7, 240_000)), (Some(200_000), None));
    let target = program(TARGET, 16);
    assert_eq!(version.numbers(&target, &[]).unwrap(), (0..240_000).collect::<Vec<u64>>());
    let csr = version.csr().unwrap();
    assert_eq!((csr.starts.len(), csr.starts[7], csr.starts[8]), (VERTICES as usize + 1, 0, 240_000));
    assert_eq!(csr.targets, (0..240_000).collect::<Vec<u32>>());
    let (frontier, mut values) = ((0..VERTICES).collect::<Vec<u32>>(), vec![1; VERTICES as usize]);
    let totals = version.run(&target, &[], &frontier, Reduction::Max, &mut values).unwrap();
    assert_eq!((totals.edges, totals.total, values[7], values[8]), (240_000, 239_999, 239_999, 0));
    let most: Batch = (0..MOST_EDITS as u32).map(|each| (8, each)).collect();
    assert_eq!(store.apply(Feed::C, &most).unwrap().added, MOST_EDITS as u64);
    assert_eq!(slices[0][0], 0);
    assert_eq!(store.pin().unwrap().slices(7)[0][0], 1);
}

#[test]
fn readers_run_beside_a_writer() {
    let mut store = Store::new(64).unwrap();
    let target = program(TARGET, 16);
    let mut readers = Vec::new();
    let mut wanted = 0;
    for round in 0..40 {
        store.apply(Feed::B, &(0..64).map(|vertex| (vertex, round)).collect()).unwrap();
        wanted += 64 * u64::from(round);
        let (version, target) = (store.pin().unwrap(), target.share().unwrap());
        readers.push(std::thread::spawn(move || {
            let frontier: Vec<u32> = (0..64).collect();
            let mut values = [0; 64];
            (version.run(&target, &[], &frontier, Reduction::Sum, &mut values).unwrap().total, wanted)
        }));
    }
    for reader in readers {
        let (total, wanted) = reader.join().unwrap();
        assert_eq!(total, wanted);
    }
}

/// A small generator of random numbers, whose state is the last one.
struct Chance(u64);

impl Chance {
    fn below(&mut self, count: u64) -> u64 {
        self.0 = self.0.wrapping_mul(6364136223846793005).wrapping_add(1442695040888963407);
        (self.0 >> 33) % count
    }
}

#[test]
fn random_batches_agree_with_sets() {
    for seed in 0..40 {
        let mut chance = Chance(seed);
        let vertices = 1 + chance.below(90) as u32;
        let (mut store, mut set) = (Store::new(vertices).unwrap(), BTreeSet::new());
        for number in 1..30 {
            let (mut batch, before) = (Batch::new(), set.clone());
            for _ in 0..chance.below(120) {
                let edge = (chance.below(vertices.into()) as u32, chance.below(vertices.into()) as u32);
                if chance.below(3) == 0 {
                    batch.remove(edge.0, edge.1);
                    set.remove(&edge);
                } else {
                    batch.insert(edge.0, edge.1);
                    set.insert(edge);
                }
            }
            let feed = [Feed::A, Feed::B, Feed::C, Feed::D][chance.below(4) as usize];
            let made = store.apply(feed, &batch).unwrap();
            assert_eq!(made.number, number);
            assert_eq!(
                (made.added, made.removed),
                (set.difference(&before).count() as u64, before.difference(&set).count() as u64)
            );
        }
        assert_eq!(edges_of(&store.pin().unwrap()), set);
    }
}
