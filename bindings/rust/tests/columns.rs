//! Records with the numbers of columns, on a graph of 8 vertices whose answers were found by hand.
use edgebpf::{assemble, Batch, Error, Feed, Program, Progress, Reduction, Store, Version};

const ENDS: [(u32, u32); 6] = [(0, 1), (0, 2), (1, 2), (2, 3), (3, 4), (5, 6)];
const ALL: [u32; 8] = [0, 1, 2, 3, 4, 5, 6, 7];
const X: [u64; 8] = [10, 20, 30, 40, 50, 60, 70, 80];

fn graph() -> Version {
    let edges: Batch = ENDS.iter().flat_map(|&(source, target)| [(source, target), (target, source)]).collect();
    let mut store = Store::new(8).unwrap();
    store.apply(Feed::A, &edges).unwrap();
    store.pin().unwrap()
}

fn program(text: &str, record: u16) -> Program {
    Program::verify(record, &assemble(text).unwrap()).unwrap()
}

fn of_target() -> Program {
    program("ldxdw r0, [r1+24]\nexit", 32)
}

#[test]
fn pulls_the_rows() {
    let (version, columns) = (graph(), [&X[..]]);
    let lent = version.with_columns(&columns).unwrap();
    for (reduction, rows) in [
        (Reduction::Sum, [50, 40, 70, 80, 40, 70, 60, 0]),
        (Reduction::Min, [20, 10, 10, 30, 40, 70, 60, u64::MAX]),
        (Reduction::Max, [30, 30, 40, 50, 40, 70, 60, 0]),
    ] {
        let mut values = [0; 8];
        assert_eq!(lent.run(&of_target(), &[], &ALL, reduction, &mut values).unwrap().edges, 12);
        assert_eq!(values, rows);
        for threads in [1, 3] {
            let mut values = [0; 8];
            lent.begin(&of_target(), &[], &ALL, reduction, &mut values).unwrap().finish(threads).unwrap();
            assert_eq!(values, rows);
        }
    }
}

#[test]
fn pulls_ranges() {
    let (version, columns, program) = (graph(), [&X[..]], of_target());
    let lent = version.with_columns(&columns).unwrap();
    for (first, count) in [(0, 8), (2, 3), (7, 4), (3, 0), (0, 1_024), (0, 1_025), (5, 3_000), (u32::MAX - 1, 2)] {
        let frontier: Vec<u32> = (0..count as u32).map(|place| first + place).collect();
        for reduction in [Reduction::Sum, Reduction::Min, Reduction::Max] {
            let (mut wanted, mut values) = (vec![9; count], vec![9; count]);
            let whole = lent.run(&program, &[], &frontier, reduction, &mut wanted).unwrap();
            assert_eq!(lent.run_range(&program, &[], first, reduction, &mut values), Ok(whole));
            assert_eq!(values, wanted);
        }
    }
    let mut values = [7; 2];
    assert_eq!(lent.run_range(&program, &[], u32::MAX, Reduction::Sum, &mut values), Err(Error::Lengths));
    assert_eq!(lent.run_range(&program, &[1], 0, Reduction::Sum, &mut values), Err(Error::ArgumentLength));
    assert_eq!(version.run_range(&program, &[], 0, Reduction::Sum, &mut values), Err(Error::ArgumentLength));
    assert_eq!(values, [7; 2]);
}

#[test]
fn scores_by_two_columns() {
    let text = "ldxdw r0, [r1+32]\nldxdw r2, [r1+16]\njge r0, r2, known\nmov r0, 0\nknown:\nldxdw r2, [r1+40]\n\
                ldxdw r3, [r1+48]\njeq r2, r3, same\nlsh r0, 1\nsame:\nexit";
    let (version, score) = (graph(), program(text, 56));
    let (risk, land) = ([3, 9, 4, 7, 1, 8, 2, 6], [1, 1, 2, 2, 1, 1, 3, 3]);
    let columns = [&risk[..], &land[..]];
    let mut values = [0; 8];
    let lent = version.with_columns(&columns).unwrap();
    lent.run(&score, &4u64.to_le_bytes(), &ALL, Reduction::Max, &mut values).unwrap();
    assert_eq!(values, [9, 8, 18, 4, 14, 0, 16, 0]);
    assert_eq!(lent.run(&score, &[], &ALL, Reduction::Max, &mut values), Err(Error::ArgumentLength));
}

/// In whole numbers, one is 10^9: a rank is 15 parts of 100 shared by all, and 85 of those that lead to it.
#[test]
fn ranks_by_rounds() {
    const ONE: u64 = 1_000_000_000;
    let (version, of_target) = (graph(), of_target());
    let mut ranks = [ONE / 8; 8];
    for (rounds, wanted) in [
        (1, [107291666, 107291666, 178125000, 160416666, 71875000, 125000000, 125000000, 18750000]),
        (2, [118016274, 118016274, 171727862, 143106769, 74132812, 125000000, 125000000, 18750000]),
        (17, [119882822, 119882822, 177149872, 132846313, 75238138, 125000000, 125000000, 18750000]),
    ] {
        for _ in 0..rounds {
            let (mut gives, mut taken) = ([0; 8], [0; 8]);
            for vertex in 0..8 {
                let degree = u64::from(version.degree(vertex));
                gives[vertex as usize] = if degree == 0 { 0 } else { ranks[vertex as usize] * 85 / (100 * degree) };
            }
            let columns = [&gives[..]];
            version.with_columns(&columns).unwrap().run(&of_target, &[], &ALL, Reduction::Sum, &mut taken).unwrap();
            ranks = taken.map(|number| 15 * ONE / 800 + number);
        }
        assert_eq!(ranks, wanted);
    }
}

/// The least label of a component reaches all of it.
#[test]
fn labels_components() {
    let (version, of_target) = (graph(), of_target());
    let (mut labels, mut rounds) = ([0, 1, 2, 3, 4, 5, 6, 7], 0);
    loop {
        let (before, mut least) = (labels, [0; 8]);
        let columns = [&before[..]];
        version.with_columns(&columns).unwrap().run(&of_target, &[], &ALL, Reduction::Min, &mut least).unwrap();
        rounds += 1;
        for (label, number) in labels.iter_mut().zip(least) {
            *label = number.min(*label);
        }
        if labels == before {
            break;
        }
    }
    assert_eq!((labels, rounds), ([0, 0, 0, 0, 0, 5, 5, 7], 4));
}

#[test]
fn goes_on_and_numbers_edges_and_pairs() {
    let (version, columns, of_target) = (graph(), [&X[..]], of_target());
    let lent = version.with_columns(&columns).unwrap();
    let mut values = [0; 8];
    let mut run = lent.begin(&of_target, &[], &ALL, Reduction::Sum, &mut values).unwrap();
    while !run.is_done() {
        run.step(0);
    }
    assert_eq!((run.totals().total, run.values()), (410, &[50, 40, 70, 80, 40, 70, 60, 0][..]));
    assert_eq!(lent.numbers_of(&of_target, &[], &[2, 0, 7, 5]).unwrap(), [10, 20, 40, 20, 30, 70]);
    assert_eq!(lent.pairs(&of_target, &[], &[0, 0, 7, 9, 1], &[1, 3, 0, 1, 9]).unwrap(), [20, 40, 10, 20, 0]);
    let mut numbers = [0; 4];
    let mut some = lent.begin_numbers(&of_target, &[], &[2, 0], Progress::default()).unwrap();
    assert_eq!((some.step(u64::MAX, &mut numbers), numbers, some.is_done()), (4, [10, 20, 40, 20], false));
}

#[test]
fn refuses_columns_that_do_not_fit() {
    let version = graph();
    assert_eq!(version.with_columns(&[&X[..7]]).err(), Some(Error::Columns));
    assert_eq!(version.with_columns(&[&[0; 9]]).err(), Some(Error::Columns));
    assert_eq!(version.with_columns(&[&X[..]; 9]).err(), Some(Error::Columns));
    assert_eq!(version.with_columns(&[]).unwrap().numbers_of(&of_target(), &[0; 16], &[7]).unwrap(), []);
}
