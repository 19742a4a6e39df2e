use edgebpf::{assemble, Batch, Feed, Program, Reduction, Store};

fn main() -> Result<(), Box<dyn std::error::Error>> {
    let mut store = Store::new(4)?;
    store.apply(Feed::A, &Batch::from_iter([(0, 1), (0, 2), (1, 2)]))?;
    let version = store.pin()?;                              // stays as it is
    store.apply(Feed::B, Batch::new().remove(0, 1))?;

    let code = assemble("ldxw r0, [r1+4]\nexit")?;           // the target of each edge
    let program = Program::verify(16, &code)?;
    let mut values = [0; 2];
    let totals = version.run(&program, &[], &[0, 1], Reduction::Sum, &mut values)?;
    assert_eq!((values, totals.edges, totals.total), ([3, 2], 3, 5));

    assert_eq!(version.slices(0), [[1, 2]]);                 // lent where they lie: they borrow the version
    assert_eq!(store.pin()?.neighbours(0).collect::<Vec<_>>(), [2]);
    Ok(())
}
