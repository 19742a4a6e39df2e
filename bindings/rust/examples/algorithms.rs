use edgebpf::algorithms::{to_the_end, Graph};
use edgebpf::{Batch, Feed, Store};

fn main() -> Result<(), Box<dyn std::error::Error>> {
    let mut store = Store::new(4)?;
    store.apply(Feed::A, &Batch::from_iter([(0, 1), (1, 0), (1, 2), (2, 1)]))?;
    let graph = Graph::of(&store.pin()?)?;                   // a copy of all edges
    assert_eq!(graph.components(to_the_end)?, [0, 0, 0, 3]);
    assert_eq!(graph.bfs(&[0], to_the_end)?.levels[..3], [0, 1, 2]);
    let cores = graph.cores(|done, of| {
        eprintln!("{done} of {of}");                        // between two pieces
        true                                                // go on
    })?;
    assert_eq!(cores, [1, 1, 1, 0]);
    Ok(())
}
