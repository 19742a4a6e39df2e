//! Algorithms on a graph of 8 vertices whose answers were found by hand, and on random graphs beside plain models.
use edgebpf::algorithms::{
    bfs_within, pair_scores, to_the_end, Candidates, Failure, Graph, RankOptions, Score, NO_VERTEX, ONE,
};
use edgebpf::{Batch, Error, Feed, Store, Version};

const ENDS: [(u32, u32); 6] = [(0, 1), (0, 2), (1, 2), (2, 3), (3, 4), (5, 6)];
const NONE: u32 = NO_VERTEX;

fn mirrored(vertices: u32, ends: &[(u32, u32)]) -> Version {
    let edges: Batch = ends.iter().flat_map(|&(source, target)| [(source, target), (target, source)]).collect();
    let mut store = Store::new(vertices).unwrap();
    store.apply(Feed::A, &edges).unwrap();
    store.pin().unwrap()
}

fn directed(vertices: u32, edges: &[(u32, u32)]) -> Version {
    let mut store = Store::new(vertices).unwrap();
    store.apply(Feed::A, &edges.iter().copied().collect::<Batch>()).unwrap();
    store.pin().unwrap()
}

fn eight() -> (Version, Graph) {
    let version = mirrored(8, &ENDS);
    let graph = Graph::of(&version).unwrap();
    (version, graph)
}

#[test]
fn searches() {
    let (version, graph) = eight();
    for found in [graph.bfs(&[4, 5, 4], to_the_end).unwrap(), bfs_within(&version, &[5, 4], 9, to_the_end).unwrap()] {
        assert_eq!(found.levels, [3, 3, 2, 1, 0, 0, 1, NONE]);
        assert_eq!((found.parents, found.reached), (vec![2, 2, 3, 4, 4, 5, 5, NONE], 7));
    }
    let found = bfs_within(&version, &[0], 1, to_the_end).unwrap();
    assert_eq!((found.levels, found.reached), (vec![0, 1, 1, NONE, NONE, NONE, NONE, NONE], 3));
    for outside in [graph.bfs(&[8], to_the_end), bfs_within(&version, &[0, 8], 1, to_the_end)] {
        assert_eq!(outside, Err(Failure::Error(Error::VertexRange)));
    }
    assert_eq!(graph.bfs(&[], to_the_end), Err(Failure::Argument));
}

#[test]
fn numbers_vertices() {
    let (_, graph) = eight();
    assert_eq!(graph.components(to_the_end).unwrap(), [0, 0, 0, 0, 0, 5, 5, 7]);
    assert_eq!(graph.cores(to_the_end).unwrap(), [2, 2, 2, 1, 1, 1, 1, 0]);
    assert_eq!(graph.triangles(to_the_end).unwrap(), [1, 1, 1, 0, 0, 0, 0, 0]);
    assert_eq!(graph.clustering(to_the_end).unwrap(), [1.0, 1.0, 1.0 / 3.0, 0.0, 0.0, 0.0, 0.0, 0.0]);
    let chosen = |seed| {
        let is_in = graph.independent_set(seed, to_the_end).unwrap();
        (0..8).filter(|&vertex| is_in[vertex]).collect::<Vec<_>>()
    };
    assert_eq!((chosen(0), chosen(1)), (vec![0, 3, 5, 7], vec![2, 4, 5, 7]));
    let labels = graph.label_propagation(20, to_the_end).unwrap();
    assert_eq!((labels.labels, labels.rounds, labels.changed), (vec![1, 1, 1, 1, 1, 6, 6, 7], 2, 0));
    assert_eq!(graph.degree_distribution().unwrap(), [1, 3, 3, 1]);
    assert_eq!(graph.is_mirrored(to_the_end), Ok(true));
}

#[test]
fn ranks_vertices() {
    let (_, graph) = eight();
    let wanted =
        [147484105720, 147484105720, 217927578745, 163438214284, 92555245671, 153777850033, 153777850033, 23066677505];
    let found = graph.pagerank_fixed(20, 85, to_the_end).unwrap();
    assert_eq!((&found[..], ONE - found.iter().sum::<u64>()), (&wanted[..], 65));
    let options = RankOptions { within: 1e-14, most: 500, ..RankOptions::default() };
    let wanted =
        [0.134141110, 0.134141110, 0.198183943, 0.148670538, 0.084163999, 0.139860140, 0.139860140, 0.020979021];
    let near = |found: &[f64], wanted: &[f64]| found.iter().zip(wanted).all(|(one, other)| (one - other).abs() < 1e-9);
    let found = graph.pagerank(&options, to_the_end).unwrap();
    assert!(near(&found.ranks, &wanted) && found.change < 1e-14 && found.rounds < 500, "{found:?}");
    let start = [3.0, 0.0, 0.0, 0.0, 0.0, 0.0, 0.0, 0.0];
    let found = graph.pagerank(&RankOptions { start: Some(&start), ..options }, to_the_end).unwrap();
    assert!(near(&found.ranks, &[0.322204899, 0.216941741, 0.282369385, 0.125251912, 0.053232063, 0.0, 0.0, 0.0]));
    let ranks = |options| graph.pagerank(&options, to_the_end).unwrap_err();
    assert_eq!(ranks(RankOptions { start: Some(&start[1..]), ..options }), Failure::Error(Error::Lengths));
    assert_eq!(ranks(RankOptions { first: Some(&[0.0; 8]), ..options }), Failure::Argument);
    assert_eq!(ranks(RankOptions { first: Some(&[-1.0; 8]), ..options }), Failure::Argument);
    assert_eq!(ranks(RankOptions { damping: f64::NAN, ..options }), Failure::Argument);
    assert_eq!(graph.pagerank_fixed(1, 101, to_the_end), Err(Failure::Argument));
}

#[test]
fn scores_pairs() {
    let (version, _) = eight();
    let third = 1.0 / 3.0;
    for (score, wanted) in [
        (Score::Common, [1.0, 1.0, 1.0, 0.0, 1.0]),
        (Score::Jaccard, [third, third, third, 0.0, 1.0]),
        (Score::AdamicAdar, [1.0 / 3f64.ln(), 1.0 / 3f64.ln(), 1.0 / 3f64.ln(), 0.0, 0.0]),
        (Score::Allocation, [third, third, third, 0.0, 1.0]),
    ] {
        assert_eq!(pair_scores(&version, score, &[0, 0, 1, 7, 5], &[1, 3, 3, 7, 5], to_the_end).unwrap(), wanted);
    }
    assert_eq!(pair_scores(&version, Score::Common, &[0], &[], to_the_end), Err(Failure::Error(Error::Lengths)));
    assert_eq!(pair_scores(&version, Score::Common, &[0], &[8], to_the_end), Err(Failure::Error(Error::VertexRange)));
    let mut candidates = Candidates::new(&version, Score::Common).unwrap();
    for (vertex, wanted) in [(0, vec![(3, 1.0)]), (4, vec![(2, 1.0)]), (7, vec![]), (0, vec![(3, 1.0)])] {
        assert_eq!(candidates.of(vertex, 10).unwrap(), wanted);
    }
    assert_eq!(candidates.of(8, 1), Err(Failure::Error(Error::VertexRange)));
    assert_eq!(Candidates::new(&version, Score::Jaccard).err(), Some(Failure::Argument));
}

#[test]
fn directed_graphs_are_told() {
    let graph = Graph::of(&directed(4, &[(0, 1), (0, 2), (1, 2), (3, 2)])).unwrap();
    let found = graph.bfs(&[0], to_the_end).unwrap();
    assert_eq!((found.levels, found.parents), (vec![0, 1, 1, NONE], vec![0, 0, 0, NONE]));
    assert_eq!(graph.components(to_the_end).unwrap(), [0, 0, 0, 0]);
    let wanted = [99643241267, 216466351718, 683758793522, 99643241267];
    assert_eq!(graph.pagerank_fixed(1, 85, to_the_end).unwrap(), wanted);
    assert_eq!(graph.is_mirrored(to_the_end), Ok(false));
    assert_eq!(graph.cores(to_the_end), Err(Failure::NotMirrored));
    assert_eq!(graph.triangles(to_the_end), Err(Failure::NotMirrored));
    assert_eq!(graph.clustering(to_the_end), Err(Failure::NotMirrored));
    assert_eq!(graph.independent_set(0, to_the_end), Err(Failure::NotMirrored));
}

/// It is asked before each piece, and ends where it is told to.
#[test]
fn stops_where_it_is_told() {
    let ends: Vec<(u32, u32)> = (0..30_000).map(|vertex| (vertex, vertex * 7 % 40_000)).collect();
    let graph = Graph::of(&mirrored(40_000, &ends)).unwrap();
    let mut seen = Vec::new();
    let wanted = graph.cores(|done, of| {
        seen.push((done, of));
        true
    });
    assert!(
        seen.len() > 6 && seen.windows(2).all(|two| two[0].0 <= two[1].0) && seen.last() == Some(&(120_000, 120_000))
    );
    for last in 0..seen.len() {
        let mut asked = 0;
        let found = graph.cores(|_, _| {
            asked += 1;
            asked <= last
        });
        assert_eq!((found, asked), (Err(Failure::Stopped), last + 1));
    }
    assert_eq!(graph.cores(to_the_end), wanted);
    assert_eq!(graph.bfs(&[0], |_, _| false), Err(Failure::Stopped));
    assert_eq!(graph.pagerank(&RankOptions::default(), |done, _| done < 90_000), Err(Failure::Stopped));
}

/// Components, levels, cores and triangles beside the plainest way to find each.
#[test]
fn random_graphs() {
    let mut state = 1u64;
    let mut below = |bound: u32| {
        state = state.wrapping_mul(6364136223846793005).wrapping_add(1442695040888963407);
        ((state >> 33) as u32) % bound
    };
    for _ in 0..200 {
        let vertices = 1 + below(24);
        let ends: Vec<(u32, u32)> = (0..below(3 * vertices)).map(|_| (below(vertices), below(vertices))).collect();
        let version = mirrored(vertices, &ends);
        let graph = Graph::of(&version).unwrap();
        let count = vertices as usize;
        let mut has = vec![vec![false; count]; count];
        for &(source, target) in &ends {
            (has[source as usize][target as usize], has[target as usize][source as usize]) = (true, true);
        }
        let (mut labels, mut levels) = ((0..vertices).collect::<Vec<_>>(), vec![NONE; count]);
        levels[0] = 0;
        for _ in 0..count {
            for one in 0..count {
                for other in (0..count).filter(|&other| has[one][other]) {
                    labels[other] = labels[other].min(labels[one]);
                    levels[other] = levels[other].min(levels[one].saturating_add(1));
                }
            }
        }
        assert_eq!(graph.components(to_the_end).unwrap(), labels);
        assert_eq!(graph.bfs(&[0], to_the_end).unwrap().levels, levels);
        let near = |one: usize, other: usize| one != other && has[one][other];
        let triangles = |one: usize| {
            let pairs = (0..count).flat_map(|second| (0..second).map(move |third| (second, third)));
            pairs.filter(|&(second, third)| near(one, second) && near(one, third) && near(second, third)).count() as u64
        };
        assert_eq!(graph.triangles(to_the_end).unwrap(), (0..count).map(triangles).collect::<Vec<_>>());
        let mut cores = vec![0; count];
        for k in 1..vertices {
            let mut is_in = vec![true; count];
            for _ in 0..count {
                for one in 0..count {
                    is_in[one] &= (0..count).filter(|&other| is_in[other] && near(one, other)).count() >= k as usize;
                }
            }
            (0..count).filter(|&one| is_in[one]).for_each(|one| cores[one] = k);
        }
        assert_eq!(graph.cores(to_the_end).unwrap(), cores);
    }
}
