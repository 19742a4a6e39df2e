//! Tests of answers, whoever computed them.
use crate::calls::{edgebpf_are_components, edgebpf_are_cores, edgebpf_is_independent_set, edgebpf_is_search};
use crate::error::done;
use crate::version::Version;

/// The level of a vertex that a search did not find.
pub const NOT_FOUND: u32 = u32::MAX;

impl Version {
    /// Whether levels and parents are the answer of a breadth first search from a vertex. The test is proved to be exact: then each level is
    /// the length of a shortest way from the root, and to vertices with `NOT_FOUND` there is none. Arrays of another length than the graph
    /// has vertices are no answer.
    pub fn is_search(&self, root: u32, levels: &[u32], parents: &[u32]) -> bool {
        let mut answer = 0;
        // SAFETY: the handle holds a version, and the arrays are as long as said.
        let status = unsafe {
            edgebpf_is_search(self.0.at(), root, levels.as_ptr(), levels.len(), parents.as_ptr(), parents.len(), &mut answer)
        };
        assert!(done(status).is_ok(), "edgebpf answered {status} to a test");
        answer == 1
    }

    /// Whether labels, parents and steps are an answer of the graph's components, whatever the direction of its edges. The label of a vertex is the
    /// least one that is joined to it. A vertex that is not its own label has a parent, to which an edge joins it, and one step more than that. The
    /// test is proved to be exact.
    pub fn are_components(&self, labels: &[u32], parents: &[u32], steps: &[u32]) -> bool {
        let mut answer = 0;
        // SAFETY: the handle holds a version, and the arrays are as long as said.
        let status = unsafe {
            edgebpf_are_components(
                self.0.at(),
                labels.as_ptr(),
                labels.len(),
                parents.as_ptr(),
                parents.len(),
                steps.as_ptr(),
                steps.len(),
                &mut answer,
            )
        };
        assert!(done(status).is_ok(), "edgebpf answered {status} to a test");
        answer == 1
    }

    /// Whether numbers and places are an answer of the graph's core numbers. The number of a vertex is the greatest k for which it belongs to a set
    /// of vertices, of which each has edges to at least k others of it. `places` has the place of each vertex in an order: taken out one after
    /// another, lower numbers first and those of one number by their places, each then has no more edges to others than its number. The test is
    /// proved to be exact.
    pub fn are_cores(&self, numbers: &[u32], places: &[u32]) -> bool {
        let mut answer = 0;
        // SAFETY: the handle holds a version, and the arrays are as long as said.
        let status = unsafe {
            edgebpf_are_cores(self.0.at(), numbers.as_ptr(), numbers.len(), places.as_ptr(), places.len(), &mut answer)
        };
        assert!(done(status).is_ok(), "edgebpf answered {status} to a test");
        answer == 1
    }

    /// Whether the marked vertices pass the test of an independent set to which none can be added: no edge joins two of them, and from each other vertex an
    /// edge leads to one of them. The test is proved to be exact.
    pub fn is_independent_set(&self, marks: &[bool]) -> bool {
        let mut answer = 0;
        // SAFETY: the handle holds a version, and a `bool` is a byte of 0 or 1.
        let status = unsafe { edgebpf_is_independent_set(self.0.at(), marks.as_ptr().cast(), marks.len(), &mut answer) };
        assert!(done(status).is_ok(), "edgebpf answered {status} to a test");
        answer == 1
    }
}
