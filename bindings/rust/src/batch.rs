//! What is applied to a store.

/// Who hands in a batch.
#[derive(Clone, Copy, Debug, PartialEq, Eq, Hash)]
pub enum Feed {
    /// Feed A.
    A,
    /// Feed B.
    B,
    /// Feed C.
    C,
    /// Feed D.
    D,
}

impl Feed {
    pub(crate) fn number(self) -> u8 {
        match self {
            Feed::A => 0,
            Feed::B => 1,
            Feed::C => 2,
            Feed::D => 3,
        }
    }
}

/// Edits in their order. Where two name the same edge, the later one decides.
#[derive(Clone, Debug, Default)]
pub struct Batch {
    pub(crate) sources: Vec<u32>,
    pub(crate) targets: Vec<u32>,
    pub(crate) removes: Vec<bool>,
}

impl Batch {
    /// No edit.
    pub fn new() -> Batch {
        Batch::default()
    }

    /// Puts an edge in. One that is there already stays.
    pub fn insert(&mut self, source: u32, target: u32) -> &mut Batch {
        self.push(source, target, false)
    }

    /// Takes an edge out. One that is not there stays away.
    pub fn remove(&mut self, source: u32, target: u32) -> &mut Batch {
        self.push(source, target, true)
    }

    fn push(&mut self, source: u32, target: u32, removes: bool) -> &mut Batch {
        self.sources.push(source);
        self.targets.push(target);
        self.removes.push(removes);
        self
    }

    /// The number of edits.
    pub fn len(&self) -> usize {
        self.sources.len()
    }

    /// Whether there is no edit.
    pub fn is_empty(&self) -> bool {
        self.sources.is_empty()
    }

    /// Takes all edits out; their memory stays.
    pub fn clear(&mut self) {
        self.sources.clear();
        self.targets.clear();
        self.removes.clear();
    }
}

impl Extend<(u32, u32)> for Batch {
    /// Puts edges in.
    fn extend<I: IntoIterator<Item = (u32, u32)>>(&mut self, edges: I) {
        for (source, target) in edges {
            self.insert(source, target);
        }
    }
}

impl FromIterator<(u32, u32)> for Batch {
    /// A batch that puts edges in.
    fn from_iter<I: IntoIterator<Item = (u32, u32)>>(edges: I) -> Batch {
        let mut batch = Batch::new();
        batch.extend(edges);
        batch
    }
}

#[cfg(test)]
mod tests {
    use super::Feed;

    /// No call of the library tells a feed, so only its number shows that two are not exchanged.
    #[test]
    fn feeds_have_the_numbers_of_the_header() {
        assert_eq!([Feed::A, Feed::B, Feed::C, Feed::D].map(Feed::number), [0, 1, 2, 3]);
    }
}
