//! The lists of arcs of a run of vertices.
use std::collections::HashMap;
use std::ops::Range;

use crate::errors::Error;

/// An arc of a graph.
#[derive(Clone, Copy, Debug, PartialEq, Eq, PartialOrd, Ord, Hash)]
pub struct Arc {
    /// The vertex on whose list it is.
    pub v: u32,
    /// The vertex that it leads to.
    pub tip: u32,
    /// Its length.
    pub length: i64,
}

/// Where the arcs of a run of vertices lead: their lists, one after another. Vertices are numbers of the whole graph,
/// here and in `Rows`; a method panics where its vertex is not in the run.
#[derive(Clone, Debug, PartialEq, Eq)]
pub struct Lists {
    first: u32,
    starts: Vec<u64>,
    tips: Vec<u32>,
}

impl Lists {
    pub(crate) fn new(first: u32, starts: Vec<u64>, tips: Vec<u32>) -> Lists {
        Lists { first, starts, tips }
    }

    /// The first vertex of the run.
    pub fn first(&self) -> usize {
        self.first as usize
    }

    /// The number of vertices of the run.
    pub fn count(&self) -> usize {
        self.starts.len() - 1
    }

    /// The vertices of the run.
    pub fn vertices(&self) -> Range<usize> {
        self.first()..self.first() + self.count()
    }

    /// Where the lists begin, and where the last one ends: a number more than there are vertices.
    pub fn starts(&self) -> &[u64] {
        &self.starts
    }

    /// Where the arcs lead.
    pub fn tips(&self) -> &[u32] {
        &self.tips
    }

    /// Where the list of vertex `v` stands.
    fn place(&self, v: usize) -> Range<usize> {
        assert!(self.vertices().contains(&v), "vertex {v} is not among {:?}", self.vertices());
        let k = v - self.first();
        self.starts[k] as usize..self.starts[k + 1] as usize
    }

    /// Where the arcs of vertex `v` lead, in the order of its list.
    pub fn tips_of(&self, v: usize) -> &[u32] {
        &self.tips[self.place(v)]
    }

    /// The number of arcs on the list of vertex `v`.
    pub fn degree(&self, v: usize) -> usize {
        self.place(v).len()
    }
}

/// The lists of arcs of a run of vertices, with the lengths of the arcs.
#[derive(Clone, Debug, PartialEq, Eq)]
pub struct Rows {
    lists: Lists,
    lengths: Vec<i64>,
}

impl Rows {
    pub(crate) fn new(lists: Lists, lengths: Vec<i64>) -> Rows {
        Rows { lists, lengths }
    }

    /// The same without lengths.
    pub fn lists(&self) -> &Lists {
        &self.lists
    }

    /// The first vertex of the run.
    pub fn first(&self) -> usize {
        self.lists.first()
    }

    /// The number of vertices of the run.
    pub fn count(&self) -> usize {
        self.lists.count()
    }

    /// The vertices of the run.
    pub fn vertices(&self) -> Range<usize> {
        self.lists.vertices()
    }

    /// Where the lists begin, and where the last one ends: a number more than there are vertices.
    pub fn starts(&self) -> &[u64] {
        self.lists.starts()
    }

    /// Where the arcs lead.
    pub fn tips(&self) -> &[u32] {
        self.lists.tips()
    }

    /// The lengths of the arcs.
    pub fn lengths(&self) -> &[i64] {
        &self.lengths
    }

    /// Where the arcs of vertex `v` lead, in the order of its list.
    pub fn tips_of(&self, v: usize) -> &[u32] {
        self.lists.tips_of(v)
    }

    /// The lengths of the arcs of vertex `v`, in the order of its list.
    pub fn lengths_of(&self, v: usize) -> &[i64] {
        &self.lengths[self.lists.place(v)]
    }

    /// The number of arcs on the list of vertex `v`.
    pub fn degree(&self, v: usize) -> usize {
        self.lists.degree(v)
    }

    /// The arcs of vertex `v`, in the order of its list.
    pub fn arcs_of(&self, v: usize) -> impl Iterator<Item = Arc> + '_ {
        let arc = move |(&tip, &length)| Arc { v: v as u32, tip, length };
        self.tips_of(v).iter().zip(self.lengths_of(v)).map(arc)
    }

    /// All arcs, in the order of the lists.
    ///
    /// ```
    /// let rows = sgb::Graph::new("complete(2)", b"")?.all()?;
    /// assert!(rows.arcs().map(|arc| (arc.v, arc.tip, arc.length)).eq([(0, 1, 1), (1, 0, 1)]));
    /// # Ok::<(), sgb::Error>(())
    /// ```
    pub fn arcs(&self) -> impl Iterator<Item = Arc> + '_ {
        self.vertices().flat_map(|v| self.arcs_of(v))
    }

    /// The edges: of each the arc that comes first, and of a loop one of its two. An edge is two arcs of one length,
    /// there and back, and so is a loop; an arc without one back is an error. These have to be the lists of all
    /// vertices.
    pub fn edges(&self) -> Result<Vec<Arc>, Error> {
        // the arcs that were met without one back so far, and how often each
        let (mut edges, mut waiting) = (Vec::new(), HashMap::<Arc, u64>::new());
        for arc in self.arcs() {
            let back = Arc { v: arc.tip, tip: arc.v, length: arc.length };
            match waiting.get_mut(&back).filter(|count| **count > 0) {
                Some(count) => *count -= 1,
                None => {
                    edges.push(arc);
                    *waiting.entry(arc).or_default() += 1;
                }
            }
        }
        match edges.iter().find(|arc| waiting[arc] > 0) {
            Some(alone) => Err(Error::Unpaired(*alone)),
            None => Ok(edges),
        }
    }
}
