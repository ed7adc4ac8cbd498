//! Graphs of one's own, and operations on graphs that are open (GB_BASIC).
use crate::calls::{Entries, Held};
use crate::errors::Error;
use crate::lists::Arc;
use crate::Graph;

/// The products of GB_BASIC.
#[derive(Clone, Copy, Debug, PartialEq, Eq, Hash)]
pub enum Product {
    /// A step in one of the graphs.
    Cartesian = 0,
    /// A step in both: the tensor product of other packages.
    Direct = 1,
    /// A step in one or in both.
    Strong = 2,
}

/// What comes in the place of a vertex of `induced`.
#[derive(Clone, Copy, Debug)]
pub enum Entry<'a> {
    /// 0 drops the vertex, 1 keeps it, a greater number makes so many of it; one below 0 merges it with all others of
    /// that number.
    Number(i64),
    /// A copy of a graph, with its arcs.
    Graph(&'a Graph),
}

impl From<i64> for Entry<'_> {
    fn from(number: i64) -> Self {
        Entry::Number(number)
    }
}

impl<'a> From<&'a Graph> for Entry<'a> {
    fn from(graph: &'a Graph) -> Self {
        Entry::Graph(graph)
    }
}

/// Graphs of one's own. The expression of each is `stdin`, which its file stands for.
impl Graph {
    /// The graph that GraphBase makes of vertices with these names and of these arcs, or edges, one after another: each
    /// leads the lists of its ends, so that a list has its arcs in the other order than they are given in.
    ///
    /// It is `Error::Code(106)` where an end is no vertex, 107 where a name or the id is no text of a graph: printable ASCII
    /// without quotation mark and backslash, at most 4095 bytes, of an id 160. Where the slices are not as long as one another
    /// it is 101.
    pub fn make<S: AsRef<str>>(
        names: &[S], from: &[u32], to: &[u32], lengths: &[i64], directed: bool, id: &str,
    ) -> Result<Graph, Error> {
        let (mut starts, mut bytes) = (vec![0], String::new());
        for name in names {
            bytes += name.as_ref();
            starts.push(bytes.len() as u64);
        }
        Graph::of("stdin", Held::make((&starts, &bytes), (from, to), lengths, directed, id)?)
    }

    /// The graph of n vertices, whose names are their numbers, with these edges, or arcs where it is directed: each list
    /// has its arcs in the order in which they are given. It is `Error::NoEnd` of the first edge that has an end which is no
    /// vertex.
    ///
    /// ```
    /// use sgb::{Arc, Graph};
    /// let edges = [Arc { v: 0, tip: 1, length: 1 }, Arc { v: 0, tip: 2, length: 7 }];
    /// let graph = Graph::from_edges(3, &edges, false, "own")?;
    /// assert_eq!((graph.m()?, graph.tips_of(0)?, graph.id()), (4, vec![1, 2], "own"));
    /// # Ok::<(), sgb::Error>(())
    /// ```
    pub fn from_edges(n: u32, edges: &[Arc], directed: bool, id: &str) -> Result<Graph, Error> {
        if let Some(place) = edges.iter().position(|edge| edge.v.max(edge.tip) >= n) {
            return Err(Error::NoEnd(place, edges[place]));
        }
        let names: Vec<String> = (0..n).map(|v| v.to_string()).collect();
        let from: Vec<u32> = edges.iter().rev().map(|edge| edge.v).collect();
        let to: Vec<u32> = edges.iter().rev().map(|edge| edge.tip).collect();
        let lengths: Vec<i64> = edges.iter().rev().map(|edge| edge.length).collect();
        Graph::make(&names, &from, &to, &lengths, directed, id)
    }
}

/// Operations. The result is a graph of its own, whose expression is `stdin`; the operands stay open and as they are, and one
/// graph may be both. Of edges the arc from the smaller end counts; vertices of two graphs are the same where their
/// numbers are.
impl Graph {
    /// The same vertices with the arcs that are not there; with `copy` those that are, each once and of length 1.
    pub fn complement(&self, copy: bool, self_loops: bool, directed: bool) -> Result<Graph, Error> {
        Graph::of("stdin", self.held.complement(copy, self_loops, directed)?)
    }

    /// The line graph: a vertex for each edge, or for each arc. It is `Error::Code(60)` where edges are wanted and the arcs
    /// are none.
    ///
    /// ```
    /// let lines = sgb::Graph::new("complete(4)", b"")?.lines(false)?;
    /// assert_eq!((lines.n(), lines.id()), (6, "lines(board(4,0,0,0,-1,0,0),0)"));
    /// # Ok::<(), sgb::Error>(())
    /// ```
    pub fn lines(&self, directed: bool) -> Result<Graph, Error> {
        Graph::of("stdin", self.held.lines(directed)?)
    }

    /// The vertices of this graph with the arcs of both; parallel ones are one of the least length, unless `multi`.
    pub fn gunion(&self, other: &Graph, multi: bool, directed: bool) -> Result<Graph, Error> {
        Graph::of("stdin", self.held.gunion(&other.held, multi, directed)?)
    }

    /// The vertices of this graph with the arcs that both have; of parallel ones there is one, unless `multi`.
    pub fn intersection(&self, other: &Graph, multi: bool, directed: bool) -> Result<Graph, Error> {
        Graph::of("stdin", self.held.intersection(&other.held, multi, directed)?)
    }

    /// The pairs of vertices: u and v are vertex u * other.n() + v. It is `Error::Code(40)` where these are more than 10^9.
    pub fn product(&self, other: &Graph, kind: Product, directed: bool) -> Result<Graph, Error> {
        Graph::of("stdin", self.held.product(&other.held, kind as i64, directed)?)
    }

    /// The graph with an entry in the place of each vertex. It is `Error::Code(30)` where there is not one for each, 40 where
    /// these are more than 10^9 vertices.
    ///
    /// ```
    /// use sgb::{Entry, Graph};
    /// let (path, ring) = (Graph::new("board(2,0,0,0,1,0,0)", b"")?, Graph::new("circuit(3)", b"")?);
    /// assert_eq!(path.induced(&[Entry::Graph(&ring), Entry::Number(2)], false, false, false)?.n(), 5);
    /// # Ok::<(), sgb::Error>(())
    /// ```
    pub fn induced(&self, entries: &[Entry<'_>], self_loops: bool, multi: bool, directed: bool) -> Result<Graph, Error> {
        let list = Entries::new();
        for entry in entries {
            match entry {
                Entry::Number(number) => list.add_number(*number)?,
                Entry::Graph(graph) => list.add_graph(&graph.held)?,
            }
        }
        Graph::of("stdin", self.held.induced(&list, self_loops, multi, directed)?)
    }

    /// n1 vertices, each joined to each of n2 others. It is `Error::Code(30)` where a number is below 0, 40 where they are more
    /// than 10^9 vertices.
    pub fn bi_complete(n1: i64, n2: i64, directed: bool) -> Result<Graph, Error> {
        Graph::of("stdin", Held::bi_complete(n1, n2, directed)?)
    }

    /// n1 vertices in the middle, each joined to each of n in a circle; refused as `bi_complete`.
    pub fn wheel(n: i64, n1: i64, directed: bool) -> Result<Graph, Error> {
        Graph::of("stdin", Held::wheel(n, n1, directed)?)
    }

    /// The wheel with a graph in its middle, each of whose vertices is joined to each of n in a circle. It is `Error::Code(40)`
    /// where these are more than 10^9 vertices.
    pub fn wheel_around(middle: &Graph, n: i64, directed: bool) -> Result<Graph, Error> {
        let (flag, n) = (u8::from(directed), n.max(0));
        // too many vertices are refused before anything is built
        let size = if n > 1_000_000_000 - middle.n() as i64 { 1_000_000_001 } else { n };
        let rim = Graph::new(&format!("board({size},0,0,0,1,1,{flag})"), b"")?;
        let pair = Graph::new(&format!("board(2,0,0,0,1,0,{flag})"), b"")?;
        pair.induced(&[middle.into(), (&rim).into()], false, false, directed)
    }
}
