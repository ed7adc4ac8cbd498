//! Graphs of the Stanford GraphBase by their official names, as arrays: safe functions over the calls of `sgb.h`.
//!
//! ```
//! let graph = sgb::Graph::new("petersen()", b"")?;
//! let rows = graph.all()?;
//! assert_eq!((graph.n(), graph.m()?, rows.tips_of(0)), (10, 30, &[9, 8, 5][..]));
//! # Ok::<(), sgb::Error>(())
//! ```
//!
//! A generator's graph is not built, so it may be greater than any memory; its lists are asked for run by run:
//!
//! ```
//! let graph = sgb::Graph::new("board(1000000000,0,0,0,1,0,0)", b"")?;
//! assert_eq!(graph.rows(999_999_999, 1)?.tips(), [999_999_998]);
//! # Ok::<(), sgb::Error>(())
//! ```
//!
//! Graphs of one's own, and operations on graphs that are open:
//!
//! ```
//! let (ring, all) = (sgb::Graph::new("circuit(5)", b"")?, sgb::Graph::new("complete(5)", b"")?);
//! let both = ring.gunion(&all, true, false)?;
//! assert_eq!((both.m()?, both.lines(false)?.n()), (30, 15));
//! # Ok::<(), sgb::Error>(())
//! ```
//!
//! A slice is what these calls ask for: a pointer that is not null, and a length. A handle is closed when it is
//! dropped, and belongs to one thread, since it is neither `Send` nor `Sync`; what was fetched is for any.
#![warn(missing_docs)]

mod calls;
mod errors;
mod lists;
mod names;
mod operations;

pub use calls::{draws, uniform_draws, version};
pub use errors::{Error, ANSWERS};
pub use lists::{Arc, Lists, Rows};
pub use names::Names;
pub use operations::{Entry, Product};

use calls::{Held, Run};

/// A utility field of the vertices.
#[derive(Clone, Copy, Debug, PartialEq, Eq, Hash)]
#[allow(missing_docs)]
pub enum Field {
    U,
    V,
    W,
    X,
    Y,
    Z,
}

/// A graph that is open. What its vertices have is asked for a run at a time: so many vertices, one after another
/// from a first one on. Where these are not all there, the answer is `Error::Code(106)`.
///
/// Graphs have no `==`. Different ones may have one official name: that of an induced graph has no entries, and a long one
/// is cut. So what is meant is compared: `file()`, in which all of a graph stands, or its lists, `all()`, or `all_names()`.
///
/// ```
/// let all = sgb::Graph::new("complete(4)", b"")?;
/// let (few, many) = (all.induced(&[1.into(); 4], false, false, false)?, all.induced(&[2.into(); 4], false, false, false)?);
/// assert_eq!((few.id(), few.n(), many.n()), (many.id(), 4, 8));
/// assert_ne!(few.all()?, many.all()?);
/// # Ok::<(), sgb::Error>(())
/// ```
#[derive(Debug)]
pub struct Graph {
    held: Held,
    text: String,
    id: String,
    n: usize,
}

impl Graph {
    /// The graph that an expression names, where `input` are the bytes that `stdin` in it stands for. A generator's
    /// graph is not built; all others are.
    pub fn new(text: &str, input: &[u8]) -> Result<Graph, Error> {
        Graph::of(text, Held::open(text, input)?)
    }

    /// The graph that is held, and the expression that it has.
    fn of(text: &str, held: Held) -> Result<Graph, Error> {
        let sizes = held.sizes()?;
        let id = held.id(sizes.id)?;
        Ok(Graph { held, text: text.to_owned(), id, n: sizes.vertices as usize })
    }

    /// The expression.
    pub fn text(&self) -> &str {
        &self.text
    }

    /// The id: the official name.
    pub fn id(&self) -> &str {
        &self.id
    }

    /// The number of vertices.
    pub fn n(&self) -> usize {
        self.n
    }

    /// The number of arcs that the graph counts, where an edge counts as two: 2^64 - 1 also where there are more.
    pub fn m(&self) -> Result<u64, Error> {
        self.held.arcs()
    }

    /// What the utility fields hold, a letter each: of vertices u v w x y z, of arcs a b, of the graph uu vv ww xx yy
    /// zz.
    pub fn kinds(&self) -> Result<String, Error> {
        self.held.kinds()
    }

    /// A run as the library takes it: numbers of more than 32 bits are none of vertices that are there.
    fn run(first: usize, count: usize) -> Result<Run, Error> {
        let number = |value: usize| u32::try_from(value).map_err(|_| Error::Code(106));
        Ok((number(first)?, number(count)?))
    }

    /// The lists of `count` vertices from vertex `first` on.
    pub fn rows(&self, first: usize, count: usize) -> Result<Rows, Error> {
        let run = Self::run(first, count)?;
        let (starts, tips, lengths) = self.held.rows(run)?;
        Ok(Rows::new(Lists::new(run.0, starts, tips), lengths))
    }

    /// The same without lengths, which takes less time.
    pub fn lists(&self, first: usize, count: usize) -> Result<Lists, Error> {
        let run = Self::run(first, count)?;
        let (starts, tips) = self.held.tips(run)?;
        Ok(Lists::new(run.0, starts, tips))
    }

    /// The lists of all vertices.
    pub fn all(&self) -> Result<Rows, Error> {
        self.rows(0, self.n)
    }

    /// The lists of all vertices, `size` of them at a time, which is at least 1; each comes when its turn is.
    ///
    /// ```
    /// let graph = sgb::Graph::new("petersen()", b"")?;
    /// let sizes: Result<Vec<usize>, sgb::Error> = graph.chunks(4).map(|rows| Ok(rows?.count())).collect();
    /// assert_eq!(sizes?, [4, 4, 2]);
    /// # Ok::<(), sgb::Error>(())
    /// ```
    pub fn chunks(&self, size: usize) -> impl Iterator<Item = Result<Rows, Error>> + '_ {
        assert!(size > 0, "no chunks of 0 vertices");
        (0..self.n).step_by(size).map(move |first| self.rows(first, size.min(self.n - first)))
    }

    /// The arcs, each once its turn comes: the lists are asked for some thousand vertices at a time.
    pub fn arcs(&self) -> impl Iterator<Item = Result<Arc, Error>> + '_ {
        self.chunks(4096).flat_map(|rows| match rows {
            Ok(rows) => rows.arcs().map(Ok).collect(),
            Err(why) => vec![Err(why)],
        })
    }

    /// The edges, as `Rows::edges` has them.
    pub fn edges(&self) -> Result<Vec<Arc>, Error> {
        self.all()?.edges()
    }

    /// Where the arcs of vertex `v` lead, in the order of its list. No other list is made.
    pub fn tips_of(&self, v: usize) -> Result<Vec<u32>, Error> {
        Ok(self.held.tips(Self::run(v, 1)?)?.1)
    }

    /// The lengths of the arcs of vertex `v`, in the order of its list.
    pub fn lengths_of(&self, v: usize) -> Result<Vec<i64>, Error> {
        Ok(self.held.rows(Self::run(v, 1)?)?.2)
    }

    /// The number of arcs on the list of vertex `v`.
    pub fn degree(&self, v: usize) -> Result<u64, Error> {
        self.held.rows_size(Self::run(v, 1)?)
    }

    /// The names of `count` vertices from vertex `first` on.
    pub fn names(&self, first: usize, count: usize) -> Result<Names, Error> {
        let run = Self::run(first, count)?;
        let (starts, bytes) = self.held.names(run)?;
        Ok(Names::new(run.0, &starts, &bytes))
    }

    /// The names of all vertices.
    pub fn all_names(&self) -> Result<Names, Error> {
        self.names(0, self.n)
    }

    /// The name of vertex `v`.
    pub fn name(&self, v: usize) -> Result<String, Error> {
        Ok(self.names(v, 1)?[v].to_owned())
    }

    /// The first vertex that has this name, if one has. The names are gone through.
    pub fn vertex(&self, name: &str) -> Result<Option<usize>, Error> {
        for first in (0..self.n).step_by(65_536) {
            let names = self.names(first, (self.n - first).min(65_536))?;
            let found = names.vertices().find(|&v| &names[v] == name);
            if found.is_some() {
                return Ok(found);
            }
        }
        Ok(None)
    }

    /// The integers in a utility field of `count` vertices from vertex `first` on; those of a board are the
    /// coordinates. It is `Error::Code(102)` where the field does not hold integers.
    pub fn ints(&self, field: Field, first: usize, count: usize) -> Result<Vec<i64>, Error> {
        self.held.ints(field as u32, Self::run(first, count)?)
    }

    /// The `.gb` file of the graph. A generator's graph is built for it.
    pub fn file(&self) -> Result<Vec<u8>, Error> {
        self.held.file()
    }

    /// The listing, as `sgb list` writes it.
    pub fn listing(&self) -> Result<String, Error> {
        let (names, rows) = (self.all_names()?, self.all()?);
        let mut text = format!(
            "  The graph whose official name is\n{}\n  has {} vertices and {} arcs:\n\n", self.id, self.n, self.m()?
        );
        for v in rows.vertices() {
            text += &format!("{}\n", &names[v]);
            for arc in rows.arcs_of(v) {
                text += &format!("  -> {}, length {}\n", &names[arc.tip as usize], arc.length);
            }
        }
        Ok(text)
    }
}
