//! The names of a run of vertices.
use std::ops::{Index, Range};

/// The names of a run of vertices. `names[v]` is that of vertex `v` of the whole graph; it panics where that is not
/// in the run.
#[derive(Clone, Debug, PartialEq, Eq)]
pub struct Names {
    first: usize,
    text: String,
    /// Where each name ends.
    ends: Vec<usize>,
}

impl Names {
    pub(crate) fn new(first: u32, starts: &[u64], bytes: &[u8]) -> Names {
        let (mut text, mut ends) = (String::with_capacity(bytes.len()), Vec::with_capacity(starts.len() - 1));
        for at in starts.windows(2) {
            text.push_str(&String::from_utf8_lossy(&bytes[at[0] as usize..at[1] as usize]));
            ends.push(text.len());
        }
        Names { first: first as usize, text, ends }
    }

    /// The number of names.
    pub fn len(&self) -> usize {
        self.ends.len()
    }

    /// Whether there are none.
    pub fn is_empty(&self) -> bool {
        self.ends.is_empty()
    }

    /// The vertices whose names these are.
    pub fn vertices(&self) -> Range<usize> {
        self.first..self.first + self.len()
    }

    /// The name of vertex `v`, or none where it is not in the run.
    pub fn get(&self, v: usize) -> Option<&str> {
        let k = v.checked_sub(self.first)?;
        let begin = if k == 0 { 0 } else { *self.ends.get(k - 1)? };
        Some(&self.text[begin..*self.ends.get(k)?])
    }

    /// The names, in the order of their vertices.
    ///
    /// ```
    /// let names = sgb::Graph::new("board(2,2,0,0,1,0,0)", b"")?.all_names()?;
    /// assert!(names.iter().eq(["0.0", "0.1", "1.0", "1.1"]));
    /// assert_eq!(&names[3], "1.1");
    /// # Ok::<(), sgb::Error>(())
    /// ```
    pub fn iter(&self) -> impl ExactSizeIterator<Item = &str> + '_ {
        self.vertices().map(|v| &self[v])
    }
}

impl Index<usize> for Names {
    type Output = str;

    fn index(&self, v: usize) -> &str {
        self.get(v).unwrap_or_else(|| panic!("vertex {v} is not among {:?}", self.vertices()))
    }
}
