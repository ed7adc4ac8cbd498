//! The calls of `include/sgb.h`, and a handle that is closed when it is dropped.
use std::cell::UnsafeCell;
use std::ffi::c_void;

use crate::errors::{answer, Error};

/// How large a graph is.
#[repr(C)]
#[derive(Clone, Copy, Debug, Default)]
pub struct Sizes {
    pub vertices: u64,
    pub id: u64,
}

/// A graph that is open, or none.
#[repr(C)]
#[derive(Debug)]
pub struct Handle {
    held: *mut c_void,
    is_open: bool,
}

/// A list of entries of `induced`.
#[repr(C)]
struct EntryList {
    held: *mut c_void,
    is_held: bool,
}

extern "C" {
    fn sgb_open(text: *const u8, text_len: usize, input: *const u8, input_len: usize, graph: *mut Handle) -> u64;
    fn sgb_close(graph: *mut Handle);
    fn sgb_sizes(graph: *mut Handle, sizes: *mut Sizes) -> u64;
    fn sgb_arcs(graph: *mut Handle, arcs: *mut u64) -> u64;
    fn sgb_rows_size(graph: *mut Handle, first: u32, count: u32, arcs: *mut u64) -> u64;
    fn sgb_names_size(graph: *mut Handle, first: u32, count: u32, bytes: *mut u64) -> u64;
    fn sgb_rows(
        graph: *mut Handle, first: u32, count: u32, starts: *mut u64, starts_len: usize, tips: *mut u32, tips_len: usize,
        lengths: *mut i64, lengths_len: usize,
    ) -> u64;
    fn sgb_tips(
        graph: *mut Handle, first: u32, count: u32, starts: *mut u64, starts_len: usize, tips: *mut u32, tips_len: usize,
    ) -> u64;
    fn sgb_names(
        graph: *mut Handle, first: u32, count: u32, starts: *mut u64, starts_len: usize, bytes: *mut u8, bytes_len: usize,
    ) -> u64;
    fn sgb_ints(graph: *mut Handle, field: u32, first: u32, count: u32, values: *mut i64, values_len: usize) -> u64;
    fn sgb_id(graph: *mut Handle, bytes: *mut u8, bytes_len: usize) -> u64;
    fn sgb_kinds(graph: *mut Handle, letters: *mut u8, letters_len: usize) -> u64;
    fn sgb_file_size(graph: *mut Handle, size: *mut u64) -> u64;
    fn sgb_file(graph: *mut Handle, bytes: *mut u8, bytes_len: usize) -> u64;
    fn sgb_draws(start: i64, skip: u64, out: *mut u32, out_len: usize);
    fn sgb_uniform_draws(start: i64, skip: u64, m: u32, out: *mut u32, out_len: usize) -> u64;
    fn sgb_version() -> u64;
    fn sgb_make(
        name_starts: *const u64, name_starts_len: usize, names: *const u8, names_len: usize, from: *const u32, from_len: usize,
        to: *const u32, to_len: usize, lengths: *const i64, lengths_len: usize, directed: bool, id: *const u8, id_len: usize,
        result: *mut Handle,
    ) -> u64;
    fn sgb_complement(graph: *mut Handle, copy: bool, self_loops: bool, directed: bool, result: *mut Handle) -> u64;
    fn sgb_lines(graph: *mut Handle, directed: bool, result: *mut Handle) -> u64;
    fn sgb_bi_complete(n1: i64, n2: i64, directed: bool, result: *mut Handle) -> u64;
    fn sgb_wheel(n: i64, n1: i64, directed: bool, result: *mut Handle) -> u64;
    fn sgb_gunion_of(first: *mut Handle, second: *mut Handle, multi: bool, directed: bool, result: *mut Handle) -> u64;
    fn sgb_gunion_self(graph: *mut Handle, multi: bool, directed: bool, result: *mut Handle) -> u64;
    fn sgb_intersection_of(first: *mut Handle, second: *mut Handle, multi: bool, directed: bool, result: *mut Handle) -> u64;
    fn sgb_intersection_self(graph: *mut Handle, multi: bool, directed: bool, result: *mut Handle) -> u64;
    fn sgb_product_of(first: *mut Handle, second: *mut Handle, kind: i64, directed: bool, result: *mut Handle) -> u64;
    fn sgb_product_self(graph: *mut Handle, kind: i64, directed: bool, result: *mut Handle) -> u64;
    fn sgb_entries_number(entries: *mut EntryList, number: i64) -> u64;
    fn sgb_entries_graph(entries: *mut EntryList, graph: *mut Handle) -> u64;
    fn sgb_entries_close(entries: *mut EntryList);
    fn sgb_induced_by(
        graph: *mut Handle, entries: *mut EntryList, self_loops: bool, multi: bool, directed: bool, result: *mut Handle,
    ) -> u64;
}

/// So many numbers of C, or want of memory.
fn room<T: Clone + Default>(count: u64) -> Result<Vec<T>, Error> {
    let mut made = Vec::new();
    let count = usize::try_from(count).map_err(|_| Error::Code(1))?;
    made.try_reserve_exact(count).map_err(|_| Error::Code(1))?;
    made.resize(count, T::default());
    Ok(made)
}

/// A run of vertices: the first, and how many there are.
pub type Run = (u32, u32);

/// The arrays of a run: where its lists begin, where their arcs lead, and how long these are.
pub type Arrays = (Vec<u64>, Vec<u32>, Vec<i64>);

/// A graph that the library holds, until this is dropped.
#[derive(Debug)]
pub struct Held(Box<UnsafeCell<Handle>>);

impl Held {
    /// The graph that a call makes in the handle, which holds none before.
    fn made(call: impl FnOnce(*mut Handle) -> u64) -> Result<Held, Error> {
        let none = Handle { held: std::ptr::null_mut(), is_open: false };
        let held = Held(Box::new(UnsafeCell::new(none)));
        answer(call(held.at()))?;
        Ok(held)
    }

    pub fn open(text: &str, input: &[u8]) -> Result<Held, Error> {
        Held::made(|made| unsafe { sgb_open(text.as_ptr(), text.len(), input.as_ptr(), input.len(), made) })
    }

    /// The graph of these names, cut at `starts`, and of these events.
    pub fn make(names: (&[u64], &str), ends: (&[u32], &[u32]), lengths: &[i64], directed: bool, id: &str) -> Result<Held, Error> {
        let ((starts, bytes), (from, to)) = (names, ends);
        Held::made(|made| unsafe {
            sgb_make(
                starts.as_ptr(), starts.len(), bytes.as_ptr(), bytes.len(), from.as_ptr(), from.len(), to.as_ptr(), to.len(),
                lengths.as_ptr(), lengths.len(), directed, id.as_ptr(), id.len(), made,
            )
        })
    }

    pub fn complement(&self, copy: bool, self_loops: bool, directed: bool) -> Result<Held, Error> {
        Held::made(|made| unsafe { sgb_complement(self.at(), copy, self_loops, directed, made) })
    }

    pub fn lines(&self, directed: bool) -> Result<Held, Error> {
        Held::made(|made| unsafe { sgb_lines(self.at(), directed, made) })
    }

    pub fn bi_complete(n1: i64, n2: i64, directed: bool) -> Result<Held, Error> {
        Held::made(|made| unsafe { sgb_bi_complete(n1, n2, directed, made) })
    }

    pub fn wheel(n: i64, n1: i64, directed: bool) -> Result<Held, Error> {
        Held::made(|made| unsafe { sgb_wheel(n, n1, directed, made) })
    }

    /// Whether both are one: then the calls of one graph as both operands are made.
    fn is(&self, other: &Held) -> bool {
        self.at() == other.at()
    }

    pub fn gunion(&self, other: &Held, multi: bool, directed: bool) -> Result<Held, Error> {
        Held::made(|made| unsafe {
            match self.is(other) {
                true => sgb_gunion_self(self.at(), multi, directed, made),
                false => sgb_gunion_of(self.at(), other.at(), multi, directed, made),
            }
        })
    }

    pub fn intersection(&self, other: &Held, multi: bool, directed: bool) -> Result<Held, Error> {
        Held::made(|made| unsafe {
            match self.is(other) {
                true => sgb_intersection_self(self.at(), multi, directed, made),
                false => sgb_intersection_of(self.at(), other.at(), multi, directed, made),
            }
        })
    }

    pub fn product(&self, other: &Held, kind: i64, directed: bool) -> Result<Held, Error> {
        Held::made(|made| unsafe {
            match self.is(other) {
                true => sgb_product_self(self.at(), kind, directed, made),
                false => sgb_product_of(self.at(), other.at(), kind, directed, made),
            }
        })
    }

    pub fn induced(&self, entries: &Entries, self_loops: bool, multi: bool, directed: bool) -> Result<Held, Error> {
        Held::made(|made| unsafe { sgb_induced_by(self.at(), entries.at(), self_loops, multi, directed, made) })
    }

    /// The handle, for one call: it is never lent, and a cell is for one thread.
    fn at(&self) -> *mut Handle {
        self.0.get()
    }

    /// A number that a call writes.
    fn number(&self, call: impl FnOnce(*mut Handle, *mut u64) -> u64) -> Result<u64, Error> {
        let mut number = 0;
        answer(call(self.at(), &mut number))?;
        Ok(number)
    }

    pub fn sizes(&self) -> Result<Sizes, Error> {
        let mut sizes = Sizes::default();
        answer(unsafe { sgb_sizes(self.at(), &mut sizes) })?;
        Ok(sizes)
    }

    pub fn arcs(&self) -> Result<u64, Error> {
        self.number(|graph, arcs| unsafe { sgb_arcs(graph, arcs) })
    }

    pub fn rows_size(&self, (first, count): Run) -> Result<u64, Error> {
        self.number(|graph, arcs| unsafe { sgb_rows_size(graph, first, count, arcs) })
    }

    pub fn tips(&self, (first, count): Run) -> Result<(Vec<u64>, Vec<u32>), Error> {
        let size = self.rows_size((first, count))?;
        let (mut starts, mut tips) = (room(u64::from(count) + 1)?, room(size)?);
        answer(unsafe {
            sgb_tips(self.at(), first, count, starts.as_mut_ptr(), starts.len(), tips.as_mut_ptr(), tips.len())
        })?;
        Ok((starts, tips))
    }

    pub fn rows(&self, (first, count): Run) -> Result<Arrays, Error> {
        let size = self.rows_size((first, count))?;
        let (mut starts, mut tips, mut lengths) = (room(u64::from(count) + 1)?, room(size)?, room(size)?);
        answer(unsafe {
            sgb_rows(
                self.at(), first, count, starts.as_mut_ptr(), starts.len(), tips.as_mut_ptr(), tips.len(),
                lengths.as_mut_ptr(), lengths.len(),
            )
        })?;
        Ok((starts, tips, lengths))
    }

    pub fn names(&self, (first, count): Run) -> Result<(Vec<u64>, Vec<u8>), Error> {
        let size = self.number(|graph, bytes| unsafe { sgb_names_size(graph, first, count, bytes) })?;
        let (mut starts, mut bytes) = (room(u64::from(count) + 1)?, room(size)?);
        answer(unsafe {
            sgb_names(self.at(), first, count, starts.as_mut_ptr(), starts.len(), bytes.as_mut_ptr(), bytes.len())
        })?;
        Ok((starts, bytes))
    }

    pub fn ints(&self, field: u32, (first, count): Run) -> Result<Vec<i64>, Error> {
        let mut values = room(count.into())?;
        answer(unsafe { sgb_ints(self.at(), field, first, count, values.as_mut_ptr(), values.len()) })?;
        Ok(values)
    }

    pub fn id(&self, size: u64) -> Result<String, Error> {
        let mut bytes = room(size)?;
        answer(unsafe { sgb_id(self.at(), bytes.as_mut_ptr(), bytes.len()) })?;
        Ok(String::from_utf8_lossy(&bytes).into_owned())
    }

    pub fn kinds(&self) -> Result<String, Error> {
        let mut letters = [0; 14];
        answer(unsafe { sgb_kinds(self.at(), letters.as_mut_ptr(), letters.len()) })?;
        Ok(String::from_utf8_lossy(&letters).into_owned())
    }

    pub fn file(&self) -> Result<Vec<u8>, Error> {
        let mut bytes = room(self.number(|graph, size| unsafe { sgb_file_size(graph, size) })?)?;
        answer(unsafe { sgb_file(self.at(), bytes.as_mut_ptr(), bytes.len()) })?;
        Ok(bytes)
    }
}

impl Drop for Held {
    fn drop(&mut self) {
        unsafe { sgb_close(self.at()) }
    }
}

/// A list of entries of `induced`, until this is dropped.
pub struct Entries(Box<UnsafeCell<EntryList>>);

impl Entries {
    pub fn new() -> Entries {
        Entries(Box::new(UnsafeCell::new(EntryList { held: std::ptr::null_mut(), is_held: false })))
    }

    fn at(&self) -> *mut EntryList {
        self.0.get()
    }

    pub fn add_number(&self, number: i64) -> Result<(), Error> {
        answer(unsafe { sgb_entries_number(self.at(), number) })
    }

    /// Adds a copy of the graph.
    pub fn add_graph(&self, graph: &Held) -> Result<(), Error> {
        answer(unsafe { sgb_entries_graph(self.at(), graph.at()) })
    }
}

impl Drop for Entries {
    fn drop(&mut self) {
        unsafe { sgb_entries_close(self.at()) }
    }
}

/// So many draws of GB_FLIP, after `skip` that are left out.
pub fn draws(start: i64, skip: u64, count: usize) -> Vec<u32> {
    let mut out = vec![0; count];
    unsafe { sgb_draws(start, skip, out.as_mut_ptr(), count) };
    out
}

/// So many uniform draws below `m`, which is from 1 to 2^31.
pub fn uniform_draws(start: i64, skip: u64, m: u32, count: usize) -> Result<Vec<u32>, Error> {
    let mut out = vec![0; count];
    answer(unsafe { sgb_uniform_draws(start, skip, m, out.as_mut_ptr(), count) })?;
    Ok(out)
}

/// The version of the library: 1,000,000 times the first number, 1,000 times the second, and the third.
pub fn version() -> u64 {
    unsafe { sgb_version() }
}
