//! Exact spatial search over a table of boxes, in memory: a safe wrapper of librtfilter. `rtfilter.h` has the meaning of each
//! call; here a session closes itself, answers come in vectors, and failures are an [`Error`].
//!
//! Sides are always in the order min_x, max_x, min_y, max_y. Boxes that only touch overlap.
//!
//! ```
//! use rtfilter::{Columns, Query, Session, Settings};
//!
//! let boxes = Columns {
//!     ids: &[1, 2, 3],
//!     min_x: &[0, 5, 20],
//!     max_x: &[10, 15, 30],
//!     min_y: &[0, 5, 0],
//!     max_y: &[10, 15, 10],
//!     layers: None,
//! };
//! let mut session = Session::of_columns(&boxes, &Settings::new())?;
//! assert_eq!(session.find(Query::window(0, 10, 0, 10))?, [1, 2]);
//! assert_eq!(session.find(Query::nearest(18, 4, 2))?, [3, 2]);
//! # Ok::<(), rtfilter::Error>(())
//! ```
mod answers;
mod error;
mod ffi;
mod query;
mod table;

pub use answers::{Answers, Iter, Reply};
pub use error::{Error, Fault, FaultKind};
pub use query::{Bounds, Order, Point, Query, Region};
pub use table::{Columns, Info, Settings};

use error::text_of;
use std::ffi::{CStr, CString};
use std::os::raw::{c_char, c_int, c_void};
use std::os::unix::ffi::OsStrExt;
use std::path::Path;
use std::{io, ptr, slice};

/// Capacity for answers that a call begins with: so much in all, or for each query.
const FIRST_CAPACITY: usize = 256;
const CAPACITY_OF_A_QUERY: usize = 32;

/// An open session. Each call needs it alone; [`Session::share`] makes one more on the same table, for another thread.
///
/// ```
/// use rtfilter::{Query, Session, Settings};
///
/// let mut first = Session::of_bytes(b"1,0,10,0,10\n2,5,15,5,15\n", &Settings::new())?;
/// let mut second = first.share()?;
/// let count = std::thread::spawn(move || second.count(Query::ALL));
/// assert_eq!(first.find(Query::covers(12, 12, 12, 12))?, [2]);
/// assert_eq!(count.join().unwrap()?, 2);
/// # Ok::<(), rtfilter::Error>(())
/// ```
#[derive(Debug)]
pub struct Session(ffi::Session);

// SAFETY: a session may be used by one thread after the other. It isn't `Sync`: it may not be in two calls at once.
unsafe impl Send for Session {}

impl Session {
    /// Opens a session on a CSV table in memory.
    pub fn of_bytes(table: &[u8], settings: &Settings) -> Result<Session, Error> {
        let settings = settings.in_c();
        // SAFETY: the table is borrowed for the call, which keeps no pointer to it.
        open(|out, fault| unsafe {
            ffi::rtfilter_open_bytes(out, table.as_ptr() as *const c_void, table.len(), &settings, fault)
        })
    }

    /// Opens a session on a CSV file.
    ///
    /// ```
    /// use rtfilter::{Error, Session, Settings};
    ///
    /// let error = Session::of_file("/no/such/file", &Settings::new()).unwrap_err();
    /// assert!(matches!(error, Error::BadFile(cause) if cause.kind() == std::io::ErrorKind::NotFound));
    /// ```
    pub fn of_file(name: impl AsRef<Path>, settings: &Settings) -> Result<Session, Error> {
        let settings = settings.in_c();
        let name = CString::new(name.as_ref().as_os_str().as_bytes()).map_err(|it| Error::BadFile(it.into()))?;
        // SAFETY: as above.
        open(|out, fault| unsafe { ffi::rtfilter_open_file(out, name.as_ptr(), &settings, fault) })
    }

    /// Opens a session on boxes in slices. It panics if these aren't of one length.
    pub fn of_columns(boxes: &Columns, settings: &Settings) -> Result<Session, Error> {
        let (n, settings) = (boxes.ids.len(), settings.in_c());
        for len in [boxes.min_x, boxes.max_x, boxes.min_y, boxes.max_y].map(<[i32]>::len) {
            assert_eq!(len, n, "columns of one length");
        }
        let layers = boxes.layers.map_or(ptr::null(), |layers| {
            assert_eq!(layers.len(), n, "columns of one length");
            layers.as_ptr()
        });
        // SAFETY: as above, and each slice has n items.
        open(|out, fault| unsafe {
            ffi::rtfilter_open_arrays(
                out,
                n,
                boxes.ids.as_ptr(),
                boxes.min_x.as_ptr(),
                boxes.max_x.as_ptr(),
                boxes.min_y.as_ptr(),
                boxes.max_y.as_ptr(),
                layers,
                &settings,
                fault,
            )
        })
    }

    /// One more session on the same table.
    pub fn share(&mut self) -> Result<Session, Error> {
        // SAFETY: this session is open, and the other is closed.
        open(|out, _| unsafe { ffi::rtfilter_share(&mut self.0, out) })
    }

    /// What the table holds.
    ///
    /// ```
    /// # use rtfilter::{Session, Settings};
    /// let info = Session::of_bytes(b"1,0,10,0,10\n2,5,15,5,15\n", &Settings::new())?.info();
    /// assert_eq!((info.boxes, info.level_sizes), (2, vec![2, 1]));
    /// assert_eq!(info.bounds.map(|it| it.max_y), Some(15));
    /// # Ok::<(), rtfilter::Error>(())
    /// ```
    pub fn info(&mut self) -> Info {
        let mut info = ffi::Info::default();
        // SAFETY: the session is open. The call can't fail then.
        unsafe { ffi::rtfilter_info_of(&mut self.0, &mut info) };
        Info::of_c(&info)
    }

    /// Answers query lines, which are numbered from 1, byte for byte as the program does. A faulty line is no error.
    ///
    /// ```
    /// # use rtfilter::{Session, Settings};
    /// let mut session = Session::of_bytes(b"1,0,10,0,10\n", &Settings::new())?;
    /// let reply = session.ask(b"count all\nfind nothing")?;
    /// assert!(reply.is_faulty);
    /// assert_eq!(reply.text, b"ok 1 1\nerror 2 Q3 unknown region\n");
    /// # Ok::<(), rtfilter::Error>(())
    /// ```
    pub fn ask(&mut self, lines: &[u8]) -> Result<Reply, Error> {
        let (mut text, mut len) = (vec![0; 4096], 0);
        let (from, at) = (lines.as_ptr() as *const c_char, text.as_mut_ptr() as *mut c_char);
        // SAFETY: the session is open, and the slices are as long as is said.
        let code = unsafe { ffi::rtfilter_ask(&mut self.0, from, lines.len(), at, text.len(), &mut len) };
        if code != ffi::FAULTY_LINE {
            check(code)?;
        }
        let first = text.len();
        text.resize(len, 0);
        if let Some(rest) = text.get_mut(first..) {
            // SAFETY: as above.
            unsafe { ffi::rtfilter_reply(&mut self.0, first, rest.as_mut_ptr() as *mut c_char, rest.len(), &mut len) };
        }
        Ok(Reply { text, is_faulty: code == ffi::FAULTY_LINE })
    }

    /// Frees the reply that the session keeps for [`Session::ask`].
    pub fn forget(&mut self) {
        // SAFETY: the session is open. The call can't fail then.
        unsafe { ffi::rtfilter_forget(&mut self.0) };
    }

    /// The ids of the answers of a query that is no polygon.
    pub fn find(&mut self, query: Query) -> Result<Vec<i64>, Error> {
        let mut ids = Vec::new();
        self.find_into(query, &[], &mut ids)?;
        Ok(ids)
    }

    /// The same, in place of what a vector holds, which keeps its memory. A polygon has its vertices among these.
    ///
    /// ```
    /// # use rtfilter::{Query, Session, Settings};
    /// # let mut session = Session::of_bytes(b"1,0,10,0,10\n2,5,15,5,15\n3,20,30,0,10\n", &Settings::new())?;
    /// let mut ids = Vec::new();
    /// session.find_into(Query::window(0, 10, 0, 10), &[], &mut ids)?;
    /// assert_eq!(ids, [1, 2]);
    /// session.find_into(Query::polygon(0, 3), &[(15, 0).into(), (40, 0).into(), (40, 9).into()], &mut ids)?;
    /// assert_eq!(ids, [3]);
    /// # Ok::<(), rtfilter::Error>(())
    /// ```
    pub fn find_into(&mut self, query: Query, vertices: &[Point], ids: &mut Vec<i64>) -> Result<(), Error> {
        ids.clear();
        self.put(slice::from_ref(&query), vertices, ids, None, &mut [0])
    }

    /// The answers of several queries, whose polygons have these vertices.
    pub fn find_each(&mut self, queries: &[Query], vertices: &[Point]) -> Result<Answers, Error> {
        let mut all = Answers::default();
        self.find_each_into(queries, vertices, &mut all)?;
        Ok(all)
    }

    /// The same, in place of what is there, which keeps its memory. After an error nothing is there.
    pub fn find_each_into(&mut self, queries: &[Query], vertices: &[Point], all: &mut Answers) -> Result<(), Error> {
        all.ids.clear();
        all.scores.clear();
        all.ends.clear();
        all.ends.resize(queries.len(), 0);
        let found = self.put(queries, vertices, &mut all.ids, Some(&mut all.scores), &mut all.ends);
        if found.is_err() {
            *all = Answers::default();
        }
        found
    }

    /// Puts the answers of queries into empty vectors, and the end of those of each.
    fn put(
        &mut self, queries: &[Query], vertices: &[Point], ids: &mut Vec<i64>, mut scores: Option<&mut Vec<u128>>,
        ends: &mut [usize],
    ) -> Result<(), Error> {
        let (mut first, mut skip) = (0, 0);
        let mut capacity = FIRST_CAPACITY.max(CAPACITY_OF_A_QUERY * queries.len());
        loop {
            let at = ids.len();
            ids.reserve(capacity);
            let mut part = ffi::Answers {
                ids: ids.spare_capacity_mut().as_mut_ptr().cast(),
                scores: scores.as_mut().map_or(ptr::null_mut(), |it| {
                    it.reserve(capacity);
                    it.spare_capacity_mut().as_mut_ptr().cast()
                }),
                capacity,
                ends: ends[first..].as_mut_ptr(),
                done: 0,
                found: 0,
            };
            let rest = list(&queries[first..], vertices);
            // SAFETY: the session is open, the arrays are as long as is said, and the call sets the first `found` items.
            let code = unsafe {
                let code = ffi::rtfilter_find(&mut self.0, &rest, skip, &mut part);
                ids.set_len(at + part.found);
                if let Some(it) = scores.as_mut() {
                    it.set_len(at + part.found);
                }
                code
            };
            let done = first + part.done;
            ends[first..done].iter_mut().for_each(|end| *end += at);
            if code != ffi::FULL {
                return check_queries(code, queries, vertices, done);
            }
            // (what is there of the answers of a query that has more: as rtfilter_continue has it)
            skip = if part.done == 0 { skip + part.found } else { ids.len() - ends[done - 1] };
            first = done;
            capacity = self.left(&queries[first..], vertices, first)? - skip;
        }
    }

    /// How many answers queries have in all. The first has this index among those of the caller.
    fn left(&mut self, queries: &[Query], vertices: &[Point], first: usize) -> Result<usize, Error> {
        let counts = self.count_each(queries, vertices).map_err(|error| match error {
            Error::BadQuery { index, why } => Error::BadQuery { index: first + index, why },
            other => other,
        })?;
        Ok(queries.iter().zip(counts).map(|(query, count)| count.min(query.limit) as usize).sum())
    }

    /// How many boxes a query that is no polygon accepts, whatever its limit.
    pub fn count(&mut self, query: Query) -> Result<u64, Error> {
        Ok(self.count_each(&[query], &[])?[0])
    }

    /// How many boxes each query accepts, whatever its limit.
    ///
    /// ```
    /// # use rtfilter::{Query, Session, Settings};
    /// # let mut session = Session::of_bytes(b"1,0,10,0,10\n2,5,15,5,15\n3,20,30,0,10\n", &Settings::new())?;
    /// let queries = [Query::ALL.first(1), Query::inside(0, 15, 0, 15)];
    /// assert_eq!(session.count_each(&queries, &[])?, [3, 2]);
    /// assert_eq!(session.cost_of_count(&queries, &[])?, [1, 1]);
    /// assert_eq!(session.cost_of_find(&queries, &[])?, [1, 1]);
    /// # Ok::<(), rtfilter::Error>(())
    /// ```
    pub fn count_each(&mut self, queries: &[Query], vertices: &[Point]) -> Result<Vec<u64>, Error> {
        self.measure(ffi::rtfilter_count, queries, vertices)
    }

    /// How many nodes of the tree a find of each query opens.
    pub fn cost_of_find(&mut self, queries: &[Query], vertices: &[Point]) -> Result<Vec<u64>, Error> {
        self.measure(ffi::rtfilter_cost_of_find, queries, vertices)
    }

    /// How many nodes of the tree a count of each query opens.
    pub fn cost_of_count(&mut self, queries: &[Query], vertices: &[Point]) -> Result<Vec<u64>, Error> {
        self.measure(ffi::rtfilter_cost_of_count, queries, vertices)
    }

    fn measure(&mut self, call: ffi::Measure, queries: &[Query], vertices: &[Point]) -> Result<Vec<u64>, Error> {
        let (mut measured, mut done) = (vec![0; queries.len()], 0);
        // SAFETY: the session is open, and there is a number for each query.
        let code = unsafe { call(&mut self.0, &list(queries, vertices), measured.as_mut_ptr(), &mut done) };
        check_queries(code, queries, vertices, done).map(|()| measured)
    }
}

impl Drop for Session {
    fn drop(&mut self) {
        // SAFETY: this is its last call.
        unsafe { ffi::rtfilter_close(&mut self.0) }
    }
}

fn open(call: impl FnOnce(*mut ffi::Session, *mut ffi::Fault) -> c_int) -> Result<Session, Error> {
    let (mut session, mut fault) = (ffi::Session { at: ptr::null_mut() }, ffi::Fault::default());
    match call(&mut session, &mut fault) {
        ffi::BAD_TABLE => Err(Error::BadTable(Fault(fault))),
        code => check(code).map(|()| Session(session)),
    }
}

fn list(queries: &[Query], vertices: &[Point]) -> ffi::Queries {
    ffi::Queries { queries: queries.as_ptr(), len: queries.len(), vertices: vertices.as_ptr(), vertex_len: vertices.len() }
}

/// The error for a code of a call about queries, of which `done` are done.
fn check_queries(code: c_int, queries: &[Query], vertices: &[Point], done: usize) -> Result<(), Error> {
    if code != ffi::BAD_QUERY {
        return check(code);
    }
    // SAFETY: the slices are as long as is said, and the string is static.
    let why = text_of(unsafe { CStr::from_ptr(ffi::rtfilter_query_message(&list(queries, vertices), done)) });
    Err(Error::BadQuery { index: done, why })
}

fn check(code: c_int) -> Result<(), Error> {
    Err(match code {
        ffi::OK => return Ok(()),
        ffi::BAD_SETTING => Error::BadSetting,
        ffi::BAD_FILE => Error::BadFile(io::Error::last_os_error()),
        ffi::NO_MEMORY => Error::NoMemory,
        ffi::BAD_PROCESSOR => Error::BadProcessor,
        other => Error::Other(other),
    })
}
