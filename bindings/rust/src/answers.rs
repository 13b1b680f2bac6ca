//! Answers and replies.

/// The answers of several queries.
///
/// ```
/// # use rtfilter::{Query, Session, Settings};
/// # let mut session = Session::of_bytes(b"1,0,10,0,10\n2,5,15,5,15\n3,20,30,0,10\n", &Settings::new())?;
/// let all = session.find_each(&[Query::window(0, 10, 0, 10), Query::nearest(18, 4, 2)], &[])?;
/// for (ids, scores) in &all {
///     println!("{ids:?} {scores:?}");
/// }
/// assert_eq!(all.of(1), (&[3, 2][..], &[4, 10][..]));
/// # Ok::<(), rtfilter::Error>(())
/// ```
#[derive(Clone, Debug, Default, PartialEq, Eq)]
pub struct Answers {
    /// The ids of the first query's answers, then those of the second, and so on.
    pub ids: Vec<i64>,
    /// The score of each answer. The greatest score has 65 bits.
    pub scores: Vec<u128>,
    /// For each query the index behind its last answer.
    pub ends: Vec<usize>,
}

impl Answers {
    /// The ids and scores of the query at an index. It panics if there is none.
    pub fn of(&self, query: usize) -> (&[i64], &[u128]) {
        let begin = if query == 0 { 0 } else { self.ends[query - 1] };
        let end = self.ends[query];
        (&self.ids[begin..end], &self.scores[begin..end])
    }

    /// The ids and scores of each query in turn.
    pub fn iter(&self) -> Iter<'_> {
        Iter { answers: self, query: 0 }
    }
}

impl<'a> IntoIterator for &'a Answers {
    type Item = (&'a [i64], &'a [u128]);
    type IntoIter = Iter<'a>;

    fn into_iter(self) -> Iter<'a> {
        self.iter()
    }
}

/// The answers of each query in turn: see [`Answers::iter`].
#[derive(Clone, Debug)]
pub struct Iter<'a> {
    answers: &'a Answers,
    query: usize,
}

impl<'a> Iterator for Iter<'a> {
    type Item = (&'a [i64], &'a [u128]);

    fn next(&mut self) -> Option<Self::Item> {
        let query = self.query;
        (query < self.answers.ends.len()).then(|| {
            self.query += 1;
            self.answers.of(query)
        })
    }

    fn size_hint(&self) -> (usize, Option<usize>) {
        let left = self.answers.ends.len() - self.query;
        (left, Some(left))
    }
}

impl ExactSizeIterator for Iter<'_> {}

/// The reply to query lines.
#[derive(Clone, Debug, Default, PartialEq, Eq)]
pub struct Reply {
    pub text: Vec<u8>,
    /// Whether one of the lines is faulty; the text names the fault.
    pub is_faulty: bool,
}
