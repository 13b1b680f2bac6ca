//! Tables: how they are read, what they are made of, and what they hold.
use crate::{ffi, Bounds};

/// How a table is read and packed.
///
/// ```
/// use rtfilter::{Session, Settings};
///
/// let session = Session::of_bytes(b"id,min_x,max_x,min_y,max_y\n7,0,1,0,1\n", &Settings::new().header(true));
/// assert_eq!(session.unwrap().info().boxes, 1);
/// ```
#[derive(Clone, Copy, Debug, PartialEq, Eq)]
pub struct Settings {
    header: bool,
    fanout: u8,
    max_entries: u32,
}

impl Settings {
    /// A table without a header, a fanout of 16, and at most 16777216 boxes.
    pub fn new() -> Settings {
        Settings { header: false, fanout: 16, max_entries: 16777216 }
    }

    /// The same; says whether the first record of a CSV table is skipped.
    pub fn header(self, header: bool) -> Settings {
        Settings { header, ..self }
    }

    /// The same with another fanout, the most children of a node of the tree: 2 to 64.
    pub fn fanout(self, fanout: u8) -> Settings {
        Settings { fanout, ..self }
    }

    /// The same with another maximum number of boxes: 1 to 16777216.
    pub fn max_entries(self, max_entries: u32) -> Settings {
        Settings { max_entries, ..self }
    }

    pub(crate) fn in_c(self) -> ffi::Settings {
        ffi::Settings { header: self.header, fanout: self.fanout, max_entries: self.max_entries, reserved: [0; 6] }
    }
}

impl Default for Settings {
    fn default() -> Settings {
        Settings::new()
    }
}

/// Boxes, with a slice for each field. Without layers all are on layer 0.
#[derive(Clone, Copy, Debug, Default)]
pub struct Columns<'a> {
    pub ids: &'a [i64],
    pub min_x: &'a [i32],
    pub max_x: &'a [i32],
    pub min_y: &'a [i32],
    pub max_y: &'a [i32],
    pub layers: Option<&'a [u8]>,
}

/// What a table holds.
#[derive(Clone, Debug, PartialEq, Eq)]
#[non_exhaustive]
pub struct Info {
    /// How many boxes.
    pub boxes: u32,
    /// How many boxes or nodes each level of the tree has, from that of the boxes up.
    pub level_sizes: Vec<u32>,
    /// The smallest box around all boxes, if there are any.
    pub bounds: Option<Bounds>,
}

impl Info {
    pub(crate) fn of_c(it: &ffi::Info) -> Info {
        let bounds = Bounds { min_x: it.min_x, max_x: it.max_x, min_y: it.min_y, max_y: it.max_y };
        Info {
            boxes: it.boxes,
            level_sizes: it.level_sizes[..it.levels as usize].to_vec(),
            bounds: (it.boxes > 0).then_some(bounds),
        }
    }
}
