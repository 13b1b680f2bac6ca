//! Why a call failed.
use crate::ffi;
use std::ffi::CStr;
use std::os::raw::c_int;
use std::{error, fmt, io};

/// The first fault of a table.
///
/// ```
/// use rtfilter::{Error, FaultKind, Session, Settings};
///
/// let fault = match Session::of_bytes(b"1,0,1,0,1\n2,9,0,0,0\n", &Settings::new()) {
///     Err(Error::BadTable(fault)) => fault,
///     _ => panic!(),
/// };
/// assert_eq!((fault.kind(), fault.record(), fault.field()), (FaultKind::MinAboveMax, 2, 2));
/// assert_eq!(fault.to_string(), "table record 2: minimum above maximum in x");
/// ```
#[derive(Clone, Copy, PartialEq, Eq)]
pub struct Fault(pub(crate) ffi::Fault);

/// What is wrong with a table.
#[derive(Clone, Copy, Debug, PartialEq, Eq, Hash)]
#[non_exhaustive]
pub enum FaultKind {
    /// There are as many boxes as the settings allow before this record.
    TooMany,
    /// Neither five nor six fields; the fault's field is how many there are.
    FieldCount,
    /// The field isn't a whole number.
    NotNumber,
    /// The field is out of its range.
    OutOfRange,
    /// A minimum is above its maximum; the fault's field is that of the minimum.
    MinAboveMax,
    /// An earlier record has the same id.
    Repeated,
    /// A kind of a later library, by its number in `rtfilter.h`.
    Other(u32),
}

impl Fault {
    pub fn kind(&self) -> FaultKind {
        match self.0.kind {
            1 => FaultKind::TooMany,
            2 => FaultKind::FieldCount,
            3 => FaultKind::NotNumber,
            4 => FaultKind::OutOfRange,
            5 => FaultKind::MinAboveMax,
            6 => FaultKind::Repeated,
            other => FaultKind::Other(other),
        }
    }

    /// The faulty record, from 1 on, a header included.
    pub fn record(&self) -> u32 {
        self.0.record
    }

    /// See [`FaultKind`]; 0 if no field is named. Fields are counted from 1: id, min_x, max_x, min_y, max_y, layer.
    pub fn field(&self) -> u64 {
        self.0.field
    }
}

impl fmt::Display for Fault {
    fn fmt(&self, to: &mut fmt::Formatter) -> fmt::Result {
        let mut text = [0u8; 128];
        // SAFETY: the buffer is as long as is said.
        let len = unsafe { ffi::rtfilter_fault_message(&self.0, text.as_mut_ptr().cast(), text.len()) };
        match std::str::from_utf8(&text[..len.min(text.len() - 1)]) {
            Ok(text) if len > 0 => to.write_str(text),
            _ => write!(to, "table record {}: fault {}", self.0.record, self.0.kind),
        }
    }
}

impl fmt::Debug for Fault {
    fn fmt(&self, to: &mut fmt::Formatter) -> fmt::Result {
        let (kind, record, field) = (self.kind(), self.record(), self.field());
        to.debug_struct("Fault").field("kind", &kind).field("record", &record).field("field", &field).finish()
    }
}

/// Why a call failed.
#[derive(Debug)]
#[non_exhaustive]
pub enum Error {
    /// A setting is out of range.
    BadSetting,
    /// The table is faulty.
    BadTable(Fault),
    /// The file can't be opened or read.
    BadFile(io::Error),
    /// Out of memory; the sessions can still be used.
    NoMemory,
    /// A query is invalid: its index in the call, and why.
    BadQuery { index: usize, why: &'static str },
    /// The processor isn't an x86-64-v2.
    BadProcessor,
    /// A code of a later library.
    Other(i32),
}

impl fmt::Display for Error {
    fn fmt(&self, to: &mut fmt::Formatter) -> fmt::Result {
        match self {
            Error::BadSetting => to.write_str(message(ffi::BAD_SETTING)),
            Error::BadTable(fault) => write!(to, "{fault}"),
            Error::BadFile(cause) => write!(to, "{}: {cause}", message(ffi::BAD_FILE)),
            Error::NoMemory => to.write_str(message(ffi::NO_MEMORY)),
            Error::BadQuery { index, why } => write!(to, "{} {index}: {why}", message(ffi::BAD_QUERY)),
            Error::BadProcessor => to.write_str(message(ffi::BAD_PROCESSOR)),
            Error::Other(code) => write!(to, "{} (code {code})", message(*code)),
        }
    }
}

impl error::Error for Error {
    fn source(&self) -> Option<&(dyn error::Error + 'static)> {
        match self {
            Error::BadFile(cause) => Some(cause),
            _ => None,
        }
    }
}

fn message(code: c_int) -> &'static str {
    // SAFETY: the string is static.
    text_of(unsafe { CStr::from_ptr(ffi::rtfilter_message(code)) })
}

/// A static text of the library.
pub(crate) fn text_of(text: &'static CStr) -> &'static str {
    text.to_str().unwrap_or("unknown")
}
