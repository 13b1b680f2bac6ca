//! The functions and structs of rtfilter.h.
use crate::{Point, Query};
use std::os::raw::{c_char, c_int, c_void};

pub const OK: c_int = 0;
pub const FAULTY_LINE: c_int = 1;
pub const BAD_SETTING: c_int = 2;
pub const BAD_TABLE: c_int = 3;
pub const BAD_FILE: c_int = 4;
pub const FULL: c_int = 5;
pub const NO_MEMORY: c_int = 6;
pub const BAD_QUERY: c_int = 7;
pub const BAD_PROCESSOR: c_int = 9;

#[repr(C)]
#[derive(Debug)]
pub struct Session {
    pub at: *mut c_void,
}

#[repr(C)]
pub struct Settings {
    pub header: bool,
    pub fanout: u8,
    pub max_entries: u32,
    pub reserved: [u32; 6],
}

#[repr(C)]
#[derive(Clone, Copy, Debug, Default, PartialEq, Eq)]
pub struct Fault {
    pub kind: u32,
    pub record: u32,
    pub field: u64,
}

#[repr(C)]
#[derive(Default)]
pub struct Info {
    pub boxes: u32,
    pub levels: u32,
    pub level_sizes: [u32; 25],
    pub min_x: i32,
    pub max_x: i32,
    pub min_y: i32,
    pub max_y: i32,
    pub reserved: [u32; 9],
}

#[repr(C)]
pub struct Queries {
    pub queries: *const Query,
    pub len: usize,
    pub vertices: *const Point,
    pub vertex_len: usize,
}

/// A score is written as its low and its high half, which is how a `u128` lies in memory.
#[repr(C)]
pub struct Answers {
    pub ids: *mut i64,
    pub scores: *mut u128,
    pub capacity: usize,
    pub ends: *mut usize,
    pub done: usize,
    pub found: usize,
}

pub type Measure = unsafe extern "C" fn(*mut Session, *const Queries, *mut u64, *mut usize) -> c_int;

extern "C" {
    pub fn rtfilter_message(code: c_int) -> *const c_char;
    pub fn rtfilter_open_bytes(
        out: *mut Session, table: *const c_void, len: usize, settings: *const Settings, fault: *mut Fault,
    ) -> c_int;
    pub fn rtfilter_open_file(out: *mut Session, name: *const c_char, settings: *const Settings, fault: *mut Fault) -> c_int;
    pub fn rtfilter_open_arrays(
        out: *mut Session, n: usize, ids: *const i64, min_x: *const i32, max_x: *const i32, min_y: *const i32, max_y: *const i32,
        layers: *const u8, settings: *const Settings, fault: *mut Fault,
    ) -> c_int;
    pub fn rtfilter_fault_message(fault: *const Fault, buffer: *mut c_char, size: usize) -> usize;
    pub fn rtfilter_share(of: *mut Session, out: *mut Session) -> c_int;
    pub fn rtfilter_close(session: *mut Session);
    pub fn rtfilter_info_of(session: *mut Session, info: *mut Info) -> c_int;
    pub fn rtfilter_ask(
        session: *mut Session, lines: *const c_char, len: usize, buffer: *mut c_char, size: usize, reply_len: *mut usize,
    ) -> c_int;
    pub fn rtfilter_reply(session: *mut Session, from: usize, buffer: *mut c_char, size: usize, copied: *mut usize) -> c_int;
    pub fn rtfilter_forget(session: *mut Session) -> c_int;
    pub fn rtfilter_query_message(queries: *const Queries, index: usize) -> *const c_char;
    #[allow(improper_ctypes)] // old Rust warns of u128, of whose place in memory `Answers` speaks
    pub fn rtfilter_find(session: *mut Session, queries: *const Queries, skip: usize, answers: *mut Answers) -> c_int;
    pub fn rtfilter_count(session: *mut Session, queries: *const Queries, counts: *mut u64, done: *mut usize) -> c_int;
    pub fn rtfilter_cost_of_find(session: *mut Session, queries: *const Queries, opened: *mut u64, done: *mut usize) -> c_int;
    pub fn rtfilter_cost_of_count(session: *mut Session, queries: *const Queries, opened: *mut u64, done: *mut usize) -> c_int;
}
