//! The declarations of `include/a2l.h`. Nothing compares the two.

use std::os::raw::{c_char, c_void};

pub const DONE: u32 = 0;
pub const REFUSED: u32 = 2;
pub const SHORT: u32 = 7;

pub const FRAMES: u32 = 1;
pub const FAULT: u32 = 2;

#[repr(C)]
pub struct Handle {
    pub open: bool,
    pub session: *mut c_void,
}

#[repr(C)]
pub struct Refusal {
    pub name: *const c_char,
    pub name_length: usize,
    pub section: *const c_char,
    pub section_length: usize,
    pub offset: u64,
    pub number: u32,
}

#[repr(C)]
#[derive(Default)]
pub struct Answer {
    pub kind: u32,
    pub fault: u32,
    pub unit: u64,
    pub count: usize,
}

#[repr(C)]
#[derive(Default)]
pub struct Location {
    pub path_length: usize,
    pub line: u64,
    pub column: u64,
    pub path_known: bool,
    pub line_known: bool,
    pub column_known: bool,
}

#[repr(C)]
pub struct Frame {
    pub name: *const c_char,
    pub name_length: usize,
    pub location: Location,
    pub name_known: bool,
}

#[repr(C)]
#[derive(Default)]
pub struct Piece {
    pub begin: u64,
    pub end: u64,
    pub location: Location,
}

unsafe extern "C" {
    pub fn a2l_open(
        bytes: *const u8,
        length: usize,
        capacity: usize,
        handle: *mut Handle,
        refusal: *mut Refusal,
    ) -> u32;
    pub fn a2l_beside(handle: *mut Handle, capacity: usize, other: *mut Handle) -> u32;
    pub fn a2l_find_frames(handle: *mut Handle, addresses: *const u64, count: usize) -> u32;
    pub fn a2l_find_locations(handle: *mut Handle, addresses: *const u64, count: usize) -> u32;
    pub fn a2l_find_pieces(handle: *mut Handle, low: u64, high: u64) -> u32;
    pub fn a2l_answer_at(handle: *mut Handle, i: usize, answer: *mut Answer) -> u32;
    pub fn a2l_frame_at(
        handle: *mut Handle,
        i: usize,
        j: usize,
        path: *mut c_char,
        size: usize,
        frame: *mut Frame,
    ) -> u32;
    pub fn a2l_piece_at(handle: *mut Handle, j: usize, path: *mut c_char, size: usize, piece: *mut Piece) -> u32;
    pub fn a2l_close(handle: *mut Handle) -> u32;
    pub fn a2l_version() -> u32;
}
