//! The functions of weklandu.h, which says what a caller owes.
#![no_std]

use core::ffi::c_void;

/// A handle of a machine or of a place for frames. All zero it is closed.
#[repr(C)]
pub struct Handle {
    pub at: *mut c_void,
    pub live: u32,
}

/// What a call answers.
#[repr(C)]
#[derive(Clone, Copy, Debug, PartialEq, Eq)]
pub struct Told {
    pub code: u8,
    pub value: u32,
}

/// A mode of a port.
#[repr(C)]
#[derive(Clone, Copy, Debug, PartialEq, Eq)]
pub struct Mode {
    pub port: u32,
    pub w: u32,
    pub h: u32,
}

/// The sides of a picture.
#[repr(C)]
#[derive(Clone, Copy, Debug, PartialEq, Eq)]
pub struct Extent {
    pub w: u32,
    pub h: u32,
}

extern "C" {
    pub fn wk_open(machine: *mut Handle, ports: u32, modes: *const Mode, count: usize, pipes: u32) -> u8;
    pub fn wk_frame_open(frame: *mut Handle) -> u8;
    pub fn wk_close(handle: *mut Handle);
    pub fn wk_call(machine: *mut Handle, client: u8, number: u8, bits: *const u64, count: usize) -> Told;
    pub fn wk_post(machine: *mut Handle, client: u8, stream: u32) -> Told;
    pub fn wk_discard(machine: *mut Handle, client: u8, stream: u32) -> Told;
    pub fn wk_holds(machine: *mut Handle, stream: u32) -> u8;
    pub fn wk_write(machine: *mut Handle, stream: u32, pixels: *const u8, bytes: usize, stride: usize) -> u8;
    pub fn wk_submit(machine: *mut Handle, client: u8, stream: u32, pixels: *const u8, bytes: usize, stride: usize) -> Told;
    pub fn wk_begin_next(machine: *mut Handle, frame: *mut Handle, client: u8, after: u32) -> Told;
    pub fn wk_begin_port(machine: *mut Handle, frame: *mut Handle, client: u8, port: i64) -> Told;
    pub fn wk_begin_context(machine: *mut Handle, frame: *mut Handle, client: u8, device: u32, context: u32) -> Told;
    pub fn wk_paint(frame: *mut Handle);
    pub fn wk_frame_extent(frame: *mut Handle) -> Extent;
    pub fn wk_read_frame(frame: *mut Handle, out: *mut u8, bytes: usize, stride: usize, order: u32) -> u8;
    pub fn wk_end(machine: *mut Handle, frame: *mut Handle, client: u8) -> Told;
}
