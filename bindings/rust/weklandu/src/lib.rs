//! The machine of libweklandu: streams of images, scenes of elements, frames whose pictures are proved.
//!
//! A call takes `&mut Machine`, so the borrow checker sees that one is made at a time. A machine and a frame can be moved to another thread.

mod messages;

pub use messages::{Context, Element, Format, Pipe, Port, Stat, Transition};
pub use weklandu_sys::Mode;

use std::fmt;
use weklandu_sys::{self as sys, Handle, Told};

const OK: u8 = 0;
const OUT_OF_MEMORY: u8 = 1;
/// The code where no call was made.
pub const NOT_MADE: u8 = 255;
const CLOSED: Handle = Handle { at: std::ptr::null_mut(), live: 0 };

/// Parts of the transparency of an element, which are added.
pub const ALPHA: i64 = 1;
pub const SOURCE: i64 = 2;
pub const MASK: i64 = 4;

/// A call was refused: its code, and its value.
#[derive(Clone, Copy, Debug, PartialEq, Eq)]
pub struct Refused {
    pub code: u8,
    pub value: u32,
}

impl fmt::Display for Refused {
    fn fmt(&self, f: &mut fmt::Formatter<'_>) -> fmt::Result {
        if self.code == OUT_OF_MEMORY {
            return f.write_str("no memory");
        }
        write!(f, "code {}, value {}", self.code, self.value)
    }
}

impl std::error::Error for Refused {}

/// The order of the bytes of a pixel that is read.
#[derive(Clone, Copy, Debug, PartialEq, Eq)]
#[repr(u32)]
pub enum Order {
    Rgba = 0,
    Bgra = 1,
}

fn answer(told: Told) -> Result<u32, Refused> {
    done(told.code, told.value)
}

fn done(code: u8, value: u32) -> Result<u32, Refused> {
    if code == OK {
        Ok(value)
    } else {
        Err(Refused { code, value })
    }
}

/// A machine with the write buffers that are held.
pub struct Machine(Handle);

/// A place for one frame after another.
pub struct Frame(Handle);

// What is behind a handle is memory of its own, and is used by nobody else.
unsafe impl Send for Machine {}
unsafe impl Send for Frame {}

impl Drop for Machine {
    fn drop(&mut self) {
        unsafe { sys::wk_close(&mut self.0) }
    }
}

impl Drop for Frame {
    fn drop(&mut self) {
        unsafe { sys::wk_close(&mut self.0) }
    }
}

impl Machine {
    /// Opens a machine with `ports` ports, by their modes, and `pipes` pipelines.
    pub fn open(ports: u32, modes: &[Mode], pipes: u32) -> Result<Machine, Refused> {
        let mut own = CLOSED;
        let code = unsafe { sys::wk_open(&mut own, ports, modes.as_ptr(), modes.len(), pipes) };
        done(code, 0).map(|_| Machine(own))
    }

    /// Makes the call of a message by its number, with its arguments as 64 bits each.
    pub fn call(&mut self, client: u8, number: u8, bits: &[u64]) -> Result<u32, Refused> {
        answer(unsafe { sys::wk_call(&mut self.0, client, number, bits.as_ptr(), bits.len()) })
    }

    /// Posts the write buffer that is held of a stream.
    pub fn post(&mut self, client: u8, stream: u32) -> Result<u32, Refused> {
        answer(unsafe { sys::wk_post(&mut self.0, client, stream) })
    }

    /// Gives it back unseen.
    pub fn discard(&mut self, client: u8, stream: u32) -> Result<u32, Refused> {
        answer(unsafe { sys::wk_discard(&mut self.0, client, stream) })
    }

    /// Tells whether a write buffer of a stream is held.
    pub fn holds(&mut self, stream: u32) -> bool {
        unsafe { sys::wk_holds(&mut self.0, stream) == 1 }
    }

    /// Writes pixels into the write buffer that is held of a stream.
    pub fn write(&mut self, stream: u32, pixels: &[u8], stride: usize) -> Result<(), Refused> {
        let code = unsafe { sys::wk_write(&mut self.0, stream, pixels.as_ptr(), pixels.len(), stride) };
        done(code, 0).map(|_| ())
    }

    /// Takes the write buffer of a stream, writes pixels into it, and posts it.
    pub fn submit(&mut self, client: u8, stream: u32, pixels: &[u8], stride: usize) -> Result<u32, Refused> {
        answer(unsafe { sys::wk_submit(&mut self.0, client, stream, pixels.as_ptr(), pixels.len(), stride) })
    }

    /// Begins a frame of the active context with the least handle above `after`, which is the value, or 0 where none begins.
    pub fn begin_next(&mut self, frame: &mut Frame, client: u8, after: u32) -> Result<u32, Refused> {
        answer(unsafe { sys::wk_begin_next(&mut self.0, &mut frame.0, client, after) })
    }

    /// Begins a frame of a port.
    pub fn begin_port(&mut self, frame: &mut Frame, client: u8, port: i64) -> Result<u32, Refused> {
        answer(unsafe { sys::wk_begin_port(&mut self.0, &mut frame.0, client, port) })
    }

    /// Begins a frame of a context that is not active.
    pub fn begin_context(&mut self, frame: &mut Frame, client: u8, device: u32, context: u32) -> Result<u32, Refused> {
        answer(unsafe { sys::wk_begin_context(&mut self.0, &mut frame.0, client, device, context) })
    }

    /// Ends a frame. One of another machine is refused, and stays.
    pub fn end(&mut self, frame: &mut Frame, client: u8) -> Result<u32, Refused> {
        answer(unsafe { sys::wk_end(&mut self.0, &mut frame.0, client) })
    }
}

impl Frame {
    /// Opens a place for frames.
    pub fn open() -> Result<Frame, Refused> {
        let mut own = CLOSED;
        let code = unsafe { sys::wk_frame_open(&mut own) };
        done(code, 0).map(|_| Frame(own))
    }

    /// Paints the picture. Without it, whatever needs the picture first paints it.
    pub fn paint(&mut self) {
        unsafe { sys::wk_paint(&mut self.0) }
    }

    /// Returns the width and the height of the picture, both 0 where no frame stands here.
    pub fn size(&mut self) -> (u32, u32) {
        let extent = unsafe { sys::wk_frame_extent(&mut self.0) };
        (extent.w, extent.h)
    }

    /// Copies the rows of the picture into `out`, `stride` bytes apart.
    pub fn read(&mut self, out: &mut [u8], stride: usize, order: Order) -> Result<(), Refused> {
        let code = unsafe { sys::wk_read_frame(&mut self.0, out.as_mut_ptr(), out.len(), stride, order as u32) };
        done(code, 0).map(|_| ())
    }
}
