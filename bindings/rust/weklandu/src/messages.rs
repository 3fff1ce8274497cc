//! The calls of a machine by their names. tools/calls writes this file.

use crate::{Machine, Refused};

/// What it may be, by its number.
#[derive(Clone, Copy, Debug, PartialEq, Eq)]
#[repr(u8)]
pub enum Format {
    Rgba8 = 0,
    Rgba8Pre = 1,
    Rgbx8 = 2,
    A8 = 3,
}

/// What it may be, by its number.
#[derive(Clone, Copy, Debug, PartialEq, Eq)]
#[repr(u8)]
pub enum Stat {
    Streams = 0,
    Bytes = 1,
}

/// What it may be, by its number.
#[derive(Clone, Copy, Debug, PartialEq, Eq)]
#[repr(u8)]
pub enum Transition {
    Now = 0,
    Vsync = 1,
}

/// The attributes of an element, by their numbers.
#[derive(Clone, Copy, Debug, PartialEq, Eq)]
#[repr(u8)]
pub enum Element {
    Dest = 0,
    Source = 1,
    SrcRect = 2,
    Flip = 3,
    Rotation = 4,
    Filter = 5,
    Transparency = 6,
    Alpha = 7,
    Mask = 8,
}

/// The attributes of a context, by their numbers.
#[derive(Clone, Copy, Debug, PartialEq, Eq)]
#[repr(u8)]
pub enum Context {
    Rotation = 0,
    Background = 1,
    Width = 2,
    Height = 3,
    Lowest = 4,
}

/// The attributes of a port, by their numbers.
#[derive(Clone, Copy, Debug, PartialEq, Eq)]
#[repr(u8)]
pub enum Port {
    Mode = 0,
    Background = 1,
    Power = 2,
    Width = 3,
    Height = 4,
    Attached = 5,
}

/// The attributes of a pipe, by their numbers.
#[derive(Clone, Copy, Debug, PartialEq, Eq)]
#[repr(u8)]
pub enum Pipe {
    Dest = 0,
    SrcRect = 1,
    Flip = 2,
    Rotation = 3,
    Filter = 4,
    Alpha = 5,
    Transparency = 6,
    Port = 7,
    Pending = 8,
    Showing = 9,
}

impl Machine {
    /// Makes a stream of 2 to 4 buffers, each an image of this size and format with sides from 1 to `MOST_SIDE`.
    pub fn stream_new(&mut self, client: u8, width: i64, height: i64, format: Format, buffers: i64) -> Result<u32, Refused> {
        self.call(client, 1, &[width as u64, height as u64, format as u64, buffers as u64])
    }

    /// Makes a queue stream, in which up to `depth` posted images wait, from 1 to 8, and of which each frame shows the next.
    pub fn stream_queue(&mut self, client: u8, width: i64, height: i64, format: Format, depth: i64) -> Result<u32, Refused> {
        self.call(client, 2, &[width as u64, height as u64, format as u64, depth as u64])
    }

    /// Destroys a stream. What names it otherwise keeps it.
    pub fn stream_destroy(&mut self, client: u8, stream: u32) -> Result<u32, Refused> {
        self.call(client, 3, &[stream as u64])
    }

    /// Takes a stream's write buffer.
    pub fn acquire(&mut self, client: u8, stream: u32) -> Result<u32, Refused> {
        self.call(client, 4, &[stream as u64])
    }

    /// Counts what is kept.
    pub fn stat(&mut self, client: u8, what: Stat) -> Result<u32, Refused> {
        self.call(client, 7, &[what as u64])
    }

    /// Makes a device.
    pub fn device_new(&mut self, client: u8) -> Result<u32, Refused> {
        self.call(client, 8, &[])
    }

    /// Destroys a device, its contexts and all that is theirs.
    pub fn device_destroy(&mut self, client: u8, device: u32) -> Result<u32, Refused> {
        self.call(client, 9, &[device as u64])
    }

    /// Reads and clears a device's error register.
    pub fn get_error(&mut self, client: u8, device: u32) -> Result<u32, Refused> {
        self.call(client, 10, &[device as u64])
    }

    /// Makes a context of a port's screen; ports count from 1.
    pub fn screen_context(&mut self, client: u8, device: u32, port: i64) -> Result<u32, Refused> {
        self.call(client, 11, &[device as u64, port as u64])
    }

    /// Makes an off-screen context, which draws into a stream.
    pub fn stream_context(&mut self, client: u8, device: u32, stream: u32) -> Result<u32, Refused> {
        self.call(client, 12, &[device as u64, stream as u64])
    }

    /// Destroys a context with its elements, sources and masks.
    pub fn context_destroy(&mut self, client: u8, device: u32, context: u32) -> Result<u32, Refused> {
        self.call(client, 13, &[device as u64, context as u64])
    }

    /// Makes an element.
    pub fn element_new(&mut self, client: u8, device: u32, context: u32) -> Result<u32, Refused> {
        self.call(client, 14, &[device as u64, context as u64])
    }

    /// Destroys an element, which leaves the cached scene too.
    pub fn element_destroy(&mut self, client: u8, device: u32, element: u32) -> Result<u32, Refused> {
        self.call(client, 15, &[device as u64, element as u64])
    }

    /// Makes a source, which shows a stream of pixels.
    pub fn source_new(&mut self, client: u8, device: u32, context: u32, stream: u32) -> Result<u32, Refused> {
        self.call(client, 16, &[device as u64, context as u64, stream as u64])
    }

    /// Destroys a source.
    pub fn source_destroy(&mut self, client: u8, device: u32, source: u32) -> Result<u32, Refused> {
        self.call(client, 17, &[device as u64, source as u64])
    }

    /// Makes a mask, which shows a stream of alphas.
    pub fn mask_new(&mut self, client: u8, device: u32, context: u32, stream: u32) -> Result<u32, Refused> {
        self.call(client, 18, &[device as u64, context as u64, stream as u64])
    }

    /// Destroys a mask.
    pub fn mask_destroy(&mut self, client: u8, device: u32, mask: u32) -> Result<u32, Refused> {
        self.call(client, 19, &[device as u64, mask as u64])
    }

    /// Sets an attribute of an element. Numbers that the attribute does not have are not read.
    pub fn element_set(&mut self, client: u8, device: u32, element: u32, attr: Element, value: [i64; 4]) -> Result<u32, Refused> {
        self.call(client, 20, &[device as u64, element as u64, attr as u64, value[0] as u64, value[1] as u64, value[2] as u64, value[3] as u64])
    }

    /// Reads one number of an attribute of an element, by its index from 0.
    pub fn element_get(&mut self, client: u8, device: u32, element: u32, attr: Element, index: i64) -> Result<u32, Refused> {
        self.call(client, 21, &[device as u64, element as u64, attr as u64, index as u64])
    }

    /// Inserts an element directly above another one, or at the bottom by 0; one that is inserted already is moved.
    pub fn element_insert(&mut self, client: u8, device: u32, element: u32, below: u32) -> Result<u32, Refused> {
        self.call(client, 22, &[device as u64, element as u64, below as u64])
    }

    /// Takes an element out of the cached scene.
    pub fn element_remove(&mut self, client: u8, device: u32, element: u32) -> Result<u32, Refused> {
        self.call(client, 23, &[device as u64, element as u64])
    }

    /// Asks for the element directly above one.
    pub fn element_above(&mut self, client: u8, device: u32, element: u32) -> Result<u32, Refused> {
        self.call(client, 24, &[device as u64, element as u64])
    }

    /// Asks for the element directly below one.
    pub fn element_below(&mut self, client: u8, device: u32, element: u32) -> Result<u32, Refused> {
        self.call(client, 25, &[device as u64, element as u64])
    }

    /// Sets an attribute of a context. Numbers that the attribute does not have are not read.
    pub fn context_set(&mut self, client: u8, device: u32, context: u32, attr: Context, value: [i64; 4]) -> Result<u32, Refused> {
        self.call(client, 26, &[device as u64, context as u64, attr as u64, value[0] as u64, value[1] as u64, value[2] as u64, value[3] as u64])
    }

    /// Reads one number of an attribute of a context, by its index from 0.
    pub fn context_get(&mut self, client: u8, device: u32, context: u32, attr: Context, index: i64) -> Result<u32, Refused> {
        self.call(client, 27, &[device as u64, context as u64, attr as u64, index as u64])
    }

    /// Makes the cached scene of a context its committed one, as a whole or not at all.
    pub fn commit(&mut self, client: u8, device: u32, context: u32) -> Result<u32, Refused> {
        self.call(client, 28, &[device as u64, context as u64])
    }

    /// Makes a context active: each tick begins a frame of it.
    pub fn activate(&mut self, client: u8, device: u32, context: u32) -> Result<u32, Refused> {
        self.call(client, 29, &[device as u64, context as u64])
    }

    /// Makes a context inactive.
    pub fn deactivate(&mut self, client: u8, device: u32, context: u32) -> Result<u32, Refused> {
        self.call(client, 30, &[device as u64, context as u64])
    }

    /// Sets an attribute of a port, counted from 1. Numbers that the attribute does not have are not read.
    pub fn port_set(&mut self, client: u8, port: i64, attr: Port, value: [i64; 4]) -> Result<u32, Refused> {
        self.call(client, 32, &[port as u64, attr as u64, value[0] as u64, value[1] as u64, value[2] as u64, value[3] as u64])
    }

    /// Reads one number of an attribute of a port, by its index from 0.
    pub fn port_get(&mut self, client: u8, port: i64, attr: Port, index: i64) -> Result<u32, Refused> {
        self.call(client, 33, &[port as u64, attr as u64, index as u64])
    }

    /// Attaches a display to a port by 1, or detaches it by 0, at once.
    pub fn attach(&mut self, client: u8, port: i64, on: i64) -> Result<u32, Refused> {
        self.call(client, 34, &[port as u64, on as u64])
    }

    /// Sets an attribute of a pipeline, counted from 1. Numbers that the attribute does not have are not read.
    pub fn pipe_set(&mut self, client: u8, pipe: i64, attr: Pipe, value: [i64; 4]) -> Result<u32, Refused> {
        self.call(client, 35, &[pipe as u64, attr as u64, value[0] as u64, value[1] as u64, value[2] as u64, value[3] as u64])
    }

    /// Reads one number of an attribute of a pipeline, by its index from 0.
    pub fn pipe_get(&mut self, client: u8, pipe: i64, attr: Pipe, index: i64) -> Result<u32, Refused> {
        self.call(client, 36, &[pipe as u64, attr as u64, index as u64])
    }

    /// Asks for a pipeline to be shown by a port, or by none by 0.
    pub fn pipe_bind_port(&mut self, client: u8, pipe: i64, port: i64) -> Result<u32, Refused> {
        self.call(client, 37, &[pipe as u64, port as u64])
    }

    /// Makes a source of a pipeline, which shows a stream of pixels.
    pub fn display_source(&mut self, client: u8, pipe: i64, stream: u32) -> Result<u32, Refused> {
        self.call(client, 38, &[pipe as u64, stream as u64])
    }

    /// Destroys a source of a pipeline.
    pub fn display_source_destroy(&mut self, client: u8, source: u32) -> Result<u32, Refused> {
        self.call(client, 39, &[source as u64])
    }

    /// Asks for a pipeline to show a source of its own, or none by 0. It replaces an earlier request.
    pub fn pipe_bind_source(&mut self, client: u8, pipe: i64, source: u32, transition: Transition) -> Result<u32, Refused> {
        self.call(client, 40, &[pipe as u64, source as u64, transition as u64])
    }

    /// Makes what is cached of every port and pipeline committed, as a whole or not at all.
    pub fn commit_device(&mut self, client: u8) -> Result<u32, Refused> {
        self.call(client, 41, &[])
    }

    /// Makes what is cached of a port and of its pipelines committed, as a whole or not at all.
    pub fn commit_port(&mut self, client: u8, port: i64) -> Result<u32, Refused> {
        self.call(client, 42, &[port as u64])
    }

    /// Makes what is cached of a pipeline committed, as a whole or not at all.
    pub fn commit_pipe(&mut self, client: u8, pipe: i64) -> Result<u32, Refused> {
        self.call(client, 43, &[pipe as u64])
    }

    /// Reads and clears the display's error register.
    pub fn display_error(&mut self, client: u8) -> Result<u32, Refused> {
        self.call(client, 44, &[])
    }
}
