//! Shows one window on a port, and writes what the port shows as a PPM picture.

use std::error::Error;
use std::io::{self, Write};
use weklandu::{Element, Format, Frame, Machine, Mode, Order};

const CLIENT: u8 = 0;
const W: usize = 64;
const H: usize = 48;

fn main() -> Result<(), Box<dyn Error>> {
    let mode = Mode { port: 1, w: W as u32, h: H as u32 };
    let mut machine = Machine::open(1, &[mode], 0)?;
    let mut frame = Frame::open()?;
    let stream = machine.stream_new(CLIENT, 16, 16, Format::Rgbx8, 2)?;
    machine.submit(CLIENT, stream, &[200; 16 * 16 * 4], 16 * 4)?;
    let device = machine.device_new(CLIENT)?;
    let screen = machine.screen_context(CLIENT, device, 1)?;
    let element = machine.element_new(CLIENT, device, screen)?;
    let source = machine.source_new(CLIENT, device, screen, stream)?;
    machine.element_set(CLIENT, device, element, Element::Source, [source.into(), 0, 0, 0])?;
    machine.element_set(CLIENT, device, element, Element::SrcRect, [0, 0, 16, 16])?;
    machine.element_set(CLIENT, device, element, Element::Dest, [8, 8, 32, 32])?;
    machine.element_insert(CLIENT, device, element, 0)?;
    machine.commit(CLIENT, device, screen)?;
    machine.activate(CLIENT, device, screen)?;
    let mut context = 0;
    loop {
        context = machine.begin_next(&mut frame, CLIENT, context)?;
        if context == 0 {
            break;
        }
        machine.end(&mut frame, CLIENT)?;
    }
    machine.begin_port(&mut frame, CLIENT, 1)?;
    let mut out = [0; W * H * 4];
    frame.read(&mut out, W * 4, Order::Rgba)?;
    machine.end(&mut frame, CLIENT)?;
    let mut sink = io::stdout().lock();
    write!(sink, "P6\n{W} {H}\n255\n")?;
    for pixel in out.chunks(4) {
        sink.write_all(&pixel[..3])?;
    }
    Ok(())
}
