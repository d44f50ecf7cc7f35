//! The frame of frame.c from Rust: rustc share/emitting/frame.rs && ./frame > frame.json
#[path = "../framedbg_capture.rs"]
mod framedbg_capture;

use framedbg_capture::{Capture, Cull, Fault, Picture, Vertex, Viewport};
use std::io::Write;

const VIEWPORT: Viewport = Viewport { left: 0.0, top: 0.0, width: 320.0, height: 240.0, half_depth: false, y_down: false };

fn quad<W: Write>(capture: &mut Capture<W>, turn: f64, depth: f64, [r, g, b, a]: [u8; 4]) -> Result<(), Fault> {
    let corners: Vec<_> = (0..4u16)
        .filter_map(|i| {
            let (angle, w) = (turn + f64::from(i) * std::f64::consts::FRAC_PI_2, 2.0);
            let red = (u16::from(r) * (i + 4) / 7) as u8;
            VIEWPORT.place([angle.cos() * 1.2, angle.sin() * 1.2, (depth * 2.0 - 1.0) * w, w], [red, g, b, a])
        })
        .collect();
    capture.draw(true, &corners, Some(&[0, 1, 2, 0, 2, 3]))
}

fn decal<W: Write>(capture: &mut Capture<W>) -> Result<(), Fault> {
    let places = || (0..5u8).flat_map(|y| (0..8u8).map(move |x| (x, y)));
    let rgba: Vec<u8> = places().flat_map(|(x, y)| [30 * x, 40 * y, 255 - 30 * x, 255]).collect();
    let holes: Vec<bool> = places().map(|(x, y)| (x + y) % 4 == 0).collect();
    let picture = Picture { left: 100, top: 60, width: 8, height: 5, rgba: &rgba, holes: Some(&holes) };
    let corners = [(90.0, 50.0), (90.0, 90.0), (130.0, 50.0)].map(|(x, y)| Vertex { x, y, depth: 0.2, ..Vertex::default() });
    capture.draw_picture(&picture, &corners, None)
}

fn main() -> Result<(), Fault> {
    let mut capture = Capture::with_pictures(std::io::stdout().lock(), 320, 240)?;
    capture.marker("the \"frame\" begins")?;
    capture.clear([20, 24, 40, 255])?;
    capture.depth_clear(1.0)?;
    capture.raster(Cull::Back, true, false)?;
    capture.depth(true, true, "LESS")?;
    capture.source(1);
    quad(&mut capture, 0.3, 0.5, [255, 80, 40, 255])?;
    capture.source(2);
    quad(&mut capture, 0.9, 0.4, [60, 200, 90, 255])?;
    capture.blend(true, ["SRC_ALPHA", "INV_SRC_ALPHA", "ADD"], ["ONE", "ZERO", "ADD"], 15)?;
    capture.scissor(60, 40, 260, 130)?;
    capture.raster(Cull::Back, true, true)?;
    capture.source(3);
    quad(&mut capture, 0.6, 0.3, [90, 120, 255, 128])?;
    capture.source(4);
    decal(&mut capture)?;
    capture.end()
}
