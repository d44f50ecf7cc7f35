//! Writes captures of framedbg (version 2 or 3) from one's own renderer. One file, standard library alone; put it beside your sources and say
//! `mod framedbg_capture;`.
//!
//! ```ignore
//! let mut capture = Capture::new(std::fs::File::create("frame.json")?, 640, 480)?;
//! capture.clear([0, 0, 0, 255])?;
//! capture.draw(true, &[Vertex { x: 100.0, y: 100.0, depth: 0.5, color: [255, 0, 0, 255] }, ..], None)?;
//! capture.end()?;
//! ```
//!
//! Coordinates are pixels of the target, y down, the centre of the first pixel at 0.5, 0.5; depths are 0 to 1; colours are bytes. `Viewport::place`
//! turns clip space into these. A capture that is begun by `Capture::with_pictures` is of version 3: there `draw_picture` takes what the pixel shader
//! gave, pixel by pixel. docs/CAPTURES.md says what to log of which call.
#![allow(dead_code)]

use std::fmt;
use std::io::{self, BufWriter, Write};

const PIXEL: f64 = 65536.0;
const FARTHEST: f64 = 65535.0;
const MOST_SIDE: u32 = 16_384;
const MOST_VERTICES: usize = 196_608;
const MOST_EVENTS: u32 = 1_000_000;
const MOST_BYTES: u64 = 67_108_864;
const MOST_NAME: usize = 64;
const FACTORS: [&str; 8] = ["ZERO", "ONE", "SRC_ALPHA", "INV_SRC_ALPHA", "DEST_ALPHA", "INV_DEST_ALPHA", "BLEND_FACTOR", "INV_BLEND_FACTOR"];
const COLOUR_FACTORS: [&str; 4] = ["SRC_COLOR", "INV_SRC_COLOR", "DEST_COLOR", "INV_DEST_COLOR"];
const OPERATIONS: [&str; 5] = ["ADD", "SUBTRACT", "REV_SUBTRACT", "MIN", "MAX"];
const FUNCTIONS: [&str; 8] = ["NEVER", "LESS", "EQUAL", "LESS_EQUAL", "GREATER", "NOT_EQUAL", "GREATER_EQUAL", "ALWAYS"];

/// What a capture can't hold, or what the device said. Nothing more is written after one.
#[derive(Debug)]
pub enum Fault {
    Io(io::Error),
    Range(&'static str),
    Word(String),
    TooMany(&'static str),
}

impl From<io::Error> for Fault {
    fn from(error: io::Error) -> Self {
        Fault::Io(error)
    }
}

impl fmt::Display for Fault {
    fn fmt(&self, to: &mut fmt::Formatter<'_>) -> fmt::Result {
        match self {
            Fault::Io(error) => write!(to, "the capture can't be written: {error}"),
            Fault::Range(what) => write!(to, "{what} is out of range"),
            Fault::Word(word) => write!(to, "{word:?} is no word of a capture"),
            Fault::TooMany(what) => write!(to, "too many {what}"),
        }
    }
}

impl std::error::Error for Fault {}

#[derive(Clone, Copy, Debug, Default)]
pub struct Vertex {
    pub x: f64,
    pub y: f64,
    pub depth: f64,
    pub color: [u8; 4],
}

/// What a draw puts out over a box of the target, in pixels: red, green, blue, alpha of each, rows from the top. Where `holes`, a truth a pixel, is true
/// nothing is put out, as beyond the box.
#[derive(Clone, Copy, Debug, Default)]
pub struct Picture<'a> {
    pub left: u32,
    pub top: u32,
    pub width: u32,
    pub height: u32,
    pub rgba: &'a [u8],
    pub holes: Option<&'a [bool]>,
}

impl Picture<'_> {
    fn check(&self) -> Result<(), Fault> {
        if self.left >= MOST_SIDE || self.top >= MOST_SIDE || !(1..=MOST_SIDE).contains(&self.width) || !(1..=MOST_SIDE).contains(&self.height) {
            return Err(Fault::Range("the box of a picture"));
        }
        let texels = self.width as usize * self.height as usize;
        if self.rgba.len() != 4 * texels || self.holes.is_some_and(|holes| holes.len() != texels) {
            return Err(Fault::Range("the length of a picture"));
        }
        Ok(())
    }
}

#[derive(Clone, Copy, Debug)]
pub enum Cull {
    None,
    Front,
    Back,
}

/// Where clip space lands. OpenGL: both flags false. Direct3D: `half_depth`, for 0 <= z <= w. Vulkan: both.
#[derive(Clone, Copy, Debug, Default)]
pub struct Viewport {
    pub left: f64,
    pub top: f64,
    pub width: f64,
    pub height: f64,
    pub half_depth: bool,
    pub y_down: bool,
}

impl Viewport {
    /// A vertex of clip space on the target; `None` where w isn't above zero: cut such triangles first.
    pub fn place(&self, clip: [f64; 4], color: [u8; 4]) -> Option<Vertex> {
        let [x, y, z, w] = clip;
        if !(w > 0.0) {
            return None;
        }
        let y = if self.y_down { y / w } else { -y / w };
        let depth = if self.half_depth { z / w } else { z / w * 0.5 + 0.5 };
        Some(Vertex { x: self.left + (x / w * 0.5 + 0.5) * self.width, y: self.top + (y * 0.5 + 0.5) * self.height, depth, color })
    }
}

/// Counts what it hands on.
struct Counted<W: Write> {
    to: BufWriter<W>,
    bytes: u64,
}

impl<W: Write> Write for Counted<W> {
    fn write(&mut self, some: &[u8]) -> io::Result<usize> {
        let sent = self.to.write(some)?;
        self.bytes += sent as u64;
        Ok(sent)
    }

    fn flush(&mut self) -> io::Result<()> {
        self.to.flush()
    }
}

pub struct Capture<W: Write> {
    to: Counted<W>,
    version: u32,
    events: u32,
    source: Option<u64>,
}

impl<W: Write> Capture<W> {
    pub fn new(to: W, width: u32, height: u32) -> Result<Self, Fault> {
        Capture::of_version(2, to, width, height)
    }

    /// A capture whose draws may have pictures.
    pub fn with_pictures(to: W, width: u32, height: u32) -> Result<Self, Fault> {
        Capture::of_version(3, to, width, height)
    }

    fn of_version(version: u32, to: W, width: u32, height: u32) -> Result<Self, Fault> {
        if !(1..=MOST_SIDE).contains(&width) || !(1..=MOST_SIDE).contains(&height) {
            return Err(Fault::Range("the target"));
        }
        let mut to = Counted { to: BufWriter::new(to), bytes: 0 };
        write!(to, "{{\"format\":\"framedbg\",\"version\":{version},\"width\":{width},\"height\":{height},\"events\":[")?;
        Ok(Capture { to, version, events: 0, source: None })
    }

    /// Your own number of the next event, for finding it again: its member `source`, which framedbg passes over.
    pub fn source(&mut self, number: u64) {
        self.source = Some(number);
    }

    fn event(&mut self, kind: &str, members: fmt::Arguments<'_>) -> Result<(), Fault> {
        self.begin(kind)?;
        write!(self.to, "{members}}}")?;
        Ok(())
    }

    fn begin(&mut self, kind: &str) -> Result<(), Fault> {
        if self.events == MOST_EVENTS {
            return Err(Fault::TooMany("events"));
        }
        write!(self.to, "{}\n{{\"kind\":\"{kind}\"", if self.events > 0 { "," } else { "" })?;
        self.events += 1;
        if let Some(number) = self.source.take() {
            write!(self.to, ",\"source\":{{\"event\":{number}}}")?;
        }
        Ok(())
    }

    /// A label: control characters are left out, and it ends before the 65th byte.
    pub fn marker(&mut self, name: &str) -> Result<(), Fault> {
        let (mut kept, mut bytes) = (String::new(), 0);
        for c in name.chars().filter(|&c| c >= ' ' && c != '\x7f') {
            bytes += c.len_utf8();
            if bytes > MOST_NAME {
                break;
            }
            if c == '"' || c == '\\' {
                kept.push('\\');
            }
            kept.push(c);
        }
        self.event("marker", format_args!(",\"name\":\"{kept}\""))
    }

    pub fn clear(&mut self, [r, g, b, a]: [u8; 4]) -> Result<(), Fault> {
        self.event("clear", format_args!(",\"color\":[{r},{g},{b},{a}]"))
    }

    pub fn depth_clear(&mut self, depth: f64) -> Result<(), Fault> {
        self.event("depth_clear", format_args!(",\"depth\":{}", depth_word(depth)))
    }

    /// `front_ccw`: triangles that run counter-clockwise on the target, with y down, are the front.
    pub fn raster(&mut self, cull: Cull, front_ccw: bool, scissor: bool) -> Result<(), Fault> {
        let cull = match cull {
            Cull::None => "none",
            Cull::Front => "front",
            Cull::Back => "back",
        };
        self.event("raster", format_args!(",\"cull\":\"{cull}\",\"front_ccw\":{front_ccw},\"scissor\":{scissor}"))
    }

    pub fn scissor(&mut self, left: i32, top: i32, right: i32, bottom: i32) -> Result<(), Fault> {
        self.event("scissor", format_args!(",\"rect\":[{left},{top},{right},{bottom}]"))
    }

    /// Parts are source factor, destination factor, operation; the mask has red 1, green 2, blue 4, alpha 8. In the alpha part no factor ends in _COLOR.
    pub fn blend(&mut self, enable: bool, rgb: [&str; 3], alpha: [&str; 3], mask: u8) -> Result<(), Fault> {
        for (part, is_alpha) in [(rgb, false), (alpha, true)] {
            for factor in &part[..2] {
                if !FACTORS.contains(factor) && (is_alpha || !COLOUR_FACTORS.contains(factor)) {
                    return Err(Fault::Word(factor.to_string()));
                }
            }
            known(part[2], &OPERATIONS)?;
        }
        if mask > 15 {
            return Err(Fault::Range("the mask"));
        }
        self.event("blend", format_args!(",\"enable\":{enable},\"rgb\":{rgb:?},\"alpha\":{alpha:?},\"mask\":{mask}"))
    }

    pub fn factor(&mut self, [r, g, b, a]: [u8; 4]) -> Result<(), Fault> {
        self.event("factor", format_args!(",\"color\":[{r},{g},{b},{a}]"))
    }

    /// The comparison is LESS, LESS_EQUAL, ALWAYS and the like: the source stands first.
    pub fn depth(&mut self, enable: bool, write: bool, function: &str) -> Result<(), Fault> {
        known(function, &FUNCTIONS)?;
        self.event("depth", format_args!(",\"enable\":{enable},\"write\":{write},\"func\":\"{function}\""))
    }

    /// A list of triangles; `linear` mixes the corners' colours, else the first corner's is taken.
    pub fn draw(&mut self, linear: bool, vertices: &[Vertex], indices: Option<&[u32]>) -> Result<(), Fault> {
        check_draw(vertices, indices)?;
        self.begin("draw")?;
        write!(self.to, ",\"interp\":\"{}\",\"vertices\":[", if linear { "linear" } else { "flat" })?;
        for (i, v) in vertices.iter().enumerate() {
            let (x, y, z, color) = ((v.x * PIXEL).round() as i64, (v.y * PIXEL).round() as i64, depth_word(v.depth), v.color);
            write!(self.to, "{}{{\"x\":{x},\"y\":{y},\"z\":{z},\"color\":{color:?}}}", if i > 0 { "," } else { "" })?;
        }
        self.end_draw(indices)
    }

    /// A list of triangles whose colours are those of a picture; the vertices' own are passed over. Only in a capture `with_pictures`.
    pub fn draw_picture(&mut self, picture: &Picture<'_>, vertices: &[Vertex], indices: Option<&[u32]>) -> Result<(), Fault> {
        if self.version < 3 {
            return Err(Fault::Word("picture".to_string()));
        }
        picture.check()?;
        check_draw(vertices, indices)?;
        self.begin("draw")?;
        let Picture { left, top, width, height, rgba, holes } = *picture;
        write!(self.to, ",\"interp\":\"picture\",\"picture\":{{\"left\":{left},\"top\":{top},\"width\":{width},\"height\":{height},\"texels\":\"")?;
        write_base64(&mut self.to, rgba)?;
        if let Some(holes) = holes {
            write!(self.to, "\",\"holes\":\"")?;
            let bits: Vec<u8> = holes.chunks(8).map(|eight| (0u8..).zip(eight).fold(0, |byte, (bit, &hole)| byte | u8::from(hole) << bit)).collect();
            write_base64(&mut self.to, &bits)?;
        }
        write!(self.to, "\"}},\"vertices\":[")?;
        for (i, v) in vertices.iter().enumerate() {
            let (x, y, z) = ((v.x * PIXEL).round() as i64, (v.y * PIXEL).round() as i64, depth_word(v.depth));
            write!(self.to, "{}{{\"x\":{x},\"y\":{y},\"z\":{z}}}", if i > 0 { "," } else { "" })?;
        }
        self.end_draw(indices)
    }

    fn end_draw(&mut self, indices: Option<&[u32]>) -> Result<(), Fault> {
        write!(self.to, "]")?;
        if let Some(some) = indices {
            write!(self.to, ",\"indices\":{some:?}")?;
        }
        write!(self.to, "}}")?;
        Ok(())
    }

    /// Ends the capture; without it the file is no whole JSON.
    pub fn end(mut self) -> Result<(), Fault> {
        write!(self.to, "\n]}}\n")?;
        self.to.flush()?;
        if self.to.bytes > MOST_BYTES {
            return Err(Fault::TooMany("bytes"));
        }
        Ok(())
    }
}

fn check_draw(vertices: &[Vertex], indices: Option<&[u32]>) -> Result<(), Fault> {
    if vertices.len() > MOST_VERTICES || indices.is_some_and(|some| some.len() > MOST_VERTICES) {
        return Err(Fault::TooMany("vertices or indices of a draw"));
    }
    let side = f64::from(MOST_SIDE);
    if !vertices.iter().all(|v| v.x.abs() <= side && v.y.abs() <= side) {
        return Err(Fault::Range("a position"));
    }
    if indices.is_some_and(|some| some.iter().any(|&i| i as usize >= vertices.len())) {
        return Err(Fault::Range("an index"));
    }
    Ok(())
}

/// Bytes in base64: three of them are four characters, and the last ones are padded.
fn write_base64(to: &mut impl Write, bytes: &[u8]) -> io::Result<()> {
    const LETTERS: &[u8; 64] = b"ABCDEFGHIJKLMNOPQRSTUVWXYZabcdefghijklmnopqrstuvwxyz0123456789+/";
    for some in bytes.chunks(3) {
        let word = some.iter().fold(0, |word, &byte| word << 8 | u32::from(byte)) << (8 * (3 - some.len()));
        let four: [u8; 4] = std::array::from_fn(|i| if i > some.len() { b'=' } else { LETTERS[(word >> (18 - 6 * i) & 63) as usize] });
        to.write_all(&four)?;
    }
    Ok(())
}

fn known(word: &str, words: &[&str]) -> Result<(), Fault> {
    if words.contains(&word) { Ok(()) } else { Err(Fault::Word(word.to_string())) }
}

fn depth_word(depth: f64) -> u16 {
    (depth * FARTHEST).round() as u16 // a float that is no number, or out of range, is clamped
}
