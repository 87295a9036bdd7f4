//! A list's answers, by femtovg; those about PGM files by the second reader and writer, and ink by a scan of
//! the Rust's masks. Of a bad line it says what is wrong, as the program `calls` does.
use crate::{netpbm, scan::scan};
use femtovg::calls::{self, Both, Box10, Drawing, Fill, Fitted, Inside};
use std::str::SplitWhitespace;

pub struct State {
    /// the running mask's buffer and the next one's
    buffers: [Vec<u8>; 2],
    /// the ink of both
    ink: [Vec<u16>; 2],
    drawing: Drawing,
}

/// At first a buffer has no bytes, and ink enough for every mask.
impl Default for State {
    fn default() -> Self {
        Self {
            buffers: [vec![], vec![]],
            ink: [vec![7; FIRST_INK], vec![7; FIRST_INK]],
            drawing: Drawing::default(),
        }
    }
}

/// What is wrong with a line.
pub type Bad = &'static str;

const UNKNOWN_CALL: Bad = "no call has this name";
const UNKNOWN_BUFFER: Bad = "the buffers are 'run' and 'next'";
const MISSING: Bad = "the line ends where a field should stand";
const TOO_MANY: Bad = "the call takes no more fields";
const NOT_A_NUMBER: Bad = "a decimal number is missing, badly written or too large";
const NOT_A_FLOAT: Bad = "a float is not written as eight hexadecimal digits";
const NOT_HEX: Bad = "the bytes are not written as pairs of hexadecimal digits";
const NOT_A_BYTE: Bad = "a verb or a byte is not a decimal number up to 255";
const NOT_SIXTEEN_BITS: Bad = "an ink buffer's number is not a decimal number up to 65,535";
const BUFFER_TOO_LONG: Bad = "a buffer has at most 65,536 bytes";
const INK_TOO_LONG: Bad = "an ink buffer has at most 8,200 numbers";
const TOO_MANY_FLOATS: Bad = "a line takes at most 2,581 floats";
const TOO_MANY_VERBS: Bad = "an outline's line takes at most 512 verbs";
const TOO_MANY_BOXES: Bad = "a list's line takes at most 257 boxes";
const TOO_MANY_COPIES: Bad = "a list of copies has at most 4,097 boxes";

/// The largest number that the program reads.
pub const LARGEST: usize = 2_684_354_559;
/// The most floats that it reads from a line.
const MOST_FLOATS: usize = 2581;
/// The most bytes of a buffer or a file.
const MOST_BYTES: usize = 65_536;
/// How many numbers an ink buffer has at first, and at most.
pub const FIRST_INK: usize = 8192;
const MOST_INK: usize = 8200;

type Fields<'a> = SplitWhitespace<'a>;

fn number(f: &mut Fields) -> Result<usize, Bad> {
    let field = f.next().filter(|field| !field.starts_with('+'));
    let number = field.and_then(|field| field.parse().ok());
    number.filter(|n| *n <= LARGEST).ok_or(NOT_A_NUMBER)
}

fn word(field: &str) -> Result<i32, Bad> {
    let word = Some(field).filter(|field| !field.starts_with('+'));
    let word = word.and_then(|field| field.parse().ok());
    word.ok_or(NOT_A_NUMBER)
}

/// Two words: an offset or a corner.
fn pair(f: &mut Fields) -> Result<[i32; 2], Bad> {
    let mut next = || word(f.next().unwrap_or_default());
    Ok([next()?, next()?])
}

fn float(f: &mut Fields) -> Result<f32, Bad> {
    let field = f.next().ok_or(MISSING)?;
    let bits = u32::from_str_radix(field, 16).map_err(|_| NOT_A_FLOAT)?;
    if field.len() != 8 {
        return Err(NOT_A_FLOAT);
    }
    Ok(f32::from_bits(bits))
}

fn floats<const N: usize>(f: &mut Fields) -> Result<[f32; N], Bad> {
    let mut floats = [0.0; N];
    for place in &mut floats {
        *place = float(f)?;
    }
    Ok(floats)
}

fn ended(f: &mut Fields) -> Result<(), Bad> {
    f.next().map_or(Ok(()), |_| Err(TOO_MANY))
}

fn hex(x: f32) -> String {
    format!(
        " {:08x}",
        if x.is_nan() { 0x7fc0_0000 } else { x.to_bits() }
    )
}

fn named(name: &str, numbers: &[f32]) -> String {
    numbers
        .iter()
        .fold(name.to_string(), |text, x| text + &hex(*x))
}

fn answered<T>(answer: Result<T, u8>, text: impl Fn(T) -> String) -> String {
    match answer {
        Ok(value) => text(value),
        Err(number) => format!("refused {number}"),
    }
}

fn done(answer: Result<(), u8>) -> String {
    answered(answer, |()| "done".to_string())
}

fn maybe<const N: usize>(name: &'static str) -> impl Fn(Option<[f32; N]>) -> String {
    move |answer| answer.map_or("nobox".to_string(), |numbers| named(name, &numbers))
}

fn yes(holds: bool) -> String {
    if holds { "yes" } else { "no" }.to_string()
}

fn both(answer: Option<Both>) -> String {
    answer.map_or("nobox".to_string(), |(shape, coverage)| {
        named("both", &[&shape[..], &coverage].concat())
    })
}

fn filled(answer: Option<(Fill, Box10)>) -> String {
    match answer {
        Some((Fill::Shared, shape)) => named("shared", &shape),
        Some((Fill::Covered, shape)) => named("covered", &shape),
        None => "nobox".to_string(),
    }
}

fn fitted(answer: Option<Fitted>) -> String {
    match answer {
        Some(Fitted::Whole(outline)) => named("whole", &outline),
        Some(Fitted::Cut(floats)) => named("cut", &floats),
        None => "nobox".to_string(),
    }
}

fn verb(f: &mut Fields) -> Result<u8, Bad> {
    let field = f.next().ok_or(MISSING)?;
    field.parse().map_err(|_| NOT_A_BYTE)
}

/// An outline's verbs, and its positions together with so many floats behind them, to the line's end.
fn outline(f: &mut Fields, behind: usize) -> Result<(Vec<u8>, Vec<f32>), Bad> {
    let count = number(f)?;
    if count > 512 {
        return Err(TOO_MANY_VERBS);
    }
    let verbs = (0..count)
        .map(|_| verb(f))
        .collect::<Result<Vec<u8>, _>>()?;
    let count = number(f)? + behind;
    if count > MOST_FLOATS {
        return Err(TOO_MANY_FLOATS);
    }
    let floats = (0..count)
        .map(|_| float(f))
        .collect::<Result<Vec<f32>, _>>()?;
    ended(f)?;
    Ok((verbs, floats))
}

fn fit(f: &mut Fields) -> Result<String, Bad> {
    let (verbs, positions) = outline(f, 0)?;
    Ok(answered(calls::fit(&verbs, &positions), maybe("box")))
}

fn fit_outline(f: &mut Fields) -> Result<String, Bad> {
    let (verbs, positions) = outline(f, 0)?;
    let answer = calls::fit_outline(&verbs, &positions);
    Ok(answered(answer, maybe("outline")))
}

fn fit_with_cut(f: &mut Fields) -> Result<String, Bad> {
    let (verbs, positions) = outline(f, 0)?;
    let answer = calls::fit_with_cut(&verbs, &positions);
    Ok(answered(answer, fitted))
}

fn upright_rect(f: &mut Fields) -> Result<String, Bad> {
    let (verbs, floats) = outline(f, 6)?;
    let (positions, frame) = floats.split_last_chunk().expect("six floats");
    let answer = calls::upright_rect(&verbs, positions, *frame);
    Ok(answered(answer, maybe("box")))
}

/// A list's boxes.
fn listed(f: &mut Fields) -> Result<Vec<Box10>, Bad> {
    let count = number(f)?;
    if count > 257 {
        return Err(TOO_MANY_BOXES);
    }
    (0..count).map(|_| floats(f)).collect()
}

/// Copies of a box, with another at its place, if there is such a place.
fn copies(f: &mut Fields) -> Result<Vec<Box10>, Bad> {
    let count = number(f)?;
    if count > 4097 {
        return Err(TOO_MANY_COPIES);
    }
    let mut boxes = vec![floats(f)?; count];
    let (place, other) = (number(f)?, floats(f)?);
    if place < count {
        boxes[place] = other;
    }
    Ok(boxes)
}

/// The answer to a touch list, whose fringe and point are yet to be read.
fn touch(boxes: &[Box10], f: &mut Fields) -> Result<String, Bad> {
    let (fringe, point) = (float(f)?, floats(f)?);
    ended(f)?;
    Ok(answered(calls::touch(boxes, fringe, point), |place| {
        place.map_or("noframe".to_string(), |place| format!("frame {place}"))
    }))
}

/// The answer to a list in a safe area, which is yet to be read with its fringe.
fn inside(boxes: &[Box10], f: &mut Fields) -> Result<String, Bad> {
    let (safe, fringe) = (floats(f)?, float(f)?);
    ended(f)?;
    let answer = calls::inside(boxes, safe, fringe);
    Ok(answered(answer, |inside| match inside {
        Inside::All => "inside".to_string(),
        Inside::Not(place) => format!("outside {place}"),
        Inside::NoBox => "nobox".to_string(),
    }))
}

/// The answer to a call on two boxes and a fringe.
fn on_pair<T>(
    f: &mut Fields,
    call: impl Fn(Box10, Box10, f32) -> Result<T, u8>,
    text: impl Fn(T) -> String,
) -> Result<String, Bad> {
    Ok(answered(call(floats(f)?, floats(f)?, float(f)?), text))
}

/// The answer to a call on boxes or a coverage; its fields are read whole before it.
fn on_boxes(name: &str, f: &mut Fields) -> Result<String, Bad> {
    let answer = match name {
        "transformed" => answered(calls::transformed(floats(f)?, floats(f)?), |b| {
            named("box", &b)
        }),
        "intersection" => on_pair(f, calls::intersection, maybe("box"))?,
        "with_scissor" => on_pair(f, calls::with_scissor, both)?,
        "trimmed_scissor" => on_pair(f, calls::trimmed_scissor, maybe("box"))?,
        "rect_fill" => on_pair(f, calls::rect_fill, filled)?,
        "rect_intersection" => {
            let (one, two) = (floats(f)?, floats(f)?);
            answered(calls::rect_intersection(one, two), maybe("box"))
        }
        "coverage" => answered(calls::coverage(floats(f)?, float(f)?), maybe("cov")),
        "parallel" => answered(calls::parallel(floats(f)?, floats(f)?), yes),
        "contains" => answered(calls::contains(floats(f)?, floats(f)?), yes),
        "bounds" => answered(calls::bounds(floats(f)?), |b| named("bounds", &b)),
        "distance" => answered(calls::distance(floats(f)?, floats(f)?), |d| {
            named("float", &[d])
        }),
        "reach" => calls::reach(floats(f)?)
            .map_or("everywhere".to_string(), |bounds| named("bounds", &bounds)),
        "holds" => yes(calls::holds(floats(f)?, floats(f)?)),
        _ => return Err(UNKNOWN_CALL),
    };
    ended(f)?;
    Ok(answer)
}

/// The bytes of a line's last field.
fn bytes(f: &mut Fields) -> Result<Vec<u8>, Bad> {
    let text = match f.next().ok_or(MISSING)? {
        "-" => "",
        text => text,
    };
    if text.len() % 2 != 0 || !text.bytes().all(|b| b.is_ascii_hexdigit()) {
        return Err(NOT_HEX);
    }
    if text.len() / 2 > MOST_BYTES {
        return Err(BUFFER_TOO_LONG);
    }
    ended(f)?;
    let byte = |at| u8::from_str_radix(&text[at..at + 2], 16).expect("two digits");
    Ok((0..text.len()).step_by(2).map(byte).collect())
}

/// Bytes as `show` writes them.
fn shown(bytes: &[u8]) -> String {
    if bytes.is_empty() {
        return "-".to_string();
    }
    bytes.iter().map(|b| format!("{b:02x}")).collect()
}

/// Which buffer is named.
fn named_buffer(f: &mut Fields) -> Result<usize, Bad> {
    match f.next() {
        Some("run") => Ok(0),
        Some("next") => Ok(1),
        _ => Err(UNKNOWN_BUFFER),
    }
}

impl State {
    fn set(&mut self, f: &mut Fields) -> Result<String, Bad> {
        let buffer = &mut self.buffers[named_buffer(f)?];
        *buffer = bytes(f)?;
        Ok(done(Ok(())))
    }

    fn fill(&mut self, f: &mut Fields) -> Result<String, Bad> {
        let buffer = &mut self.buffers[named_buffer(f)?];
        let (length, byte) = (number(f)?, number(f)?);
        if length > MOST_BYTES {
            return Err(BUFFER_TOO_LONG);
        }
        let byte = byte.try_into().map_err(|_| NOT_A_BYTE)?;
        ended(f)?;
        *buffer = vec![byte; length];
        Ok(done(Ok(())))
    }

    fn show(&mut self, f: &mut Fields) -> Result<String, Bad> {
        let buffer = &mut self.buffers[named_buffer(f)?];
        ended(f)?;
        Ok(shown(buffer))
    }

    fn fill_ink(&mut self, f: &mut Fields) -> Result<String, Bad> {
        let ink = &mut self.ink[named_buffer(f)?];
        let (length, number) = (number(f)?, number(f)?);
        if length > MOST_INK {
            return Err(INK_TOO_LONG);
        }
        let number = number.try_into().map_err(|_| NOT_SIXTEEN_BITS)?;
        ended(f)?;
        *ink = vec![number; length];
        Ok(done(Ok(())))
    }

    fn show_ink(&mut self, f: &mut Fields) -> Result<String, Bad> {
        let ink = &mut self.ink[named_buffer(f)?];
        ended(f)?;
        if ink.is_empty() {
            return Ok("-".to_string());
        }
        let numbers: Vec<String> = ink.iter().map(u16::to_string).collect();
        Ok(numbers.join(" "))
    }

    /// The answer to a call that writes a buffer's mask, of this size: where it is done, the mask is scanned for ink.
    fn inked(&mut self, at: usize, size: [usize; 2], answer: Result<(), u8>) -> Result<(), u8> {
        answer?;
        scan(&self.buffers[at], size, &mut self.ink[at]);
        Ok(())
    }

    /// A drawing, with a corner or without one: no corner changes an answer or a byte.
    fn draw(&mut self, f: &mut Fields, placed: bool) -> Result<String, Bad> {
        let at = named_buffer(f)?;
        let buffer = &mut self.buffers[at];
        let size = [number(f)?, number(f)?];
        if placed {
            pair(f)?;
        }
        let lent = [buffer.len(), self.ink[at].len(), number(f)?, number(f)?];
        let words = f.map(word).collect::<Result<Vec<i32>, _>>()?;
        let answer = Drawing::check(size, &words, lent);
        if answer.is_ok() {
            let cells = self.drawing.cells(size, words);
            buffer[..cells.len()].copy_from_slice(cells);
        }
        Ok(done(self.inked(at, size, answer)))
    }

    fn lay(&mut self, f: &mut Fields) -> Result<String, Bad> {
        let size = [number(f)?, number(f)?];
        let other_size = [number(f)?, number(f)?];
        let offset = pair(f)?;
        ended(f)?;
        let ([run, next], ink) = (&mut self.buffers, self.ink[0].len());
        let answer = calls::lay(run, ink, size, next, other_size, offset);
        Ok(done(self.inked(0, size, answer)))
    }

    fn lay_at(&mut self, f: &mut Fields) -> Result<String, Bad> {
        let (size, corner) = ([number(f)?, number(f)?], pair(f)?);
        let (met, place) = ([number(f)?, number(f)?], pair(f)?);
        ended(f)?;
        let ([run, next], ink) = (&mut self.buffers, self.ink[0].len());
        let answer = calls::lay_placed(run, ink, size, corner, next, met, place);
        Ok(done(self.inked(0, size, answer)))
    }

    /// The file's length, and all that is lent for it: what lies past the file shows too.
    fn write_pgm(&mut self, f: &mut Fields) -> Result<String, Bad> {
        let mask = &self.buffers[named_buffer(f)?];
        let (size, length) = ([number(f)?, number(f)?], number(f)?);
        if length > MOST_BYTES {
            return Err(BUFFER_TOO_LONG);
        }
        ended(f)?;
        let mut file = vec![7; length];
        let answer = netpbm::write(mask, size, &mut file);
        Ok(answered(answer, |n| format!("file {n} {}", shown(&file))))
    }

    fn read_pgm(&mut self, f: &mut Fields) -> Result<String, Bad> {
        let at = named_buffer(f)?;
        let (mask, ink) = (&mut self.buffers[at], self.ink[at].len());
        let (file, mut size, mut corner) = (bytes(f)?, [0; 2], [9; 2]);
        let answer = netpbm::read(&file, mask, ink, &mut size, &mut corner);
        let ([width, height], [x, y]) = (size, corner);
        Ok(answered(self.inked(at, size, answer), |()| {
            format!("size {width} {height} corner {x} {y}")
        }))
    }

    pub fn answer(&mut self, line: &str) -> Result<String, Bad> {
        let mut fields = line.split_whitespace();
        let f = &mut fields;
        match f.next().expect("a call") {
            "buf" => self.set(f),
            "bufn" => self.fill(f),
            "show" => self.show(f),
            "ink" => self.fill_ink(f),
            "show_ink" => self.show_ink(f),
            "draw" => self.draw(f, false),
            "draw_at" => self.draw(f, true),
            "lay" => self.lay(f),
            "lay_at" => self.lay_at(f),
            "write_pgm" => self.write_pgm(f),
            "read_pgm" => self.read_pgm(f),
            "fit" => fit(f),
            "fit_outline" => fit_outline(f),
            "fit_with_cut" => fit_with_cut(f),
            "upright_rect" => upright_rect(f),
            "touch" => touch(&listed(f)?, f),
            "touchn" => touch(&copies(f)?, f),
            "inside" => inside(&listed(f)?, f),
            "insiden" => inside(&copies(f)?, f),
            name => on_boxes(name, f),
        }
    }
}
