//! PGM files by the sentences of document 02's changes 4, 8 and 9. femtovg has none: this reader and this writer
//! are written for the comparison, and have nothing of Beamnettle's.
use femtovg::calls::Refused;

const MASK_TOO_LARGE: Refused = 3;
const TOO_SHORT: Refused = 4;
const NOT_PGM: Refused = 13;
const WRONG_DEPTH: Refused = 14;
const WRONG_RASTER: Refused = 15;

/// The text that the writer puts before the cells.
pub fn header([width, height]: [usize; 2]) -> String {
    format!("P5\n{width} {height}\n255\n")
}

/// How many cells a mask of a size has.
fn cells([width, height]: [usize; 2]) -> Result<usize, Refused> {
    if width > 4096 || height > 4096 {
        return Err(MASK_TOO_LARGE);
    }
    Ok(width * height)
}

/// Writes a mask as a file and answers the file's length.
pub fn write(mask: &[u8], size: [usize; 2], file: &mut [u8]) -> Result<usize, Refused> {
    if size.contains(&0) {
        return Err(NOT_PGM);
    }
    let cells = mask.get(..cells(size)?).ok_or(TOO_SHORT)?;
    let text = header(size);
    let length = text.len() + cells.len();
    let file = file.get_mut(..length).ok_or(TOO_SHORT)?;
    let (start, raster) = file.split_at_mut(text.len());
    start.copy_from_slice(text.as_bytes());
    raster.copy_from_slice(cells);
    Ok(length)
}

fn is_space(byte: &u8) -> bool {
    b" \t\r\n".contains(byte)
}

/// What stands before the first byte of whitespace, and what stands behind that byte.
fn cut(file: &[u8]) -> Option<(&[u8], &[u8])> {
    let at = file.iter().position(is_space)?;
    Some((&file[..at], &file[at + 1..]))
}

/// The next field behind any whitespace, and what stands behind the one byte that ends it.
fn field(file: &[u8]) -> Option<(&[u8], &[u8])> {
    let first = file.iter().position(|byte| !is_space(byte))?;
    cut(&file[first..])
}

/// A number of one to nine digits.
fn number(field: &[u8]) -> Option<usize> {
    if field.len() > 9 || !field.iter().all(u8::is_ascii_digit) {
        return None;
    }
    std::str::from_utf8(field).ok()?.parse().ok()
}

/// Width, height and depth, and the raster behind them. Every field, the mark too, ends in whitespace.
fn fields(file: &[u8]) -> Option<([usize; 3], &[u8])> {
    let (mark, mut rest) = cut(file)?;
    if mark != b"P5" {
        return None;
    }
    let mut numbers = [0; 3];
    for place in &mut numbers {
        let (digits, behind) = field(rest)?;
        *place = number(digits)?;
        rest = behind;
    }
    let [width, height, _] = numbers;
    (width > 0 && height > 0).then_some((numbers, rest))
}

/// Reads a file into a mask, its width and height into two numbers, and its corner into two: a mask that is
/// read stands at (0, 0). So many numbers are lent for its ink, which a scan of the mask finds.
pub fn read(
    file: &[u8],
    mask: &mut [u8],
    ink: usize,
    size: &mut [usize],
    corner: &mut [i32],
) -> Result<(), Refused> {
    let ([width, height, depth], raster) = fields(file).ok_or(NOT_PGM)?;
    if depth != 255 {
        return Err(WRONG_DEPTH);
    }
    if raster.len() != cells([width, height])? {
        return Err(WRONG_RASTER);
    }
    if ink < 2 * height {
        return Err(TOO_SHORT);
    }
    let mask = mask.get_mut(..raster.len()).ok_or(TOO_SHORT)?;
    let size = size.get_mut(..2).ok_or(TOO_SHORT)?;
    let corner = corner.get_mut(..2).ok_or(TOO_SHORT)?;
    mask.copy_from_slice(raster);
    size.copy_from_slice(&[width, height]);
    corner.copy_from_slice(&[0, 0]);
    Ok(())
}

#[cfg(test)]
mod tests {
    use super::*;

    /// What a file of one cell at most is read to, with one byte lent and one past it.
    fn one(file: &[u8]) -> Result<u8, Refused> {
        let (mut mask, mut size, mut corner) = ([99; 2], [77; 3], [-55; 3]);
        let answer = read(file, &mut mask[..1], 2, &mut size, &mut corner);
        assert!(mask[1] == 99 && size[2] == 77 && corner[2] == -55);
        let (sides, place) = match answer {
            Ok(()) => ([1, 1], [0, 0]),
            Err(_) => ([77, 77], [-55, -55]),
        };
        assert!(size[..2] == sides && corner[..2] == place);
        assert!(answer.is_ok() || mask[0] == 99);
        answer.map(|()| mask[0])
    }

    #[test]
    fn files_of_one_cell() {
        assert!(one(b"P5\n1 1\n255\n\x07") == Ok(7));
        assert!(one(b"P5\n000000001 1\n000000255\n\x07") == Ok(7));
        assert!(one(b"P5 \t\r\n1\n\n1 255 \x07") == Ok(7));
        assert!(one(b"P5\n1 1\n255\n\n") == Ok(10));
        assert!(one(b"P5\n1 1\n255\n#") == Ok(b'#'));
        assert!(one(b"P5\n1 1\n255\t ") == Ok(b' '));
    }

    #[test]
    fn refused_headers() {
        for file in [
            &b""[..],
            b"P",
            b"P5",
            b"P2\n1 1\n255\n\x07",
            b"p5\n1 1\n255\n\x07",
            b" P5\n1 1\n255\n\x07",
            b"P51 1\n255\n\x07",
            b"P5\x0b1 1\n255\n\x07",
            b"P5\n1\x0c1\n255\n\x07",
            b"P5\n1,1\n255\n\x07",
            b"P5\n+1 1\n255\n\x07",
            b"P5\n#c\n1 1\n255\n\x07",
            b"P5\n1 1\n255#\n\x07",
            b"P5\n0000000001 1\n255\n\x07",
            b"P5\n1 1\n0000000255\n\x07",
            b"P5\n0 1\n254\n",
            b"P5\n1 000\n255\n",
            b"P5\n1 1\n",
            b"P5\n1 1\n255",
            b"P5\n1 1\n254",
            b"P5\n1 1\n254x",
        ] {
            assert!(one(file) == Err(13), "{}", file.escape_ascii());
        }
    }

    #[test]
    fn refused_in_their_order() {
        assert!(one(b"P5\n1 1\n254\n") == Err(14));
        assert!(one(b"P5\n1 1\n0\n\x07") == Err(14));
        assert!(one(b"P5\n4097 1\n254\n") == Err(14));
        assert!(one(b"P5\n4097 1\n255\n") == Err(3));
        assert!(one(b"P5\n1 4097\n255\n") == Err(3));
        assert!(one(b"P5\n999999999 999999999\n255\n") == Err(3));
        assert!(one(b"P5\n4096 4096\n255\n") == Err(15));
        assert!(one(b"P5\n1 1\n255\r\n\x07") == Err(15));
        assert!(one(b"P5\n1 1\n255\n") == Err(15));
        assert!(one(b"P5\n2 1\n255\n\x07") == Err(15));
        assert!(one(b"P5\n2 1\n255\n\x07\x08") == Err(4));
        let file = b"P5\n1 1\n255\n\x07";
        assert!(read(file, &mut [], 2, &mut [0; 2], &mut [0; 2]) == Err(4));
        assert!(read(file, &mut [0], 1, &mut [0; 2], &mut [0; 2]) == Err(4));
        assert!(read(file, &mut [0], 2, &mut [0], &mut [0; 2]) == Err(4));
        assert!(read(file, &mut [0], 2, &mut [0; 2], &mut [0]) == Err(4));
        assert!(read(&file[..11], &mut [], 0, &mut [], &mut []) == Err(15));
    }

    #[test]
    fn written() {
        let mut file = [99; 14];
        assert!(write(&[7, 8], [1, 1], &mut file) == Ok(12));
        assert!(&file == b"P5\n1 1\n255\n\x07cc");
        for (mask, size, lent, number) in [
            (1, [1, 1], 11, 4),
            (0, [1, 1], 12, 4),
            (1, [0, 4097], 0, 13),
            (1, [1, 0], 99, 13),
            (1, [4097, 1], 0, 3),
            (1, [usize::MAX, usize::MAX], 99, 3),
        ] {
            let mut file = vec![99; lent];
            assert!(write(&[7; 1][..mask], size, &mut file) == Err(number));
            assert!(file == vec![99; lent]);
        }
    }

    #[test]
    fn the_largest() {
        let mask: Vec<u8> = (0..4096 * 4096).map(|i| (i * 7 % 251) as u8).collect();
        let (mut file, mut back) = (vec![0; 16_777_234], vec![0; mask.len()]);
        let (mut size, mut corner) = ([0; 2], [9; 2]);
        assert!(write(&mask, [4096; 2], &mut file) == Ok(16_777_233));
        let written = &file[..16_777_233];
        assert!(read(written, &mut back, 8191, &mut size, &mut corner) == Err(4));
        assert!(read(written, &mut back, 8192, &mut size, &mut corner) == Ok(()));
        assert!(back == mask && size == [4096; 2] && corner == [0; 2]);
        assert!(read(&file, &mut back, 8192, &mut size, &mut corner) == Err(15));
    }
}
