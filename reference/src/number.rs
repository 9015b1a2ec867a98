//! Numbers, read one after another and written.

use crate::answer::{Fault, CUT, EXTRA, NUMBER, RANGE, VERSION};

/// A reader that knows its bytes and its place.
pub struct Reader<'a> {
    bytes: &'a [u8],
    place: usize,
}

impl<'a> Reader<'a> {
    /// A reader at the start of these bytes.
    pub fn new(bytes: &'a [u8]) -> Reader<'a> {
        Reader { bytes, place: 0 }
    }

    /// The offset of the first byte not yet read.
    pub fn place(&self) -> usize {
        self.place
    }

    /// Reads one number of any value.
    ///
    /// "All numbers stand in groups of seven bits, low group first; the top
    /// bit is set in every byte but the last. At most five bytes, shortest
    /// form only, at most 4,294,967,295."
    pub fn number(&mut self) -> Result<u32, Fault> {
        let start = self.place;
        let mut value: u64 = 0;
        for group in 0..5 {
            // "A number is Cut if the bytes end within its first five bytes
            // before a byte with a clear top bit".
            let Some(&byte) = self.bytes.get(start + group) else {
                return Err(Fault::at(CUT, start));
            };
            value += u64::from(byte & 0x7F) << (7 * group);
            if byte & 0x80 != 0 {
                continue;
            }
            // A last group of 0 after others says nothing: not shortest.
            if group > 0 && byte == 0 {
                return Err(Fault::at(NUMBER, start));
            }
            let Ok(value) = u32::try_from(value) else {
                return Err(Fault::at(NUMBER, start));
            };
            self.place = start + group + 1;
            return Ok(value);
        }
        // "a set top bit in the fifth byte is Number."
        Err(Fault::at(NUMBER, start))
    }

    /// Reads one number from `least` to `greatest`: "Range: number outside
    /// its field, counts included".
    pub fn number_in(&mut self, least: u32, greatest: u32) -> Result<u32, Fault> {
        let start = self.place;
        let value = self.number()?;
        if value < least || value > greatest {
            return Err(Fault::at(RANGE, start));
        }
        Ok(value)
    }

    /// Reads the first number: "Version: first number is not 1 (key table:
    /// not 0)".
    pub fn version(&mut self, wanted: u32) -> Result<(), Fault> {
        let start = self.place;
        if self.number()? != wanted {
            return Err(Fault::at(VERSION, start));
        }
        Ok(())
    }

    /// "Nothing follows": "Extra: bytes after the last record", at "the first
    /// spare byte".
    pub fn end(&self) -> Result<(), Fault> {
        if self.place < self.bytes.len() {
            return Err(Fault::at(EXTRA, self.place));
        }
        Ok(())
    }
}

/// Appends a number in its shortest form.
pub fn write_number(out: &mut Vec<u8>, number: u32) {
    let mut rest = number;
    while rest > 127 {
        out.push((rest % 128) as u8 + 128);
        rest /= 128;
    }
    out.push(rest as u8);
}

#[cfg(test)]
mod tests {
    use super::*;

    fn read(bytes: &[u8]) -> Result<u32, Fault> {
        Reader::new(bytes).number()
    }

    fn written(number: u32) -> Vec<u8> {
        let mut out = Vec::new();
        write_number(&mut out, number);
        out
    }

    #[test]
    fn the_documents_examples() {
        assert_eq!(read(&[0x7F]), Ok(127));
        assert_eq!(read(&[0x80, 0x01]), Ok(128));
        assert_eq!(read(&[0x80, 0x00]), Err(Fault::at(NUMBER, 0)));
        assert_eq!(read(&[0xFF, 0xFF, 0xFF, 0xFF, 0x0F]), Ok(4_294_967_295));
        let too_large = [0xFF, 0xFF, 0xFF, 0xFF, 0x10];
        assert_eq!(read(&too_large), Err(Fault::at(NUMBER, 0)));
    }

    #[test]
    fn cut_and_number_at_the_fifth_byte() {
        for length in 0..5 {
            assert_eq!(read(&vec![0x80; length]), Err(Fault::at(CUT, 0)));
            assert_eq!(read(&vec![0xFF; length]), Err(Fault::at(CUT, 0)));
        }
        for length in 5..8 {
            assert_eq!(read(&vec![0x80; length]), Err(Fault::at(NUMBER, 0)));
            assert_eq!(read(&vec![0xFF; length]), Err(Fault::at(NUMBER, 0)));
        }
        let five_not_shortest = [0x80, 0x80, 0x80, 0x80, 0x00];
        assert_eq!(read(&five_not_shortest), Err(Fault::at(NUMBER, 0)));
    }

    #[test]
    fn what_is_written_is_read_again() {
        let edges = [7, 14, 21, 28].map(|bits| 1_u32 << bits);
        for edge in edges {
            for number in [edge - 1, edge, edge + 1] {
                assert_eq!(read(&written(number)), Ok(number));
            }
            assert_eq!(written(edge).len(), written(edge - 1).len() + 1);
        }
        assert_eq!(written(0), [0]);
        assert_eq!(written(u32::MAX), [0xFF, 0xFF, 0xFF, 0xFF, 0x0F]);
    }

    #[test]
    fn a_reader_knows_its_place() {
        let mut reader = Reader::new(&[0x80, 0x01, 0x05, 0x80]);
        assert_eq!(reader.number(), Ok(128));
        assert_eq!(reader.place(), 2);
        assert_eq!(reader.number_in(6, 9), Err(Fault::at(RANGE, 2)));
        assert_eq!(reader.end(), Err(Fault::at(EXTRA, 3)));
        assert_eq!(reader.number(), Err(Fault::at(CUT, 3)));
    }
}
