//! Big-endian numbers in byte sequences, and bytes as hex text.

/// The number in `width` bytes from `at`; bytes past the end count as 0.
pub fn number(bytes: &[u8], at: usize, width: usize) -> u64 {
    (at..at + width).fold(0, |value, i| value << 8 | u64::from(bytes.get(i).copied().unwrap_or(0)))
}

/// `value` as `width` bytes.
pub fn spell(value: u64, width: usize) -> Vec<u8> {
    value.to_be_bytes()[8 - width..].to_vec()
}

/// Bytes built up from numbers and bytes, in order.
#[derive(Default, Clone)]
pub struct Writer(pub Vec<u8>);

impl Writer {
    pub fn number(mut self, value: impl Into<u64>, width: usize) -> Self {
        self.0.extend(spell(value.into(), width));
        self
    }

    pub fn bytes(mut self, bytes: &[u8]) -> Self {
        self.0.extend_from_slice(bytes);
        self
    }
}

/// Numbers and bytes taken from the front of a byte sequence, one after the other.
#[derive(Clone, Copy)]
pub struct Reader<'a> {
    bytes: &'a [u8],
    at: usize,
}

impl<'a> Reader<'a> {
    pub fn new(bytes: &'a [u8], at: usize) -> Self {
        Reader { bytes, at }
    }

    pub fn number(&mut self, width: usize) -> u64 {
        self.at += width;
        number(self.bytes, self.at - width, width)
    }

    pub fn bytes(&mut self, length: usize) -> &'a [u8] {
        let (from, to) = (self.at.min(self.bytes.len()), (self.at + length).min(self.bytes.len()));
        self.at += length;
        &self.bytes[from..to]
    }

    pub fn rest(&mut self) -> &'a [u8] {
        self.bytes(self.bytes.len().saturating_sub(self.at))
    }
}

/// Bytes as hex digits.
pub fn hex(bytes: &[u8]) -> String {
    bytes.iter().map(|byte| format!("{:02x}", byte)).collect()
}

/// The bytes that hex digits spell, white space aside; nothing where something else stands.
pub fn unhex(text: &str) -> Option<Vec<u8>> {
    let digits: Vec<u32> = text.chars().filter(|c| !c.is_whitespace()).map(|c| c.to_digit(16)).collect::<Option<_>>()?;
    if digits.len() % 2 != 0 {
        return None;
    }
    Some(digits.chunks(2).map(|pair| (pair[0] << 4 | pair[1]) as u8).collect())
}

#[cfg(test)]
mod tests {
    use super::*;

    #[test]
    fn numbers_go_out_and_come_back() {
        let bytes = Writer::default().number(0x0102u32, 2).number(0x03040506u32, 4).bytes(&[7]).0;
        assert_eq!(bytes, [1, 2, 3, 4, 5, 6, 7]);
        let mut reader = Reader::new(&bytes, 0);
        assert_eq!((reader.number(2), reader.number(4)), (0x0102, 0x03040506));
        assert_eq!(reader.rest(), [7]);
        assert_eq!(number(&bytes, 6, 2), 0x0700);
        assert_eq!(unhex(&hex(&bytes)), Some(bytes));
    }
}
