//! Writing into a prepared buffer: spans of bytes, and numbers.

pub struct Page<'a> {
    bytes: &'a mut [u8],
    length: usize,
}

/// "00", "01", .. "99".
const PAIRS: [[u8; 2]; 100] = {
    let mut pairs = [[0; 2]; 100];
    let mut number = 0;
    while number < 100 {
        pairs[number] = [b'0' + number as u8 / 10, b'0' + number as u8 % 10];
        number += 1;
    }
    pairs
};

impl<'a> Page<'a> {
    pub fn on(bytes: &'a mut [u8]) -> Page<'a> {
        Page { bytes, length: 0 }
    }

    pub fn written(&self) -> &[u8] {
        &self.bytes[..self.length]
    }

    pub fn left(&self) -> usize {
        self.bytes.len() - self.length
    }

    pub fn clear(&mut self) {
        self.length = 0;
    }

    #[inline(always)]
    pub fn span(&mut self, span: &[u8]) {
        let end = self.length + span.len();
        self.bytes[self.length..end].copy_from_slice(span);
        self.length = end;
    }

    #[inline(always)]
    pub fn number(&mut self, number: u64) {
        if number < 100 {
            self.short_number(number);
        } else if number < 10_000 {
            self.short_number(number / 100);
            self.span(&PAIRS[(number % 100) as usize]);
        } else {
            self.long_number(number);
        }
    }

    #[inline(always)]
    fn short_number(&mut self, number: u64) {
        if number < 10 {
            self.span(&[b'0' + number as u8]);
        } else {
            self.span(&PAIRS[number as usize]);
        }
    }

    /// A number from 10,000 on, by pairs of digits from its last.
    fn long_number(&mut self, number: u64) {
        let end = self.length + digits(number);
        let bytes = &mut self.bytes[self.length..end];
        let (mut rest, mut place) = (number, bytes.len());
        while rest >= 100 {
            place -= 2;
            bytes[place..place + 2].copy_from_slice(&PAIRS[(rest % 100) as usize]);
            rest /= 100;
        }
        if rest < 10 {
            bytes[0] = b'0' + rest as u8;
        } else {
            bytes[..2].copy_from_slice(&PAIRS[rest as usize]);
        }
        self.length = end;
    }
}

/// How many digits a number that is not 0 has.
fn digits(number: u64) -> usize {
    number.ilog10() as usize + 1
}
