//! The text that is left to be read: spans of bytes, and numbers.

/// What is left to be read. Nothing of it matters once a read has answered `None`.
pub struct Text<'a> {
    pub rest: &'a [u8],
}

impl Text<'_> {
    #[inline(always)]
    pub fn span(&mut self, span: &[u8]) -> Option<()> {
        self.rest = self.rest.strip_prefix(span)?;
        Some(())
    }

    /// Digits up to what is none. The span after a number begins with a newline, so it sees what else stands there.
    #[inline(always)]
    pub fn number(&mut self) -> Option<u64> {
        let mut number = self.digit()?;
        if number == 0 {
            return Some(0);
        }
        // 19 digits fit into 64 bits whatever they are
        for _ in 1..19 {
            match self.digit() {
                Some(digit) => number = number * 10 + digit,
                None => return Some(number),
            }
        }
        match self.digit() {
            Some(digit) => number.checked_mul(10)?.checked_add(digit),
            None => Some(number),
        }
    }

    #[inline(always)]
    fn digit(&mut self) -> Option<u64> {
        let (&first, rest) = self.rest.split_first()?;
        let digit = first.wrapping_sub(b'0');
        if digit > 9 {
            return None;
        }
        self.rest = rest;
        Some(digit.into())
    }
}
