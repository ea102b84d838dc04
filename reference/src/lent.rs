//! Lent buffers: an arena of known bytes, of which the front is lent, and the
//! sum of what is left in it.

/// What every byte of an arena is before the call.
pub const FILL: u8 = 0xA5;

/// The bytes behind those that are lent.
const BEHIND: usize = 16;

/// The sum of bytes that the answers print.
pub fn sum(bytes: &[u8]) -> u64 {
    bytes
        .iter()
        .fold(0, |sum, &byte| (sum * 31 + u64::from(byte)) % 4_294_967_291)
}

/// A filled arena whose front is lent.
pub struct Arena {
    bytes: Vec<u8>,
    size: usize,
}

impl Arena {
    pub fn new(size: usize) -> Arena {
        Arena {
            bytes: vec![FILL; size + BEHIND],
            size,
        }
    }

    /// The bytes to lend.
    pub fn lent(&mut self) -> &mut [u8] {
        &mut self.bytes[..self.size]
    }

    /// The sum of the whole arena.
    pub fn sum(&self) -> u64 {
        sum(&self.bytes)
    }

    /// The sum of the arena without its first bytes.
    pub fn sum_behind(&self, count: usize) -> u64 {
        sum(&self.bytes[count..])
    }
}

#[cfg(test)]
mod tests {
    use super::*;

    #[test]
    fn sums() {
        assert_eq!(sum(&[]), 0);
        assert_eq!(sum(b"AB"), 65 * 31 + 66);
        assert_eq!(sum(&[0, 0, 7]), 7);
        // Seven bytes of 255 go past the modulus.
        let plain = (0..7).fold(0u64, |sum, _| sum * 31 + 255);
        assert!(plain > 4_294_967_291);
        assert_eq!(sum(&[255; 7]), plain % 4_294_967_291);
    }

    #[test]
    fn an_arena() {
        let mut arena = Arena::new(2);
        assert_eq!(arena.lent(), [FILL; 2]);
        arena.lent()[0] = 1;
        let mut left = [FILL; 18];
        left[0] = 1;
        assert_eq!(arena.sum(), sum(&left));
        assert_eq!(arena.sum_behind(1), sum(&[FILL; 17]));
        assert_eq!(Arena::new(0).sum(), sum(&[FILL; 16]));
    }
}
