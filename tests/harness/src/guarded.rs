//! Buffers with guard bytes before and behind, so that a write outside of what is lent is seen.

use reference::random::Random;

const GUARD: usize = 64;

/// A buffer of some length in the middle of a larger one, filled with noise all round.
#[derive(Clone, Debug, PartialEq, Eq)]
pub struct Guarded {
    bytes: Vec<u8>,
    length: usize,
}

impl Guarded {
    /// A buffer that holds these bytes.
    pub fn holding(bytes: &[u8], noise: u8) -> Guarded {
        let mut all = vec![noise; GUARD];
        all.extend_from_slice(bytes);
        all.resize(bytes.len() + 2 * GUARD, noise ^ 0xff);
        Guarded {
            bytes: all,
            length: bytes.len(),
        }
    }

    /// A buffer that begins with these bytes and goes on with noise up to a length, which may be
    /// less than theirs.
    pub fn sized(random: &mut Random, bytes: &[u8], length: usize) -> Guarded {
        let mut held = bytes[..bytes.len().min(length)].to_vec();
        let mut noise = random.draw();
        while held.len() < length {
            held.push((noise >> 56) as u8);
            noise = noise.wrapping_mul(0x9E37_79B9_7F4A_7C15).wrapping_add(1);
        }
        Guarded::holding(&held, random.number() as u8)
    }

    pub fn lend(&mut self) -> &mut [u8] {
        &mut self.bytes[GUARD..GUARD + self.length]
    }

    pub fn bytes(&self) -> &[u8] {
        &self.bytes[GUARD..GUARD + self.length]
    }

    /// The guards of the two are alike.
    pub fn same_guards(&self, other: &Guarded) -> bool {
        self.bytes[..GUARD] == other.bytes[..GUARD]
            && self.bytes[GUARD + self.length..] == other.bytes[GUARD + other.length..]
    }
}
