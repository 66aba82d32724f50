//! The blocks of memory that a hash fills.

use std::ops::{BitXor, BitXorAssign};

/// A block of 1024 bytes, which are 128 words of 64 bits.
#[derive(Clone, Copy, Debug)]
#[repr(C, align(64))]
pub struct Block([u64; Self::SIZE / 8]);

impl Block {
    /// The bytes of a block.
    pub const SIZE: usize = 1024;

    /// A block of zeros.
    #[must_use]
    pub const fn new() -> Self {
        Self([0; Self::SIZE / 8])
    }

    /// Sets each word to zero.
    pub fn zeroize(&mut self) {
        crate::sys::wipe(&mut self.0);
    }
}

impl Default for Block {
    fn default() -> Self {
        Self::new()
    }
}

impl AsRef<[u64]> for Block {
    fn as_ref(&self) -> &[u64] {
        &self.0
    }
}

impl AsMut<[u64]> for Block {
    fn as_mut(&mut self) -> &mut [u64] {
        &mut self.0
    }
}

impl BitXor<&Block> for Block {
    type Output = Block;

    fn bitxor(mut self, other: &Block) -> Block {
        self ^= other;
        self
    }
}

impl BitXorAssign<&Block> for Block {
    fn bitxor_assign(&mut self, other: &Block) {
        for (word, by) in self.0.iter_mut().zip(other.0) {
            *word ^= by;
        }
    }
}
