//! Stand-in for the crate fnv: the 64-bit FNV-1a hash. The ordered maps only name it.

use std::hash::Hasher;

/// The hash of the bytes written so far.
pub struct FnvHasher(u64);

impl Default for FnvHasher {
    fn default() -> Self {
        FnvHasher(0xCBF2_9CE4_8422_2325)
    }
}

impl Hasher for FnvHasher {
    fn finish(&self) -> u64 {
        self.0
    }

    fn write(&mut self, bytes: &[u8]) {
        for byte in bytes {
            self.0 = (self.0 ^ *byte as u64).wrapping_mul(0x0100_0000_01B3);
        }
    }
}
