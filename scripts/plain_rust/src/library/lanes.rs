//! Many bytes at a time: lanes, each with a byte, and masks of them. On a processor of x86-64 by
//! its own instructions, which each of them has, elsewhere in plain Rust.
use std::ops::{BitAnd, BitOr, Sub};

#[cfg(target_arch = "x86_64")]
mod block {
    use std::arch::x86_64::*;

    /// Sixteen bytes.
    #[derive(Clone, Copy)]
    pub struct Block(__m128i);

    // Each processor of x86-64 has these instructions, and the bytes that are read are there.
    impl Block {
        #[inline(always)]
        pub fn from_bytes(bytes: &[u8; 16]) -> Block {
            Block(unsafe { _mm_loadu_si128(bytes.as_ptr().cast()) })
        }

        #[inline(always)]
        pub fn splat(byte: u8) -> Block {
            Block(unsafe { _mm_set1_epi8(byte as i8) })
        }

        #[inline(always)]
        pub fn equal(self, other: Block) -> Block {
            Block(unsafe { _mm_cmpeq_epi8(self.0, other.0) })
        }

        #[inline(always)]
        pub fn greatest(self, other: Block) -> Block {
            Block(unsafe { _mm_max_epu8(self.0, other.0) })
        }

        #[inline(always)]
        pub fn less(self, other: Block) -> Block {
            Block(unsafe { _mm_sub_epi8(self.0, other.0) })
        }

        #[inline(always)]
        pub fn both(self, other: Block) -> Block {
            Block(unsafe { _mm_and_si128(self.0, other.0) })
        }

        #[inline(always)]
        pub fn either(self, other: Block) -> Block {
            Block(unsafe { _mm_or_si128(self.0, other.0) })
        }

        #[inline(always)]
        pub fn mask(self) -> u64 {
            u64::from(unsafe { _mm_movemask_epi8(self.0) } as u32)
        }
    }
}

#[cfg(not(target_arch = "x86_64"))]
mod block {
    /// Sixteen bytes.
    #[derive(Clone, Copy)]
    pub struct Block([u8; 16]);

    impl Block {
        #[inline(always)]
        fn zipped(self, other: Block, made: impl Fn(u8, u8) -> u8) -> Block {
            let mut block = self;
            for (byte, other) in block.0.iter_mut().zip(other.0) {
                *byte = made(*byte, other);
            }
            block
        }

        #[inline(always)]
        pub fn from_bytes(bytes: &[u8; 16]) -> Block {
            Block(*bytes)
        }

        #[inline(always)]
        pub fn splat(byte: u8) -> Block {
            Block([byte; 16])
        }

        #[inline(always)]
        pub fn equal(self, other: Block) -> Block {
            self.zipped(other, |a, b| if a == b { 0xff } else { 0 })
        }

        #[inline(always)]
        pub fn greatest(self, other: Block) -> Block {
            self.zipped(other, |a, b| a.max(b))
        }

        #[inline(always)]
        pub fn less(self, other: Block) -> Block {
            self.zipped(other, u8::wrapping_sub)
        }

        #[inline(always)]
        pub fn both(self, other: Block) -> Block {
            self.zipped(other, |a, b| a & b)
        }

        #[inline(always)]
        pub fn either(self, other: Block) -> Block {
            self.zipped(other, |a, b| a | b)
        }

        #[inline(always)]
        pub fn mask(self) -> u64 {
            let whole = u128::from_le_bytes(self.0);
            half_mask(whole as u64) | half_mask((whole >> 64) as u64) << 8
        }
    }

    /// A bit for each byte of eight, of which each is 0 or 255.
    #[inline(always)]
    fn half_mask(bytes: u64) -> u64 {
        (bytes & 0x8040_2010_0804_0201).wrapping_mul(0x0101_0101_0101_0101) >> 56
    }
}

use block::Block;

/// A bit for each of 16 bytes that is the wanted one.
#[inline(always)]
pub fn lanes_with(bytes: &[u8; 16], wanted: u8) -> u32 {
    Block::from_bytes(bytes).equal(Block::splat(wanted)).mask() as u32
}

/// So many blocks.
#[derive(Clone, Copy)]
pub struct Lanes<const BLOCKS: usize>([Block; BLOCKS]);

#[allow(non_camel_case_types)]
pub type u8x16 = Lanes<1>;

#[allow(non_camel_case_types)]
pub type u8x64 = Lanes<4>;

/// Which lanes are chosen.
#[derive(Clone, Copy)]
pub struct Mask<const BLOCKS: usize>([Block; BLOCKS]);

#[inline(always)]
fn zipped<const BLOCKS: usize>(
    mut left: [Block; BLOCKS],
    right: [Block; BLOCKS],
    made: impl Fn(Block, Block) -> Block,
) -> [Block; BLOCKS] {
    for (block, other) in left.iter_mut().zip(right) {
        *block = made(*block, other);
    }
    left
}

impl<const BLOCKS: usize> Lanes<BLOCKS> {
    /// The first bytes of a slice that has so many.
    #[inline(always)]
    pub fn from_slice(bytes: &[u8]) -> Self {
        let bytes = &bytes[..16 * BLOCKS];
        let mut blocks = [Block::splat(0); BLOCKS];
        for (block, part) in blocks.iter_mut().zip(bytes.chunks_exact(16)) {
            let mut whole = [0; 16];
            whole.copy_from_slice(part);
            *block = Block::from_bytes(&whole);
        }
        Lanes(blocks)
    }

    #[inline(always)]
    pub fn splat(byte: u8) -> Self {
        Lanes([Block::splat(byte); BLOCKS])
    }

    #[inline(always)]
    pub fn simd_eq(self, other: Self) -> Mask<BLOCKS> {
        Mask(zipped(self.0, other.0, Block::equal))
    }

    #[inline(always)]
    pub fn simd_ge(self, other: Self) -> Mask<BLOCKS> {
        Mask(zipped(self.0, other.0, |a, b| a.greatest(b).equal(a)))
    }

    #[inline(always)]
    pub fn simd_le(self, other: Self) -> Mask<BLOCKS> {
        other.simd_ge(self)
    }
}

impl<const BLOCKS: usize> Sub for Lanes<BLOCKS> {
    type Output = Self;

    #[inline(always)]
    fn sub(self, other: Self) -> Self {
        Lanes(zipped(self.0, other.0, Block::less))
    }
}

impl<const BLOCKS: usize> BitAnd for Mask<BLOCKS> {
    type Output = Self;

    #[inline(always)]
    fn bitand(self, other: Self) -> Self {
        Mask(zipped(self.0, other.0, Block::both))
    }
}

impl<const BLOCKS: usize> BitOr for Mask<BLOCKS> {
    type Output = Self;

    #[inline(always)]
    fn bitor(self, other: Self) -> Self {
        Mask(zipped(self.0, other.0, Block::either))
    }
}

impl<const BLOCKS: usize> Mask<BLOCKS> {
    /// A bit for each lane, the lowest for the first.
    #[inline(always)]
    pub fn to_bitmask(self) -> u64 {
        let mut bits = 0;
        for (number, block) in self.0.iter().enumerate() {
            bits |= block.mask() << (16 * number);
        }
        bits
    }
}
