//! Buffers lent to a call: full of rubbish before it, with rubbish around them
//! that has to be there still after it.

use second::generate::Random;

/// Elements on each side that no call may touch.
const AROUND: usize = 16;

pub struct Lent<T> {
    buffer: Vec<T>,
    length: usize,
    rubbish: T,
}

impl<T: Copy + PartialEq> Lent<T> {
    pub fn new(rubbish: T) -> Self {
        Lent {
            buffer: Vec::new(),
            length: 0,
            rubbish,
        }
    }

    /// So many elements, all of them this rubbish.
    pub fn lend(&mut self, length: usize, rubbish: T) -> &mut [T] {
        let whole = length + 2 * AROUND;
        if self.buffer.len() < whole {
            self.buffer.resize(whole, rubbish);
        }
        self.buffer[..whole].fill(rubbish);
        (self.length, self.rubbish) = (length, rubbish);
        &mut self.buffer[AROUND..][..length]
    }

    /// The lent part once more, as the last call left it.
    pub fn again(&mut self) -> &mut [T] {
        &mut self.buffer[AROUND..][..self.length]
    }

    pub fn content(&self) -> &[T] {
        &self.buffer[AROUND..][..self.length]
    }

    /// Whether what stands around the lent part is as it was.
    pub fn is_whole(&self) -> bool {
        let after = &self.buffer[AROUND + self.length..][..AROUND];
        let mut around = self.buffer[..AROUND].iter().chain(after);
        around.all(|&element| element == self.rubbish)
    }
}

/// A word that differs from its complement and from 0 in every byte, and so
/// does its complement.
pub fn rubbish(random: &mut Random) -> u32 {
    random.word() as u32 & 0x7e7e_7e7e | 0x0101_0101
}
