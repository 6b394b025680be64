//! Lent memory with known words around it, so that a write beside the lent part is seen.

/// What stands around a lent part.
pub trait Canary: Copy + PartialEq + std::fmt::Debug {
    fn canary(index: usize) -> Self;
}

impl Canary for u8 {
    fn canary(index: usize) -> u8 {
        0xA5 ^ (index as u8).wrapping_mul(7)
    }
}

impl Canary for u32 {
    fn canary(index: usize) -> u32 {
        0xC0DE_0000 ^ (index as u32).wrapping_mul(0x0101_0107)
    }
}

impl Canary for i32 {
    fn canary(index: usize) -> i32 {
        u32::canary(index) as i32
    }
}

#[derive(Clone, PartialEq)]
pub struct Lent<T> {
    whole: Vec<T>,
    start: usize,
    length: usize,
}

impl<T: Canary> Lent<T> {
    /// The content, with `margin` canaries before it and 16 behind it.
    pub fn new(content: &[T], margin: usize) -> Lent<T> {
        let mut whole: Vec<T> = (0..margin).map(T::canary).collect();
        whole.extend_from_slice(content);
        whole.extend((0..16).map(T::canary));
        Lent { whole, start: margin, length: content.len() }
    }

    pub fn part(&self) -> &[T] {
        &self.whole[self.start..self.start + self.length]
    }

    pub fn part_mut(&mut self) -> &mut [T] {
        &mut self.whole[self.start..self.start + self.length]
    }

    /// Where the memory is not what it should be: as one would have it, and around.
    pub fn difference(&self, expected: &[T]) -> Option<String> {
        let before = (0..self.start).find(|i| self.whole[*i] != T::canary(*i));
        if let Some(i) = before {
            return Some(format!("{} before the lent part was written: {:?}", self.start - i, self.whole[i]));
        }
        let behind = &self.whole[self.start + self.length..];
        if let Some(i) = (0..behind.len()).find(|i| behind[*i] != T::canary(*i)) {
            return Some(format!("{i} behind the lent part was written: {:?}", behind[i]));
        }
        let part = self.part();
        let i = (0..expected.len()).find(|i| part[*i] != expected[*i])?;
        Some(format!("at {i} of {}: {:?}, and the reference has {:?}", part.len(), part[i], expected[i]))
    }
}
