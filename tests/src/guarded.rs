//! Lent buffers with guard elements on both sides, filled with numbers that no call has a reason to write.
use crate::random::Random;

const MARGIN: usize = 24;

/// A buffer of `len` elements between two margins.
#[derive(Clone, PartialEq, Eq)]
pub struct Guarded<T> {
    all: Vec<T>,
    before: usize,
    len: usize,
}

impl<T: Copy + PartialEq> Guarded<T> {
    /// Holds `inner`; the margins, of a random size, hold what `noise` gives.
    pub fn around(inner: &[T], rng: &mut Random, mut noise: impl FnMut(&mut Random) -> T) -> Self {
        let before = 1 + rng.below(MARGIN as u64) as usize;
        let mut all: Vec<T> = (0..before).map(|_| noise(rng)).collect();
        all.extend_from_slice(inner);
        all.extend((0..MARGIN).map(|_| noise(rng)));
        Guarded { all, before, len: inner.len() }
    }

    /// The part that is lent.
    pub fn lent(&self) -> &[T] {
        &self.all[self.before..self.before + self.len]
    }

    pub fn lend(&mut self) -> &mut [T] {
        &mut self.all[self.before..self.before + self.len]
    }

    /// The first element of the lent part that isn't as expected, or `None`; margins count as well. `free` first elements may hold anything.
    pub fn differs(&self, was: &Guarded<T>, expected: &[T], free: usize) -> Option<String> {
        for (k, (a, b)) in self.all.iter().zip(&was.all).enumerate() {
            let lent = k >= self.before && k < self.before + self.len;
            if lent && k - self.before >= free && *a != expected[k - self.before] {
                return Some(format!("element {} of {}", k - self.before, self.len));
            }
            if !lent && a != b {
                return Some(format!("guard at {} of a buffer of {}", k as i64 - self.before as i64, self.len));
            }
        }
        None
    }
}

pub fn words(inner: &[u64], rng: &mut Random) -> Guarded<u64> {
    Guarded::around(inner, rng, |r| r.word())
}

pub fn bytes(inner: &[u8], rng: &mut Random) -> Guarded<u8> {
    Guarded::around(inner, rng, |r| r.word() as u8)
}

/// `len` words of noise.
pub fn noise_words(len: usize, rng: &mut Random) -> Guarded<u64> {
    let inner: Vec<u64> = (0..len).map(|_| rng.word()).collect();
    words(&inner, rng)
}

/// `len` words of noise, or one number in all of them.
pub fn any_words(len: usize, rng: &mut Random) -> Guarded<u64> {
    match *rng.pick(&[None, None, Some(0), Some(1), Some(u64::MAX)]) {
        Some(word) => words(&vec![word; len], rng),
        None => noise_words(len, rng),
    }
}

/// `len` bytes of noise.
pub fn noise_bytes(len: usize, rng: &mut Random) -> Guarded<u8> {
    let inner: Vec<u8> = (0..len).map(|_| rng.word() as u8).collect();
    bytes(&inner, rng)
}

extern "C" {
    fn mmap(at: *mut u8, length: usize, protection: i32, flags: i32, file: i32, offset: i64) -> *mut u8;
    fn mprotect(at: *mut u8, length: usize, protection: i32) -> i32;
}

/// Room for bytes before a page that may not be touched: who reads past them ends the whole run.
pub struct Fence(&'static mut [u8]);

impl Fence {
    const PAGE: usize = 4096;

    /// Room for so many pages.
    pub fn of(pages: usize) -> Self {
        let (room, read_write, private_anonymous) = (pages * Self::PAGE, 3, 0x22);
        unsafe {
            let at = mmap(std::ptr::null_mut(), room + Self::PAGE, read_write, private_anonymous, -1, 0);
            assert!(at as isize != -1 && mprotect(at.add(room), Self::PAGE, 0) == 0, "no pages");
            Fence(std::slice::from_raw_parts_mut(at, room))
        }
    }

    /// A copy of the bytes, up to the fence.
    pub fn hold(&mut self, inner: &[u8]) -> &[u8] {
        let before = self.0.len() - inner.len();
        self.0[before..].copy_from_slice(inner);
        &self.0[before..]
    }
}

#[cfg(test)]
mod tests {
    use super::*;

    /// Each changed element is noticed, in the lent part and in both margins; the free ones aren't.
    #[test]
    fn every_change_is_noticed() {
        let rng = &mut Random::seeded(1);
        let was = noise_words(5, rng);
        assert!(was.differs(&was, was.lent(), 0).is_none());
        for k in 0..was.all.len() {
            let mut now = was.clone();
            now.all[k] ^= 1;
            let free = k >= was.before && k < was.before + 2;
            assert_eq!(now.differs(&was, was.lent(), 2).is_none(), free);
            assert!(now.differs(&was, was.lent(), 0).is_some());
        }
    }
}
