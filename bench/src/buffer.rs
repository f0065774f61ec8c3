//! Bytes or other numbers at a chosen place of a page, so that no program has
//! better luck than another with where its buffers lie.

use std::marker::PhantomData;
use std::ops::{Deref, DerefMut};
use std::slice;

const PAGE: usize = 4_096;

#[derive(Clone)]
#[repr(C, align(4096))]
struct Page([u8; PAGE]);

/// Numbers that any bytes make up.
pub trait Number: Copy {}

impl Number for u8 {}
impl Number for u32 {}
impl Number for u64 {}

/// So many bytes, or other numbers, from a place of the first page on.
#[derive(Clone)]
pub struct Buffer<N = u8> {
    pages: Vec<Page>,
    place: usize,
    length: usize,
    numbers: PhantomData<N>,
}

impl<N: Number> Buffer<N> {
    /// The numbers are zero.
    pub fn zeroed(place: usize, length: usize) -> Buffer<N> {
        assert!(place.is_multiple_of(align_of::<N>()));
        let bytes = place + length * size_of::<N>();
        Buffer {
            pages: vec![Page([0; PAGE]); bytes.div_ceil(PAGE)],
            place,
            length,
            numbers: PhantomData,
        }
    }
}

impl Buffer {
    /// The bytes tell one place from the next.
    pub fn patterned(place: usize, length: usize, period: usize) -> Buffer {
        let mut buffer = Buffer::zeroed(place, length);
        for (place, byte) in buffer.iter_mut().enumerate() {
            *byte = (place % period) as u8;
        }
        buffer
    }
}

impl<N: Number> Deref for Buffer<N> {
    type Target = [N];

    fn deref(&self) -> &[N] {
        let start = self.pages.as_ptr().cast::<u8>();
        // SAFETY: the pages are bytes without gaps, there are enough, and the
        // place is one for these numbers.
        unsafe { slice::from_raw_parts(start.add(self.place).cast(), self.length) }
    }
}

impl<N: Number> DerefMut for Buffer<N> {
    fn deref_mut(&mut self) -> &mut [N] {
        let start = self.pages.as_mut_ptr().cast::<u8>();
        // SAFETY: as above.
        unsafe { slice::from_raw_parts_mut(start.add(self.place).cast(), self.length) }
    }
}

impl<N: Number + PartialEq> PartialEq for Buffer<N> {
    fn eq(&self, other: &Buffer<N>) -> bool {
        **self == **other
    }
}
