//! What of std the reader calls: with an allocator as an argument, and results where memory may run out.
use std::arch::x86_64::*;
use std::fmt;
use std::ops::{BitAnd, BitOr, Deref, DerefMut};

#[derive(Clone, Copy, Debug, PartialEq, Eq)]
pub struct AllocError;

#[derive(Clone, Copy, Debug, PartialEq, Eq)]
pub struct Global;

/// A copy of a value that holds memory.
pub trait TryClone: Sized {
    fn clone(&self) -> Result<Self, AllocError>;
}

#[derive(Debug, PartialEq, Eq, Hash)]
pub struct Vec<T>(pub std::vec::Vec<T>);

impl<T> Vec<T> {
    pub fn new(_: Global) -> Self { Vec(std::vec::Vec::new()) }
    pub fn with_capacity(_: Global, room: usize) -> Result<Self, AllocError> { Ok(Vec(std::vec::Vec::with_capacity(room))) }
    pub fn push(&mut self, item: T) -> Result<(), AllocError> { self.0.push(item); Ok(()) }
    pub fn append(&mut self, more: &mut Vec<T>) -> Result<(), AllocError> { self.0.append(&mut more.0); Ok(()) }
    pub fn pop(&mut self) -> Option<T> { self.0.pop() }
    pub fn clear(&mut self) { self.0.clear() }
    pub fn as_slice(&self) -> &[T] { &self.0 }
    pub fn allocator(&self) -> &Global { &Global }
}

impl<T: Copy> Vec<T> {
    pub fn from_slice(_: Global, items: &[T]) -> Result<Self, AllocError> { Ok(Vec(items.to_vec())) }
    pub fn extend_from_slice(&mut self, items: &[T]) -> Result<(), AllocError> { self.0.extend_from_slice(items); Ok(()) }
}

impl<T: TryClone> TryClone for Vec<T> {
    fn clone(&self) -> Result<Self, AllocError> { Ok(Vec(self.0.iter().map(TryClone::clone).collect::<Result<_, _>>()?)) }
}

impl<T: TryClone> TryClone for Option<T> {
    fn clone(&self) -> Result<Self, AllocError> { self.as_ref().map(TryClone::clone).transpose() }
}

impl<T> Deref for Vec<T> {
    type Target = [T];
    fn deref(&self) -> &[T] { &self.0 }
}

impl<T> DerefMut for Vec<T> {
    fn deref_mut(&mut self) -> &mut [T] { &mut self.0 }
}

impl<T> IntoIterator for Vec<T> {
    type Item = T;
    type IntoIter = std::vec::IntoIter<T>;
    fn into_iter(self) -> Self::IntoIter { self.0.into_iter() }
}

impl<'a, T> IntoIterator for &'a Vec<T> {
    type Item = &'a T;
    type IntoIter = std::slice::Iter<'a, T>;
    fn into_iter(self) -> Self::IntoIter { self.0.iter() }
}

impl<'a, T> IntoIterator for &'a mut Vec<T> {
    type Item = &'a mut T;
    type IntoIter = std::slice::IterMut<'a, T>;
    fn into_iter(self) -> Self::IntoIter { self.0.iter_mut() }
}

#[derive(Debug, PartialEq, Eq, Hash)]
pub struct String(pub std::string::String);

impl String {
    pub fn new(_: Global) -> Self { String(std::string::String::new()) }
    pub fn with_capacity(_: Global, room: usize) -> Result<Self, AllocError> { Ok(String(std::string::String::with_capacity(room))) }
    pub fn from_str(_: Global, text: &str) -> Result<Self, AllocError> { Ok(String(text.to_string())) }
    pub fn from_utf8(bytes: Vec<u8>) -> Result<Self, std::string::FromUtf8Error> { std::string::String::from_utf8(bytes.0).map(String) }
    pub fn as_str(&self) -> &str { &self.0 }
    pub fn push(&mut self, c: char) -> Result<(), AllocError> { self.0.push(c); Ok(()) }
    pub fn push_str(&mut self, text: &str) -> Result<(), AllocError> { self.0.push_str(text); Ok(()) }
}

impl TryClone for String {
    fn clone(&self) -> Result<Self, AllocError> { Ok(String(self.0.clone())) }
}

impl Deref for String {
    type Target = str;
    fn deref(&self) -> &str { &self.0 }
}

impl fmt::Display for String {
    fn fmt(&self, f: &mut fmt::Formatter<'_>) -> fmt::Result { self.0.fmt(f) }
}

#[derive(Debug, PartialEq, Eq)]
pub struct Box<T>(pub std::boxed::Box<T>);

impl<T> Box<T> {
    pub fn new(_: Global, item: T) -> Result<Self, AllocError> { Ok(Box(std::boxed::Box::new(item))) }
    pub fn allocator(_: &Self) -> &Global { &Global }
}

impl<T> Deref for Box<T> {
    type Target = T;
    fn deref(&self) -> &T { &self.0 }
}

pub struct HashMap<K, V>(std::collections::HashMap<K, V>);

impl<K: Eq + std::hash::Hash, V> HashMap<K, V> {
    pub fn new(_: Global) -> Self { HashMap(std::collections::HashMap::new()) }
    pub fn insert(&mut self, key: K, value: V) -> Result<Option<V>, AllocError> { Ok(self.0.insert(key, value)) }
    pub fn get(&self, key: &K) -> Option<&V> { self.0.get(key) }
}

/// So many times 16 bytes, as vectors of SSE2.
#[derive(Clone, Copy)]
pub struct Lanes<const N: usize>([__m128i; N]);

pub type u8x64 = Lanes<4>;

pub type u8x16 = Lanes<1>;

impl<const N: usize> Lanes<N> {
    #[inline(always)]
    fn joined(self, other: Self, join: impl Fn(__m128i, __m128i) -> __m128i) -> Self {
        Lanes(std::array::from_fn(|k| join(self.0[k], other.0[k])))
    }

    #[inline(always)]
    pub fn splat(byte: u8) -> Self { Lanes([unsafe { _mm_set1_epi8(byte as i8) }; N]) }

    #[inline(always)]
    pub fn from_slice(bytes: &[u8]) -> Self {
        let bytes = &bytes[..16 * N];
        Lanes(std::array::from_fn(|k| unsafe { _mm_loadu_si128(bytes[16 * k..].as_ptr().cast()) }))
    }

    #[inline(always)]
    pub fn simd_eq(self, other: Self) -> Self { self.joined(other, |a, b| unsafe { _mm_cmpeq_epi8(a, b) }) }

    #[inline(always)]
    pub fn simd_le(self, other: Self) -> Self { self.joined(other, |a, b| unsafe { _mm_cmpeq_epi8(_mm_min_epu8(a, b), a) }) }

    #[inline(always)]
    pub fn simd_ge(self, other: Self) -> Self { other.simd_le(self) }

    #[inline(always)]
    pub fn to_bitmask(self) -> u64 { (0..N).map(|k| (unsafe { _mm_movemask_epi8(self.0[k]) } as u64) << (16 * k)).sum() }
}

impl<const N: usize> BitOr for Lanes<N> {
    type Output = Self;

    #[inline(always)]
    fn bitor(self, other: Self) -> Self { self.joined(other, |a, b| unsafe { _mm_or_si128(a, b) }) }
}

impl<const N: usize> BitAnd for Lanes<N> {
    type Output = Self;

    #[inline(always)]
    fn bitand(self, other: Self) -> Self { self.joined(other, |a, b| unsafe { _mm_and_si128(a, b) }) }
}
