//! The kit's index set: the same groups, buckets and hash for byte vectors. A map of few keys is a list of pairs.
use rt_std::Vec;
use rt_std::alloc::{AllocError, AllocFailed, Global};

const MULTIPLIER: u64 = 0x9e37_79b9_7f4a_7c15;
#[inline(always)]
fn folded_multiply(a: u64, b: u64) -> u64 {
    let product = a as u128 * b as u128;
    product as u64 ^ (product >> 64) as u64
}
#[inline(always)]
fn read_u32(b: &[u8], at: usize) -> u64 { unsafe { (b.as_ptr().add(at) as *const u32).read_unaligned() as u64 } }
#[inline(always)]
fn read_u64(b: &[u8], at: usize) -> u64 { unsafe { (b.as_ptr().add(at) as *const u64).read_unaligned() } }
#[inline(always)]
fn read_short(b: &[u8]) -> u64 {
    let len = b.len();
    if len >= 4 {
        read_u32(b, 0) | read_u32(b, len - 4) << 32
    } else if len > 0 {
        unsafe { *b.get_unchecked(0) as u64 | (*b.get_unchecked(len / 2) as u64) << 8 | (*b.get_unchecked(len - 1) as u64) << 16 }
    } else {
        0
    }
}
#[inline(always)]
fn fed(state: u64, bytes: &[u8]) -> u64 {
    let len = bytes.len();
    if len <= 8 {
        return folded_multiply(state ^ read_short(bytes), MULTIPLIER ^ (2 * len as u64));
    }
    let mut state = state.wrapping_add(len as u64);
    let mut at = 0;
    while len - at > 16 {
        state = folded_multiply(read_u64(bytes, at) ^ state, read_u64(bytes, at + 8) ^ MULTIPLIER);
        at += 16;
    }
    // Of fewer than 16 bytes the first eight and the last are read.
    folded_multiply(read_u64(bytes, len.saturating_sub(16)) ^ state, read_u64(bytes, len - 8) ^ MULTIPLIER)
}
/// The hash of a key: its length, then its bytes.
#[inline(always)]
fn hash_of(key: &[u8]) -> u32 {
    let state = fed(0x243f_6a88_85a3_08d3, &(key.len() as u64).to_le_bytes());
    let state = fed(state, key);
    (state ^ (state >> 32)) as u32
}
#[derive(Clone, Copy)]
struct Bucket { hash: u32, slot: u32 }
#[derive(Clone, Copy)]
struct Group { tags: [u8; 16], indices: [u32; 12] }
#[inline(always)]
fn tag(hash: u32) -> u8 { ((hash >> 24) as u8).max(1) }
impl Group {
    fn empty() -> Self { Group { tags: [0; 16], indices: [0; 12] } }
    #[inline(always)]
    #[cfg(target_arch = "x86_64")]
    fn match_tag(&self, tag: u8) -> u32 {
        use std::arch::x86_64::*;
        unsafe {
            let tags = _mm_loadu_si128(self.tags.as_ptr() as *const __m128i);
            (_mm_movemask_epi8(_mm_cmpeq_epi8(tags, _mm_set1_epi8(tag as i8))) & 0xFFF) as u32
        }
    }
    #[inline(always)]
    #[cfg(not(target_arch = "x86_64"))]
    fn match_tag(&self, tag: u8) -> u32 {
        self.tags[..12].iter().enumerate().fold(0, |found, (lane, it)| found | ((*it == tag) as u32) << lane)
    }
    #[inline(always)]
    fn overflow(&self) -> u32 { u32::from_le_bytes([self.tags[12], self.tags[13], self.tags[14], self.tags[15]]) }
    #[inline(always)]
    fn is_overflowed(&self, hash: u32) -> bool { (self.overflow() >> (tag(hash) & 31)) & 1 != 0 }
    fn mark_overflow(&mut self, hash: u32) {
        let bits = (self.overflow() | 1 << (tag(hash) & 31)).to_le_bytes();
        self.tags[12..].copy_from_slice(&bits);
    }
}
/// What a set has as keys: byte vectors, found by their bytes, and numbers.
pub trait Key: Sized + PartialEq {
    type Seen: ?Sized;
    fn seen(&self) -> &Self::Seen;
    fn hash_of(seen: &Self::Seen) -> u32;
    fn is(&self, seen: &Self::Seen) -> bool;
    fn copied(&self) -> Result<Self, AllocError>;
}
impl Key for Vec<u8> {
    type Seen = [u8];
    #[inline(always)]
    fn seen(&self) -> &[u8] { self.as_slice() }
    #[inline(always)]
    fn hash_of(seen: &[u8]) -> u32 { hash_of(seen) }
    #[inline(always)]
    fn is(&self, seen: &[u8]) -> bool { self.as_slice() == seen }
    fn copied(&self) -> Result<Self, AllocError> { self.clone() }
}
impl Key for u32 {
    type Seen = u32;
    #[inline(always)]
    fn seen(&self) -> &u32 { self }
    #[inline(always)]
    fn hash_of(seen: &u32) -> u32 { hash_of(&seen.to_le_bytes()) }
    #[inline(always)]
    fn is(&self, seen: &u32) -> bool { self == seen }
    fn copied(&self) -> Result<Self, AllocError> { Ok(*self) }
}
pub struct IndexSet<T> { groups: Vec<Group>, buckets: Vec<Bucket>, growth_left: usize, keys: Vec<T>, units: Vec<()> }
fn insert_bucket(groups: &mut [Group], count: usize, hash: u32) -> Bucket {
    let mut pos = hash as usize & (groups.len() - 1);
    loop {
        let at = pos;
        let next = (pos + 1) & (groups.len() - 1);
        let group = &mut groups[at];
        let empty = group.match_tag(0);
        if empty != 0 {
            let lane = empty.trailing_zeros() as usize;
            group.tags[lane] = tag(hash);
            group.indices[lane] = count as u32;
            return Bucket { hash, slot: (16 * at + lane) as u32 };
        }
        group.mark_overflow(hash);
        pos = next;
    }
}
impl<T: Key> IndexSet<T> {
    pub fn new(alloc: Global) -> Self { IndexSet { groups: Vec::new(alloc), buckets: Vec::new(alloc), growth_left: 0, keys: Vec::new(alloc), units: Vec::new(alloc) } }
    #[inline(always)]
    pub fn len(&self) -> usize { self.keys.len() }
    #[inline(always)]
    pub fn as_slice(&self) -> &Keys<T> { unsafe { &*(self.keys.0.as_slice() as *const [T] as *const Keys<T>) } }
    fn find_hash(&self, key: &T::Seen, hash: u32) -> Option<usize> {
        let count = self.groups.len();
        if count == 0 {
            return None;
        }
        let tag = tag(hash);
        let start = hash as usize & (count - 1);
        let mut pos = start;
        loop {
            let group = &self.groups[pos];
            let mut matches = group.match_tag(tag);
            while matches != 0 {
                let lane = matches.trailing_zeros() as usize;
                let index = unsafe { *group.indices.get_unchecked(lane) } as usize;
                if self.keys[index].is(key) {
                    return Some(index);
                }
                matches &= matches - 1;
            }
            if !group.is_overflowed(hash) {
                return None;
            }
            pos = (pos + 1) & (count - 1);
            if pos == start {
                return None;
            }
        }
    }
    #[inline]
    pub fn get_index_of(&self, key: &T::Seen) -> Option<usize> { self.find_hash(key, T::hash_of(key)) }
    pub fn insert_full(&mut self, key: T) -> Result<(usize, bool), AllocFailed<T>> {
        let hash = T::hash_of(key.seen());
        if let Some(index) = self.find_hash(key.seen(), hash) {
            return Ok((index, false));
        }
        if self.growth_left == 0 {
            self.grow();
        }
        let bucket = insert_bucket(&mut self.groups.0, self.buckets.len(), hash);
        self.buckets.push_reserved(bucket);
        self.growth_left -= 1;
        self.keys.push_reserved(key);
        let _: Result<(), AllocFailed<()>> = self.units.push(());
        Ok((self.keys.len() - 1, true))
    }
    // The keys are compared and hashed once more, as the kit does, which has no law that a clone is like its source.
    pub fn clone(&self) -> Result<Self, AllocError> {
        let mut keys: Vec<T> = Vec::with_capacity(Global, 9 * self.groups.len())?;
        for key in self.keys.iter() {
            keys.push_reserved(key.copied()?);
        }
        if keys != self.keys || (0..keys.len()).any(|at| T::hash_of(keys[at].seen()) != self.buckets[at].hash) {
            return Err(AllocError);
        }
        let mut buckets = Vec::with_capacity(Global, 9 * self.groups.len())?;
        buckets.extend_from_slice(&self.buckets)?;
        Ok(IndexSet { groups: self.groups.clone()?, buckets, growth_left: self.growth_left, keys, units: self.units.clone()? })
    }
    #[inline(never)]
    fn grow(&mut self) {
        let len = self.buckets.len();
        let full = 9 * self.groups.len();
        let mut count = 1;
        while 9 * count < (len + 1).max(full + 1) {
            count *= 2;
        }
        let _: Result<(), AllocError> = self.buckets.reserve_exact(9 * count - len);
        let _: Result<(), AllocError> = self.keys.reserve_exact(9 * count - len);
        self.groups.clear();
        let _: Result<(), AllocError> = self.groups.resize(count, Group::empty());
        for i in 0..len {
            let hash = self.buckets[i].hash;
            self.buckets[i] = insert_bucket(&mut self.groups.0, i, hash);
        }
        self.growth_left = 9 * count - len;
    }
}
/// A set's keys, whose indices are proved to be in range.
#[repr(transparent)]
pub struct Keys<T>([T]);
impl<T> std::ops::Deref for Keys<T> {
    type Target = [T];
    #[inline(always)]
    fn deref(&self) -> &[T] { &self.0 }
}
impl<T> std::ops::Index<usize> for Keys<T> {
    type Output = T;
    #[inline(always)]
    fn index(&self, i: usize) -> &T {
        #[cfg(not(plain))]
        return &self.0[i];
        #[cfg(plain)]
        unsafe { self.0.get_unchecked(i) }
    }
}
/// A map by few keys.
pub struct IndexMap<K, V> { pairs: std::vec::Vec<(K, V)> }
impl<V> IndexMap<Vec<u8>, V> {
    pub fn new(_: Global) -> Self { IndexMap { pairs: std::vec::Vec::new() } }
    pub fn get(&self, key: &[u8]) -> Option<&V> { self.pairs.iter().find(|(k, _)| k.as_slice() == key).map(|(_, v)| v) }
    pub fn insert(&mut self, key: Vec<u8>, value: V) -> Result<Option<V>, AllocFailed<()>> {
        match self.pairs.iter_mut().find(|(k, _)| k.as_slice() == key.as_slice()) {
            Some((_, v)) => Ok(Some(std::mem::replace(v, value))),
            None => { self.pairs.push((key, value)); Ok(None) }
        }
    }
}
