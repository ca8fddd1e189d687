//! The kit's slab: the same steps.
use rt_std::Vec;
use rt_std::alloc::{AllocError, Global};
pub struct Slab<T> { entries: Vec<Entry<T>>, len: usize, next: usize }
enum Entry<T> { Vacant(usize), Occupied(T) }
impl<T: Clone> Slab<T> {
    pub fn clone(&self) -> Result<Self, AllocError> {
        Ok(Slab {
            entries: Vec(self.entries.0.iter().map(|e| match e { Entry::Vacant(n) => Entry::Vacant(*n), Entry::Occupied(v) => Entry::Occupied(v.clone()) }).collect()),
            len: self.len,
            next: self.next,
        })
    }
}
impl<T> Slab<T> {
    #[inline(always)]
    pub fn new(alloc: Global) -> Self { Slab { entries: Vec::new(alloc), len: 0, next: 0 } }
    #[inline(always)]
    pub fn capacity(&self) -> usize { self.entries.capacity() }
    #[inline(always)]
    pub fn len(&self) -> usize { self.len }
    #[inline(always)]
    pub fn reserve(&mut self, additional: usize) -> Result<(), AllocError> {
        if self.entries.capacity() - self.len >= additional {
            return Ok(());
        }
        let need = additional - (self.entries.len() - self.len);
        self.entries.reserve(need)
    }
    #[inline(always)]
    pub fn get(&self, key: usize) -> Option<&T> {
        match self.entries.get(key) {
            Some(Entry::Occupied(value)) => Some(value),
            _ => None,
        }
    }
    #[inline(always)]
    pub fn insert_reserved(&mut self, value: T) -> usize {
        let key = self.next;
        self.len += 1;
        if key == self.entries.len() {
            self.entries.push_reserved(Entry::Occupied(value));
            self.next = key + 1;
            return key;
        }
        match std::mem::replace(&mut self.entries[key], Entry::Occupied(value)) {
            Entry::Vacant(next) => self.next = next,
            Entry::Occupied(_) => rt_std::not_reached(),
        }
        key
    }
    #[inline(always)]
    pub fn remove(&mut self, key: usize) -> T {
        let old = std::mem::replace(&mut self.entries[key], Entry::Vacant(self.next));
        self.len -= 1;
        self.next = key;
        match old {
            Entry::Occupied(value) => value,
            Entry::Vacant(_) => rt_std::not_reached(),
        }
    }
    #[inline(always)]
    pub fn contains(&self, key: usize) -> bool { self.get(key).is_some() }
}
impl<T> std::ops::Index<usize> for Slab<T> {
    type Output = T;
    #[inline(always)]
    fn index(&self, key: usize) -> &T {
        match &self.entries[key] {
            Entry::Occupied(value) => value,
            Entry::Vacant(_) => rt_std::not_reached(),
        }
    }
}
impl<T> std::ops::IndexMut<usize> for Slab<T> {
    #[inline(always)]
    fn index_mut(&mut self, key: usize) -> &mut T {
        match &mut self.entries[key] {
            Entry::Occupied(value) => value,
            Entry::Vacant(_) => rt_std::not_reached(),
        }
    }
}
