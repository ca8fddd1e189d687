//! Rattle's std over Rust's: the same names, fallible in type, never failing.
#![allow(clippy::all)]
pub use ::std::{any, array, borrow, char, clone, cmp, convert, default, error, fmt, hash, iter, marker, mem, num, ops, option, primitive, ptr, result, slice, str};
pub use ::std::{matches, debug_assert, assert, panic, write, concat, println, eprintln};
pub use ::std::time;

pub mod alloc {
    #[derive(Clone, Copy, Debug, PartialEq, Eq)]
    pub struct AllocError;
    #[derive(Clone, Copy, Debug, PartialEq, Eq)]
    pub struct AllocFailed<T> { pub value: T }
    #[derive(Clone, Copy, Debug)]
    pub struct Global;
    pub trait Allocator {}
    impl Allocator for Global {}
    impl<T> From<AllocFailed<T>> for AllocError {
        #[inline(always)]
        fn from(_: AllocFailed<T>) -> Self { AllocError }
    }
}
use alloc::{AllocError, AllocFailed, Global};

pub struct Box<T, A = Global>(::std::boxed::Box<T>, A);

impl<T, A> Box<T, A> {
    #[inline(always)]
    pub fn new(alloc: A, value: T) -> Result<Self, AllocFailed<T>> { Ok(Box(::std::boxed::Box::new(value), alloc)) }
    #[inline(always)]
    pub fn into_raw_with_allocator(it: Self) -> (*mut T, A) { (::std::boxed::Box::into_raw(it.0), it.1) }
    /// # Safety
    /// The pointer is that of a box.
    #[inline(always)]
    pub unsafe fn from_raw(alloc: A, at: *mut T) -> Self { Box(unsafe { ::std::boxed::Box::from_raw(at) }, alloc) }
}
impl<T, A> ops::Deref for Box<T, A> {
    type Target = T;
    #[inline(always)]
    fn deref(&self) -> &T { &self.0 }
}
impl<T, A> ops::DerefMut for Box<T, A> {
    #[inline(always)]
    fn deref_mut(&mut self) -> &mut T { &mut self.0 }
}

/// A vector, whose indices are proved to be in range: with `--cfg plain` they are not checked again.
#[derive(Debug, PartialEq, Eq, PartialOrd, Ord, Hash)]
#[repr(transparent)]
pub struct Vec<T>(pub ::std::vec::Vec<T>);

impl<T> Vec<T> {
    #[inline(always)]
    pub fn new(_: Global) -> Self { Vec(::std::vec::Vec::new()) }
    #[inline(always)]
    pub fn with_capacity(_: Global, n: usize) -> Result<Self, AllocError> { Ok(Vec(::std::vec::Vec::with_capacity(n))) }
    #[inline(always)]
    pub fn push(&mut self, x: T) -> Result<(), AllocFailed<T>> { self.0.push(x); Ok(()) }
    #[inline(always)]
    pub fn push_reserved(&mut self, x: T) {
        #[cfg(not(plain))]
        assert!(self.0.len() < self.0.capacity());
        unsafe {
            let n = self.0.len();
            self.0.as_mut_ptr().add(n).write(x);
            self.0.set_len(n + 1);
        }
    }
    #[inline(always)]
    pub fn reserve(&mut self, n: usize) -> Result<(), AllocError> { self.0.reserve(n); Ok(()) }
    #[inline(always)]
    pub fn reserve_exact(&mut self, n: usize) -> Result<(), AllocError> { self.0.reserve_exact(n); Ok(()) }
    #[inline(always)]
    pub fn as_slice(&self) -> &[T] { &self.0 }
    #[inline(always)]
    pub fn as_mut_slice(&mut self) -> &mut [T] { &mut self.0 }
    #[inline(always)]
    pub fn len(&self) -> usize { self.0.len() }
    #[inline(always)]
    pub fn capacity(&self) -> usize { self.0.capacity() }
    #[inline(always)]
    pub fn truncate(&mut self, n: usize) { self.0.truncate(n) }
    #[inline(always)]
    pub fn clear(&mut self) { self.0.clear() }
    #[inline(always)]
    pub fn pop(&mut self) -> Option<T> { self.0.pop() }
    #[inline(always)]
    pub fn take_last(&mut self) -> T {
        #[cfg(not(plain))]
        return self.0.pop().unwrap();
        #[cfg(plain)]
        unsafe { self.0.pop().unwrap_unchecked() }
    }
    #[inline(always)]
    pub fn swap_remove(&mut self, i: usize) -> T { self.0.swap_remove(i) }
    #[inline(always)]
    pub fn remove(&mut self, i: usize) -> T { self.0.remove(i) }
    #[inline(always)]
    pub fn insert(&mut self, i: usize, x: T) -> Result<(), AllocFailed<T>> { self.0.insert(i, x); Ok(()) }
    #[inline(always)]
    pub fn insert_reserved(&mut self, i: usize, x: T) { self.0.insert(i, x) }
    #[inline(always)]
    pub fn append(&mut self, other: &mut Self) -> Result<(), AllocError> { self.0.append(&mut other.0); Ok(()) }
    #[inline(always)]
    pub fn extend_from_slice(&mut self, more: &[T]) -> Result<(), AllocError> where T: Clone { self.0.extend_from_slice(more); Ok(()) }
    #[inline(always)]
    pub fn allocator(&self) -> &Global { &Global }
    #[inline(always)]
    pub fn from_slice(_: Global, xs: &[T]) -> Result<Self, AllocError> where T: Copy { Ok(Vec(xs.into())) }
    #[inline(always)]
    pub fn from_array<const N: usize>(_: Global, xs: [T; N]) -> Result<Self, AllocError> { Ok(Vec(xs.into())) }
    #[inline(always)]
    pub fn clone(&self) -> Result<Self, AllocError> where T: Clone { Ok(Vec(self.0.clone())) }
    #[inline(always)]
    pub fn resize(&mut self, n: usize, x: T) -> Result<(), AllocError> where T: Clone { self.0.resize(n, x); Ok(()) }
    #[inline(always)]
    pub fn sort_unstable(&mut self) where T: Ord { self.0.sort_unstable() }
}
impl<T> ops::Deref for Vec<T> {
    type Target = [T];
    #[inline(always)]
    fn deref(&self) -> &[T] { &self.0 }
}
impl<T> ops::DerefMut for Vec<T> {
    #[inline(always)]
    fn deref_mut(&mut self) -> &mut [T] { &mut self.0 }
}
impl<T> ops::Index<usize> for Vec<T> {
    type Output = T;
    #[inline(always)]
    fn index(&self, i: usize) -> &T {
        #[cfg(not(plain))]
        return &self.0[i];
        #[cfg(plain)]
        unsafe { self.0.get_unchecked(i) }
    }
}
impl<T> ops::IndexMut<usize> for Vec<T> {
    #[inline(always)]
    fn index_mut(&mut self, i: usize) -> &mut T {
        #[cfg(not(plain))]
        return &mut self.0[i];
        #[cfg(plain)]
        unsafe { self.0.get_unchecked_mut(i) }
    }
}
macro_rules! ranges { ($($r:ty),*) => { $(
    impl<T> ops::Index<$r> for Vec<T> {
        type Output = [T];
        #[inline(always)]
        fn index(&self, i: $r) -> &[T] { &self.0[i] }
    }
)* } }
ranges!(ops::Range<usize>, ops::RangeFrom<usize>, ops::RangeTo<usize>, ops::RangeFull);
impl<T> IntoIterator for Vec<T> {
    type Item = T;
    type IntoIter = ::std::vec::IntoIter<T>;
    #[inline(always)]
    fn into_iter(self) -> Self::IntoIter { self.0.into_iter() }
}
impl<'a, T> IntoIterator for &'a Vec<T> {
    type Item = &'a T;
    type IntoIter = slice::Iter<'a, T>;
    #[inline(always)]
    fn into_iter(self) -> Self::IntoIter { self.0.iter() }
}
impl<'a, T> IntoIterator for &'a mut Vec<T> {
    type Item = &'a mut T;
    type IntoIter = slice::IterMut<'a, T>;
    #[inline(always)]
    fn into_iter(self) -> Self::IntoIter { self.0.iter_mut() }
}

/// What slices have of the allocator's.
pub trait Slices<T> {
    fn to_vec_in(&self, alloc: Global) -> Result<Vec<T>, AllocError> where T: Clone;
}
impl<T> Slices<T> for [T] {
    #[inline(always)]
    fn to_vec_in(&self, _: Global) -> Result<Vec<T>, AllocError> where T: Clone { Ok(Vec(::std::vec::Vec::from(self))) }
}

pub trait Texts {
    fn as_text(&self) -> &str;
    fn to_string(&self, alloc: Global) -> Result<String, AllocError>;
}
impl Texts for str {
    #[inline(always)]
    fn as_text(&self) -> &str { self }
    fn to_string(&self, alloc: Global) -> Result<String, AllocError> { String::from_str(alloc, self) }
}
/// A text.
#[derive(Debug, PartialEq, Eq, PartialOrd, Ord, Hash)]
pub struct String(pub ::std::string::String);
impl String {
    #[inline(always)]
    pub fn new(_: Global) -> Self { String(::std::string::String::new()) }
    #[inline(always)]
    pub fn from_str(_: Global, text: &str) -> Result<Self, AllocError> { Ok(String(text.into())) }
    #[inline(always)]
    pub fn push_str(&mut self, text: &str) -> Result<(), AllocError> { self.0.push_str(text); Ok(()) }
    #[inline(always)]
    pub fn into_bytes(self) -> Vec<u8> { Vec(self.0.into_bytes()) }
}
impl PartialEq<str> for String {
    fn eq(&self, other: &str) -> bool { self.0 == other }
}
impl PartialEq<&str> for String {
    fn eq(&self, other: &&str) -> bool { self.0 == *other }
}
impl ops::Deref for String {
    type Target = str;
    #[inline(always)]
    fn deref(&self) -> &str { &self.0 }
}

pub mod collections {
    use super::alloc::*;
    use ::std::collections as std_collections;
    #[derive(Debug, PartialEq, Eq)]
    pub struct BTreeSet<T>(std_collections::BTreeSet<T>);
    impl<T: Ord> BTreeSet<T> {
        pub fn new(_: Global) -> Self { BTreeSet(std_collections::BTreeSet::new()) }
        pub fn insert(&mut self, x: T) -> Result<bool, AllocFailed<T>> { Ok(self.0.insert(x)) }
        pub fn iter(&self) -> std_collections::btree_set::Iter<'_, T> { self.0.iter() }
        pub fn len(&self) -> usize { self.0.len() }
        pub fn contains(&self, x: &T) -> bool { self.0.contains(x) }
    }
    impl<'a, T> IntoIterator for &'a BTreeSet<T> {
        type Item = &'a T;
        type IntoIter = std_collections::btree_set::Iter<'a, T>;
        fn into_iter(self) -> Self::IntoIter { self.0.iter() }
    }
    impl<T> IntoIterator for BTreeSet<T> {
        type Item = T;
        type IntoIter = std_collections::btree_set::IntoIter<T>;
        fn into_iter(self) -> Self::IntoIter { self.0.into_iter() }
    }
    #[derive(Debug, PartialEq, Eq)]
    pub struct VecDeque<T>(std_collections::VecDeque<T>);
    impl<T> VecDeque<T> {
        #[inline(always)]
        pub fn new(_: Global) -> Self { VecDeque(std_collections::VecDeque::new()) }
        #[inline(always)]
        pub fn reserve(&mut self, n: usize) -> Result<(), AllocError> { self.0.reserve(n); Ok(()) }
        #[inline(always)]
        pub fn insert(&mut self, i: usize, x: T) -> Result<(), AllocFailed<T>> { self.0.insert(i, x); Ok(()) }
        #[inline(always)]
        pub fn remove(&mut self, i: usize) -> Option<T> { self.0.remove(i) }
        #[inline(always)]
        pub fn pop_front(&mut self) -> Option<T> { self.0.pop_front() }
        #[inline(always)]
        pub fn push_front_reserved(&mut self, x: T) { self.0.push_front(x) }
        pub fn clear(&mut self) { self.0.clear() }
        #[inline(always)]
        pub fn back(&self) -> Option<&T> { self.0.back() }
        #[inline(always)]
        pub fn is_empty(&self) -> bool { self.0.is_empty() }
        #[inline(always)]
        pub fn iter(&self) -> std_collections::vec_deque::Iter<'_, T> { self.0.iter() }
        #[inline(always)]
        pub fn get(&self, i: usize) -> Option<&T> { self.0.get(i) }
        #[inline(always)]
        pub fn len(&self) -> usize { self.0.len() }
        #[inline(always)]
        pub fn capacity(&self) -> usize { self.0.capacity() }
    }
    impl<T> ::std::ops::Index<usize> for VecDeque<T> {
        type Output = T;
        #[inline(always)]
        fn index(&self, i: usize) -> &T { &self.0[i] }
    }
    #[derive(Debug, PartialEq, Eq)]
    pub struct BTreeMap<K, V>(std_collections::BTreeMap<K, V>);
    impl<K: Ord, V> BTreeMap<K, V> {
        pub fn new(_: Global) -> Self { BTreeMap(std_collections::BTreeMap::new()) }
        pub fn insert(&mut self, k: K, v: V) -> Result<Option<V>, AllocFailed<(K, V)>> { Ok(self.0.insert(k, v)) }
        pub fn get(&self, k: &K) -> Option<&V> { self.0.get(k) }
        pub fn contains_key(&self, k: &K) -> bool { self.0.contains_key(k) }
        pub fn len(&self) -> usize { self.0.len() }
        pub fn iter(&self) -> std_collections::btree_map::Iter<'_, K, V> { self.0.iter() }
        pub fn remove(&mut self, k: &K) -> Option<V> { self.0.remove(k) }
    }
    impl<K: Clone, V: Clone> BTreeMap<K, V> {
        pub fn clone(&self) -> Result<Self, AllocError> { Ok(BTreeMap(self.0.clone())) }
    }
}

#[macro_export]
macro_rules! format {
    (in $alloc:expr; $($rest:tt)*) => { { let _ = $alloc; $crate::formatted(::core::format_args!($($rest)*)) } };
}
#[inline(always)]
pub fn formatted(args: fmt::Arguments<'_>) -> Result<String, AllocError> { Ok(String(::std::fmt::format(args))) }
#[macro_export]
macro_rules! vec {
    (in $alloc:expr; $x:expr; $n:expr) => { { let _ = $alloc; $crate::repeated($x, $n) } };
    (in $alloc:expr; $($x:expr),* $(,)?) => { $crate::Vec::from_array($alloc, [$($x),*]) };
    (in $alloc:expr) => { $crate::Vec::from_array($alloc, []) };
}
#[inline(always)]
pub fn repeated<T: Clone>(x: T, n: usize) -> Result<Vec<T>, AllocError> { Ok(Vec(::std::vec![x; n])) }
/// What is proved not to be reached.
#[macro_export]
macro_rules! unreachable {
    ($($rest:tt)*) => { $crate::not_reached() };
}
#[inline(always)]
pub fn not_reached() -> ! {
    #[cfg(not(plain))]
    ::std::process::abort();
    #[cfg(plain)]
    unsafe { ::core::hint::unreachable_unchecked() }
}
#[macro_export]
macro_rules! prove { ($($rest:tt)*) => {}; }

/// The system, as a program reaches it.
#[derive(Debug)]
pub struct HostRuntime;
impl HostRuntime {
    pub fn alloc(&self) -> Global { Global }
    pub fn clone(&self) -> Result<HostRuntime, AllocError> { Ok(HostRuntime) }
    pub fn stdin(&self) -> io::Descriptor { io::Descriptor(0) }
    pub fn stdout(&self) -> io::Descriptor { io::Descriptor(1) }
    pub fn stderr(&self) -> io::Descriptor { io::Descriptor(2) }
}
pub mod rt {
    /// Files that can be opened.
    pub trait Files {
        type File: ::std::io::Read;
        fn opened(&self, path: &str) -> ::std::io::Result<Self::File>;
    }
    impl Files for super::HostRuntime {
        type File = ::std::fs::File;
        fn opened(&self, path: &str) -> ::std::io::Result<Self::File> { ::std::fs::File::open(path) }
    }
}
pub mod fs {
    use super::rt::Files;
    pub fn open<R: Files>(files: &R, path: &str) -> ::std::io::Result<R::File> { files.opened(path) }
}
pub mod env {
    use super::alloc::{AllocError, Global};
    use super::{HostRuntime, String, Vec};
    /// The words of the command line.
    pub struct Args(::std::vec::IntoIter<String>);
    /// Fails where a word is no text.
    pub fn args(_: &HostRuntime) -> ::std::io::Result<Args> {
        let mut words = ::std::vec::Vec::new();
        for word in ::std::env::args_os() {
            match word.into_string() {
                Ok(word) => words.push(String(word)),
                Err(_) => return Err(::std::io::Error::from(::std::io::ErrorKind::InvalidData)),
            }
        }
        Ok(Args(words.into_iter()))
    }
    impl Args {
        pub fn next(&mut self) -> Option<String> { self.0.next() }
        pub fn skip(mut self, count: usize) -> Args {
            for _ in 0..count {
                self.0.next();
            }
            self
        }
        pub fn collect<C: From<Vec<String>>>(self, _: Global) -> Result<C, AllocError> { Ok(C::from(Vec(self.0.collect()))) }
    }
}
pub mod io {
    pub use ::std::io::*;
    use super::HostRuntime;
    use ::std::fs::File;
    use ::std::mem::ManuallyDrop;
    use ::std::os::fd::FromRawFd;
    /// Standard input, output or error: each call is one call of the system, with nothing kept back.
    #[derive(Debug)]
    pub struct Descriptor(pub(crate) i32);
    impl Descriptor {
        fn file(&self) -> ManuallyDrop<File> { ManuallyDrop::new(unsafe { File::from_raw_fd(self.0) }) }
    }
    impl Read for Descriptor {
        fn read(&mut self, buf: &mut [u8]) -> Result<usize> {
            loop {
                match self.file().read(buf) {
                    Err(error) if error.kind() == ErrorKind::Interrupted => {}
                    other => return other,
                }
            }
        }
    }
    impl Write for Descriptor {
        fn write(&mut self, piece: &[u8]) -> Result<usize> {
            loop {
                match self.file().write(piece) {
                    Err(error) if error.kind() == ErrorKind::Interrupted => {}
                    other => return other,
                }
            }
        }
        fn flush(&mut self) -> Result<()> { Ok(()) }
    }
    pub fn writer(rt: &HostRuntime) -> Descriptor { rt.stdout() }
    /// Who writes lines on standard error.
    pub trait Eprint {
        fn eprintln(&self, line: ::std::fmt::Arguments<'_>) -> Result<()>;
    }
    impl Eprint for HostRuntime {
        fn eprintln(&self, line: ::std::fmt::Arguments<'_>) -> Result<()> { self.stderr().write_all(::std::format!("{line}\n").as_bytes()) }
    }
}
pub mod process {
    pub use ::std::process::ExitCode;
    /// How a program ends.
    pub trait Termination {
        fn report<R: super::io::Eprint>(self, rt: &R) -> ExitCode;
    }
    impl Termination for ExitCode {
        fn report<R: super::io::Eprint>(self, _: &R) -> ExitCode { self }
    }
}
/// Runs what a program calls its `main`.
pub fn start<T: process::Termination>(main: fn(HostRuntime) -> T) -> process::ExitCode { main(HostRuntime).report(&HostRuntime) }

pub mod prelude {
    pub mod lab {
        pub use crate::{Box, HostRuntime, Slices, Texts, String, Vec};
    }
}
