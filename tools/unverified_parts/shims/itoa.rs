//! The kit's itoa: the same steps.
static PAIRS: [u8; 200] =
    *b"00010203040506070809101112131415161718192021222324252627282930313233343536373839404142434445464748495051525354555657585960616263646566676869707172737475767778798081828384858687888990919293949596979899";
#[inline(always)]
fn at(buf: &mut [u8], i: usize) -> &mut u8 { unsafe { buf.get_unchecked_mut(i) } }
#[inline(always)]
fn write_pair(pair: u64, buf: &mut [u8], to: usize) {
    let from = pair as usize * 2;
    let (tens, ones) = unsafe { (*PAIRS.get_unchecked(from), *PAIRS.get_unchecked(from + 1)) };
    *at(buf, to) = tens;
    *at(buf, to + 1) = ones;
}
#[inline]
pub fn write_digits(n: u64, buf: &mut [u8], end: usize) -> usize {
    let mut left = n;
    let mut to = end;
    while left >= 10_000 {
        let four = left % 10_000;
        left /= 10_000;
        write_pair(four % 100, buf, to - 2);
        write_pair(four / 100, buf, to - 4);
        to -= 4;
    }
    write_short(left, buf, to)
}
#[inline(always)]
fn write_short(n: u64, buf: &mut [u8], end: usize) -> usize {
    if n < 100 {
        return write_first(n, buf, end);
    }
    write_pair(n % 100, buf, end - 2);
    write_first(n / 100, buf, end - 2)
}
#[inline(always)]
fn write_first(n: u64, buf: &mut [u8], end: usize) -> usize {
    if n < 10 {
        *at(buf, end - 1) = b'0' + n as u8;
        return end - 1;
    }
    write_pair(n, buf, end - 2);
    end - 2
}
pub trait Integer { fn write(self, buf: &mut [u8; 40]) -> usize; }
macro_rules! unsigned { ($($t:ty),*) => { $( impl Integer for $t { #[inline(always)] fn write(self, buf: &mut [u8; 40]) -> usize { write_digits(self as u64, buf, 40) } } )* } }
unsigned!(u8, u16, u32, u64, usize);
#[derive(Clone, Copy)]
pub struct Buffer { bytes: [u8; 40] }
impl Buffer {
    #[inline]
    pub fn new() -> Buffer { Buffer { bytes: [0; 40] } }
    #[inline]
    pub fn format<I: Integer>(&mut self, n: I) -> &str {
        let start = n.write(&mut self.bytes);
        unsafe { std::str::from_utf8_unchecked(self.bytes.get_unchecked(start..)) }
    }
}
