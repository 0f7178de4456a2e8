//! Fields of a byte layout: numbers, parts of a slice, texts. A read past the end leaves out what
//! is not there, and a write past the end what does not fit.

// ---- parts of a slice

pub fn first(s: &[u8], n: usize) -> &[u8] {
    s.get(..n).unwrap_or(s)
}

pub fn rest(s: &[u8], n: usize) -> &[u8] {
    s.get(n..).unwrap_or(&[])
}

pub fn part(s: &[u8], at: usize, n: usize) -> &[u8] {
    first(rest(s, at), n)
}

// ---- numbers

fn be(s: &[u8], at: usize, n: usize) -> u64 {
    part(s, at, n)
        .iter()
        .fold(0, |v, &byte| v * 256 + u64::from(byte))
}

pub fn be8(s: &[u8], at: usize) -> u8 {
    be(s, at, 1) as u8
}

pub fn be16(s: &[u8], at: usize) -> u16 {
    be(s, at, 2) as u16
}

pub fn be32(s: &[u8], at: usize) -> u32 {
    be(s, at, 4) as u32
}

pub fn be64(s: &[u8], at: usize) -> u64 {
    be(s, at, 8)
}

pub fn put16(v: u16, at: usize, out: &mut [u8]) {
    put(&v.to_be_bytes(), at, out);
}

pub fn put32(v: u32, at: usize, out: &mut [u8]) {
    put(&v.to_be_bytes(), at, out);
}

pub fn put64(v: u64, at: usize, out: &mut [u8]) {
    put(&v.to_be_bytes(), at, out);
}

// ---- bytes into a buffer

pub fn put(src: &[u8], at: usize, out: &mut [u8]) {
    let room = out.get_mut(at..).unwrap_or_default();
    let n = src.len().min(room.len());
    room[..n].copy_from_slice(&src[..n]);
}

pub fn sized<const N: usize>(s: &[u8]) -> [u8; N] {
    let mut a = [0; N];
    put(s, 0, &mut a);
    a
}

// ---- texts

/// The bytes of a text are below this, and none is 0.
const TEXT_LIMIT: u8 = 128;

pub fn is_text(t: &[u8]) -> bool {
    t.iter().all(|&b| b != 0 && b < TEXT_LIMIT)
}

pub fn text_len(s: &[u8]) -> usize {
    s.iter().position(|&b| b == 0).unwrap_or(s.len())
}

pub fn text_of(s: &[u8]) -> &[u8] {
    first(s, text_len(s))
}

pub fn past_text(s: &[u8]) -> &[u8] {
    rest(s, text_len(s) + 1)
}

pub fn all_zero(s: &[u8]) -> bool {
    s.iter().all(|&b| b == 0)
}

pub struct TextField {
    pub ok: bool,
    pub len: usize,
    pub clean: bool,
}

pub fn read_field(f: &[u8]) -> TextField {
    for (i, &b) in f.iter().enumerate() {
        if b == 0 {
            return TextField {
                ok: true,
                len: i,
                clean: all_zero(rest(f, i + 1)),
            };
        }
        if TEXT_LIMIT <= b {
            return TextField {
                ok: false,
                len: 0,
                clean: false,
            };
        }
    }
    TextField {
        ok: true,
        len: f.len(),
        clean: true,
    }
}

// ---- the answer of a check

#[derive(Clone, Copy)]
pub struct Checked {
    pub number: u8,
    pub clean: bool,
}

/// A refusal has no mark.
pub fn refusal(number: u8) -> Checked {
    Checked {
        number,
        clean: false,
    }
}

pub fn accepted(clean: bool) -> Checked {
    Checked { number: 0, clean }
}

pub fn put_text12(t: &[u8], at: usize, out: &mut [u8]) {
    put(&sized::<12>(t), at, out);
}

pub fn put_text20(t: &[u8], at: usize, out: &mut [u8]) {
    put(&sized::<20>(t), at, out);
}

#[cfg(test)]
mod tests {
    use super::*;

    #[test]
    fn numbers_past_the_end() {
        assert_eq!(be64(&[1, 2, 3], 1), 0x0203);
        assert_eq!(be32(&[1, 2, 3], 4), 0);
        assert_eq!(be16(&[1, 2, 3], 1), 0x0203);
    }

    #[test]
    fn text_fields() {
        let read = |f: &[u8]| {
            let TextField { ok, len, clean } = read_field(f);
            (ok, len, clean)
        };
        assert_eq!(read(b"Arm\0\0"), (true, 3, true));
        assert_eq!(read(b"\0\0"), (true, 0, true));
        assert_eq!(read(b"full"), (true, 4, true));
        assert_eq!(read(b""), (true, 0, true));
        assert_eq!(read(b"Arm\0a"), (true, 3, false));
        assert_eq!(read(b"\0\x80"), (true, 0, false));
        assert_eq!(read(b"\x7F\0"), (true, 1, true));
        assert_eq!(read(b"\x80\0"), (false, 0, false));
        assert_eq!(read(b"Arm\x80"), (false, 0, false));
    }

    #[test]
    fn writes_past_the_end() {
        let mut out = [9; 4];
        put16(0x0102, 3, &mut out);
        put16(0x0304, 5, &mut out);
        assert_eq!(out, [9, 9, 9, 1]);
    }
}
