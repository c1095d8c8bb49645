//! Pictures to look at: .png with 8 bits a colour.

use std::io::{self, Write};

/// Red, green and blue of each sample, row by row.
#[derive(Clone, Debug, PartialEq)]
pub struct Image {
    pub w: usize,
    pub h: usize,
    pub rgb: Vec<[u8; 3]>,
}

pub fn write(out: &mut impl Write, image: &Image) -> io::Result<()> {
    out.write_all(b"\x89PNG\r\n\x1a\n")?;
    let [w, h] = [image.w, image.h].map(|side| (side as u32).to_be_bytes());
    chunk(out, b"IHDR", &[&w[..], &h, &[8, 2, 0, 0, 0]].concat())?;
    chunk(out, b"IDAT", &zlib(&filtered(image)))?;
    chunk(out, b"IEND", &[])
}

fn chunk(out: &mut impl Write, name: &[u8; 4], data: &[u8]) -> io::Result<()> {
    out.write_all(&(data.len() as u32).to_be_bytes())?;
    out.write_all(name)?;
    out.write_all(data)?;
    let mut crc = !0u32;
    for byte in name.iter().chain(data) {
        crc ^= u32::from(*byte);
        for _ in 0..8 {
            crc = crc >> 1 ^ if crc & 1 == 1 { 0xedb8_8320 } else { 0 };
        }
    }
    out.write_all(&(!crc).to_be_bytes())
}

/// Rows as differences, each by the filter with the least of them: from the left, from above, from
/// what both promise (Paeth).
fn filtered(image: &Image) -> Vec<u8> {
    let mut rows = Vec::new();
    let zeros = vec![0; 3 * image.w];
    let mut above = zeros.clone();
    for row in image.rgb.chunks(image.w) {
        let row = row.as_flattened();
        let by = |promised: fn(u8, u8, u8) -> u8| -> Vec<u8> {
            let left = |k: usize, of: &[u8]| if k < 3 { 0 } else { of[k - 3] };
            let promised = |k| promised(left(k, row), above[k], left(k, &above));
            (0..row.len())
                .map(|k| row[k].wrapping_sub(promised(k)))
                .collect()
        };
        let tried = [(1, by(|a, _, _| a)), (2, by(|_, b, _| b)), (4, by(paeth))];
        let size = |row: &Vec<u8>| -> u64 {
            row.iter()
                .map(|n| u64::from((*n as i8).unsigned_abs()))
                .sum()
        };
        if let Some((kind, least)) = tried.into_iter().min_by_key(|(_, row)| size(row)) {
            rows.push(kind);
            rows.extend(least);
        }
        above = row.to_vec();
    }
    rows
}

fn paeth(a: u8, b: u8, c: u8) -> u8 {
    let [x, y, z] = [a, b, c].map(i32::from);
    let far = |n: i32| (x + y - z - n).abs();
    if far(x) <= far(y) && far(x) <= far(z) {
        a
    } else if far(y) <= far(z) {
        b
    } else {
        c
    }
}

/// Differences packed by deflate (RFC 1950 and 1951).
fn zlib(data: &[u8]) -> Vec<u8> {
    let mut bits = Bits {
        bytes: vec![0x78, 0x9c],
        ..Bits::default()
    };
    let mut tokens = Tokens::new(data);
    loop {
        let block: Vec<Token> = tokens.by_ref().take(1 << 15).collect();
        let is_last = tokens.at == data.len();
        bits.put(u32::from(is_last), 1);
        bits.put(2, 2); // with codes of its own
        put_block(&block, &mut bits);
        if is_last {
            break;
        }
    }
    bits.put(0, 7); // to a whole byte
    let (mut a, mut b) = (1u32, 0u32);
    for byte in data {
        a = (a + u32::from(*byte)) % 65521;
        b = (b + a) % 65521;
    }
    bits.bytes.extend((b << 16 | a).to_be_bytes());
    bits.bytes
}

/// Bits from the lowest on.
#[derive(Default)]
struct Bits {
    bytes: Vec<u8>,
    waiting: u64,
    count: u32,
}

impl Bits {
    fn put(&mut self, value: u32, bits: u32) {
        self.waiting |= u64::from(value) << self.count;
        self.count += bits;
        while self.count >= 8 {
            self.bytes.push(self.waiting as u8);
            self.waiting >>= 8;
            self.count -= 8;
        }
    }
}

/// A byte, or bytes that stood some way before.
#[derive(Clone, Copy)]
enum Token {
    Byte(u8),
    Again { length: u16, distance: u16 },
}

const SHORTEST: usize = 3;
const LONGEST: usize = 258;
const FARTHEST: usize = 32768;
const HASHES: usize = 1 << 15;
const TRIED: usize = 16;

struct Tokens<'a> {
    data: &'a [u8],
    at: usize,
    /// The last place with a hash, and before each place the one with the same; the last 32,768 places count.
    last: Vec<Option<usize>>,
    before: Vec<Option<usize>>,
}

impl Tokens<'_> {
    fn new(data: &[u8]) -> Tokens<'_> {
        Tokens {
            data,
            at: 0,
            last: vec![None; HASHES],
            before: vec![None; FARTHEST],
        }
    }

    fn hash(&self, at: usize) -> Option<usize> {
        let [a, b, c] = self.data.get(at..at + SHORTEST)?.try_into().ok()?;
        Some((usize::from(a) << 10 ^ usize::from(b) << 5 ^ usize::from(c)) % HASHES)
    }

    /// The longest run that stood before, with its distance; none of less than three bytes.
    fn run(&self) -> Option<(usize, usize)> {
        let (at, data) = (self.at, self.data);
        let longest = LONGEST.min(data.len() - at);
        let newest = self.last[self.hash(at)?];
        let places = std::iter::successors(newest, |from| {
            self.before[from % FARTHEST].filter(|before| before < from)
        });
        let near = places.take_while(|from| at - from <= FARTHEST);
        let runs = near.take(TRIED).map(|from| {
            let same = |k: &usize| data[from + k] == data[at + k];
            ((0..longest).take_while(same).count(), at - from)
        });
        let longer = |a: &(usize, usize), b: &(usize, usize)| a.0.cmp(&b.0).then(b.1.cmp(&a.1));
        runs.max_by(longer)
            .filter(|(length, _)| *length >= SHORTEST)
    }
}

impl Iterator for Tokens<'_> {
    type Item = Token;

    fn next(&mut self) -> Option<Token> {
        let byte = *self.data.get(self.at)?;
        let (token, length) = match self.run() {
            None => (Token::Byte(byte), 1),
            Some((length, distance)) => {
                let [length16, distance] = [length, distance].map(|n| n as u16);
                (
                    Token::Again {
                        length: length16,
                        distance,
                    },
                    length,
                )
            }
        };
        for at in self.at..self.at + length {
            if let Some(hash) = self.hash(at) {
                self.before[at % FARTHEST] = self.last[hash].replace(at);
            }
        }
        self.at += length;
        Some(token)
    }
}

const LENGTHS: [u16; 29] = [
    3, 4, 5, 6, 7, 8, 9, 10, 11, 13, 15, 17, 19, 23, 27, 31, 35, 43, 51, 59, 67, 83, 99, 115, 131,
    163, 195, 227, 258,
];
const DISTANCES: [u16; 30] = [
    1, 2, 3, 4, 5, 7, 9, 13, 17, 25, 33, 49, 65, 97, 129, 193, 257, 385, 513, 769, 1025, 1537,
    2049, 3073, 4097, 6145, 8193, 12289, 16385, 24577,
];
const END: usize = 256;
const SYMBOLS: usize = END + 1 + LENGTHS.len();

/// The symbol of a number, and what is left with its bits: one more for every `per` symbols.
fn symbol(firsts: &[u16], per: usize, n: u16) -> (usize, u32, u32) {
    let k = firsts.partition_point(|first| *first <= n) - 1;
    let is_alone = k < 2 * per || usize::from(n) == LONGEST && per == 4;
    let bits = if is_alone { 0 } else { k / per - 1 };
    (k, u32::from(n - firsts[k]), bits as u32)
}

fn length_symbol(length: u16) -> (usize, u32, u32) {
    let (k, rest, bits) = symbol(&LENGTHS, 4, length);
    (END + 1 + k, rest, bits)
}

fn distance_symbol(distance: u16) -> (usize, u32, u32) {
    symbol(&DISTANCES, 2, distance)
}

fn put_block(tokens: &[Token], bits: &mut Bits) {
    let (mut symbols, mut distances) = ([0; SYMBOLS], [0; DISTANCES.len()]);
    (symbols[END], distances[0], distances[1]) = (1, 1, 1); // a code has two symbols at least
    for token in tokens {
        match *token {
            Token::Byte(byte) => symbols[usize::from(byte)] += 1,
            Token::Again { length, distance } => {
                symbols[length_symbol(length).0] += 1;
                distances[distance_symbol(distance).0] += 1;
            }
        }
    }
    let (symbols, distances) = (Code::new(&symbols), Code::new(&distances));
    bits.put((SYMBOLS - 257) as u32, 5);
    bits.put((DISTANCES.len() - 1) as u32, 5);
    bits.put(19 - 4, 4);
    for k in 0..19 {
        bits.put(if k < 3 { 0 } else { 4 }, 3); // 0 to 15 in four bits each, and no runs of them
    }
    for (length, _) in symbols.0.iter().chain(&distances.0) {
        bits.put(length.reverse_bits() >> 28, 4);
    }
    for token in tokens {
        match *token {
            Token::Byte(byte) => symbols.put(usize::from(byte), bits),
            Token::Again { length, distance } => {
                let parts = [
                    (&symbols, length_symbol(length)),
                    (&distances, distance_symbol(distance)),
                ];
                for (code, (k, rest, room)) in parts {
                    code.put(k, bits);
                    bits.put(rest, room);
                }
            }
        }
    }
    symbols.put(END, bits);
}

/// For each symbol the bits of its code, and the code from its highest bit on.
struct Code(Vec<(u32, u32)>);

impl Code {
    /// Huffman's, with at most 15 bits.
    fn new(times: &[u32]) -> Code {
        let mut times = times.to_vec();
        let lengths = loop {
            let lengths = huffman(&times);
            if lengths.iter().all(|length| *length <= 15) {
                break lengths;
            }
            times.iter_mut().for_each(|n| *n = n.div_ceil(2)); // flatter
        };
        let mut codes = vec![(0, 0); lengths.len()];
        let mut next = 0;
        for length in 1..=15 {
            for k in (0..lengths.len()).filter(|k| lengths[*k] == length) {
                codes[k] = (length, next);
                next += 1;
            }
            next <<= 1;
        }
        Code(codes)
    }

    fn put(&self, k: usize, bits: &mut Bits) {
        let (length, code) = self.0[k];
        bits.put(code.reverse_bits() >> (32 - length), length);
    }
}

/// How deep each symbol lies in the tree that joins the two rarest first; 0 if it never comes.
fn huffman(times: &[u32]) -> Vec<u32> {
    let mut lengths = vec![0; times.len()];
    let mut trees: Vec<(u32, Vec<usize>)> = (0..times.len())
        .filter(|k| times[*k] > 0)
        .map(|k| (times[k], vec![k]))
        .collect();
    while trees.len() > 1 {
        trees.sort_by_key(|(times, _)| std::cmp::Reverse(*times));
        if let (Some((n, mut some)), Some((m, others))) = (trees.pop(), trees.pop()) {
            some.extend(others);
            some.iter().for_each(|k| lengths[*k] += 1);
            trees.push((n + m, some));
        }
    }
    lengths
}

#[cfg(test)]
mod tests {
    use super::*;

    /// RFC 1951's reading of blocks with codes of their own, for the test alone.
    struct Inflate<'a> {
        bytes: &'a [u8],
        at: usize,
    }

    impl Inflate<'_> {
        fn bits(&mut self, n: u32) -> usize {
            (0..n).fold(0, |value, k| {
                let bit = self.bytes[self.at / 8] >> (self.at % 8) & 1;
                self.at += 1;
                value | usize::from(bit) << k
            })
        }

        fn decode(&mut self, lengths: &[usize]) -> usize {
            let (mut code, mut first, mut before) = (0, 0, 0);
            for length in 1..=15 {
                code = code << 1 | self.bits(1);
                let with: Vec<_> = (0..lengths.len())
                    .filter(|k| lengths[*k] == length)
                    .collect();
                first = (first + before) << 1;
                before = with.len();
                if code - first < before {
                    return with[code - first];
                }
            }
            panic!("no such code")
        }

        fn read(&mut self) -> Vec<u8> {
            const ORDER: [usize; 19] = [
                16, 17, 18, 0, 8, 7, 9, 6, 10, 5, 11, 4, 12, 3, 13, 2, 14, 1, 15,
            ];
            let extra = |k: usize, per: usize| if k < 2 * per { 0 } else { (k / per - 1) as u32 };
            let mut out: Vec<u8> = Vec::new();
            loop {
                let is_last = self.bits(1) == 1;
                assert_eq!(self.bits(2), 2);
                let (symbols, distances) = (self.bits(5) + 257, self.bits(5) + 1);
                let mut lengths = [0; 19];
                for k in 0..self.bits(4) + 4 {
                    lengths[ORDER[k]] = self.bits(3);
                }
                let codes: Vec<_> = (0..symbols + distances)
                    .map(|_| self.decode(&lengths))
                    .collect();
                let (symbols, distances) = codes.split_at(symbols);
                loop {
                    match self.decode(symbols) {
                        256 => break,
                        k if k < 256 => out.push(k as u8),
                        k => {
                            let k = k - 257;
                            let bits = if k == 28 { 0 } else { extra(k, 4) };
                            let length = usize::from(LENGTHS[k]) + self.bits(bits);
                            let k = self.decode(distances);
                            let distance = usize::from(DISTANCES[k]) + self.bits(extra(k, 2));
                            (0..length).for_each(|_| out.push(out[out.len() - distance]));
                        }
                    }
                }
                if is_last {
                    return out;
                }
            }
        }
    }

    fn random(n: usize, values: u32) -> Vec<u8> {
        let mut z = 1u32;
        let next = |_| {
            z = z.wrapping_mul(1664525).wrapping_add(1013904223);
            ((z >> 16) % values) as u8
        };
        (0..n).map(next).collect()
    }

    #[test]
    fn packed_and_unpacked() {
        let far = [random(300, 256), vec![9; 32768 - 300], random(300, 256)].concat();
        for data in [
            vec![7],
            vec![0; 70_000],
            random(40_000, 256),
            random(30_000, 5),
            far,
        ] {
            let packed = zlib(&data);
            let mut inflate = Inflate {
                bytes: &packed,
                at: 16,
            };
            assert!(inflate.read() == data);
            let used = inflate.at.div_ceil(8);
            assert_eq!(packed.len(), used + 4);
        }
        assert_eq!(zlib(b"Wikipedia")[..2], [0x78, 0x9c]);
        assert!(zlib(b"Wikipedia").ends_with(&[0x11, 0xe6, 0x03, 0x98])); // its known sum
        assert!(zlib(&vec![0; 70_000]).len() < 400);
    }

    /// Codes of more than 15 bits are shortened, and no code is left over.
    #[test]
    fn codes() {
        let doubled: Vec<u32> = (0..22).map(|k| 1 << k).collect();
        assert!(huffman(&doubled).contains(&21));
        let Code(codes) = Code::new(&doubled);
        let parts = codes.iter().map(|(length, _)| 1u32 << (15 - length));
        assert_eq!(parts.sum::<u32>(), 1 << 15);
    }

    /// Each row by any filter, taken back.
    #[test]
    fn rows() {
        let (w, h) = (13, 9);
        let samples = random(3 * w * h, 256);
        let rgb = samples
            .chunks(3)
            .map(|rgb| [rgb[0], rgb[1], rgb[2]])
            .collect();
        let image = Image { w, h, rgb };
        let rows = filtered(&image);
        let mut above = vec![0; 3 * w];
        for (row, want) in rows.chunks(1 + 3 * w).zip(samples.chunks(3 * w)) {
            let mut back = vec![0; 3 * w];
            for k in 0..3 * w {
                let left = |of: &[u8]| if k < 3 { 0 } else { of[k - 3] };
                let promised = match row[0] {
                    1 => left(&back),
                    2 => above[k],
                    4 => paeth(left(&back), above[k], left(&above)),
                    kind => panic!("filter {kind}"),
                };
                back[k] = row[1 + k].wrapping_add(promised);
            }
            assert_eq!(back, want);
            above = back;
        }
        let mut file = Vec::new();
        write(&mut file, &image).unwrap();
        assert_eq!(file[..16], *b"\x89PNG\r\n\x1a\n\0\0\0\rIHDR");
        assert_eq!(file[16..29], [0, 0, 0, 13, 0, 0, 0, 9, 8, 2, 0, 0, 0]);
        assert!(file.ends_with(b"\0\0\0\0IEND\xae\x42\x60\x82")); // with its known sum
    }
}
