//! HS1-SIV (draft v2), ChaCha (RFC 8439) and AES-256 (FIPS 197) in plain Rust.
//!
//! A second program beside the proved one, written from the standards and not
//! from that code, so that the two can be compared by running them. Suite 4 and
//! the numbers of the refusals are in no standard: they are the project's own.
//! Build with `rustc -O --edition 2021 hs1.rs`.
//!
//!     hs1 cases      print a fixed list of sealed cases
//!     hs1 check      read such lines, say how many agree
//!     hs1 streams    read stream lines, say how many agree
//!     hs1 refusals   read calls with their refusals, say how many agree
//!     hs1 bench      measure bytes per second
//!
//! The lines of each form are described in README.md.

use std::io::BufRead;
use std::process::ExitCode;
use std::time::Instant;

// ---------------------------------------------------------------- ChaCha

/// "expand 32-byte k", read as four little-endian words.
const SIGMA: [u32; 4] = [0x6170_7865, 0x3320_646e, 0x7962_2d32, 0x6b20_6574];

const CHACHA_BLOCK: usize = 64;

#[inline(always)]
fn quarter_round(x: &mut [u32; 16], a: usize, b: usize, c: usize, d: usize) {
    x[a] = x[a].wrapping_add(x[b]);
    x[d] = (x[d] ^ x[a]).rotate_left(16);
    x[c] = x[c].wrapping_add(x[d]);
    x[b] = (x[b] ^ x[c]).rotate_left(12);
    x[a] = x[a].wrapping_add(x[b]);
    x[d] = (x[d] ^ x[a]).rotate_left(8);
    x[c] = x[c].wrapping_add(x[d]);
    x[b] = (x[b] ^ x[c]).rotate_left(7);
}

/// RFC 8439's state and round count; `rounds` is 20 in the RFC.
struct ChaCha {
    rounds: u32,
    state: [u32; 16],
}

impl ChaCha {
    fn new(rounds: u32, seed: &[u8; 32], nonce: &[u8; 12]) -> Self {
        let mut state = [0; 16];
        state[..4].copy_from_slice(&SIGMA);
        for (word, bytes) in state[4..12].iter_mut().zip(seed.chunks_exact(4)) {
            *word = le32(bytes);
        }
        for (word, bytes) in state[13..].iter_mut().zip(nonce.chunks_exact(4)) {
            *word = le32(bytes);
        }
        ChaCha { rounds, state }
    }

    /// The keystream words of the block with this counter.
    fn block(&self, counter: u32) -> [u32; 16] {
        let mut start = self.state;
        start[12] = counter;
        let mut x = start;
        for _ in 0..self.rounds / 2 {
            quarter_round(&mut x, 0, 4, 8, 12);
            quarter_round(&mut x, 1, 5, 9, 13);
            quarter_round(&mut x, 2, 6, 10, 14);
            quarter_round(&mut x, 3, 7, 11, 15);
            quarter_round(&mut x, 0, 5, 10, 15);
            quarter_round(&mut x, 1, 6, 11, 12);
            quarter_round(&mut x, 2, 7, 8, 13);
            quarter_round(&mut x, 3, 4, 9, 14);
        }
        for (word, first) in x.iter_mut().zip(start) {
            *word = word.wrapping_add(first);
        }
        x
    }

    fn block_bytes(&self, counter: u32) -> [u8; CHACHA_BLOCK] {
        let mut bytes = [0; CHACHA_BLOCK];
        for (out, word) in bytes.chunks_exact_mut(4).zip(self.block(counter)) {
            out.copy_from_slice(&word.to_le_bytes());
        }
        bytes
    }
}

// ---------------------------------------------------------------- AES-256

const AES_BLOCK: usize = 16;
const AES_ROUNDS: usize = 14;

/// Multiplication by x modulo x^8 + x^4 + x^3 + x + 1.
const fn xtime(a: u8) -> u8 {
    (a << 1) ^ ((a >> 7) * 0x1b)
}

const fn gf_multiply(a: u8, b: u8) -> u8 {
    let (mut power, mut rest, mut sum) = (a, b, 0);
    while rest != 0 {
        if rest & 1 == 1 {
            sum ^= power;
        }
        power = xtime(power);
        rest >>= 1;
    }
    sum
}

/// a^254, which is the inverse of a, and 0 for 0.
const fn gf_inverse(a: u8) -> u8 {
    let mut result = 1;
    let mut n = 0;
    while n < 254 {
        result = gf_multiply(result, a);
        n += 1;
    }
    result
}

const fn sbox_table() -> [u8; 256] {
    let mut table = [0; 256];
    let mut i = 0;
    while i < 256 {
        let b = gf_inverse(i as u8);
        table[i] = b
            ^ b.rotate_left(1)
            ^ b.rotate_left(2)
            ^ b.rotate_left(3)
            ^ b.rotate_left(4)
            ^ 0x63;
        i += 1;
    }
    table
}

static SBOX: [u8; 256] = sbox_table();

fn sub_word(word: u32) -> u32 {
    u32::from_be_bytes(word.to_be_bytes().map(|b| SBOX[b as usize]))
}

/// Four columns of the state; a column is a word with row 0 in its highest byte.
type Columns = [u32; 4];

struct Aes256 {
    round_keys: [Columns; AES_ROUNDS + 1],
}

impl Aes256 {
    fn new(key: &[u8; 32]) -> Self {
        let mut w = [0u32; 4 * (AES_ROUNDS + 1)];
        for (word, bytes) in w.iter_mut().zip(key.chunks_exact(4)) {
            *word = be32(bytes);
        }
        let mut rcon = 1u8;
        for i in 8..w.len() {
            let mut word = w[i - 1];
            if i % 8 == 0 {
                word = sub_word(word.rotate_left(8)) ^ u32::from(rcon) << 24;
                rcon = xtime(rcon);
            } else if i % 8 == 4 {
                word = sub_word(word);
            }
            w[i] = w[i - 8] ^ word;
        }
        let round_keys = std::array::from_fn(|r| std::array::from_fn(|c| w[4 * r + c]));
        Aes256 { round_keys }
    }

    fn encrypt(&self, block: &[u8; AES_BLOCK]) -> [u8; AES_BLOCK] {
        let mut state: Columns = std::array::from_fn(|c| be32(&block[4 * c..4 * c + 4]));
        state = add_round_key(state, &self.round_keys[0]);
        for key in &self.round_keys[1..AES_ROUNDS] {
            state = add_round_key(substitute_and_shift(state).map(mix_column), key);
        }
        state = add_round_key(substitute_and_shift(state), &self.round_keys[AES_ROUNDS]);
        let mut out = [0; AES_BLOCK];
        for (bytes, column) in out.chunks_exact_mut(4).zip(state) {
            bytes.copy_from_slice(&column.to_be_bytes());
        }
        out
    }
}

fn add_round_key(state: Columns, key: &Columns) -> Columns {
    std::array::from_fn(|c| state[c] ^ key[c])
}

/// SubBytes and ShiftRows: row r of column c comes from column c + r.
fn substitute_and_shift(state: Columns) -> Columns {
    let byte = |c: usize, r: usize| SBOX[state[(c + r) % 4].to_be_bytes()[r] as usize];
    std::array::from_fn(|c| {
        u32::from_be_bytes([byte(c, 0), byte(c, 1), byte(c, 2), byte(c, 3)])
    })
}

/// 02 times the column, 03 the next row, 01 the two after it. The four bytes are
/// doubled side by side: 03 a = 02 a ^ a.
fn mix_column(column: u32) -> u32 {
    let high = column & 0x8080_8080;
    let double = ((column ^ high) << 1) ^ (high >> 7) * 0x1b;
    let next = column.rotate_left(8);
    double ^ double.rotate_left(8) ^ next ^ column.rotate_left(16) ^ column.rotate_left(24)
}

// ---------------------------------------------------------------- streams

#[derive(Clone, Copy, PartialEq, Debug)]
enum Stream {
    ChaCha { rounds: u32 },
    Aes256,
}

impl Stream {
    fn by_name(name: &str) -> Option<Stream> {
        match name {
            "chacha8" => Some(Stream::ChaCha { rounds: 8 }),
            "chacha12" => Some(Stream::ChaCha { rounds: 12 }),
            "chacha20" => Some(Stream::ChaCha { rounds: 20 }),
            "aes256" => Some(Stream::Aes256),
            _ => None,
        }
    }

    /// The round count r that enters the subkeys.
    fn rounds(self) -> u32 {
        match self {
            Stream::ChaCha { rounds } => rounds,
            Stream::Aes256 => AES_ROUNDS as u32,
        }
    }

    /// Exclusive-ors `buffer` with the stream's bytes from `place` on.
    fn xor(self, seed: &[u8; 32], nonce: &[u8; 12], place: usize, buffer: &mut [u8]) {
        match self {
            Stream::ChaCha { rounds } => {
                let chacha = ChaCha::new(rounds, seed, nonce);
                xor_blocks(place, buffer, |j| chacha.block_bytes(j));
            }
            Stream::Aes256 => {
                let aes = Aes256::new(seed);
                let mut input = [0; AES_BLOCK];
                input[..12].copy_from_slice(nonce);
                xor_blocks(place, buffer, |j| {
                    input[12..].copy_from_slice(&j.to_be_bytes());
                    aes.encrypt(&input)
                });
            }
        }
    }
}

/// Exclusive-ors `buffer` with the joined blocks 0, 1, 2, .. of N bytes from
/// `place` on, where `block` gives each of them.
#[inline(always)]
fn xor_blocks<const N: usize>(
    place: usize,
    buffer: &mut [u8],
    mut block: impl FnMut(u32) -> [u8; N],
) {
    let mut counter = (place / N) as u32;
    let skip = place % N;
    let head = if skip == 0 { 0 } else { (N - skip).min(buffer.len()) };
    let (first, rest) = buffer.split_at_mut(head);
    if !first.is_empty() {
        xor_bytes(first, &block(counter)[skip..]);
        counter += 1;
    }
    let mut chunks = rest.chunks_exact_mut(N);
    for chunk in &mut chunks {
        xor_bytes(chunk, &block(counter));
        counter = counter.wrapping_add(1);
    }
    let last = chunks.into_remainder();
    if !last.is_empty() {
        xor_bytes(last, &block(counter));
    }
}

#[inline(always)]
fn xor_bytes(to: &mut [u8], from: &[u8]) {
    for (a, b) in to.iter_mut().zip(from) {
        *a ^= b;
    }
}

fn le32(bytes: &[u8]) -> u32 {
    u32::from_le_bytes(bytes.try_into().unwrap())
}

fn be32(bytes: &[u8]) -> u32 {
    u32::from_be_bytes(bytes.try_into().unwrap())
}

fn le64(bytes: &[u8]) -> u64 {
    u64::from_le_bytes(bytes.try_into().unwrap())
}

// ---------------------------------------------------------------- HS1

/// The draft's parameter b: bytes of a block of the hash.
const HASH_BLOCK: usize = 64;
const MAX_T: usize = 6;
const MAX_SIV: usize = 32;

#[derive(Clone, Copy)]
struct Suite {
    stream: Stream,
    /// How many hashes are joined (t).
    hashes: usize,
    /// Bytes of the synthetic IV (the draft's script l).
    siv_length: usize,
}

impl Suite {
    fn by_number(number: u32) -> Option<Suite> {
        let chacha = |rounds| Stream::ChaCha { rounds };
        let (stream, hashes, siv_length) = match number {
            1 => (chacha(8), 2, 8),
            2 => (chacha(12), 4, 16),
            3 => (chacha(20), 6, 32),
            4 => (Stream::Aes256, 4, 16),
            _ => return None,
        };
        Some(Suite { stream, hashes, siv_length })
    }
}

/// Figure 4's subkeys, in arrays long enough for the largest t.
struct Subkeys {
    stream: [u8; 32],
    nh: [u32; HASH_BLOCK / 4 + 4 * (MAX_T - 1)],
    poly: [u64; MAX_T],
    affine: [[u64; 3]; MAX_T],
}

impl Subkeys {
    /// Figure 4. The nonce is b 2^48 + t 2^40 + r 2^32 + l 2^16 + |K| in twelve
    /// little-endian bytes. The draft knows only ChaCha: for AES-256 the stream
    /// bytes are the counter blocks' and r is 14. All numbers are little-endian,
    /// and the polynomial keys are reduced modulo 2^60 here, once for all uses.
    fn new(suite: Suite, key: &[u8]) -> Subkeys {
        let t = suite.hashes;
        let number = (HASH_BLOCK as u64) << 48
            | (t as u64) << 40
            | u64::from(suite.stream.rounds()) << 32
            | (suite.siv_length as u64) << 16
            | key.len() as u64;
        let mut nonce = [0; 12];
        nonce[..8].copy_from_slice(&number.to_le_bytes());
        let seed: [u8; 32] = std::array::from_fn(|i| key[i % key.len()]);

        let (nh_length, poly_length, affine_length) = (HASH_BLOCK + 16 * (t - 1), 8 * t, 24 * t);
        let mut bytes = vec![0; 32 + nh_length + poly_length + affine_length];
        suite.stream.xor(&seed, &nonce, 0, &mut bytes);
        let (stream, rest) = bytes.split_at(32);
        let (nh, rest) = rest.split_at(nh_length);
        let (poly, affine) = rest.split_at(poly_length);

        let mut keys = Subkeys {
            stream: stream.try_into().unwrap(),
            nh: [0; HASH_BLOCK / 4 + 4 * (MAX_T - 1)],
            poly: [0; MAX_T],
            affine: [[0; 3]; MAX_T],
        };
        keys.nh.iter_mut().zip(nh.chunks_exact(4)).for_each(|(k, b)| *k = le32(b));
        keys.poly.iter_mut().zip(poly.chunks_exact(8)).for_each(|(k, b)| *k = le64(b) % (1 << 60));
        for (k, b) in keys.affine.iter_mut().zip(affine.chunks_exact(24)) {
            *k = [le64(&b[..8]), le64(&b[8..16]), le64(&b[16..])];
        }
        keys
    }
}

/// NH. The sums of key and message words are plain sums of up to 33 bits, not
/// sums modulo 2^32. Only the value modulo 2^60 is used afterwards, so wrapping
/// at 2^64 loses nothing.
#[inline(always)]
fn nh(key: &[u32], words: &[u32]) -> u64 {
    let mut sum = 0u64;
    for (k, m) in key.chunks_exact(4).zip(words.chunks_exact(4)) {
        let s = |i: usize| u64::from(k[i]) + u64::from(m[i]);
        sum = sum
            .wrapping_add(s(0).wrapping_mul(s(2)))
            .wrapping_add(s(1).wrapping_mul(s(3)));
    }
    sum
}

/// The prime 2^61 - 1.
const P: u64 = (1 << 61) - 1;

/// The t running hashes of one input (figure 3), fed piece by piece.
struct Hasher<'a> {
    keys: &'a Subkeys,
    hashes: usize,
    /// Congruent modulo P to the draft's h so far, and below 2^62.
    h: [u64; MAX_T],
    block: [u8; HASH_BLOCK],
    /// Bytes of the present block that are in.
    fill: usize,
    /// A block has been hashed already.
    begun: bool,
}

impl<'a> Hasher<'a> {
    fn new(suite: Suite, keys: &'a Subkeys) -> Self {
        Hasher {
            keys,
            hashes: suite.hashes,
            h: [1; MAX_T],
            block: [0; HASH_BLOCK],
            fill: 0,
            begun: false,
        }
    }

    fn add(&mut self, mut input: &[u8]) {
        while !input.is_empty() {
            let (piece, rest) = input.split_at(input.len().min(HASH_BLOCK - self.fill));
            self.block[self.fill..self.fill + piece.len()].copy_from_slice(piece);
            self.fill += piece.len();
            input = rest;
            if self.fill == HASH_BLOCK {
                self.take_block(HASH_BLOCK / 4);
            }
        }
    }

    /// Zeros up to the next multiple of 16.
    fn pad(&mut self) {
        self.add(&[0; 15][..self.fill.wrapping_neg() % 16]);
    }

    /// Hashes the block's first `words` words, a multiple of four.
    fn take_block(&mut self, words: usize) {
        let mut m = [0; HASH_BLOCK / 4];
        for (word, bytes) in m.iter_mut().zip(self.block.chunks_exact(4)) {
            *word = le32(bytes);
        }
        for i in 0..self.hashes {
            let key = &self.keys.nh[4 * i..4 * i + HASH_BLOCK / 4];
            let a = nh(key, &m[..words]) % (1 << 60) + (self.fill % 16) as u64;
            // h kP + a < 2^122 + 2^61, so the folded sum is again below 2^62.
            let x = u128::from(self.h[i]) * u128::from(self.keys.poly[i]) + u128::from(a);
            self.h[i] = (x as u64 & P) + (x >> 61) as u64;
        }
        self.block = [0; HASH_BLOCK];
        self.fill = 0;
        self.begun = true;
    }

    /// The t results joined and padded with zeros to 32 bytes. Empty input has
    /// one empty block; for t = 6 the results are four bytes of the affine step,
    /// reckoned modulo 2^64.
    fn finish(mut self) -> [u8; 32] {
        if self.fill > 0 || !self.begun {
            self.take_block(self.fill.div_ceil(16) * 4);
        }
        let mut joined = [0; 32];
        for i in 0..self.hashes {
            let h = self.h[i] % P;
            if self.hashes <= 4 {
                joined[8 * i..8 * i + 8].copy_from_slice(&h.to_le_bytes());
            } else {
                let [a0, a1, a2] = self.keys.affine[i];
                let y = a0
                    .wrapping_add(a1.wrapping_mul(h & 0xffff_ffff))
                    .wrapping_add(a2.wrapping_mul(h >> 32));
                joined[4 * i..4 * i + 4].copy_from_slice(&((y >> 32) as u32).to_le_bytes());
            }
        }
        joined
    }

    /// Figure 2: the seed of the stream whose bytes HS1 answers.
    fn stream_seed(self) -> [u8; 32] {
        let mut seed = self.keys.stream;
        xor_bytes(&mut seed, &self.finish());
        seed
    }
}

// ---------------------------------------------------------------- SIV

/// Lines 2 and 3 of figure 1. The first L bytes are the synthetic IV.
fn synthetic_iv(
    suite: Suite,
    keys: &Subkeys,
    nonce: &[u8; 12],
    header: &[u8],
    text: &[u8],
) -> [u8; MAX_SIV] {
    let mut hasher = Hasher::new(suite, keys);
    hasher.add(header);
    hasher.pad();
    hasher.add(text);
    hasher.pad();
    hasher.add(&(header.len() as u64).to_le_bytes());
    hasher.add(&(text.len() as u64).to_le_bytes());
    let mut siv = [0; MAX_SIV];
    suite.stream.xor(&hasher.stream_seed(), nonce, 0, &mut siv[..suite.siv_length]);
    siv
}

/// Line 4 of figure 1: masks a text, or unmasks it.
fn mask(suite: Suite, keys: &Subkeys, nonce: &[u8; 12], siv: &[u8], text: &mut [u8]) {
    let mut hasher = Hasher::new(suite, keys);
    hasher.add(siv);
    suite.stream.xor(&hasher.stream_seed(), nonce, 64, text);
}

/// Figure 1, in place: `text` becomes the ciphertext. The first L bytes of the
/// answer are the synthetic IV.
fn seal(
    suite: Suite,
    key: &[u8],
    nonce: &[u8; 12],
    header: &[u8],
    text: &mut [u8],
) -> [u8; MAX_SIV] {
    let keys = Subkeys::new(suite, key);
    let siv = synthetic_iv(suite, &keys, nonce, header, text);
    mask(suite, &keys, nonce, &siv[..suite.siv_length], text);
    siv
}

/// Figure 5, in place: `text` becomes the plaintext, or zeros if the synthetic
/// IV is wrong. Says whether it was right.
fn open(
    suite: Suite,
    key: &[u8],
    nonce: &[u8; 12],
    header: &[u8],
    siv: &[u8],
    text: &mut [u8],
) -> bool {
    let keys = Subkeys::new(suite, key);
    mask(suite, &keys, nonce, siv, text);
    let right = synthetic_iv(suite, &keys, nonce, header, text);
    let agrees = siv == &right[..suite.siv_length];
    if !agrees {
        text.fill(0);
    }
    agrees
}

// ---------------------------------------------------------------- hexadecimal

/// Small hexadecimal digits, and "-" for no bytes.
fn hex(bytes: &[u8]) -> String {
    if bytes.is_empty() {
        return "-".into();
    }
    bytes.iter().map(|b| format!("{b:02x}")).collect()
}

fn unhex(text: &str) -> Option<Vec<u8>> {
    if text == "-" {
        return Some(Vec::new());
    }
    if text.len() % 2 != 0 || !text.is_ascii() {
        return None;
    }
    (0..text.len()).step_by(2).map(|i| u8::from_str_radix(&text[i..i + 2], 16).ok()).collect()
}

fn unhex_array<const N: usize>(text: &str) -> Option<[u8; N]> {
    unhex(text)?.try_into().ok()
}

// ---------------------------------------------------------------- cases

/// splitmix64: a small generator with a fixed start, for bytes of no meaning.
struct Generator(u64);

impl Generator {
    fn next(&mut self) -> u64 {
        self.0 = self.0.wrapping_add(0x9e37_79b9_7f4a_7c15);
        let z = (self.0 ^ self.0 >> 30).wrapping_mul(0xbf58_476d_1ce4_e5b9);
        let z = (z ^ z >> 27).wrapping_mul(0x94d0_49bb_1331_11eb);
        z ^ z >> 31
    }

    fn bytes(&mut self, length: usize) -> Vec<u8> {
        (0..length).map(|_| self.next() as u8).collect()
    }
}

const LENGTHS: [usize; 12] = [0, 1, 15, 16, 17, 63, 64, 65, 100, 128, 200, 300];

/// Twelve cases for each suite. Each suite pairs every header length with another
/// text length: the step through the text lengths is coprime to twelve. Together
/// the keys have every length from 1 to 32.
fn print_cases() {
    let mut generator = Generator(8439);
    let mut count = 0;
    for (number, step) in [(1, 1), (2, 5), (3, 7), (4, 11)] {
        let suite = Suite::by_number(number).unwrap();
        for i in 0..LENGTHS.len() {
            let key = generator.bytes(1 + 7 * count % 32);
            let nonce: [u8; 12] = generator.bytes(12).try_into().unwrap();
            let header = generator.bytes(LENGTHS[i]);
            let text = generator.bytes(LENGTHS[step * i % 12]);
            let mut ciphertext = text.clone();
            let siv = seal(suite, &key, &nonce, &header, &mut ciphertext);
            println!(
                "{number} {} {} {} {} {} {}",
                hex(&key),
                hex(&nonce),
                hex(&header),
                hex(&text),
                hex(&siv[..suite.siv_length]),
                hex(&ciphertext)
            );
            count += 1;
        }
    }
}

// ---------------------------------------------------------------- comparisons

/// `suite key nonce header text siv ciphertext`: sealing gives the last two,
/// opening gives the text back, and a synthetic IV with one bit changed does not
/// open. None for a line that is not of this form.
fn sealed_case_agrees(line: &str) -> Option<bool> {
    let fields: Vec<&str> = line.split(' ').collect();
    let [number, key, nonce, header, text, siv, ciphertext] = fields[..] else { return None };
    let suite = Suite::by_number(number.parse().ok()?)?;
    let (key, nonce, header) = (unhex(key)?, unhex_array(nonce)?, unhex(header)?);
    let (text, siv, ciphertext) = (unhex(text)?, unhex(siv)?, unhex(ciphertext)?);
    if key.is_empty() || siv.is_empty() {
        return None;
    }

    let mut sealed = text.clone();
    let got = seal(suite, &key, &nonce, &header, &mut sealed);
    let seals = got[..suite.siv_length] == siv && sealed == ciphertext;

    let mut opened = ciphertext.clone();
    let opens = open(suite, &key, &nonce, &header, &siv, &mut opened) && opened == text;

    let mut wrong_siv = siv;
    wrong_siv[0] ^= 1;
    let mut refused = ciphertext;
    let refuses = !open(suite, &key, &nonce, &header, &wrong_siv, &mut refused)
        && refused.iter().all(|b| *b == 0);
    Some(seals && opens && refuses)
}

/// One of
///   `STREAM seed nonce place bytes`
///   `xor STREAM seed nonce place plaintext ciphertext`
///   `block aes256 key plaintext ciphertext`
fn stream_case_agrees(line: &str) -> Option<bool> {
    let fields: Vec<&str> = line.split(' ').collect();
    let (stream, seed, nonce, place, before, after) = match fields[..] {
        ["xor", stream, seed, nonce, place, before, after] => {
            (stream, seed, nonce, place, unhex(before)?, unhex(after)?)
        }
        ["block", "aes256", key, before, after] => {
            let (before, after) = (unhex_array(before)?, unhex_array(after)?);
            return Some(Aes256::new(&unhex_array(key)?).encrypt(&before) == after);
        }
        [stream, seed, nonce, place, bytes] => {
            let bytes = unhex(bytes)?;
            (stream, seed, nonce, place, vec![0; bytes.len()], bytes)
        }
        _ => return None,
    };
    let mut buffer = before;
    let stream = Stream::by_name(stream)?;
    stream.xor(&unhex_array(seed)?, &unhex_array(nonce)?, place.parse().ok()?, &mut buffer);
    Some(buffer == after)
}

/// Longest header, text and ciphertext of a bare call.
const LONGEST: usize = 65_536;

/// A bare call over buffers of the caller, and its answer: 0 or the number of
/// the first check that fails, in the order 5 suite, 7 key length, 17 nonce
/// length, 15 header or text too long, 16 length of the synthetic IV given,
/// 4 a buffer too short, 13 wrong synthetic IV. `given` is None for sealing.
fn bare_call(
    number: u32,
    key: &[u8],
    nonce: &[u8],
    header: &[u8],
    input: &[u8],
    given: Option<&[u8]>,
    siv_out: &mut [u8],
    out: &mut [u8],
) -> u32 {
    let Some(suite) = Suite::by_number(number) else { return 5 };
    if key.is_empty() || key.len() > 32 {
        return 7;
    }
    let Ok(nonce) = nonce.try_into() else { return 17 };
    if header.len() > LONGEST || input.len() > LONGEST {
        return 15;
    }
    if given.is_some_and(|siv| siv.len() != suite.siv_length) {
        return 16;
    }
    if out.len() < input.len() || given.is_none() && siv_out.len() < suite.siv_length {
        return 4;
    }
    let out = &mut out[..input.len()];
    out.copy_from_slice(input);
    if let Some(siv) = given {
        return if open(suite, key, nonce, header, siv, out) { 0 } else { 13 };
    }
    let siv = seal(suite, key, nonce, header, out);
    siv_out[..suite.siv_length].copy_from_slice(&siv[..suite.siv_length]);
    0
}

/// `call suite key nonce header input siv siv_room out_room refused siv_after out_after`.
/// Both buffers hold aa before the call.
fn refusal_case_agrees(line: &str) -> Option<bool> {
    let fields: Vec<&str> = line.split(' ').collect();
    let [call, number, key, nonce, header, input, siv, siv_room, out_room, refused, siv_after, out_after] =
        fields[..]
    else {
        return None;
    };
    let given = match call {
        "seal" => None,
        "open" => Some(unhex(siv)?),
        _ => return None,
    };
    let mut siv_out = vec![0xaa; siv_room.parse().ok()?];
    let mut out = vec![0xaa; out_room.parse().ok()?];
    let answer = bare_call(
        number.parse().ok()?,
        &unhex(key)?,
        &unhex(nonce)?,
        &unhex(header)?,
        &unhex(input)?,
        given.as_deref(),
        &mut siv_out,
        &mut out,
    );
    Some(
        answer == refused.parse().ok()?
            && siv_out == unhex(siv_after)?
            && out == unhex(out_after)?,
    )
}

/// Holds every line of standard input to `agrees`; "#" begins a comment line.
/// Succeeds when there is at least one case and all agree.
fn compare(agrees: fn(&str) -> Option<bool>) -> ExitCode {
    let (mut cases, mut agreeing) = (0, 0);
    for (i, line) in std::io::stdin().lock().lines().enumerate() {
        let line = line.expect("standard input can be read");
        if line.is_empty() || line.starts_with('#') {
            continue;
        }
        cases += 1;
        match agrees(&line) {
            Some(true) => agreeing += 1,
            Some(false) => println!("line {} differs", i + 1),
            None => println!("line {} is not a case", i + 1),
        }
    }
    println!("{agreeing} of {cases} agree");
    if cases > 0 && agreeing == cases { ExitCode::SUCCESS } else { ExitCode::FAILURE }
}

// ---------------------------------------------------------------- speed

/// Bytes per second of the best of ten runs, each of `repeats` calls of `work`
/// on `length` bytes.
fn best_rate(length: usize, repeats: u32, mut work: impl FnMut()) -> f64 {
    let mut best = f64::INFINITY;
    for _ in 0..10 {
        let start = Instant::now();
        for _ in 0..repeats {
            work();
        }
        best = best.min(start.elapsed().as_secs_f64() / f64::from(repeats));
    }
    length as f64 / best
}

/// Sealing counts everything a bare call does, the subkeys too, with a header of
/// 38 bytes.
fn bench() {
    let mut generator = Generator(1);
    let key = generator.bytes(32);
    let nonce: [u8; 12] = generator.bytes(12).try_into().unwrap();
    let header = generator.bytes(38);
    for number in 1..=4 {
        let suite = Suite::by_number(number).unwrap();
        for length in [16 * 1024, 64 * 1024] {
            let mut text = generator.bytes(length);
            let repeats = (1 << 21) / length as u32;
            let rate = best_rate(length, repeats, || {
                std::hint::black_box(seal(suite, &key, &nonce, &header, &mut text));
            });
            println!("seal {number} {length} {rate:.0}");
        }
    }
    let seed: [u8; 32] = key.try_into().unwrap();
    let mut buffer = generator.bytes(1 << 20);
    let rate = best_rate(1 << 20, 20, || {
        Stream::ChaCha { rounds: 12 }.xor(&seed, &nonce, 0, std::hint::black_box(&mut buffer));
    });
    println!("stream chacha12 {} {rate:.0}", 1 << 20);
}

fn main() -> ExitCode {
    match std::env::args().nth(1).as_deref() {
        Some("cases") => print_cases(),
        Some("check") => return compare(sealed_case_agrees),
        Some("streams") => return compare(stream_case_agrees),
        Some("refusals") => return compare(refusal_case_agrees),
        Some("bench") => bench(),
        _ => {
            eprintln!("usage: hs1 cases | check | streams | refusals | bench");
            return ExitCode::from(2);
        }
    }
    ExitCode::SUCCESS
}
