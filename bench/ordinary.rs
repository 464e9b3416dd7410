//! gen, encode, batch and analyse as ordinary Rust, to compare esa with: file to file, with std alone.
//!
//! What it is: plain code as a Rust programmer writes it, on `fs::read`, iterators over lines of text, `Vec`, `sort_unstable`,
//! `BTreeMap` and `BufWriter`, compiled with optimisation for the same processors as esa, x86-64-v2. SHA-256
//! and ChaCha20 are scalar code with a state in registers, as the usual crates are on a processor without instructions
//! for them; keys are prepared once. What it isn't: the `sha2`, `chacha20` and `hex` crates themselves, which need a
//! registry, and esa's proofs. It takes form One
//! alone and texts of UTF-8, reads no job files, and its refusals name no cause.
//!
//!     ordinary gen OUTPUT NUMBER RECORDS CROWDS
//!     ordinary encode INPUT OUTPUT OUTER INNER BASE
//!     ordinary batch INPUT OUTPUT M
//!     ordinary analyse INPUT OUTPUT INNER
//!     ordinary forward INPUT OUTPUT OUTER
//!
//! For the same input each of the first four writes the same bytes as esa's command does. The last makes the input of
//! analyse from a batch, in its order. Keys are 64 hexadecimal digits.

use std::collections::BTreeMap;
use std::env;
use std::error::Error;
use std::fs::{self, File};
use std::io::{BufWriter, Write};

type Result<T> = std::result::Result<T, Box<dyn Error>>;

const REPORT: usize = 64;
const INNER: usize = REPORT + 40;
const BODY: usize = 32 + INNER;
const OUTER: usize = BODY + 40;
const MOST: usize = 262_144;

fn main() -> Result<()> {
    let words: Vec<String> = env::args().skip(1).collect();
    let words: Vec<&str> = words.iter().map(String::as_str).collect();
    match words[..] {
        ["gen", output, number, records, crowds] => generate(output, number.parse()?, records.parse()?, crowds.parse()?),
        ["encode", input, output, outer, inner, base] => {
            encode(input, output, &Keys::new(&master(outer)?, "outer"), &Keys::new(&master(inner)?, "inner"), base.parse()?)
        }
        ["batch", input, output, least] => batch(input, output, least.parse()?),
        ["analyse", input, output, inner] => analyse(input, output, &Keys::new(&master(inner)?, "inner")),
        ["forward", input, output, outer] => forward(input, output, &Keys::new(&master(outer)?, "outer")),
        _ => Err("which command?".into()),
    }
}

// ---- the commands

fn generate(output: &str, number: u64, records: u32, crowds: u32) -> Result<()> {
    let mut out = BufWriter::new(File::create(output)?);
    let mut state = number;
    for done in 1..=u64::from(records) {
        state = state.wrapping_mul(6_364_136_223_846_793_005).wrapping_add(1_442_695_040_888_963_407);
        let (sender, crowd, value) = ((state >> 33) % 1000, (state >> 40) % u64::from(crowds), (state >> 48) % 7);
        writeln!(out, "{}\ts{sender}\tc{crowd}\tv{value}", 1_700_000_000 + done)?;
    }
    out.flush()?;
    println!("generated {records}");
    Ok(())
}

fn encode(input: &str, output: &str, outer: &Keys, inner: &Keys, base: u64) -> Result<()> {
    let reports = fs::read_to_string(input)?;
    let count = lines(&reports).count();
    if count > MOST {
        return Err("too many lines".into());
    }
    let mut out = Vec::with_capacity(reports.len() + count * (2 * OUTER + 1));
    for (place, line) in lines(&reports).enumerate() {
        let nonce = base.wrapping_add(place as u64 + 1);
        encode_line(line, outer, inner, nonce, &mut out).ok_or_else(|| format!("line {} is refused", place + 1))?;
    }
    fs::write(output, &out)?;
    println!("encoded {count}");
    Ok(())
}

fn encode_line(line: &str, outer: &Keys, inner: &Keys, nonce: u64, out: &mut Vec<u8>) -> Option<()> {
    let mut fields = line.splitn(4, '\t');
    let (moment, sender, crowd, value) = (fields.next()?, fields.next()?, fields.next()?, fields.next()?);
    check_front(moment, sender)?;
    if value.len() > REPORT - 2 {
        return None;
    }
    let mut report = [0; REPORT];
    report[..2].copy_from_slice(&(value.len() as u16).to_be_bytes());
    report[2..2 + value.len()].copy_from_slice(value.as_bytes());
    let mut body = [0; BODY];
    body[..32].copy_from_slice(&Sha256::digest(crowd.as_bytes()));
    inner.seal(nonce, &report, &mut body[32..]);
    let mut envelope = [0; OUTER];
    outer.seal(nonce, &body, &mut envelope);
    out.extend_from_slice(line[..moment.len() + sender.len() + 2].as_bytes());
    put_hex(&envelope, out);
    out.push(b'\n');
    Some(())
}

fn batch(input: &str, output: &str, least: u32) -> Result<()> {
    let submissions = fs::read_to_string(input)?;
    let count = lines(&submissions).count();
    if count > MOST {
        return Err("too many lines".into());
    }
    let mut envelopes = Vec::with_capacity(count);
    for (place, line) in lines(&submissions).enumerate() {
        envelopes.push(envelope_in(line).ok_or_else(|| format!("line {} is refused", place + 1))?);
    }
    if envelopes.len() < least as usize {
        return Err("too few".into());
    }
    envelopes.sort_unstable();
    let mut out = BufWriter::new(File::create(output)?);
    out.write_all(b"ESAB\x01")?;
    out.write_all(&(envelopes.len() as u32).to_be_bytes())?;
    out.write_all(&(OUTER as u16).to_be_bytes())?;
    out.write_all(envelopes.as_flattened())?;
    out.flush()?;
    println!("batched {}", envelopes.len());
    Ok(())
}

fn envelope_in(line: &str) -> Option<[u8; OUTER]> {
    let mut fields = line.splitn(3, '\t');
    let (moment, sender, digits) = (fields.next()?, fields.next()?, fields.next()?);
    check_front(moment, sender)?;
    let mut envelope = [0; OUTER];
    hex_into(digits.as_bytes(), &mut envelope)?;
    Some(envelope)
}

fn analyse(input: &str, output: &str, inner: &Keys) -> Result<()> {
    let forward = fs::read(input)?;
    let (header, records) = forward.split_at_checked(11).ok_or("cut")?;
    if &header[..5] != b"ESAF\x01" || header[9..] != (INNER as u16).to_be_bytes() {
        return Err("no forward file of form One".into());
    }
    let count = u32::from_be_bytes(header[5..9].try_into()?) as usize;
    if count > MOST || records.len() != count * INNER {
        return Err("cut, trailing or too many".into());
    }
    let mut counts: BTreeMap<Vec<u8>, u32> = BTreeMap::new();
    let mut unopened = 0u32;
    for envelope in records.chunks_exact(INNER) {
        let mut report = [0; REPORT];
        match inner.open(envelope, &mut report).and_then(|()| value_of(&report)) {
            Some(value) => match counts.get_mut(value) {
                Some(count) => *count += 1,
                None => {
                    counts.insert(value.to_vec(), 1);
                }
            },
            None => unopened += 1,
        }
    }
    let mut out = BufWriter::new(File::create(output)?);
    out.write_all(b"ESAD\x01")?;
    out.write_all(&(counts.len() as u32).to_be_bytes())?;
    out.write_all(&unopened.to_be_bytes())?;
    for (value, count) in &counts {
        out.write_all(&[value.len() as u8])?;
        out.write_all(value)?;
        out.write_all(&count.to_be_bytes())?;
    }
    out.flush()?;
    println!("counted {} rows, {unopened} unopened", counts.len());
    Ok(())
}

fn forward(input: &str, output: &str, outer: &Keys) -> Result<()> {
    let batch = fs::read(input)?;
    let (header, records) = batch.split_at_checked(11).ok_or("cut")?;
    let mut out = BufWriter::new(File::create(output)?);
    out.write_all(b"ESAF\x01")?;
    out.write_all(&header[5..9])?;
    out.write_all(&(INNER as u16).to_be_bytes())?;
    for envelope in records.chunks_exact(OUTER) {
        let mut body = [0; BODY];
        outer.open(envelope, &mut body).ok_or("an envelope doesn't open")?;
        out.write_all(&body[32..])?;
    }
    out.flush()?;
    Ok(())
}

// ---- lines and digits

/// The lines of a text, the last with or without a newline.
fn lines(text: &str) -> impl Iterator<Item = &str> {
    text.split_terminator('\n')
}

/// Whether a line begins with a decimal number below 2^64 and a printable sender.
fn check_front(moment: &str, sender: &str) -> Option<()> {
    let digits = moment.bytes().all(|byte| byte.is_ascii_digit()) && (moment.len() == 1 || !moment.starts_with('0'));
    moment.parse::<u64>().ok().filter(|_| digits)?;
    let printable = (1..=64).contains(&sender.len()) && sender.bytes().all(|byte| byte.is_ascii_graphic());
    printable.then_some(())
}

fn put_hex(bytes: &[u8], out: &mut Vec<u8>) {
    const DIGITS: &[u8; 16] = b"0123456789abcdef";
    out.extend(bytes.iter().flat_map(|byte| [DIGITS[usize::from(byte >> 4)], DIGITS[usize::from(byte & 15)]]));
}

fn digit(byte: u8) -> Option<u8> {
    match byte {
        b'0'..=b'9' => Some(byte - b'0'),
        b'a'..=b'f' => Some(byte - b'a' + 10),
        b'A'..=b'F' => Some(byte - b'A' + 10),
        _ => None,
    }
}

fn hex_into(text: &[u8], out: &mut [u8]) -> Option<()> {
    if text.len() != 2 * out.len() {
        return None;
    }
    for (byte, pair) in out.iter_mut().zip(text.chunks_exact(2)) {
        *byte = digit(pair[0])? << 4 | digit(pair[1])?;
    }
    Some(())
}

fn master(digits: &str) -> Result<[u8; 32]> {
    let mut master = [0; 32];
    hex_into(digits.as_bytes(), &mut master).ok_or("a key has 64 digits")?;
    Ok(master)
}

// ---- envelopes

/// The value of a report: its length, the value, and zero bytes.
fn value_of(report: &[u8; REPORT]) -> Option<&[u8]> {
    let length = usize::from(u16::from_be_bytes([report[0], report[1]]));
    let (value, rest) = report[2..].split_at_checked(length)?;
    rest.iter().all(|byte| *byte == 0).then_some(value)
}

/// The keys of one label.
struct Keys {
    cipher: [u8; 32],
    tag: Hmac,
    label: &'static str,
}

impl Keys {
    fn new(master: &[u8; 32], label: &'static str) -> Keys {
        let derived = |use_of: &str| Hmac::new(master).tag(&[use_of.as_bytes(), label.as_bytes()]);
        Keys { cipher: derived("enc:"), tag: Hmac::new(&derived("mac:")), label }
    }

    fn seal(&self, nonce: u64, plain: &[u8], out: &mut [u8]) {
        let (body, tag) = out.split_at_mut(8 + plain.len());
        body[..8].copy_from_slice(&nonce.to_be_bytes());
        body[8..].copy_from_slice(plain);
        chacha20(&self.cipher, nonce, &mut body[8..]);
        tag.copy_from_slice(&self.tag.tag(&[self.label.as_bytes(), body]));
    }

    fn open(&self, sealed: &[u8], out: &mut [u8]) -> Option<()> {
        let (body, tag) = sealed.split_at(sealed.len() - 32);
        if self.tag.tag(&[self.label.as_bytes(), body]) != tag {
            return None;
        }
        let nonce = u64::from_be_bytes(body[..8].try_into().ok()?);
        out.copy_from_slice(&body[8..]);
        chacha20(&self.cipher, nonce, out);
        Some(())
    }
}

/// HMAC-SHA-256 with a key that is prepared once.
struct Hmac {
    inner: Sha256,
    outer: Sha256,
}

impl Hmac {
    fn new(key: &[u8; 32]) -> Hmac {
        let keyed = |mask: u8| {
            let mut block = [mask; 64];
            block.iter_mut().zip(key).for_each(|(byte, key)| *byte ^= key);
            let mut hash = Sha256::new();
            hash.update(&block);
            hash
        };
        Hmac { inner: keyed(0x36), outer: keyed(0x5c) }
    }

    fn tag(&self, parts: &[&[u8]]) -> [u8; 32] {
        let mut inner = self.inner.clone();
        parts.iter().for_each(|part| inner.update(part));
        let mut outer = self.outer.clone();
        outer.update(&inner.finish());
        outer.finish()
    }
}

// ---- SHA-256

#[derive(Clone)]
struct Sha256 {
    state: [u32; 8],
    block: [u8; 64],
    length: u64,
}

impl Sha256 {
    fn new() -> Sha256 {
        let state = [0x6a09e667, 0xbb67ae85, 0x3c6ef372, 0xa54ff53a, 0x510e527f, 0x9b05688c, 0x1f83d9ab, 0x5be0cd19];
        Sha256 { state, block: [0; 64], length: 0 }
    }

    fn digest(bytes: &[u8]) -> [u8; 32] {
        let mut hash = Sha256::new();
        hash.update(bytes);
        hash.finish()
    }

    fn update(&mut self, mut bytes: &[u8]) {
        let held = (self.length % 64) as usize;
        self.length += bytes.len() as u64;
        if held > 0 {
            let (front, rest) = bytes.split_at(bytes.len().min(64 - held));
            self.block[held..held + front.len()].copy_from_slice(front);
            if held + front.len() < 64 {
                return;
            }
            compress(&mut self.state, &self.block);
            bytes = rest;
        }
        let (blocks, rest) = bytes.as_chunks();
        blocks.iter().for_each(|block| compress(&mut self.state, block));
        self.block[..rest.len()].copy_from_slice(rest);
    }

    fn finish(mut self) -> [u8; 32] {
        let held = (self.length % 64) as usize;
        self.block[held] = 0x80;
        self.block[held + 1..].fill(0);
        if held >= 56 {
            compress(&mut self.state, &self.block);
            self.block.fill(0);
        }
        self.block[56..].copy_from_slice(&(8 * self.length).to_be_bytes());
        compress(&mut self.state, &self.block);
        let mut digest = [0; 32];
        digest.chunks_exact_mut(4).zip(self.state).for_each(|(four, word)| four.copy_from_slice(&word.to_be_bytes()));
        digest
    }
}

fn compress(state: &mut [u32; 8], block: &[u8; 64]) {
    let mut w = [0u32; 64];
    for (word, four) in w.iter_mut().zip(block.as_chunks::<4>().0) {
        *word = u32::from_be_bytes(*four);
    }
    for t in 16..64 {
        let low = w[t - 15].rotate_right(7) ^ w[t - 15].rotate_right(18) ^ w[t - 15] >> 3;
        let high = w[t - 2].rotate_right(17) ^ w[t - 2].rotate_right(19) ^ w[t - 2] >> 10;
        w[t] = w[t - 16].wrapping_add(low).wrapping_add(w[t - 7]).wrapping_add(high);
    }
    let [mut a, mut b, mut c, mut d, mut e, mut f, mut g, mut h] = *state;
    for t in 0..64 {
        let sum = e.rotate_right(6) ^ e.rotate_right(11) ^ e.rotate_right(25);
        let one = h.wrapping_add(sum).wrapping_add(g ^ e & (f ^ g)).wrapping_add(K[t]).wrapping_add(w[t]);
        let sum = a.rotate_right(2) ^ a.rotate_right(13) ^ a.rotate_right(22);
        let two = sum.wrapping_add(a & b ^ a & c ^ b & c);
        (h, g, f, e, d, c, b, a) = (g, f, e, d.wrapping_add(one), c, b, a, one.wrapping_add(two));
    }
    for (word, more) in state.iter_mut().zip([a, b, c, d, e, f, g, h]) {
        *word = word.wrapping_add(more);
    }
}

const K: [u32; 64] = [
    0x428a2f98, 0x71374491, 0xb5c0fbcf, 0xe9b5dba5, 0x3956c25b, 0x59f111f1, 0x923f82a4, 0xab1c5ed5, 0xd807aa98, 0x12835b01,
    0x243185be, 0x550c7dc3, 0x72be5d74, 0x80deb1fe, 0x9bdc06a7, 0xc19bf174, 0xe49b69c1, 0xefbe4786, 0x0fc19dc6, 0x240ca1cc,
    0x2de92c6f, 0x4a7484aa, 0x5cb0a9dc, 0x76f988da, 0x983e5152, 0xa831c66d, 0xb00327c8, 0xbf597fc7, 0xc6e00bf3, 0xd5a79147,
    0x06ca6351, 0x14292967, 0x27b70a85, 0x2e1b2138, 0x4d2c6dfc, 0x53380d13, 0x650a7354, 0x766a0abb, 0x81c2c92e, 0x92722c85,
    0xa2bfe8a1, 0xa81a664b, 0xc24b8b70, 0xc76c51a3, 0xd192e819, 0xd6990624, 0xf40e3585, 0x106aa070, 0x19a4c116, 0x1e376c08,
    0x2748774c, 0x34b0bcb5, 0x391c0cb3, 0x4ed8aa4a, 0x5b9cca4f, 0x682e6ff3, 0x748f82ee, 0x78a5636f, 0x84c87814, 0x8cc70208,
    0x90befffa, 0xa4506ceb, 0xbef9a3f7, 0xc67178f2,
];

// ---- ChaCha20, with a counter and a nonce of 64 bits each

fn chacha20(key: &[u8; 32], nonce: u64, text: &mut [u8]) {
    let mut start = [0u32; 16];
    start[..4].copy_from_slice(&[0x61707865, 0x3320646e, 0x79622d32, 0x6b206574]);
    for (word, four) in start[4..12].iter_mut().zip(key.as_chunks::<4>().0) {
        *word = u32::from_le_bytes(*four);
    }
    start[14] = nonce as u32;
    start[15] = (nonce >> 32) as u32;
    for (number, part) in (0u64..).zip(text.chunks_mut(64)) {
        start[12] = number as u32;
        start[13] = (number >> 32) as u32;
        let mut x = start;
        for _ in 0..10 {
            quarter(&mut x, 0, 4, 8, 12);
            quarter(&mut x, 1, 5, 9, 13);
            quarter(&mut x, 2, 6, 10, 14);
            quarter(&mut x, 3, 7, 11, 15);
            quarter(&mut x, 0, 5, 10, 15);
            quarter(&mut x, 1, 6, 11, 12);
            quarter(&mut x, 2, 7, 8, 13);
            quarter(&mut x, 3, 4, 9, 14);
        }
        let mut stream = [0; 64];
        for (four, (word, first)) in stream.as_chunks_mut().0.iter_mut().zip(x.iter().zip(start)) {
            *four = word.wrapping_add(first).to_le_bytes();
        }
        part.iter_mut().zip(stream).for_each(|(byte, mask)| *byte ^= mask);
    }
}

fn quarter(x: &mut [u32; 16], a: usize, b: usize, c: usize, d: usize) {
    x[a] = x[a].wrapping_add(x[b]);
    x[d] = (x[d] ^ x[a]).rotate_left(16);
    x[c] = x[c].wrapping_add(x[d]);
    x[b] = (x[b] ^ x[c]).rotate_left(12);
    x[a] = x[a].wrapping_add(x[b]);
    x[d] = (x[d] ^ x[a]).rotate_left(8);
    x[c] = x[c].wrapping_add(x[d]);
    x[b] = (x[b] ^ x[c]).rotate_left(7);
}
