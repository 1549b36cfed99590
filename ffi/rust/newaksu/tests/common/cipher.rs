//! ChaCha20-Poly1305 (RFC 8439), only for the mechanism of the tests: it does not resist timing
//! attacks.

fn word(bytes: &[u8]) -> u32 {
    u32::from_le_bytes([bytes[0], bytes[1], bytes[2], bytes[3]])
}

fn quarter_round(s: &mut [u32; 16], a: usize, b: usize, c: usize, d: usize) {
    for (x, y, z, by) in [(a, b, d, 16), (c, d, b, 12), (a, b, d, 8), (c, d, b, 7)] {
        s[x] = s[x].wrapping_add(s[y]);
        s[z] = (s[z] ^ s[x]).rotate_left(by);
    }
}

/// A block of ChaCha20 (2.3).
pub fn block(key: &[u8; 32], counter: u32, nonce: &[u8; 12]) -> [u8; 64] {
    let mut first = [0; 16];
    first[..4].copy_from_slice(&[0x61707865, 0x3320646e, 0x79622d32, 0x6b206574]);
    for i in 0..8 {
        first[4 + i] = word(&key[4 * i..]);
    }
    first[12] = counter;
    for i in 0..3 {
        first[13 + i] = word(&nonce[4 * i..]);
    }
    let mut s = first;
    for _ in 0..10 {
        for j in 0..4 {
            quarter_round(&mut s, j, 4 + j, 8 + j, 12 + j);
        }
        for j in 0..4 {
            quarter_round(
                &mut s,
                j,
                4 + (j + 1) % 4,
                8 + (j + 2) % 4,
                12 + (j + 3) % 4,
            );
        }
    }
    let mut block = [0; 64];
    for i in 0..16 {
        let sum = s[i].wrapping_add(first[i]);
        block[4 * i..4 * i + 4].copy_from_slice(&sum.to_le_bytes());
    }
    block
}

fn apply(key: &[u8; 32], nonce: &[u8; 12], bytes: &mut [u8]) {
    for (number, part) in bytes.chunks_mut(64).enumerate() {
        let block = block(key, 1 + number as u32, nonce);
        part.iter_mut()
            .zip(block)
            .for_each(|(byte, by)| *byte ^= by);
    }
}

/// A number of 130 bits or more, in limbs of 26 bits.
type Limbs = [u64; 5];

const LIMB: u64 = 0x3ff_ffff;

fn limbs(block: &[u8; 16], top: u64) -> Limbs {
    let number = u128::from_le_bytes(*block);
    let mut limbs = [0; 5];
    for (i, limb) in limbs.iter_mut().enumerate() {
        *limb = (number >> (26 * i)) as u64 & LIMB;
    }
    limbs[4] |= top << 24;
    limbs
}

fn carried(mut limbs: Limbs) -> Limbs {
    for _ in 0..2 {
        let mut carry = 0;
        for limb in &mut limbs {
            *limb += carry;
            carry = *limb >> 26;
            *limb &= LIMB;
        }
        limbs[0] += 5 * carry;
    }
    limbs
}

fn times(h: &Limbs, r: &Limbs) -> Limbs {
    let mut product = [0; 5];
    for i in 0..5 {
        for j in 0..5 {
            let factor = if j <= i { r[i - j] } else { 5 * r[5 + i - j] };
            product[i] += h[j] * factor;
        }
    }
    carried(product)
}

/// The low 128 bits of this modulo 2^130 - 5.
fn reduced(h: Limbs) -> u128 {
    let mut h = carried(h);
    let mut less = h;
    less[0] += 5;
    let mut carry = 0;
    for limb in &mut less {
        *limb += carry;
        carry = *limb >> 26;
        *limb &= LIMB;
    }
    if carry != 0 {
        h = less;
    }
    h.iter()
        .rev()
        .fold(0, |number: u128, limb| (number << 26) | u128::from(*limb))
}

/// The tag of 2.8.
fn tag_of(key: &[u8; 32], nonce: &[u8; 12], aad: &[u8], sealed: &[u8]) -> [u8; 16] {
    let first = block(key, 0, nonce);
    let mut clamped: [u8; 16] = first[..16].try_into().unwrap();
    for i in [3, 7, 11, 15] {
        clamped[i] &= 15;
    }
    for i in [4, 8, 12] {
        clamped[i] &= 252;
    }
    let r = limbs(&clamped, 0);
    let mut h = [0; 5];
    let lengths = [
        (aad.len() as u64).to_le_bytes(),
        (sealed.len() as u64).to_le_bytes(),
    ]
    .concat();
    for part in aad
        .chunks(16)
        .chain(sealed.chunks(16))
        .chain(lengths.chunks(16))
    {
        let mut padded = [0; 16];
        padded[..part.len()].copy_from_slice(part);
        let added = limbs(&padded, 1);
        for i in 0..5 {
            h[i] += added[i];
        }
        h = times(&h, &r);
    }
    let pad = u128::from_le_bytes(first[16..32].try_into().unwrap());
    reduced(h).wrapping_add(pad).to_le_bytes()
}

/// The tag, then the encrypted text.
pub fn seal(key: &[u8; 32], nonce: &[u8; 12], aad: &[u8], text: &[u8]) -> Vec<u8> {
    let mut sealed = text.to_vec();
    apply(key, nonce, &mut sealed);
    [&tag_of(key, nonce, aad, &sealed)[..], &sealed].concat()
}

/// The text, if the tag is right.
pub fn open(key: &[u8; 32], nonce: &[u8; 12], aad: &[u8], sealed: &[u8]) -> Option<Vec<u8>> {
    let (tag, sealed) = (sealed.get(..16)?, &sealed[16..]);
    if tag != tag_of(key, nonce, aad, sealed) {
        return None;
    }
    let mut text = sealed.to_vec();
    apply(key, nonce, &mut text);
    Some(text)
}

/// The example of RFC 8439, 2.8.2.
#[test]
fn the_example_of_the_standard() {
    let key: [u8; 32] = std::array::from_fn(|i| 0x80 + i as u8);
    let nonce = [7, 0, 0, 0, 0x40, 0x41, 0x42, 0x43, 0x44, 0x45, 0x46, 0x47];
    let aad = [
        0x50, 0x51, 0x52, 0x53, 0xc0, 0xc1, 0xc2, 0xc3, 0xc4, 0xc5, 0xc6, 0xc7,
    ];
    let text = b"Ladies and Gentlemen of the class of '99: If I could offer you only one tip \
        for the future, sunscreen would be it.";
    let sealed = seal(&key, &nonce, &aad, text);
    let tag = [
        0x1a, 0xe1, 0x0b, 0x59, 0x4f, 0x09, 0xe2, 0x6a, 0x7e, 0x90, 0x2e, 0xcb, 0xd0, 0x60, 0x06,
        0x91,
    ];
    assert_eq!(sealed[..16], tag);
    assert_eq!(sealed[16..20], [0xd3, 0x1a, 0x8d, 0x34]);
    assert_eq!(
        open(&key, &nonce, &aad, &sealed).as_deref(),
        Some(&text[..])
    );
}
