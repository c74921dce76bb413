//! The driver's text is esp-hal's: no line of it was touched.

const GIVEN: &[u8] = include_bytes!("../src/i2c/master/low_level/mod.rs");

/// SHA-256 of `src/i2c/master/low_level/mod.rs` in esp-hal 1.2.2.
const SHA_256: &str = "4796f10a8ce4dd973067ce2fe1b26ff3bf7e3d3a6d80489e300e887192aa2d72";

#[test]
fn given_text_is_unchanged() {
    assert_eq!(sha256(GIVEN), SHA_256);
}

#[test]
fn sha256_of_the_standards_example() {
    let abc = "ba7816bf8f01cfea414140de5dae2223b00361a396177a9cb410ff61f20015ad";
    assert_eq!(sha256(b"abc"), abc);
}

/// SHA-256, FIPS 180-4.
fn sha256(message: &[u8]) -> String {
    let k = primes().map(|p| fraction(p.into(), 3));
    let mut hash: Vec<u32> = primes()[..8]
        .iter()
        .map(|p| fraction((*p).into(), 2))
        .collect();

    let mut padded = message.to_vec();
    padded.push(0x80);
    while padded.len() % 64 != 56 {
        padded.push(0);
    }
    padded.extend((message.len() as u64 * 8).to_be_bytes());

    for block in padded.chunks(64) {
        let mut w = [0u32; 64];
        for (word, bytes) in w.iter_mut().zip(block.chunks(4)) {
            *word = u32::from_be_bytes(bytes.try_into().unwrap());
        }
        for t in 16..64 {
            let s0 = w[t - 15].rotate_right(7) ^ w[t - 15].rotate_right(18) ^ w[t - 15] >> 3;
            let s1 = w[t - 2].rotate_right(17) ^ w[t - 2].rotate_right(19) ^ w[t - 2] >> 10;
            w[t] = sum(&[w[t - 16], s0, w[t - 7], s1]);
        }
        let mut v = hash.clone();
        for t in 0..64 {
            let (a, e) = (v[0], v[4]);
            let s1 = e.rotate_right(6) ^ e.rotate_right(11) ^ e.rotate_right(25);
            let t1 = sum(&[v[7], s1, e & v[5] ^ !e & v[6], k[t], w[t]]);
            let s0 = a.rotate_right(2) ^ a.rotate_right(13) ^ a.rotate_right(22);
            let t2 = sum(&[s0, a & v[1] ^ a & v[2] ^ v[1] & v[2]]);
            v.rotate_right(1);
            v[4] = sum(&[v[4], t1]);
            v[0] = sum(&[t1, t2]);
        }
        for (total, value) in hash.iter_mut().zip(v) {
            *total = total.wrapping_add(value);
        }
    }
    hash.iter().map(|word| format!("{word:08x}")).collect()
}

fn sum(words: &[u32]) -> u32 {
    words
        .iter()
        .fold(0, |total, word| total.wrapping_add(*word))
}

/// The first 64 primes, from which the constants come.
fn primes() -> [u16; 64] {
    let mut numbers = (2..).filter(|n| (2..*n).all(|d| n % d != 0));
    core::array::from_fn(|_| numbers.next().unwrap())
}

/// The first 32 bits of the fraction of a root of p.
fn fraction(p: u128, root: u32) -> u32 {
    let scaled = p << (32 * root);
    let (mut low, mut high) = (0u128, 1 << 40);
    while high - low > 1 {
        let middle = (low + high) / 2;
        if middle.pow(root) <= scaled {
            low = middle
        } else {
            high = middle
        }
    }
    low as u32
}
