//! The sum of some bytes by FIPS 180-4. Its constants are worked out as the standard says what they are: bits of roots of primes.

type Words = [u32; 8];

fn primes() -> impl Iterator<Item = u128> {
    (2..).filter(|n| (2..*n).take_while(|d| d * d <= *n).all(|d| n % d != 0))
}

/// The first 32 bits of the fractional part of the root of that degree: the low bits of the greatest x with x^degree up to
/// prime · 2^(32·degree).
fn fraction_of_root(prime: u128, degree: u32) -> u32 {
    let most = prime << (32 * degree);
    let bits = (0..40).rev();
    bits.fold(0u128, |x, bit| if (x | 1 << bit).pow(degree) <= most { x | 1 << bit } else { x }) as u32
}

/// 5.3.3: of the square roots of the first 8 primes.
fn first() -> Words {
    let mut roots = primes().map(|prime| fraction_of_root(prime, 2));
    [(); 8].map(|()| roots.next().expect("a prime"))
}

/// 4.2.2: of the cube roots of the first 64 primes.
fn constants() -> [u32; 64] {
    let mut roots = primes().map(|prime| fraction_of_root(prime, 3));
    [(); 64].map(|()| roots.next().expect("a prime"))
}

/// 5.1.1: a 1 bit, zeros, and the length in bits, to whole blocks of 64 bytes.
fn padded(message: &[u8]) -> Vec<u8> {
    let mut all = message.to_vec();
    all.push(0x80);
    while all.len() % 64 != 56 {
        all.push(0);
    }
    all.extend((8 * message.len() as u64).to_be_bytes());
    all
}

/// 6.2.2, steps 1 to 4, for one block.
fn next(hash: Words, constants: &[u32; 64], block: &[u8]) -> Words {
    let mut w: Vec<u32> =
        block.chunks(4).map(|word| word.iter().fold(0, |value, byte| value << 8 | *byte as u32)).collect();
    for t in 16..64 {
        let (x, y) = (w[t - 15], w[t - 2]);
        let small_0 = x.rotate_right(7) ^ x.rotate_right(18) ^ x >> 3;
        let small_1 = y.rotate_right(17) ^ y.rotate_right(19) ^ y >> 10;
        w.push(small_1.wrapping_add(w[t - 7]).wrapping_add(small_0).wrapping_add(w[t - 16]));
    }
    let [mut a, mut b, mut c, mut d, mut e, mut f, mut g, mut h] = hash;
    for t in 0..64 {
        let great_1 = e.rotate_right(6) ^ e.rotate_right(11) ^ e.rotate_right(25);
        let chosen = (e & f) ^ (!e & g);
        let t1 = h.wrapping_add(great_1).wrapping_add(chosen).wrapping_add(constants[t]).wrapping_add(w[t]);
        let great_0 = a.rotate_right(2) ^ a.rotate_right(13) ^ a.rotate_right(22);
        let majority = (a & b) ^ (a & c) ^ (b & c);
        let t2 = great_0.wrapping_add(majority);
        (h, g, f, e, d, c, b, a) = (g, f, e, d.wrapping_add(t1), c, b, a, t1.wrapping_add(t2));
    }
    let mut sums = hash.iter().zip([a, b, c, d, e, f, g, h]).map(|(x, y)| x.wrapping_add(y));
    [(); 8].map(|()| sums.next().expect("eight words"))
}

/// In hexadecimal.
pub fn sum(message: &[u8]) -> String {
    let constants = constants();
    let hash = padded(message).chunks(64).fold(first(), |hash, block| next(hash, &constants, block));
    hash.iter().map(|word| format!("{word:08x}")).collect()
}

#[cfg(test)]
mod tests {
    use super::*;

    /// The examples that NIST gives for the standard, and the empty text.
    #[test]
    fn sums_of_the_standard() {
        assert_eq!(sum(b""), "e3b0c44298fc1c149afbf4c8996fb92427ae41e4649b934ca495991b7852b855");
        assert_eq!(sum(b"abc"), "ba7816bf8f01cfea414140de5dae2223b00361a396177a9cb410ff61f20015ad");
        let two_blocks = b"abcdbcdecdefdefgefghfghighijhijkijkljklmklmnlmnomnopnopq";
        assert_eq!(sum(two_blocks), "248d6a61d20638b8e5c026930c3e6039a33ce45964ff2167f6ecedd419db06c1");
    }

    #[test]
    fn constants_of_the_standard() {
        assert_eq!((first()[0], first()[7]), (0x6a09e667, 0x5be0cd19));
        assert_eq!((constants()[0], constants()[63]), (0x428a2f98, 0xc67178f2));
    }

    /// The padding of 55 bytes fits their block, that of 56 takes another.
    #[test]
    fn padding_fills_whole_blocks() {
        for (length, whole) in [(0, 64), (55, 64), (56, 128), (63, 128), (64, 128), (119, 128), (120, 192)] {
            assert_eq!(padded(&vec![0; length]).len(), whole);
        }
    }
}
