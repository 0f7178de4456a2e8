//! Cases of the CRC.

use super::case::Case;
use crate::random::Random;

const SEED: u64 = 1;

pub fn cases() -> Vec<Case> {
    bodies().iter().map(|body| crc_case(body)).collect()
}

fn crc_case(body: &[u8]) -> Case {
    Case::of_kind('K').given(body).crc_of(body)
}

fn bodies() -> Vec<Vec<u8>> {
    let mut random = Random::new(SEED);
    let mut bodies = vec![b"123456789".to_vec()];
    bodies.extend((0..=300).map(|length| random.bytes(length)));
    bodies.push(vec![0; 4096]);
    bodies.push(vec![255; 4096]);
    bodies.push(random.bytes(4096));
    // One byte for P2 and P3, nine so that a bit also passes through the whole register.
    bodies.extend(single_bits(1));
    bodies.extend(single_bits(9));
    bodies
}

/// The bodies of this length in which just one bit is set.
fn single_bits(length: usize) -> impl Iterator<Item = Vec<u8>> {
    (0..8 * length).map(move |place| {
        let mut body = vec![0; length];
        body[place / 8] = 0x80 >> (place % 8);
        body
    })
}

#[cfg(test)]
mod tests {
    use super::cases;
    use crate::vectors::case::output;

    #[test]
    fn the_check_text_comes_first() {
        assert!(output(&cases()).starts_with(b"K 6c40df5f0b497347\n"));
    }
}
