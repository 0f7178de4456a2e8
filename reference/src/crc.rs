//! The CRC of rule 2.3, as the remainder of a polynomial division over GF(2).

/// x^64 and the polynomial below it.
const DIVISOR: u128 = 0x1_42F0_E1EB_A9EA_3693;

/// The remainder that long division leaves of the body followed by 64 zero bits.
pub fn crc(body: &[u8]) -> u64 {
    let bits = body
        .iter()
        .flat_map(|byte| (0..8).rev().map(move |place| byte >> place & 1));
    let dividend = bits.chain(std::iter::repeat_n(0, 64));
    let remainder = dividend.fold(0, |remainder, bit| reduce(remainder << 1 | u128::from(bit)));
    u64::try_from(remainder).expect("a remainder has a degree below 64")
}

/// A polynomial of degree 64 or less, less the divisor where its degree is 64.
fn reduce(polynomial: u128) -> u128 {
    if polynomial >> 64 == 0 {
        polynomial
    } else {
        polynomial ^ DIVISOR
    }
}

#[cfg(test)]
mod tests {
    use super::crc;

    #[test]
    fn p1_no_bytes() {
        assert_eq!(crc(&[]), 0);
    }

    #[test]
    fn p2_byte_01() {
        assert_eq!(crc(&[0x01]), 0x42F0_E1EB_A9EA_3693);
    }

    #[test]
    fn p3_byte_02() {
        assert_eq!(crc(&[0x02]), 0x85E1_C3D7_53D4_6D26);
    }

    #[test]
    fn check_value_of_the_catalogue() {
        assert_eq!(crc(b"123456789"), 0x6C40_DF5F_0B49_7347);
    }
}
