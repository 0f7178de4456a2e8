//! CRC-64 as ECMA-182 defines it, computed bit by bit.

const POLYNOMIAL: u64 = 0x42F0_E1EB_A9EA_3693;

fn bit_step(register: u64, bit: u64) -> u64 {
    if register >> 63 == bit {
        register << 1
    } else {
        (register << 1) ^ POLYNOMIAL
    }
}

fn byte_step(start: u64, byte: u8) -> u64 {
    let value = u64::from(byte);
    (0..8).fold(start, |register, i| {
        bit_step(register, (value >> (7 - i)) % 2)
    })
}

pub fn crc64(bytes: &[u8]) -> u64 {
    bytes
        .iter()
        .fold(0, |register, &byte| byte_step(register, byte))
}

#[cfg(test)]
mod tests {
    use super::crc64;

    #[test]
    fn catalogued_check_value() {
        assert_eq!(crc64(b"123456789"), 0x6C40_DF5F_0B49_7347);
    }

    #[test]
    fn borders_of_document_01() {
        assert_eq!(crc64(&[]), 0);
        assert_eq!(crc64(&[1]), 0x42F0_E1EB_A9EA_3693);
        assert_eq!(crc64(&[2]), 0x85E1_C3D7_53D4_6D26);
    }
}
