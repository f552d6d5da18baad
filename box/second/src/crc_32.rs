/// CRC_32 as ISO/IEC 13818-1 draws it: a register of 32 bits, shifted once for each bit of `bytes`,
/// high bit first.
///
/// 01: polynomial 0x04C11DB7, start 0xFFFFFFFF, high bit first, no final inversion.
pub fn crc_32(bytes: &[u8]) -> u32 {
    let mut register = 0xFFFF_FFFF_u32;
    for byte in bytes {
        for place in (0..8).rev() {
            let bit = u32::from((byte >> place) & 1);
            let shifted_out = register >> 31;
            register <<= 1;
            if bit != shifted_out {
                register ^= 0x04C1_1DB7;
            }
        }
    }
    register
}

#[cfg(test)]
mod tests {
    use super::crc_32;
    use crate::vectors::CRC_32;

    #[test]
    fn published_vectors() {
        for vector in CRC_32 {
            assert_eq!(crc_32(vector.bytes), vector.crc_32, "{}", vector.source);
        }
    }

    #[test]
    fn over_bytes_and_their_crc_32_it_is_zero() {
        for vector in CRC_32 {
            let mut bytes = vector.bytes.to_vec();
            bytes.extend(vector.crc_32.to_be_bytes());
            assert_eq!(crc_32(&bytes), 0, "{}", vector.source);
        }
    }
}
