//! Little-endian numbers in bytes.

/// The number in `width` bytes (at most 8) from `at` on.
pub fn read(bytes: &[u8], at: usize, width: usize) -> u64 {
    let mut number = 0;
    for i in 0..width {
        number |= u64::from(bytes[at + i]) << (8 * i);
    }
    number
}

/// Puts the low `width` bytes of `number` into `bytes` from `at` on.
pub fn put(bytes: &mut [u8], at: usize, width: usize, number: u64) {
    for i in 0..width {
        bytes[at + i] = (number >> (8 * i)) as u8;
    }
}

#[cfg(test)]
mod tests {
    use super::*;

    #[test]
    fn the_first_byte_is_the_lowest() {
        let bytes = [0xFF, 1, 2, 3, 4, 5, 6, 7, 8];
        assert_eq!(read(&bytes, 1, 2), 0x0201);
        assert_eq!(read(&bytes, 1, 4), 0x0403_0201);
        assert_eq!(read(&bytes, 1, 8), 0x0807_0605_0403_0201);
    }

    #[test]
    fn what_is_put_reads_back_and_the_rest_stays() {
        let mut bytes = [9; 10];
        put(&mut bytes, 1, 8, 0x8070_6050_4030_2010);
        assert_eq!(read(&bytes, 1, 8), 0x8070_6050_4030_2010);
        assert_eq!((bytes[0], bytes[9]), (9, 9));
        put(&mut bytes, 4, 2, 0xABCD_1234);
        assert_eq!(&bytes[3..7], &[0x30, 0x34, 0x12, 0x60]);
    }
}
