//! Time stamps (rule 3.12): a number of seconds and a fraction of a second, 32 bits each.

/// One second, in the units of the fraction.
const SECOND: u64 = 1 << 32;

pub fn seconds(time_stamp: u64) -> u64 {
    time_stamp / SECOND
}

/// The first nine decimal digits of the fraction, worked out one after the other.
pub fn nanoseconds(time_stamp: u64) -> u64 {
    let mut fraction = time_stamp % SECOND;
    let mut digits = 0;
    for _ in 0..9 {
        fraction *= 10;
        digits = 10 * digits + fraction / SECOND;
        fraction %= SECOND;
    }
    digits
}

#[cfg(test)]
mod tests {
    use super::{nanoseconds, seconds, SECOND};
    use crate::random::Random;

    #[test]
    fn a_half_and_the_last_fraction() {
        assert_eq!(nanoseconds(1 << 31), 500_000_000);
        assert_eq!(nanoseconds(u64::MAX), 999_999_999);
        assert_eq!(seconds(u64::MAX), SECOND - 1);
        assert_eq!(nanoseconds(SECOND), 0);
        assert_eq!(seconds(SECOND), 1);
    }

    #[test]
    fn the_digits_are_those_of_the_quotient() {
        let mut random = Random::new(7);
        for _ in 0..1000 {
            let fraction = u64::from(random.u32());
            let quotient = fraction * 1_000_000_000 / SECOND;
            assert_eq!(nanoseconds(fraction), quotient);
        }
    }
}
