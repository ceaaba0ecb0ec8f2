//! Whether an f32 holds a number as it is written, or only a number near it.
//!
//! Hardly any decimal is an f32: 0.1 is not. What counts is that no digit changes. A written
//! number is held if it is the f32's value, rounded to as many digits as were written, or the
//! shortest decimal that reads back as that f32, which is what `rvf get` prints.

/// The most significant digits that the exact value of an f32 has.
const DIGITS: usize = 112;

/// A decimal number without its sign: its digits from the first to the last that is not zero,
/// and the power of ten of the first.
#[derive(Debug, PartialEq, Eq)]
struct Decimal {
    digits: Vec<u8>,
    power: i64,
}

impl Decimal {
    /// The number in a text that is known to read as a float and is no NaN and not infinite.
    fn of(text: &str) -> Decimal {
        let text = text.trim_start_matches(['+', '-']);
        let (mantissa, exponent) = text.split_once(['e', 'E']).unwrap_or((text, "0"));
        let (whole, fraction) = mantissa.split_once('.').unwrap_or((mantissa, ""));
        // An exponent that is too long to count is one of 0 or of no f32 at all.
        let exponent: i64 = exponent.parse().unwrap_or(i64::MIN / 2);
        let all = || whole.bytes().chain(fraction.bytes());
        let zeros = all().take_while(|&digit| digit == b'0').count();
        let mut digits: Vec<u8> = all().skip(zeros).collect();
        while digits.last() == Some(&b'0') {
            digits.pop();
        }
        let power = if digits.is_empty() { 0 } else { exponent + whole.len() as i64 - zeros as i64 - 1 };
        Decimal { digits, power }
    }
}

/// Whether `value`, which is what `text` reads as, is the number that is written there.
pub fn held(text: &str, value: f32) -> bool {
    if !value.is_finite() {
        return true;
    }
    let written = Decimal::of(text);
    let digits = written.digits.len();
    if digits == 0 {
        return value == 0.0;
    }
    written == Decimal::of(&format!("{value:e}"))
        || (digits <= DIGITS && written == Decimal::of(&format!("{value:.*e}", digits - 1)))
}

#[cfg(test)]
mod tests {
    use super::*;

    fn taken(text: &str) -> bool {
        held(text, text.parse().expect("a number"))
    }

    #[test]
    fn what_an_f32_holds_is_taken() {
        for text in [
            "0",
            "-0.00",
            "0.1",
            "+1.50",
            "1e3",
            ".5",
            "5.",
            "102.25",
            "16777216",
            "1e-45",
            "3.1415927",
            "3.4028235e38",
        ] {
            assert!(taken(text), "{text}");
        }
        // As a program prints an f32 with nine digits, and its exact value.
        for text in [
            "0.100000001",
            "16777216.0",
            "0.100000001490116119384765625",
            "1.40129846e-45",
            "NaN",
            "-inf",
            "0e99999999999999999999",
        ] {
            assert!(taken(text), "{text}");
        }
    }

    #[test]
    fn what_would_be_rounded_is_not() {
        for text in [
            "16777217",
            "1e-50",
            "3.14159265358979",
            "0.1000000001",
            "-123456789",
            "1e-99999999999999999999",
            "0.3000000000000000001",
        ] {
            assert!(!taken(text), "{text}");
        }
    }

    /// Whatever `rvf get` prints goes in again as it is.
    #[test]
    fn what_is_printed_is_taken() {
        let mut bits = 1_u32;
        for _ in 0..200_000 {
            bits = bits.wrapping_mul(747_796_405).wrapping_add(2_891_336_453);
            let value = f32::from_bits(bits);
            for value in [value, f32::from_bits(bits & 0x7F80_0000)] {
                assert!(held(&value.to_string(), value), "{value}");
                assert!(held(&format!("{value:.8e}"), value), "{value}");
            }
        }
    }
}
