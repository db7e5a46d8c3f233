//! Numbers as people write them.
//!
//! [`write()`] gives the shortest decimal form; where the number is finite, [`read`] reads it back
//! to the same number.
//!
//! ```
//! use sif::decimal;
//! assert_eq!(decimal::write(0.1), "0.1");
//! assert_eq!(decimal::write(106.25), "106.25");
//! assert_eq!(decimal::write(-0.0), "-0");
//! assert_eq!(decimal::write(1e300), "1e300");
//! assert_eq!(decimal::read("2.50"), Ok(2.5));
//! ```

use std::fmt;

/// The shortest decimal form of a number: plain where the number is 0 or from 0.00001 to below
/// 10,000,000,000,000,000, else with an exponent; `inf`, `-inf` and `nan`.
pub fn write(number: f64) -> String {
    let size = number.abs();
    if number.is_nan() {
        "nan".to_string()
    } else if size == 0.0 || size.is_infinite() || (1e-5..1e16).contains(&size) {
        number.to_string()
    } else {
        format!("{number:e}")
    }
}

/// Why something is not read as a number.
#[derive(Clone, Copy, Debug, PartialEq, Eq)]
pub enum Unreadable {
    /// It has not the form of a number.
    Form,
    /// It is beyond the largest number.
    TooLarge,
    /// It is nearer to 0 than the smallest number, and not 0.
    TooSmall,
}

impl fmt::Display for Unreadable {
    fn fmt(&self, f: &mut fmt::Formatter<'_>) -> fmt::Result {
        f.write_str(match self {
            Unreadable::Form => "this is no number; numbers look like 12, 0.5 or 1e300, and names do not begin with a digit",
            Unreadable::TooLarge => "this number is too large; the largest is about 1.797e308",
            Unreadable::TooSmall => "this number is too near 0; the smallest above 0 is about 5e-324",
        })
    }
}

impl std::error::Error for Unreadable {}

/// Reads a finite number in decimal form, with or without a sign, a fraction and an exponent. The
/// nearest number is taken.
pub fn read(text: &str) -> Result<f64, Unreadable> {
    let digits = text.strip_prefix('-').unwrap_or(text);
    if !has_decimal_form(digits) {
        return Err(Unreadable::Form);
    }
    let number: f64 = text.parse().map_err(|_| Unreadable::Form)?;
    let significand = digits.split(['e', 'E']).next().unwrap_or("");
    let is_zero = !significand.contains(|c: char| ('1'..='9').contains(&c));
    if number.is_infinite() {
        Err(Unreadable::TooLarge)
    } else if number == 0.0 && !is_zero {
        Err(Unreadable::TooSmall)
    } else {
        Ok(number)
    }
}

/// Digits, then perhaps a point and digits, then perhaps `e`, a sign and digits.
fn has_decimal_form(text: &str) -> bool {
    let (significand, exponent) = match text.split_once(['e', 'E']) {
        Some((significand, exponent)) => (significand, Some(exponent)),
        None => (text, None),
    };
    let (whole, fraction) = match significand.split_once('.') {
        Some((whole, fraction)) => (whole, Some(fraction)),
        None => (significand, None),
    };
    let exponent = exponent.map(|exponent| exponent.strip_prefix(['-', '+']).unwrap_or(exponent));
    are_digits(whole) && fraction.is_none_or(are_digits) && exponent.is_none_or(are_digits)
}

fn are_digits(text: &str) -> bool {
    !text.is_empty() && text.bytes().all(|byte| byte.is_ascii_digit())
}
