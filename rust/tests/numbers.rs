//! Numbers as people write them: what is written of a finite number reads back to it, and no text
//! reads to a NaN or an infinity.

mod scripts;

use scripts::generator::{NOT_FINITE, PATTERNS};
use scripts::Random;
use sif::decimal::{read, write, Unreadable};

fn hold(pattern: u64) {
    let text = write(f64::from_bits(pattern));
    let finite = pattern & 0x7ff0_0000_0000_0000 != 0x7ff0_0000_0000_0000;
    let expected = if finite { Ok(pattern) } else { Err(Unreadable::Form) };
    assert_eq!(read(&text).map(f64::to_bits), expected, "{pattern:016x} as {text}");
}

#[test]
fn extremes() {
    PATTERNS.into_iter().chain(NOT_FINITE).for_each(hold);
    for exponent in 0..2048u64 {
        for fraction in [0, 1, 2, (1 << 51) - 1, 1 << 51, (1 << 52) - 2, (1 << 52) - 1] {
            hold(exponent << 52 | fraction);
            hold(1 << 63 | exponent << 52 | fraction);
        }
    }
}

#[test]
fn patterns_by_seed() {
    let count = if cfg!(debug_assertions) { 50_000 } else { 1_000_000 };
    let mut random = Random::new(5);
    for _ in 0..count {
        hold(random.next());
        hold((random.below(2_000_000) as f64 / 1000.0 - 1000.0).to_bits());
    }
}

/// No form with fewer digits reads to the same number.
#[test]
fn shortest() {
    let mut random = Random::new(6);
    for _ in 0..100_000 {
        let number = f64::from_bits(random.next());
        if !number.is_finite() {
            continue;
        }
        let digits = format!("{number:e}").bytes().filter(u8::is_ascii_digit).count();
        let written = write(number);
        let significand = written.split('e').next().unwrap();
        let significant = significand.trim_start_matches(['-', '0', '.']).replace('.', "");
        let significant = significant.trim_end_matches('0').len();
        assert!(significant <= digits);
        if significant > 1 {
            let shorter = format!("{:.*e}", significant - 2, number);
            assert_ne!(shorter.parse::<f64>(), Ok(number), "{written} and {shorter}");
        }
    }
}

#[test]
fn forms() {
    let written = [
        (0.0, "0"),
        (-0.0, "-0"),
        (1.0, "1"),
        (-2.5, "-2.5"),
        (0.1, "0.1"),
        (0.00001, "0.00001"),
        (0.000001, "1e-6"),
        (0.0000015, "1.5e-6"),
        (9999999999999998.0, "9999999999999998"),
        (1e16, "1e16"),
        (-1.25e20, "-1.25e20"),
        (f64::MAX, "1.7976931348623157e308"),
        (5e-324, "5e-324"),
        (f64::INFINITY, "inf"),
        (f64::NEG_INFINITY, "-inf"),
        (f64::NAN, "nan"),
    ];
    for (number, text) in written {
        assert_eq!(write(number), text);
    }
    let read_as =
        [("007", 7.0f64), ("2.50", 2.5), ("1E3", 1000.0), ("1e+3", 1000.0), ("-0.0", -0.0)];
    for (text, number) in read_as {
        assert_eq!(read(text).map(f64::to_bits), Ok(number.to_bits()), "{text}");
    }
}

#[test]
fn refused_forms() {
    let texts = [
        "",
        "-",
        ".5",
        "5.",
        "1e",
        "1e+",
        "e5",
        "1.2.3",
        "1_000",
        "1,5",
        "+1",
        " 1",
        "0x10",
        "--1",
        "inf",
        "-inf",
        "Inf",
        "infinity",
        "nan",
        "NaN",
        "-nan",
        "nan(7ff8000000000001)",
        "1e5e5",
        "one",
        "\u{661}",
    ];
    for text in texts {
        assert_eq!(read(text), Err(Unreadable::Form), "{text}");
    }
}

/// What is nearer to 2^1024 than to the largest number is too large, and so is the number in the
/// middle; what is nearer to 0 than to the smallest is too small.
#[test]
fn borders() {
    // 2^1024 - 2^970, and 1 less.
    let middle = "17976931348623158079372897140530341507993413271003782693617377898044496829276475\
                  09466490179775872070963302864166928879109465555478519404026306574886715058206819\
                  08902000708383676273854845817711531764475730270069855571366959622842914819860834\
                  936475292719074168444365510704342711559699508093042880177904174497792";
    let below = format!("{}1", middle.strip_suffix('2').unwrap());
    for text in ["1.7976931348623157e308", "1.7976931348623158e308", &below] {
        assert_eq!(read(text), Ok(f64::MAX), "{text}");
        assert_eq!(read(&format!("-{text}")), Ok(f64::MIN), "-{text}");
    }
    for text in [middle, "1.7976931348623159e308", "1.8e308", "1e309", "1e999", "1e99999999999"] {
        assert_eq!(read(text), Err(Unreadable::TooLarge), "{text}");
        assert_eq!(read(&format!("-{text}")), Err(Unreadable::TooLarge), "-{text}");
    }
    for text in ["5e-324", "3e-324"] {
        assert_eq!(read(text), Ok(f64::from_bits(1)), "{text}");
    }
    for text in ["2e-324", "1e-324", "1e-999", "-1e-999"] {
        assert_eq!(read(text), Err(Unreadable::TooSmall), "{text}");
    }
    for (text, zero) in [("0e-999", 0.0f64), ("0e999", 0.0), ("-0e999", -0.0)] {
        assert_eq!(read(text).map(f64::to_bits), Ok(zero.to_bits()), "{text}");
    }
}
