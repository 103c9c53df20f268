//! Numbers as people write and read them: decimals, and bits.

use crate::words::quoted;

/// What is wrong with a word, and what to write in its place.
type Fault = (&'static str, &'static str);

const NO_NUMBER: Fault = (
    "is not a number",
    "write a decimal such as 2.5, or its bits as 0x and 16 hexadecimal digits",
);
const NOT_ALL_BITS: Fault = (
    "has 0x in front but not the 16 hexadecimal digits of bits",
    "write all 16, zeros too",
);
const BITS_OR_DECIMAL: Fault = (
    "has 16 hexadecimal digits and no 0x",
    "write 0x in front of them for bits, or a decimal point, as in 4024000000000000.0, for a \
     decimal",
);
const OTHER_DASH: Fault = (
    "has a dash that is no minus sign",
    "write a minus sign - in its place",
);
const TOO_LARGE: Fault = (
    "is beyond the largest double",
    "write inf or -inf for an infinity",
);

/// The minus sign of documents.
const MINUS: char = '\u{2212}';

/// Reads a number, called `name` in the message where it is none.
pub fn read(name: &str, word: &str) -> Result<f64, String> {
    number(word)
        .map_err(|(fault, advice)| format!("the {name} {fault}: {}; {advice}", quoted(word)))
}

fn number(word: &str) -> Result<f64, Fault> {
    if let Some(digits) = word.strip_prefix("0x").or(word.strip_prefix("0X")) {
        return of_bits(digits).ok_or(NOT_ALL_BITS);
    }
    if of_bits(word).is_some() {
        return Err(BITS_OR_DECIMAL);
    }
    let Ok(number) = word.replace(MINUS, "-").parse::<f64>() else {
        let dash = word.contains(is_other_dash);
        return Err(if dash { OTHER_DASH } else { NO_NUMBER });
    };
    if number.is_infinite() && word.contains(|c: char| c.is_ascii_digit()) {
        return Err(TOO_LARGE);
    }
    Ok(number)
}

/// The hyphens and dashes of Unicode that are neither - nor the minus sign.
fn is_other_dash(c: char) -> bool {
    matches!(
        c,
        '\u{2010}'..='\u{2015}' | '\u{fe58}' | '\u{fe63}' | '\u{ff0d}'
    )
}

fn of_bits(digits: &str) -> Option<f64> {
    let all_digits = digits.bytes().all(|digit| digit.is_ascii_hexdigit());
    if digits.len() != 16 || !all_digits {
        return None;
    }
    let bits = u64::from_str_radix(digits, 16).ok()?;
    Some(f64::from_bits(bits))
}

/// The shortest decimal that reads back exactly; NaN, inf or -inf.
pub fn decimal(number: f64) -> String {
    format!("{number:?}")
}

/// The bits, as `read` takes them.
pub fn bits(number: f64) -> String {
    format!("{:#018x}", number.to_bits())
}

#[cfg(test)]
mod tests {
    use super::*;

    fn bits_read(word: &str) -> u64 {
        read("order", word).unwrap().to_bits()
    }

    /// Every word is answered by this fault.
    fn faulty(words: &[&str], (fault, advice): Fault) {
        for word in words {
            let message = read("order", word).unwrap_err();
            let start = format!("the order {fault}: ");
            assert!(message.starts_with(&start), "{word}: {message}");
            assert!(message.ends_with(&format!("; {advice}")), "{message}");
        }
    }

    #[test]
    fn decimals_and_bits_are_read() {
        assert_eq!(bits_read("2.5"), 0x4004_0000_0000_0000);
        assert_eq!(bits_read("0x4004000000000000"), 0x4004_0000_0000_0000);
        assert_eq!(bits_read("0XFFF8000000000ABC"), 0xfff8_0000_0000_0abc);
        assert_eq!(bits_read("-0"), 0x8000_0000_0000_0000);
        assert_eq!(bits_read("-.5e1"), (-5.0_f64).to_bits());
        assert_eq!(bits_read("-inf"), f64::NEG_INFINITY.to_bits());
        assert!(read("order", "NaN").unwrap().is_nan());
    }

    #[test]
    fn sixteen_digits_are_bits_or_a_decimal() {
        let either = [
            "4024000000000000",
            "1234567890123456",
            "0000000000000000",
            "3fe0000000000000",
            "3FE0000000000000",
            "1234567890123e45",
        ];
        faulty(&either, BITS_OR_DECIMAL);
        let decimals = [
            ("4024000000000000.0", 4024e12),
            ("4.024e15", 4024e12),
            ("-4024000000000000", -4024e12),
            ("+4024000000000000", 4024e12),
            ("402400000000000", 4024e11),
            ("40240000000000000", 4024e13),
        ];
        for (word, number) in decimals {
            assert_eq!(bits_read(word), f64::to_bits(number), "{word}");
        }
    }

    #[test]
    fn the_minus_sign_of_documents_is_a_minus() {
        let pairs = [
            ("−0.5", "-0.5"),
            ("−0", "-0"),
            ("1e−3", "1e-3"),
            ("−1.5e−300", "-1.5e-300"),
            ("−inf", "-inf"),
            ("−4024000000000000", "-4024000000000000"),
        ];
        for (word, plain) in pairs {
            assert_eq!(bits_read(word), bits_read(plain), "{word}");
        }
        faulty(&["−", "2−5", "−−5", "−0x4004000000000000"], NO_NUMBER);
        let dashes = [
            "–0.5", "—0.5", "‐0.5", "‑0.5", "‒0.5", "―0.5", "－0.5", "1e–3", "–inf",
        ];
        faulty(&dashes, OTHER_DASH);
    }

    #[test]
    fn other_words_are_answered_in_words() {
        let other = [
            "",
            "-",
            "two",
            "2,5",
            "1e",
            "--5",
            "1_000",
            "-0x4004000000000000",
            "½",
            "2.5\0",
        ];
        faulty(&other, NO_NUMBER);
        let not_all = [
            "0x",
            "0x1",
            "0X40",
            "0x+004000000000000",
            "0x40040000000000000",
        ];
        faulty(&not_all, NOT_ALL_BITS);
        faulty(&["1e400", "-1e400"], TOO_LARGE);
    }

    #[test]
    fn numbers_read_back_exactly() {
        let numbers = [
            0.0,
            -0.0,
            0.1,
            1e300,
            5e-324,
            4024e12,
            f64::MAX,
            f64::INFINITY,
            -1.0 / 3.0,
        ];
        for number in numbers {
            assert_eq!(bits_read(&decimal(number)), number.to_bits());
            assert_eq!(bits_read(&bits(number)), number.to_bits());
        }
        assert_eq!(decimal(f64::NAN), "NaN");
        assert_eq!(bits(2.5), "0x4004000000000000");
    }
}
