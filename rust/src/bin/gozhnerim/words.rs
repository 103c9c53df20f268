//! Words that a person wrote: how one is shown, and the functions' names.

use gozhnerim::Function;

/// A longer word is cut where it is shown.
const SHOWN: usize = 40;

/// A word in quotes, without control characters, cut if it is long.
pub fn quoted(word: &str) -> String {
    let shown: String = word.chars().take(SHOWN).collect();
    let rest = if shown.len() < word.len() { ".." } else { "" };
    format!("{shown:?}{rest}")
}

/// The function of that name, if it is one.
pub fn function(word: &str) -> Option<Function> {
    match word {
        "D" | "d" => Some(Function::D),
        "V" | "v" => Some(Function::V),
        _ => None,
    }
}

#[cfg(test)]
mod tests {
    use super::*;

    #[test]
    fn words_are_shown_without_control_characters() {
        assert_eq!(quoted("abc"), "\"abc\"");
        assert_eq!(quoted("\u{1b}[2J"), "\"\\u{1b}[2J\"");
        assert_eq!(quoted(&"ü".repeat(41)), format!("\"{}\"..", "ü".repeat(40)));
    }

    #[test]
    fn functions_have_their_names_alone() {
        assert_eq!(function("D"), Some(Function::D));
        assert_eq!(function("v"), Some(Function::V));
        for word in ["", "DD", "U", "1"] {
            assert_eq!(function(word), None);
        }
    }
}
