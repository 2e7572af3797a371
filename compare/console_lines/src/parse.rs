//! Stands in for the file of this name, which is not at hand. Only the text parsing of ratios calls it, and nothing here does.

pub fn split_balanced(_text: &str, _separator: char) -> Vec<&str> {
    std::process::abort()
}
