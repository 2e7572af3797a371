//! Stands in for the file of this name, which is not at hand. Only the text parsing of ratios calls it, and nothing that is compared does.

pub fn split_balanced(_text: &str, _separator: char) -> Vec<&str> {
    eprintln!("compare: the stand-in for parse.rs was called");
    std::process::abort()
}
