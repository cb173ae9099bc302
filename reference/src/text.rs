//! Text is bytes: the normal form of a value, and the match of a host against a pattern.

/// A to Z lowered; leading and trailing spaces gone, inner runs of spaces made one.
pub fn normalise(s: &[u8]) -> Vec<u8> {
    let words: Vec<&[u8]> = s
        .split(|byte| *byte == b' ')
        .filter(|word| !word.is_empty())
        .collect();
    words.join(&b' ').to_ascii_lowercase()
}

/// `*.a.com` matches one label before `.a.com`; `*.` matches nothing, any other pattern itself alone. No case is folded here.
pub fn match_name(pattern: &[u8], name: &[u8]) -> bool {
    match pattern.strip_prefix(b"*.") {
        None => name == pattern,
        Some(b"") => false,
        Some(_) => name.strip_suffix(&pattern[1..]).is_some_and(is_label),
    }
}

fn is_label(s: &[u8]) -> bool {
    !s.is_empty() && !s.contains(&b'.')
}
