//! Bytes written as pairs of hexadecimal digits, `-` for no bytes.

pub fn decode(word: &[u8]) -> Option<Vec<u8>> {
    if word == b"-" {
        return Some(Vec::new());
    }
    if word.is_empty() || word.len() % 2 != 0 {
        return None;
    }
    word.chunks(2).map(|pair| Some(digit(pair[0])? * 16 + digit(pair[1])?)).collect()
}

fn digit(byte: u8) -> Option<u8> {
    match byte {
        b'0'..=b'9' => Some(byte - b'0'),
        b'a'..=b'f' => Some(byte - b'a' + 10),
        b'A'..=b'F' => Some(byte - b'A' + 10),
        _ => None,
    }
}

pub fn encode(bytes: &[u8]) -> String {
    if bytes.is_empty() {
        return "-".to_string();
    }
    bytes.iter().map(|byte| format!("{byte:02x}")).collect()
}

#[cfg(test)]
mod tests {
    use super::*;

    #[test]
    fn there_and_back() {
        assert_eq!(decode(b"-"), Some(vec![]));
        assert_eq!(decode(b"0aFf"), Some(vec![10, 255]));
        assert_eq!(encode(&[10, 255]), "0aff");
        assert_eq!(encode(&[]), "-");
        for wrong in ["", "0", "0g", "000", "--", "+1"] {
            assert_eq!(decode(wrong.as_bytes()), None);
        }
    }
}
