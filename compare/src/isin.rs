//! The identifier: "ISO 6166: two letters A to Z, nine of A to Z or 0 to 9, one check digit."

/// "the doubled digits are 0 2 4 6 8 1 3 5 7 9"
const DOUBLED: [u32; 10] = [0, 2, 4, 6, 8, 1, 3, 5, 7, 9];

/// 0 for an identifier that passes, 4 for its form, 5 for its check digit.
pub fn verdict(identifier: &[u8]) -> u8 {
    if !well_formed(identifier) {
        4
    } else if u32::from(identifier[11] - b'0') != check_digit(&identifier[..11]) {
        5
    } else {
        0
    }
}

fn well_formed(identifier: &[u8]) -> bool {
    identifier.len() == 12
        && identifier[..2].iter().all(u8::is_ascii_uppercase)
        && identifier[2..11].iter().all(|c| c.is_ascii_uppercase() || c.is_ascii_digit())
        && identifier[11].is_ascii_digit()
}

/// "Digits stand for themselves, A is 10 up to Z which is 35"
fn value(character: u8) -> u32 {
    match character {
        b'0'..=b'9' => u32::from(character - b'0'),
        _ => u32::from(character - b'A') + 10,
    }
}

/// "The check digit brings the total to a multiple of ten."
fn check_digit(characters: &[u8]) -> u32 {
    (10 - total(characters) % 10) % 10
}

/// "From the right end of the expanded first eleven characters, the first, third, fifth digit and so on
/// are doubled [..] The other digits are added as they are."
fn total(characters: &[u8]) -> u32 {
    let mut sum = 0;
    let mut doubled = true;
    let mut add = |digit: u32| {
        sum += if doubled { DOUBLED[digit as usize] } else { digit };
        doubled = !doubled;
    };
    for &character in characters.iter().rev() {
        let value = value(character);
        add(value % 10);
        if value >= 10 {
            add(value / 10);
        }
    }
    sum
}

/// The check digit of eleven well-formed characters, as a character.
pub fn check_character(characters: &[u8]) -> u8 {
    b'0' + check_digit(characters) as u8
}

#[cfg(test)]
mod tests {
    use super::{value, verdict};

    #[test]
    fn examples() {
        for passing in ["ZZ0000000016", "ZZ0000000024", "US0378331005"] {
            assert_eq!(verdict(passing.as_bytes()), 0, "{passing}");
        }
        assert_eq!(verdict(b"ZZ0000000017"), 5);
        assert_eq!(verdict(b"ZZ000000016 "), 4);
    }

    /// Request 2.8: "code - 48 - 7 × (code / 65) [..] over them it is document 01's value and takes each of
    /// 0 to 35 exactly once". That A is 10 up to Z which is 35 is also how Rust reads digits to the base 36.
    #[test]
    fn values() {
        let allowed: Vec<u8> = (b'0'..=b'9').chain(b'A'..=b'Z').collect();
        let arithmetic: Vec<u32> = allowed.iter().map(|&code| u32::from(code - 48 - 7 * (code / 65))).collect();
        let digits: Vec<u32> = allowed.iter().filter_map(|&code| char::from(code).to_digit(36)).collect();
        assert_eq!(arithmetic, digits);
        assert_eq!(arithmetic, allowed.iter().map(|&code| value(code)).collect::<Vec<u32>>());
        assert_eq!(arithmetic, (0..36).collect::<Vec<u32>>());
    }

    #[test]
    fn forms() {
        for faulty in ["", "ZZ000000001", "ZZ00000000160", "Z00000000016", "zz0000000016", "ZZ000000001A"] {
            assert_eq!(verdict(faulty.as_bytes()), 4, "{faulty}");
        }
    }
}
