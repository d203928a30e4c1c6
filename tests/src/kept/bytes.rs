//! The bytes of a kept account.
use tools::core::lent::WORDS;
use tools::core::Account;

pub const BYTES: usize = 8 * WORDS;

pub fn of(account: &Account) -> Vec<u8> {
    let words = account.words().iter();
    words.flat_map(|word| word.to_ne_bytes()).collect()
}

/// The bytes in which two accounts differ.
pub fn differing(one: &Account, other: &Account) -> Vec<usize> {
    if one.words() == other.words() {
        return Vec::new();
    }
    let (one, other) = (of(one), of(other));
    (0..BYTES)
        .filter(|&byte| one[byte] != other[byte])
        .collect()
}

#[cfg(test)]
mod tests {
    use super::*;

    #[test]
    fn every_byte_is_looked_at() {
        let account = Account::fresh();
        for byte in 0..BYTES {
            let mut words = *account.words();
            words[byte / 8] ^= 1 << (8 * (byte % 8));
            let odd = Account::from_words(words);
            assert_eq!(differing(&account, &odd).len(), 1);
        }
        assert_eq!(differing(&account, &account.clone()), []);
    }
}
