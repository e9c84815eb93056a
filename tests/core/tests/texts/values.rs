//! The word of a value, and the value of a word.

use proved::rw_law::Payload;

/// Returns the value of a value's word.
fn there_and_back<V: Payload>(value: &V) -> Option<V> {
    V::from_word(value.word())
}

#[test]
fn a_number_is_its_own_word() {
    for value in [0, 7, 18_446_744_073_709_551_615] {
        let found = (value.word(), there_and_back(&value));
        assert_eq!(found, (value, Some(value)), "case {value}");
    }
}
