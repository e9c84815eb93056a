//! Values that a channel carries.
// From crates/rw_law/src/value.rt, with its contracts as comments. //+

//~ ghost use Rattle.std.specs.Prelude.{◌≡◌, ℕ, ◌<◌, ◌^◌, Some, Option, refl};

/// A value that a channel carries. Its word is the number for it in a journal's text.
pub trait Payload: Copy {
//~     /// Holds of the values of the type.
//~     ghost is_value: { Self → Type 0 };

//~     /// The word of a value.
//~     ghost word_of: { Self → ℕ };

//~     /// The value of a word, if it has one.
//~     ghost value_of: { ℕ → Option Self };

    /// Returns the word of this value.
    fn word(&self) -> u64
//~         ensures word { result ≡ word_of self.now }
        /*~ensures known { is_value self.now }~*/;

    /// Returns the value of a word, or `None` where no value has this word.
    fn from_word(w: u64) -> Option<Self>
        /*~ensures { result ≡ value_of w }~*/;

//~     /// A value's word leads back to the value.
//~     ghost value_of_word: { (v : Self) → is_value v → value_of (word_of v) ≡ Some v };

//~     /// No other word leads to the value.
//~     ghost word_of_value: { (w : ℕ) (v : Self) → value_of w ≡ Some v → word_of v ≡ w };
}

impl Payload for u64 {
//~     ghost is_value = { λ v. v < 2 ^ 64 };

//~     ghost word_of = { λ v. v };

//~     ghost value_of = { λ w. Some w };

//~     ghost value_of_word = { λ _ _. refl };

//~     ghost word_of_value = { λ w v h. Prim.cc };

    fn word(&self) -> u64 {
        *self
    }

    fn from_word(w: u64) -> Option<u64> {
        Some(w)
    }
}
