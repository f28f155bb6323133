//! Values that fit one 64-bit word.

/// A value that fits one 64-bit word, as the flows keep it. Kotlin's flows hold any value, by a reference.
///
/// Two laws are the implementor's to keep: `from_word` undoes `to_word`, and two values are equal exactly where their
/// words are. Nothing unsafe hangs on them. A state flow compares words, so a type whose words break the second law is
/// compared otherwise than by its `==`; `f64` has no impl for that reason, since it isn't `Eq`.
///
/// ```
/// use hillgauze::Word;
///
/// #[derive(Clone, Copy, PartialEq, Eq, Debug)]
/// struct Celsius(i16);
///
/// impl Word for Celsius {
///     fn to_word(self) -> u64 {
///         self.0.to_word()
///     }
///
///     fn from_word(word: u64) -> Celsius {
///         Celsius(i16::from_word(word))
///     }
/// }
///
/// assert_eq!(Celsius::from_word(Celsius(-3).to_word()), Celsius(-3));
/// ```
///
/// [`word!`](crate::word) writes such an impl.
pub trait Word: Copy + Eq {
    /// How many of the low bits of a word tell which value it stands for: `from_word` needs no others.
    const BITS: u32 = 64;

    /// The word that stands for this value.
    fn to_word(self) -> u64;

    /// The value for which a word stands. Of a word that stands for none it gives some value.
    fn from_word(word: u64) -> Self;
}

macro_rules! integers_are_words {
    ($($integer:ty)*) => {$(
        impl Word for $integer {
            const BITS: u32 = <$integer>::BITS;

            #[inline]
            fn to_word(self) -> u64 {
                self as u64
            }

            fn from_word(word: u64) -> $integer {
                word as $integer
            }
        }
    )*};
}

integers_are_words! { u8 u16 u32 u64 usize i8 i16 i32 i64 isize }

impl Word for () {
    const BITS: u32 = 0;

    fn to_word(self) -> u64 {
        0
    }

    fn from_word(_word: u64) {}
}

impl Word for bool {
    const BITS: u32 = 1;

    fn to_word(self) -> u64 {
        u64::from(self)
    }

    fn from_word(word: u64) -> bool {
        word != 0
    }
}

impl Word for char {
    const BITS: u32 = 21;

    fn to_word(self) -> u64 {
        u64::from(u32::from(self))
    }

    fn from_word(word: u64) -> char {
        char::from_u32(word as u32).unwrap_or(char::REPLACEMENT_CHARACTER)
    }
}

impl Word for [u8; 8] {
    fn to_word(self) -> u64 {
        u64::from_le_bytes(self)
    }

    fn from_word(word: u64) -> [u8; 8] {
        word.to_le_bytes()
    }
}

impl Word for (u32, u32) {
    fn to_word(self) -> u64 {
        u64::from(self.0) << 32 | u64::from(self.1)
    }

    fn from_word(word: u64) -> (u32, u32) {
        ((word >> 32) as u32, word as u32)
    }
}

/// Makes a type of words a [`Word`]: a struct of one or several fields, or an enum without fields. The fields of a struct
/// need 64 bits at most together, which is looked at when this is compiled. It keeps both laws, where the type's `==` is the
/// derived one.
///
/// ```
/// #[derive(Clone, Copy, PartialEq, Eq, Debug)]
/// struct Id(u32);
/// hillgauze::word!(Id(u32));
///
/// #[derive(Clone, Copy, PartialEq, Eq, Debug)]
/// enum Level {
///     Low,
///     High,
/// }
/// hillgauze::word!(enum Level { Low, High });
///
/// #[derive(Clone, Copy, PartialEq, Eq, Debug)]
/// struct Reading {
///     of: Id,
///     level: Level,
///     change: i16,
/// }
/// hillgauze::word!(Reading { of: Id, level: Level, change: i16 });
///
/// use hillgauze::Word;
/// let reading = Reading { of: Id(7), level: Level::High, change: -3 };
/// assert_eq!(Reading::from_word(reading.to_word()), reading);
/// assert_eq!(Reading::BITS, 32 + 8 + 16);
/// ```
#[macro_export]
macro_rules! word {
    (enum $name:ident { $first:ident $(, $other:ident)* $(,)? }) => {
        impl $crate::Word for $name {
            const BITS: u32 = 8;

            fn to_word(self) -> u64 {
                const { assert!([$name::$first $(, $name::$other)*].len() <= 256, "over 256 variants") };
                let mut place = 0;
                $(
                    place += 1;
                    if self == $name::$other {
                        return place;
                    }
                )*
                0
            }

            fn from_word(word: u64) -> $name {
                const NAMED: &[$name] = &[$name::$first $(, $name::$other)*];
                NAMED.get(word as usize).copied().unwrap_or($name::$first)
            }
        }
    };
    ($name:ident($field:ty)) => {
        impl $crate::Word for $name {
            const BITS: u32 = <$field as $crate::Word>::BITS;

            fn to_word(self) -> u64 {
                <$field as $crate::Word>::to_word(self.0)
            }

            fn from_word(word: u64) -> $name {
                $name(<$field as $crate::Word>::from_word(word))
            }
        }
    };
    ($name:ident { $($field:ident: $kind:ty),+ $(,)? }) => {
        impl $crate::Word for $name {
            const BITS: u32 = 0 $(+ <$kind as $crate::Word>::BITS)+;

            fn to_word(self) -> u64 {
                let mut fields = $crate::Fields::default();
                $(fields.put(self.$field);)+
                fields.word()
            }

            fn from_word(word: u64) -> $name {
                let mut fields = $crate::Fields::of(word);
                $(let $field = fields.take::<$kind>();)+
                $name { $($field),+ }
            }
        }

        const _: () = assert!(<$name as $crate::Word>::BITS <= 64, "the fields need over 64 bits");
    };
}

/// The fields of a struct in one word, the first one lowest, as [`word!`](crate::word) puts them there.
#[doc(hidden)]
#[derive(Default)]
pub struct Fields {
    word: u64,
    /// How many bits are put or taken.
    at: u32,
}

impl Fields {
    pub fn of(word: u64) -> Fields {
        Fields { word, at: 0 }
    }

    pub fn word(self) -> u64 {
        self.word
    }

    pub fn put<T: Word>(&mut self, value: T) {
        if T::BITS > 0 {
            self.word |= (value.to_word() & (u64::MAX >> (64 - T::BITS))) << self.at;
        }
        self.at += T::BITS;
    }

    pub fn take<T: Word>(&mut self) -> T {
        let word = if T::BITS > 0 {
            self.word >> self.at & (u64::MAX >> (64 - T::BITS))
        } else {
            0
        };
        self.at += T::BITS;
        T::from_word(word)
    }
}

#[cfg(test)]
mod tests {
    use super::Word;

    #[derive(Clone, Copy, PartialEq, Eq, Debug)]
    struct Whole {
        none: (),
        first: i8,
        letter: char,
        is_set: bool,
        last: i16,
        short: u16,
        end: (),
    }
    word!(Whole {
        none: (),
        first: i8,
        letter: char,
        is_set: bool,
        last: i16,
        short: u16,
        end: ()
    });

    #[derive(Clone, Copy, PartialEq, Eq, Debug)]
    struct Wide {
        whole: u64,
        end: (),
    }
    word!(Wide {
        whole: u64,
        end: ()
    });

    #[test]
    fn the_fields_of_a_word_come_back() {
        assert_eq!(Whole::BITS, 62);
        for first in [i8::MIN, -1, 0, i8::MAX] {
            for letter in ['\0', 'ß', char::MAX] {
                for (last, short) in [(-1, 0), (i16::MIN, u16::MAX), (0, 1)] {
                    let is_set = last < 0;
                    let whole = Whole {
                        none: (),
                        first,
                        letter,
                        is_set,
                        last,
                        short,
                        end: (),
                    };
                    assert_eq!(Whole::from_word(whole.to_word()), whole);
                }
            }
        }
        let wide = Wide {
            whole: u64::MAX,
            end: (),
        };
        assert_eq!(Wide::from_word(wide.to_word()), wide);
    }
}
