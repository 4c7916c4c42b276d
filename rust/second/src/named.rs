//! Enums whose cases are told in words, the words being their doc comments.

/// An enum with the list of its cases and the words for each.
macro_rules! named {
    ($(#[$attribute:meta])* $enum:ident { $($(#[doc = $text:literal])+ $name:ident,)+ }) => {
        $(#[$attribute])*
        #[derive(Clone, Copy, Debug, PartialEq, Eq, Hash)]
        pub enum $enum {
            $($(#[doc = $text])+ $name,)+
        }

        impl $enum {
            /// All cases, in order.
            pub const ALL: &'static [Self] = &[$(Self::$name),+];

            /// The case in words.
            pub fn text(self) -> &'static str {
                match self {
                    $(Self::$name => concat!($($text),+).trim_ascii(),)+
                }
            }
        }
    };
}

pub(crate) use named;
