use std::fmt;

/// Makes the enum, and what is known of each refusal, from the rows of the C header.
macro_rules! refusals {
    ($($name:ident = $number:literal, $refused:ident, $text:literal;)*) => {
        /// Why something was refused. A later archive may have more reasons.
        #[derive(Clone, Copy, Debug, PartialEq, Eq, PartialOrd, Ord, Hash)]
        #[non_exhaustive]
        #[repr(u32)]
        pub enum Refusal {
            $(
                #[doc = concat!("Number ", $number, ": ", $text, ".")]
                $name = $number,
            )*
        }

        impl Refusal {
            /// Every refusal, in the order of the numbers.
            pub const ALL: &'static [Refusal] = &[$(Refusal::$name),*];

            /// The refusal with this number; none for 0 and for a number that no refusal has.
            #[must_use]
            pub const fn from_number(number: u32) -> Option<Refusal> {
                match number {
                    $($number => Some(Refusal::$name),)*
                    _ => None,
                }
            }

            /// The condition in words.
            #[must_use]
            pub const fn text(self) -> &'static str {
                match self {
                    $(Refusal::$name => $text,)*
                }
            }

            const fn refused(self) -> Refused {
                match self {
                    $(Refusal::$name => Refused::$refused,)*
                }
            }
        }
    };
}

/// What a refusal refuses.
#[derive(PartialEq, Eq)]
enum Refused {
    /// The call as a whole.
    Call,
    /// A request, an entry or a line, or the end of a schedule.
    Place,
}

include!(concat!(env!("OUT_DIR"), "/refusals.rs"));

impl Refusal {
    /// The number.
    #[must_use]
    pub const fn number(self) -> u32 {
        self as u32
    }

    /// Whether the call as a whole is refused, so that nothing lent has changed and the place is 0.
    #[must_use]
    pub fn refuses_call(self) -> bool {
        self.refused() == Refused::Call
    }

    /// An answer of the archive, which is 0 where nothing is refused.
    pub(crate) fn check(number: u32) -> Result<(), Refusal> {
        if number == 0 {
            return Ok(());
        }
        Err(Refusal::from_number(number).expect("an archive of this version gives no other number"))
    }
}

impl fmt::Display for Refusal {
    fn fmt(&self, f: &mut fmt::Formatter<'_>) -> fmt::Result {
        write!(f, "refused by {}: {}", self.number(), self.text())
    }
}

impl std::error::Error for Refusal {}
