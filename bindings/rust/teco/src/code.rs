//! The codes by which a command string, or a call, ends.

use std::error::Error;
use std::fmt;

/// Makes the enum of the codes out of their numbers, letters and sentences.
macro_rules! codes {
    ($($name:ident = $number:literal, $letters:literal, $sentence:literal;)*) => {
        /// Why a command string ended before its end, or why nothing was done.
        ///
        /// A code is shown as its three letters and a sentence, those that the programs print:
        ///
        /// ```
        /// use teco::Code;
        ///
        /// assert_eq!(Code::Srh.to_string(), "SRH, the search found nothing");
        /// assert_eq!(Code::Srh.letters(), "SRH");
        /// assert_eq!(Code::from_number(22), Some(Code::Srh));
        /// ```
        #[derive(Clone, Copy, Debug, PartialEq, Eq, PartialOrd, Ord, Hash)]
        #[non_exhaustive]
        #[repr(u8)]
        pub enum Code {
            $(#[doc = concat!("`", $letters, "`: ", $sentence, ".")] $name = $number,)*
        }

        impl Code {
            /// All codes, by their numbers.
            pub const ALL: &'static [Code] = &[$(Code::$name),*];

            /// The three letters of the code.
            pub const fn letters(self) -> &'static str {
                match self {
                    $(Code::$name => $letters,)*
                }
            }

            /// What the code says, without a full stop.
            pub const fn sentence(self) -> &'static str {
                match self {
                    $(Code::$name => $sentence,)*
                }
            }

            /// The code with this number of `teco.h`, if there is one.
            pub const fn from_number(number: u8) -> Option<Code> {
                match number {
                    $($number => Some(Code::$name),)*
                    _ => None,
                }
            }
        }
    };
}

codes! {
    Arg = 1, "ARG", "wrong argument, or wrong arithmetic";
    Bni = 2, "BNI", "> without its iteration";
    Cpq = 3, "CPQ", "nothing on the push-down list";
    Dtb = 4, "DTB", "delete past the buffer";
    Ice = 5, "ICE", "search text not allowed";
    Iia = 6, "IIA", "insert with argument and text";
    Ill = 7, "ILL", "no such command";
    Ipa = 8, "IPA", "P with a number of at most 0";
    Iqc = 9, "IQC", "no such test";
    Iqn = 10, "IQN", "no such register";
    Isa = 11, "ISA", "search count not allowed";
    Iss = 12, "ISS", "no search text yet";
    Mrp = 13, "MRP", "parenthesis open at a command";
    Nae = 14, "NAE", "no number before =";
    Naq = 15, "NAQ", "no number before a test";
    Nau = 16, "NAU", "no number before U";
    Ovf = 17, "OVF", "number out of range";
    Dvz = 18, "DVZ", "division by zero";
    Pdo = 19, "PDO", "too many open or pushed";
    Pop = 20, "POP", "place outside the buffer";
    Sni = 21, "SNI", "; without an iteration";
    Srh = 22, "SRH", "the search found nothing";
    Tag = 23, "TAG", "no such tag to go to";
    Utc = 24, "UTC", "text ends inside a command or block";
    Yca = 25, "YCA", "page would replace a nonempty buffer";
    Big = 26, "BIG", "a text or the output past its limit";
    Lim = 27, "LIM", "step limit";
    Mem = 28, "MEM", "memory refused";
    Tty = 29, "TTY", "terminal failed";
    Ntu = 30, "NTU", "nothing to undo";
    Ntr = 31, "NTR", "nothing to redo";
    End = 32, "END", "session is done";
}

impl Code {
    /// The number that `teco.h` has for the code, from 1 to 32.
    pub const fn number(self) -> u8 {
        self as u8
    }

    /// The code of an answer of the library, which answers no other numbers.
    pub(crate) fn of_answer(number: u8) -> Code {
        Code::from_number(number).unwrap_or_else(|| panic!("the library answered {number}: it has another version"))
    }
}

impl fmt::Display for Code {
    fn fmt(&self, f: &mut fmt::Formatter<'_>) -> fmt::Result {
        write!(f, "{}, {}", self.letters(), self.sentence())
    }
}

impl Error for Code {}
