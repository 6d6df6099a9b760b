//! The codes of findings: what each means and what to do about it.

use core::fmt;

macro_rules! codes {
    ($($number:literal $first:pat => $code:ident $name:literal: $what:literal, $cure:literal;)*) => {
        /// What was found. Its text says what that means.
        #[derive(Debug, Clone, Copy, PartialEq, Eq, Hash)]
        #[non_exhaustive]
        pub enum Code {
            $(
                #[doc = concat!($number, ": ", $what, ".")]
                $code,
            )*
        }

        impl Code {
            /// The code of a record's number and of the source's byte at its start, which tells a template from a
            /// comment; none where the number has no name here.
            #[must_use]
            pub const fn from_number(number: u32, first: u8) -> Option<Code> {
                match (number, first) {
                    $(($number, $first) => Some(Code::$code),)*
                    _ => None,
                }
            }

            /// The number in a record. A comment and a template that run on have the same.
            #[must_use]
            pub const fn number(self) -> u32 {
                match self {
                    $(Code::$code => $number,)*
                }
            }

            /// The short name, as `comment-runs-on`.
            #[must_use]
            pub const fn name(self) -> &'static str {
                match self {
                    $(Code::$code => $name,)*
                }
            }

            /// What to do about it.
            #[must_use]
            pub const fn cure(self) -> &'static str {
                match self {
                    $(Code::$code => $cure,)*
                }
            }
        }

        impl fmt::Display for Code {
            fn fmt(&self, f: &mut fmt::Formatter<'_>) -> fmt::Result {
                f.write_str(match self {
                    $(Code::$code => $what,)*
                })
            }
        }
    };
}

codes! {
    // tools/texts.py writes findings, from texts.txt
    60 b'`' => TemplateRunsOn "template-runs-on": "this template does not end where it seems to", "take the comment after the backslash out of the template";
    61 b'`' => TemplateRunsOnBlank "template-runs-on": "this template does not end where it seems to", "take the comment after the backslash out of the template";
    60 _ => CommentRunsOn "comment-runs-on": "this comment does not end where it seems to", "write `/*  */` with two blanks, or use `//`";
    61 _ => CommentRunsOnBlank "comment-runs-on": "this comment does not end where it seems to", "write `/*  */` with two blanks, or use `//`";
    62 _ => ReadAsCode "read-as-code": "this is in force, though it looks like a comment", "mend the comment before it that runs on";
    63 _ => CommentUnclosed "comment-unclosed": "nothing closes this comment", "close it with `*/`";
    64 _ => TemplateUnclosed "template-unclosed": "nothing closes this template", "close it with a backtick";
    65 _ => ByteOrderMark "byte-order-mark": "the file begins with a byte order mark, and rune refuses it", "save the file as UTF-8 without a byte order mark";
    // tools/texts.py ends findings
}
