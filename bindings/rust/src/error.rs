// The library's refusals, which one table lists, and what these bindings refuse themselves.
use std::fmt;

// From the table's lines: the number, the case, its cause and the sentence that says what to do.
macro_rules! refusals {
    ($($number:literal $case:ident: $cause:literal, $sentence:literal;)*) => {
        /// Why a call was refused. A refused call has changed nothing.
        #[derive(Clone, Debug, PartialEq, Eq)]
        #[non_exhaustive]
        pub enum Error {
            $(#[doc = concat!(stringify!($number), ": ", $cause, ".")] $case,)*
            /// A number that the table of these bindings doesn't have.
            Unknown(u64),
            /// A text of a search that can't be packed.
            QueryText(String),
            /// A symbol that is no element's.
            Element(String),
            /// The linked library isn't of the version of these bindings. A version is major * 1,000,000 + minor * 1,000 + patch.
            OtherVersion {
                /// The version of the library.
                library: u64,
                /// The version of this package.
                package: u64,
            },
            /// 17, of [Store::read_pdb](crate::Store::read_pdb): at this line the text stops being one that the writer could have made.
            BadLine {
                /// The line's number, from 1. It is one past the last line where the text ends before an ENDMDL line.
                line: usize,
            },
            /// An edit of a list was refused.
            Edit {
                /// The edit's index in its list, from 0. In a [ModelBuilder](crate::ModelBuilder) it is the atom's index.
                index: usize,
                /// Why it was refused.
                cause: Box<Error>,
            },
        }

        impl Error {
            /// The number of the refusal (docs/API.md), of an edit's cause where an edit of a list was refused. What these bindings
            /// refuse themselves has none.
            pub fn number(&self) -> Option<u64> {
                match self {
                    $(Error::$case => Some($number),)*
                    Error::Unknown(number) => Some(*number),
                    Error::BadLine { .. } => Error::BadText.number(),
                    Error::Edit { cause, .. } => cause.number(),
                    Error::QueryText(_) | Error::Element(_) | Error::OtherVersion { .. } => None,
                }
            }

            fn refusal(number: u64) -> Error {
                match number {
                    $($number => Error::$case,)*
                    _ => Error::Unknown(number),
                }
            }
        }

        impl fmt::Display for Error {
            fn fmt(&self, f: &mut fmt::Formatter<'_>) -> fmt::Result {
                match self {
                    $(Error::$case => f.write_str($sentence),)*
                    Error::Unknown(number) => unknown(f, *number),
                    Error::QueryText(text) => query_text(f, text),
                    Error::Element(symbol) => element(f, symbol),
                    Error::OtherVersion { library, package } => other_version(f, *library, *package),
                    Error::BadLine { line } => write!(f, "line {line}: {}", Error::BadText),
                    Error::Edit { index, cause } => edit(f, *index, cause),
                }
            }
        }
    };
}

include!("refusals.rs");

impl Error {
    // "A result is 0 with its fields, or one of these."
    pub(crate) fn check(result: u64) -> Result<(), Error> {
        match result {
            0 => Ok(()),
            number => Err(Error::refusal(number)),
        }
    }
}

impl std::error::Error for Error {}

fn unknown(f: &mut fmt::Formatter<'_>, number: u64) -> fmt::Result {
    write!(f, "the library refused the call with {number}, which these bindings don't know; link the library of their version")
}

fn query_text(f: &mut fmt::Formatter<'_>, text: &str) -> fmt::Result {
    write!(
        f,
        "the text {text:?} of the search can't be packed; use at most 8 printable ASCII characters, and None for a code or location \
         that is absent"
    )
}

fn element(f: &mut fmt::Formatter<'_>, symbol: &str) -> fmt::Result {
    write!(f, "{symbol:?} is no element's symbol; give one of the 118, as \"C\", or an empty one for a missing element")
}

fn other_version(f: &mut fmt::Formatter<'_>, library: u64, package: u64) -> fmt::Result {
    let text = |version: u64| format!("{}.{}.{}", version / 1_000_000, version / 1_000 % 1_000, version % 1_000);
    let (library, package) = (text(library), text(package));
    write!(f, "the linked library is version {library}, and these bindings are version {package}; link the library of their version")
}

fn edit(f: &mut fmt::Formatter<'_>, index: usize, cause: &Error) -> fmt::Result {
    write!(f, "edit {index} of the list was refused (counted from 0; of a model builder it is atom {index}): {cause}")
}
