//! Tables of trials: rows are read from standard input, and for each a line says that it holds, or
//! what came instead. The last line says how many rows there were, and how many of them were
//! refused.
//!
//! A line of a table is a comment behind `#`, or empty, or a row:
//!
//! - `over TEXT` says what the calls below it are about;
//! - `CALL ARGUMENTS => WANTED` is a call, and what it comes to. Lines of that are joined by `; `,
//!   and no text at all is written `nothing`.
//!
//! In a row `«COUNT TEXT»` stands for COUNT times the text, in which each `~` is the number of the
//! time, from 0. A caller may rely on this: no row is passed over in silence, so a row that is
//! malformed or doesn't hold changes what is printed.

mod bytes;
mod escapes;
mod running;
mod runs;
mod texts;
mod words;

pub use bytes::{bytes_in, push_bytes};
pub use escapes::{push_text, text_in};
pub use running::{Calls, run};
pub use runs::{Distinct, Runs};
pub use words::{end, number};
