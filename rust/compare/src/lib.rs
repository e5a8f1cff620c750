//! The engine, through its wrapper, beside the plain implementation: the same random inputs, and
//! every answer and every lent byte compared.
#![forbid(unsafe_code)]

mod calls;
mod chance;
mod damage;
mod documents;
mod expected;
mod expressions;
mod far_words;
mod guide;
mod input;
mod lent;
mod model;
mod nil;
mod roots;
mod schemas;
mod side_by_side;
mod tally;
mod tally_expected;
mod tally_written;
mod unused;
mod written;

pub use chance::Chance;
pub use input::Input;
pub use side_by_side::{Answers, Fixed, compare};
pub use tally::Tally;
