//! Typed routines: the desk's text, read and written (request C-11).
//!
//! Sentences in quotation marks are the request's. Text is read by descent: each
//! function is given the place that the text has been read to, and expects one part
//! of an instruction there. What it expects is all that any text can have there, so
//! the first byte that it does not expect is the place of refusal 12.

mod names;
mod reader;
mod writer;

pub use names::name_list;
pub use reader::read_text;
pub use writer::write_text;
