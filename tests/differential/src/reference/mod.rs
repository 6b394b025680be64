//! The paper once more, plainly: trees and lists instead of words, no thought of speed. "Row" is a row of its table "Refused".
pub mod judge;
pub mod merge;
pub mod model;
pub mod reader;
pub mod run;
pub mod table;
pub mod writer;

pub use judge::{environment, step};
pub use merge::{merge, merged};
pub use model::Model;
pub use reader::read;
pub use run::run;
pub use table::{open, table};
pub use writer::write;
