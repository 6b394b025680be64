//! Compares the library with a second implementation of the paper.
pub mod calls;
pub mod cases;
pub mod compare;
pub mod generate;
pub mod lent;
pub mod reference;
pub mod rounds;
pub mod runs;
pub mod vectors;
pub mod watch;
