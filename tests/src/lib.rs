//! The library and the program seen from outside: safe calls of the C functions, and an independent implementation of the papers to
//! compare them and the program's output with.
pub mod brute;
pub mod calls;
pub mod guarded;
pub mod listing;
pub mod model;
pub mod random;
pub mod rules;
pub mod sheets;
pub mod texts;
