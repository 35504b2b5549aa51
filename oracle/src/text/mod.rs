//! The readable form of stations: text to message and back.

pub mod assemble;
pub mod ast;
pub mod disassemble;
pub mod lexer;
pub mod lower;
pub mod parser;
pub mod telling;
pub mod warnings;
pub mod words;
