//! Random messages: well-formed stations, their damage, and the comparison of two verifiers.

pub mod build;
pub mod compare;
pub mod corpus;
pub mod damage;
pub mod generate;
pub mod letters;
pub mod returns;
pub mod rng;
pub mod row_list;
pub mod weights;
