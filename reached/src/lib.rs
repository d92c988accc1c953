//! Which definitions the promises and the contracts of the outside functions reach. A reader has to
//! believe them, as nothing checks that they say what was meant.

pub mod apart;
pub mod file;
pub mod reach;
pub mod reader;
pub mod repository;
pub mod roots;
pub mod sources;
pub mod specs;
pub mod table;
pub mod tokens;
