//! Tests from outside: the paper's table, the script's rules, senseless scripts, and the generator.

mod common;
mod garbage;
mod generator;
mod script;
mod table;
