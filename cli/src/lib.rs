//! `tugcaphi`, the program for the people who use the access matrix: it reads text, calls the proved library, writes
//! files and prints. Every verdict, refusal, replay and rule run is the library's.

pub mod arguments;
pub mod commands;
pub mod count;
pub mod failure;
pub mod grid;
pub mod help;
pub mod house;
pub mod input;
pub mod json;
pub mod labels;
pub mod library;
pub mod limits;
pub mod machine;
pub mod need;
pub mod output;
pub mod picture;
pub mod program;
pub mod reasons;
pub mod refusals;
pub mod refused;
pub mod replace;
pub mod report;
pub mod story;
pub mod table;
pub mod terminal;
pub mod trace;
pub mod verdict;
pub mod words;
