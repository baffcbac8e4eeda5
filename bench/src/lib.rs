//! What the benchmark needs: tables, two judges of its own, the question as a
//! logic program, what a press needs beside the judge's rounds, a sheet beside
//! single calls, the program of before beside this one, the measuring, and the search
//! for slow files. Files are read by the reference of `tests/`.

pub mod before;
pub mod families;
pub mod found;
pub mod judging;
pub mod lines;
pub mod logic;
pub mod measure;
pub mod mutations;
pub mod notation;
pub mod plain;
pub mod pressing;
pub mod pruned;
pub mod sheets;
pub mod slow;
pub mod table;
