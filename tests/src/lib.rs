//! Reference implementation of the access matrix, its house file, its machine
//! and its leak judge, written from document 01 and the requests of document 02
//! alone, and what the test programs need to compare it with the verified
//! library.

pub mod brute;
pub mod carried;
pub mod carrying;
pub mod damage;
pub mod desk;
pub mod file;
pub mod filled;
pub mod generate;
pub mod judge;
pub mod lists;
pub mod machine;
pub mod need;
pub mod obstacles;
pub mod random;
pub mod replay;
pub mod report;
pub mod rounds;
pub mod scene;
pub mod second;
pub mod sheet;
pub mod slow;
pub mod stack;
pub mod stored;
pub mod table;
pub mod traced;
pub mod trusted;
pub mod twelve;
pub mod verdict;
pub mod written;
