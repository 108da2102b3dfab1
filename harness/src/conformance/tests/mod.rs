//! The tests of the set and of its command: what the captures do, what is told of each sort of difference, and how programs of every sort are
//! treated.

mod command_line;
mod counts;
mod file_words;
mod generators;
mod programs;
mod reasons;
mod told;
