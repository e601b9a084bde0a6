//! The parts of the command line.
mod answer;
pub mod arguments;
mod audit;
mod command;
mod compare;
pub mod console;
mod files;
mod help;
mod input;
mod manual;
mod options;
mod report;
mod run;
mod saved;
mod set;
mod shelf;
mod streams;
mod walk;
