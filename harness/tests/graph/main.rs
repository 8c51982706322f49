//! Graphs, records and tables by value, held to the plain ones.

mod each;
mod graphs;
mod records;
mod tables;
mod wild;
