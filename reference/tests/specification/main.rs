//! The specification's own examples, limits and maxima, and the paper's worked
//! queries, asked of the public functions and of the program.

mod limits;
mod maxima;
mod pairs;
mod paper;
mod program;
mod readings;
mod soup;
mod support;
mod table;
