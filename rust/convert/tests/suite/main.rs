//! Tests of the program.

mod command_line;
