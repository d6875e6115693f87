//! Tests of what the program tells: held to histories whose every store is known, to damaged images and to the document
//! that shows its output.

mod cases;
mod command_line;
mod cuts;
mod images;
mod player;
mod two_drives;
