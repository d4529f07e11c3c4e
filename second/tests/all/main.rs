//! The tests of the second program, a room for each of its parts, in one program: it is linked once.

mod agree;
mod card;
mod convert;
mod demand3;
mod door;
mod lines;
mod long;
mod mirror;
mod patch;
mod records;
mod refusals;
mod replay;
mod rides;
mod salvage;
mod sheet;
mod tick;
