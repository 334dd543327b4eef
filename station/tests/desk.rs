//! The tests of the desk, in one program: each more would be linked, and have what they share compiled, once more.

mod appeals;
mod commands;
mod common;
mod layout;
mod opening;
mod pictures;
mod positions;
mod programs;
mod refusals;
mod register;
mod tables;
mod walk;
mod what_if;
