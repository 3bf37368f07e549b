//! The library against the methods that share no code with it.
mod book;
mod bounds;
mod buffers;
mod calls;
mod corrections;
mod ends;
mod faults;
mod histories;
mod plates;
mod refusals;
mod sieving;
mod steps;
mod traces;
