//! All tests of the second program, through its library and through the programs `plan` and `records`.

mod amounts;
mod bounds;
mod build;
mod faults;
mod plans;
mod random;
mod refusals;
mod samplers;
mod steps;
mod text;
mod waits;
