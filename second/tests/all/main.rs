//! All tests, in one crate so that they share their helpers.

mod absent;
mod code;
mod coded_calls;
mod command;
mod counts;
mod cuttings;
mod drivers;
mod examples;
mod generated;
mod help;
mod hostile_slots;
mod hostile_states;
mod keyed;
mod loops;
mod padding;
mod program;
mod ready;
mod refusals;
mod removing;
mod session;
mod sheet;
mod sheet_form;
mod values;
mod vectors;
mod writing;
