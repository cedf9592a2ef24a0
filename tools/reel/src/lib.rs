//! Call files of the reel page kernel in words and pictures. Every state that is shown comes from
//! the kernel's own look replies; which write a copy carries, which no look shows, `writes` tells by
//! the messages that were accepted. Only `rules`, which says what is wrong with broken tables, looks
//! into the tables' bytes.

pub mod commands;
mod diff;
pub mod failure;
pub mod filter;
pub mod forecast;
pub mod history;
pub mod json;
pub mod kinds;
pub mod lines;
pub mod looks;
pub mod options;
pub mod output;
mod progress;
pub mod reader;
pub mod record;
pub mod rules;
pub mod run;
mod start;
mod summary;
pub mod view;
pub mod words;
mod writes;
