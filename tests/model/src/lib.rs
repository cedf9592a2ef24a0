//! An independent model of the reel page kernel, written from document 01 and requests [2], [4],
//! [5], [6] and [8] of document 02 alone, and the comparison of the kernel with it; the histories of
//! pages, by the messages and by which of them were accepted; and the promise of request [7], for
//! which the kernel is compared with itself.

pub mod cases;
pub mod clean;
pub mod compare;
pub mod exchange;
pub mod flat;
pub mod forecast;
pub mod frames;
pub mod gen;
pub mod hidden;
pub mod history;
pub mod kernel;
pub mod model;
pub mod stations;
