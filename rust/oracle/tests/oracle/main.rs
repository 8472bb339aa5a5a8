//! Tests of the oracle: the rules of document 01 and of the requests, the comparisons and the faults that they find,
//! the recording, the measured lists, and the papers.

mod clock;
mod compare;
mod controller;
mod counts;
mod demand;
mod dispatcher;
mod generated;
mod image;
mod list;
mod matches;
mod measured;
mod originals;
mod papers;
mod parked;
mod prescaler;
mod previews;
mod program;
mod rates;
mod recorded;
mod registers;
mod rules;
mod settings;
mod skips;
mod soundness;
mod support;
