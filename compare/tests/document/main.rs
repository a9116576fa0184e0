//! The interpreter on every pinned test vector of document 01, its worked example, and edges worked out
//! by hand from its text and that of document 02's requests L1, L4, L5, L9, L13 and L14; and both writers
//! on edges of its requests L2 and L5, and both commanders on edges of its request L7.

mod accesses;
mod alarms;
mod bare;
mod carry;
mod commands;
mod equality;
mod frame;
mod half_words;
mod kit;
mod limits;
mod pinned;
mod program;
mod refusals;
mod rules;
mod runs;
mod writer;
