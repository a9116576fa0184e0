//! The calls through the binding: stored images, what a call may write, sizes at their edges, images
//! that are written, outputs that are handed on.

mod commanded;
mod desk;
mod guarded;
mod images;
mod lent;
mod sizes;
mod written;
