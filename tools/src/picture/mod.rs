//! A run as a picture: a lane for each process with its operations, a lane for memory with the messages as they come
//! out, waiting stores as bars, and for each read where its value comes from. `story` follows the run, `layout` places
//! it, `svg` writes it.

mod bars;
mod columns;
mod layout;
pub mod story;
mod svg;

use crate::contents::{Program, Run};
use crate::text::Names;

/// How wide rows are if nothing is said.
pub const WIDTH: usize = 1200;

/// The picture, with rows of about this width, and whether the run takes every step and ends in a target.
pub fn draw(program: &Program, names: &Names, run: &Run, title: &str, width: usize) -> (String, bool) {
    let story = story::follow(program, names, run);
    (layout::draw(program, names, &story, title, width as f64), story.refused.is_none() && story.target.is_some())
}
