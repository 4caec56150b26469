//! A timetable as a picture (SVG) and as a trace (Chrome, Perfetto): lanes, bars, arrows, and the moments at which an
//! outcome holds back every resource.

mod lanes;
mod scale;
mod story;
mod svg;
mod trace;

pub use lanes::Lanes;
pub use story::{Story, MOST_ROWS};
pub use svg::svg;
pub use trace::trace;
