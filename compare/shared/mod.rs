//! What both comparisons use: drawn projects and edits, the plain model of a line, and the program over scripts.

pub mod blocks;
pub mod boundaries;
pub mod cases;
pub mod counts;
pub mod documents;
pub mod draws;
pub mod edits;
pub mod frames;
pub mod line;
pub mod packing;
pub mod printed;
pub mod project_text;
pub mod projects;
pub mod questions;
pub mod records;
pub mod running;
pub mod scripts;
pub mod texts;
