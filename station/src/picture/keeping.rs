//! The mark of an element that keeps the station safe: a padlock behind its label.

use super::markup::short;
use crate::layout::curve::Point;

/// How much longer the label is by the mark.
pub const LOCK: f64 = 14.0;

/// A padlock whose lower left corner is at a point.
pub fn lock(at: Point) -> String {
    format!(
        "<path class=\"lock\" d=\"M{} {}v-3a3 3 0 0 1 6 0v3\"/><rect class=\"locked\" x=\"{}\" y=\"{}\" width=\"10\" height=\"8\" rx=\"1\"/>",
        short(at.x + 2.0),
        short(at.y - 7.0),
        short(at.x),
        short(at.y - 8.0)
    )
}
