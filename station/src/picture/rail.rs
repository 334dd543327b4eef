//! The way of a track as points in a row, with its direction at each, to put things beside it or along it.

use crate::layout::Way;
use crate::layout::curve::{Point, point};

/// A point of a track and the direction of the track there, from left to right.
#[derive(Clone, Copy, Debug)]
pub struct Sample {
    pub at: Point,
    pub along: Point,
}

/// A track as points; where it is broken by the end of a band it has several pieces.
#[derive(Clone, Debug, Default)]
pub struct Rail {
    pub pieces: Vec<Vec<Sample>>,
    pub turns: bool,
}

impl Rail {
    pub fn new(way: &Way) -> Rail {
        let mut rail = Rail { pieces: vec![], turns: way.turn.is_some() };
        let mut last: Option<Point> = None;
        for curve in &way.curves {
            let steps = (curve.length() / 7.0).clamp(2.0, 40.0).round() as u32;
            let joined = last.is_some_and(|last| (last - curve.at(0.0)).length() < 0.05);
            if !joined {
                rail.pieces.push(vec![]);
            }
            if let Some(piece) = rail.pieces.last_mut() {
                for step in u32::from(joined)..=steps {
                    let t = f64::from(step) / f64::from(steps);
                    piece.push(Sample { at: curve.at(t), along: curve.direction(t) });
                }
            }
            last = Some(curve.at(1.0));
        }
        rail
    }

    /// The piece at the left or at the right end.
    fn piece(&self, from_left: bool) -> &[Sample] {
        let piece = if from_left { self.pieces.first() } else { self.pieces.last() };
        piece.map_or(&[], Vec::as_slice)
    }

    /// The length of the piece at one end.
    pub fn length(&self, from_left: bool) -> f64 {
        self.piece(from_left).windows(2).map(|pair| (pair[1].at - pair[0].at).length()).sum()
    }

    /// The point at a distance from one end, with the direction from left to right.
    pub fn at(&self, from_left: bool, distance: f64) -> Sample {
        let piece = self.piece(from_left);
        let sample = |place: usize| piece[if from_left { place } else { piece.len() - 1 - place }];
        let mut left = distance;
        for place in 1..piece.len() {
            let (one, two) = (sample(place - 1), sample(place));
            let step = (two.at - one.at).length();
            if left <= step && step > 0.0 {
                return Sample { at: one.at + (two.at - one.at) * (left / step), along: one.along };
            }
            left -= step;
        }
        match piece.len() {
            0 => Sample { at: Point::default(), along: point(1.0, 0.0) },
            many => sample(many - 1),
        }
    }

    /// The track moved sideways: down where it goes to the right.
    pub fn beside(&self, by: f64) -> Vec<Vec<Point>> {
        let shift = |sample: &Sample| if self.turns { point(0.0, by) } else { sample.along.turned() * by };
        self.pieces.iter().map(|piece| piece.iter().map(|sample| sample.at + shift(sample)).collect()).collect()
    }
}
