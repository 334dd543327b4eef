//! Points and cubic curves.

use std::ops::{Add, Mul, Sub};

#[derive(Clone, Copy, Debug, Default, PartialEq)]
pub struct Point {
    pub x: f64,
    pub y: f64,
}

pub fn point(x: f64, y: f64) -> Point {
    Point { x, y }
}

impl Add for Point {
    type Output = Point;
    fn add(self, other: Point) -> Point {
        point(self.x + other.x, self.y + other.y)
    }
}

impl Sub for Point {
    type Output = Point;
    fn sub(self, other: Point) -> Point {
        point(self.x - other.x, self.y - other.y)
    }
}

impl Mul<f64> for Point {
    type Output = Point;
    fn mul(self, by: f64) -> Point {
        point(self.x * by, self.y * by)
    }
}

impl Point {
    pub fn length(self) -> f64 {
        self.x.hypot(self.y)
    }

    /// In the same direction with length 1; to the right where there is no direction.
    pub fn unit(self) -> Point {
        let length = self.length();
        if length < 1e-9 { point(1.0, 0.0) } else { self * (1.0 / length) }
    }

    /// Turned a quarter clockwise on the screen: down, where it points to the right.
    pub fn turned(self) -> Point {
        point(-self.y, self.x)
    }
}

/// A cubic curve by its ends and the two points that it leans to.
#[derive(Clone, Copy, Debug, PartialEq)]
pub struct Curve(pub [Point; 4]);

impl Curve {
    pub fn line(from: Point, to: Point) -> Curve {
        Curve([from, from + (to - from) * (1.0 / 3.0), from + (to - from) * (2.0 / 3.0), to])
    }

    /// From one point to another, level at both ends.
    pub fn level(from: Point, to: Point) -> Curve {
        if from.y == to.y {
            return Curve::line(from, to);
        }
        let lean = (to.x - from.x) * 0.5;
        Curve([from, point(from.x + lean, from.y), point(to.x - lean, to.y), to])
    }

    /// Out to the right and back, or to the left where it goes out by less than nothing, between two points above one another.
    pub fn around(from: Point, to: Point, out: f64) -> Curve {
        Curve([from, point(from.x + out * 4.0 / 3.0, from.y), point(to.x + out * 4.0 / 3.0, to.y), to])
    }

    pub fn at(&self, t: f64) -> Point {
        let [a, b, c, d] = self.0;
        let u = 1.0 - t;
        a * (u * u * u) + b * (3.0 * u * u * t) + c * (3.0 * u * t * t) + d * (t * t * t)
    }

    /// The direction at a place, of length 1.
    pub fn direction(&self, t: f64) -> Point {
        let [a, b, c, d] = self.0;
        let u = 1.0 - t;
        let along = (b - a) * (u * u) + (c - b) * (2.0 * u * t) + (d - c) * (t * t);
        if along.length() < 1e-6 { (d - a).unit() } else { along.unit() }
    }

    /// The part between two places.
    pub fn part(&self, from: f64, to: f64) -> Curve {
        self.split(to).0.split(if to == 0.0 { 0.0 } else { from / to }).1
    }

    fn split(&self, t: f64) -> (Curve, Curve) {
        let [a, b, c, d] = self.0;
        let mix = |p: Point, q: Point| p + (q - p) * t;
        let (ab, bc, cd) = (mix(a, b), mix(b, c), mix(c, d));
        let (abc, bcd) = (mix(ab, bc), mix(bc, cd));
        let middle = mix(abc, bcd);
        (Curve([a, ab, abc, middle]), Curve([middle, bcd, cd, d]))
    }

    /// The other way.
    pub fn reversed(&self) -> Curve {
        let [a, b, c, d] = self.0;
        Curve([d, c, b, a])
    }

    pub fn shifted(&self, by: Point) -> Curve {
        Curve(self.0.map(|p| p + by))
    }

    /// About its length.
    pub fn length(&self) -> f64 {
        let points: Vec<Point> = (0..=8).map(|step| self.at(f64::from(step) / 8.0)).collect();
        points.windows(2).map(|pair| (pair[1] - pair[0]).length()).sum()
    }
}

#[cfg(test)]
mod tests {
    use super::*;

    #[test]
    fn parts_of_a_curve_lie_on_it() {
        let curve = Curve::level(point(0.0, 0.0), point(100.0, 40.0));
        let part = curve.part(0.25, 0.75);
        for (mine, whole) in [(part.at(0.0), curve.at(0.25)), (part.at(1.0), curve.at(0.75)), (part.at(0.5), curve.at(0.5))] {
            assert!((mine - whole).length() < 1e-9);
        }
        assert_eq!(curve.direction(0.0), point(1.0, 0.0));
        assert_eq!(curve.direction(1.0), point(1.0, 0.0));
        assert!((curve.length() - 108.0).abs() < 3.0);
    }

    #[test]
    fn down_is_right_of_the_way_to_the_right() {
        assert_eq!(point(1.0, 0.0).turned(), point(0.0, 1.0));
    }
}
