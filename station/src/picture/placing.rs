//! Room for symbols and labels: each is put where it covers least of what is there already.

use std::collections::HashMap;

use crate::layout::curve::{Point, point};

/// A rectangle by two corners.
#[derive(Clone, Copy, Debug, PartialEq)]
pub struct Area {
    pub from: Point,
    pub to: Point,
}

impl Area {
    pub fn new(x: f64, y: f64, width: f64, height: f64) -> Area {
        Area { from: point(x, y), to: point(x + width, y + height) }
    }

    pub fn around(centre: Point, radius: f64) -> Area {
        Area::new(centre.x - radius, centre.y - radius, 2.0 * radius, 2.0 * radius)
    }

    /// The least that holds some points.
    pub fn of(points: &[Point]) -> Area {
        let areas = points.iter().map(|&p| Area { from: p, to: p });
        areas.reduce(Area::join).unwrap_or(Area::around(Point::default(), 0.0))
    }

    pub fn join(self, other: Area) -> Area {
        Area {
            from: point(self.from.x.min(other.from.x), self.from.y.min(other.from.y)),
            to: point(self.to.x.max(other.to.x), self.to.y.max(other.to.y)),
        }
    }

    fn meets(&self, other: &Area) -> bool {
        self.from.x < other.to.x && other.from.x < self.to.x && self.from.y < other.to.y && other.from.y < self.to.y
    }

    fn has(&self, p: Point) -> bool {
        self.from.x <= p.x && p.x <= self.to.x && self.from.y <= p.y && p.y <= self.to.y
    }
}

/// A square of the picture holds what lies in it, so that only neighbours are compared.
const SQUARE: f64 = 64.0;

/// What it costs to cover an area, where a point of a line costs 1.
const AREA: usize = 1000;

/// What is there already: areas that are to stay free, and points of lines that are better not covered.
#[derive(Clone, Debug, Default)]
pub struct Taken {
    /// Nothing is to stand outside of it.
    pub inside: Option<Area>,
    areas: HashMap<(i64, i64), Vec<Area>>,
    points: HashMap<(i64, i64), Vec<Point>>,
}

fn square(p: Point) -> (i64, i64) {
    ((p.x / SQUARE).floor() as i64, (p.y / SQUARE).floor() as i64)
}

fn squares(area: &Area) -> impl Iterator<Item = (i64, i64)> + use<> {
    let (from, to) = (square(area.from), square(area.to));
    (from.0..=to.0).flat_map(move |x| (from.1..=to.1).map(move |y| (x, y)))
}

impl Taken {
    pub fn take(&mut self, area: Area) {
        for place in squares(&area) {
            self.areas.entry(place).or_default().push(area);
        }
    }

    /// A point of a line.
    pub fn pass(&mut self, p: Point) {
        self.points.entry(square(p)).or_default().push(p);
    }

    /// How many areas it would cover; outside of the picture counts as one.
    fn areas_covered(&self, area: &Area) -> usize {
        let out = self.inside.is_some_and(|inside| inside.join(*area) != inside);
        let meets = |place| self.areas.get(&place).map_or(0, |areas| areas.iter().filter(|other| area.meets(other)).count());
        usize::from(out) + squares(area).map(meets).sum::<usize>()
    }

    fn points_covered(&self, area: &Area) -> usize {
        squares(area).map(|place| self.points.get(&place).map_or(0, |points| points.iter().filter(|&&p| area.has(p)).count())).sum()
    }

    /// Whether it covers no area.
    pub fn is_free(&self, area: &Area) -> bool {
        self.areas_covered(area) == 0
    }

    /// The candidate that covers least, the first of equals; its areas are then taken.
    pub fn best<T, const N: usize>(&mut self, candidates: impl IntoIterator<Item = (T, [Area; N])>) -> Option<T> {
        self.best_below(usize::MAX, candidates)
    }

    /// The same, if it covers no area.
    pub fn best_free<T, const N: usize>(&mut self, candidates: impl IntoIterator<Item = (T, [Area; N])>) -> Option<T> {
        self.best_below(AREA, candidates)
    }

    /// The candidate that covers fewest areas, whatever lines it covers, the first of equals; its area is then taken.
    pub fn least<T>(&mut self, candidates: impl IntoIterator<Item = (T, Area)>) -> Option<T> {
        let mut best: Option<(usize, T, Area)> = None;
        for (what, area) in candidates {
            let covered = self.areas_covered(&area);
            if best.as_ref().is_none_or(|(least, ..)| covered < *least) {
                best = Some((covered, what, area));
            }
            if covered == 0 {
                break;
            }
        }
        let (_, what, area) = best?;
        self.take(area);
        Some(what)
    }

    fn best_below<T, const N: usize>(&mut self, most: usize, candidates: impl IntoIterator<Item = (T, [Area; N])>) -> Option<T> {
        let mut best: Option<(usize, T, [Area; N])> = None;
        for (what, all) in candidates {
            let least = best.as_ref().map_or(most, |(least, _, _)| *least);
            let areas = AREA * all.iter().map(|area| self.areas_covered(area)).sum::<usize>();
            if areas >= least {
                continue;
            }
            let cost = areas + all.iter().map(|area| self.points_covered(area)).sum::<usize>();
            if cost < least {
                best = Some((cost, what, all));
                if cost == 0 {
                    break;
                }
            }
        }
        let (_, what, all) = best?;
        all.into_iter().for_each(|area| self.take(area));
        Some(what)
    }
}

#[cfg(test)]
mod tests {
    use super::*;

    #[test]
    fn a_free_place_is_found() {
        let mut taken = Taken::default();
        taken.take(Area::new(0.0, 0.0, 50.0, 20.0));
        let candidates = |x: [f64; 3]| x.map(|x| (x, [Area::new(x, 0.0, 40.0, 20.0)]));
        assert_eq!(taken.best(candidates([10.0, 45.0, 60.0])), Some(60.0));
        // Now that one is taken too; a line is the lesser evil.
        taken.pass(point(120.0, 10.0));
        assert_eq!(taken.best(candidates([10.0, 45.0, 110.0])), Some(110.0));
        assert_eq!(taken.best(Vec::<((), [Area; 1])>::new()), None);
        // Outside of the picture is no free place.
        taken.inside = Some(Area::new(0.0, 0.0, 300.0, 20.0));
        assert_eq!(taken.best(candidates([-20.0, 290.0, 200.0])), Some(200.0));
    }
}
