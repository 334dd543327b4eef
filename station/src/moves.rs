//! Which sections a train can come to, for display beside the library's count of them.

use judge::Section;

use crate::layout::graph::{place, tracks};
use crate::model::Station;

/// Of each section, counted from 0, those that a permitted move leads to.
pub struct Moves(Vec<Vec<usize>>);

impl Moves {
    /// The permitted moves of a station in the states that are shown.
    pub fn of(station: &Station) -> Moves {
        let mut moves = vec![vec![]; station.sections()];
        for track in tracks(station) {
            for (over, [from, to]) in track.over.iter().zip([track.ends, [track.ends[1], track.ends[0]]]) {
                if station.permits_under(over) {
                    moves[from].push(to);
                }
            }
        }
        Moves(moves)
    }

    /// The numbers of the sections that can be come to from some, in rising order.
    pub fn reach(&self, standing: &[Section]) -> Vec<usize> {
        let mut seen = vec![false; self.0.len()];
        let mut next: Vec<usize> = standing.iter().map(|&section| place(section)).filter(|&section| section < seen.len()).collect();
        while let Some(section) = next.pop() {
            if !std::mem::replace(&mut seen[section], true) {
                next.extend(&self.0[section]);
            }
        }
        (1..=seen.len()).filter(|&number| seen[number - 1]).collect()
    }
}

#[cfg(test)]
mod tests {
    use super::*;
    use crate::model::examples::station_k;

    #[test]
    fn trains_of_station_k() {
        let station = station_k();
        let moves = Moves::of(&station);
        assert_eq!(moves.reach(&[Section(1)]), [1, 2, 3, 5]);
        assert_eq!(moves.reach(&[Section(4)]), [4, 5]);
        assert_eq!(moves.reach(&[]), [0; 0]);
    }
}
