//! From top to bottom: the order within each layer, with few crossings. A track over several layers has a bend in each layer between.

use super::Side;
use super::ends::Bonds;
use super::graph::Graph;
use super::layers::side_of_turn;

/// More bends than this are not made: long tracks are then drawn straight across.
const MOST_BENDS: usize = 6_000;
/// From how many first orders crossings are taken away: at most, and by the number of nodes and bends.
const MOST_STARTS: u64 = 32;
const STARTS_WORK: u64 = 3_000;
/// With more crossings than this left, a few first orders are enough.
const TANGLED: usize = 30;
const STARTS_OF_A_TANGLE: u64 = 2;
/// By how much a later order is to be less steep than an earlier one.
const CLEARLY: f64 = 12.0;

/// Nodes and bends by layer, and what is joined between neighbouring layers.
#[derive(Clone, Debug, Default)]
pub struct Levels {
    /// Nodes of the graph first, then bends.
    pub levels: Vec<Vec<usize>>,
    /// Of each node or bend, its layer.
    pub level: Vec<usize>,
    /// Of each node or bend, those in the layer to the left and to the right, with the track.
    pub left: Vec<Vec<(usize, usize)>>,
    pub right: Vec<Vec<(usize, usize)>>,
    /// The bends of each track, from its left end to its right end.
    pub bends: Vec<Vec<usize>>,
    /// The tracks within one layer with their sections, and of each track to which side it turns if it is one.
    pub within: Vec<(usize, [usize; 2])>,
    pub turns: Vec<Side>,
    pub nodes: usize,
}

impl Levels {
    pub fn is_bend(&self, node: usize) -> bool {
        node >= self.nodes
    }

    /// Nodes and bends of a connected part whose layers are numbered from 0.
    pub fn new(graph: &Graph, part: &[usize], layer: &[i32]) -> Levels {
        let depth = part.iter().map(|&node| layer[node]).max().unwrap_or(0);
        let depth = usize::try_from(depth).unwrap_or(0) + 1;
        let mut made = Levels {
            levels: vec![vec![]; depth],
            level: vec![0; graph.nodes],
            left: vec![vec![]; graph.nodes],
            right: vec![vec![]; graph.nodes],
            bends: vec![vec![]; graph.tracks.len()],
            within: vec![],
            turns: vec![Side::Right; graph.tracks.len()],
            nodes: graph.nodes,
        };
        let at = |node: usize| usize::try_from(layer[node]).unwrap_or(0);
        let tracks = graph.tracks_of(part);
        let bends: usize =
            tracks.iter().map(|&track| at(graph.tracks[track].0[0]).abs_diff(at(graph.tracks[track].0[1])).saturating_sub(1)).sum();
        for &node in part {
            made.level[node] = at(node);
        }
        for track in tracks {
            let [one, two] = graph.tracks[track].0;
            let (from, to) = if at(one) <= at(two) { (one, two) } else { (two, one) };
            if at(from) == at(to) {
                made.within.push((track, [one, two]));
                continue;
            }
            if at(to) - at(from) > 1 && bends > MOST_BENDS {
                continue;
            }
            let mut last = from;
            for level in at(from) + 1..at(to) {
                let bend = made.left.len();
                made.left.push(vec![]);
                made.right.push(vec![]);
                made.level.push(level);
                made.bends[track].push(bend);
                made.join(last, bend, track);
                last = bend;
            }
            made.join(last, to, track);
        }
        if !made.within.is_empty() {
            let bonds = Bonds::new(graph);
            for &(track, _) in &made.within {
                made.turns[track] = side_of_turn(graph, &bonds, layer, track);
            }
        }
        made.first_order(part, 0);
        made
    }

    fn join(&mut self, left: usize, right: usize, track: usize) {
        self.right[left].push((right, track));
        self.left[right].push((left, track));
    }

    /// Each node or bend below those that were come to before it, going on from each as far as possible: a tree has no crossing. After the first of these
    /// orders, whose number is 0, each begins elsewhere and goes on from each node in another order.
    fn first_order(&mut self, part: &[usize], number: u64) {
        let mut nodes: Vec<usize> = part.to_vec();
        nodes.sort_by_key(|&node| (self.level[node], node));
        self.levels.iter_mut().for_each(Vec::clear);
        let mut chance = number;
        let mut shuffle = |list: &mut [usize]| {
            for place in (1..list.len()).rev().filter(|_| number > 0) {
                chance = chance.wrapping_mul(6_364_136_223_846_793_005).wrapping_add(1_442_695_040_888_963_407);
                list.swap(place, (chance >> 33) as usize % (place + 1));
            }
        };
        shuffle(&mut nodes);
        let mut seen = vec![false; self.left.len()];
        for start in nodes {
            let mut stack = vec![start];
            while let Some(node) = stack.pop() {
                if seen[node] {
                    continue;
                }
                seen[node] = true;
                self.levels[self.level[node]].push(node);
                let beside = self.right[node].iter().chain(&self.left[node]).map(|&(other, _)| other);
                let mut next: Vec<usize> = beside.filter(|&other| !seen[other]).collect();
                next.reverse();
                shuffle(&mut next);
                stack.extend(next);
            }
        }
    }

    /// Reduces crossings, from several first orders; of the orders with fewest crossings the one that is least steep is kept.
    pub fn untangle(&mut self, graph: &Graph, part: &[usize], steep: &mut dyn FnMut(&Levels) -> f64) {
        let size: usize = self.levels.iter().map(Vec::len).sum();
        let mut best: Option<(usize, f64, Vec<Vec<usize>>)> = None;
        for number in 0..(STARTS_WORK / (size + 1) as u64).clamp(1, MOST_STARTS) {
            // A tangle stays one from wherever it is begun.
            if number >= STARTS_OF_A_TANGLE && best.as_ref().is_some_and(|&(least, ..)| least > TANGLED) {
                break;
            }
            self.first_order(part, number);
            let crossings = self.untangle_from_here(graph, size);
            if best.as_ref().is_some_and(|(least, _, levels)| crossings > *least || *levels == self.levels) {
                continue;
            }
            let steep = steep(self);
            if best.as_ref().is_none_or(|&(least, less_steep, _)| crossings < least || steep + CLEARLY < less_steep) {
                best = Some((crossings, steep, self.levels.clone()));
            }
            if crossings == 0 && steep == 0.0 {
                break;
            }
        }
        self.levels = best.map_or_else(Vec::new, |(_, _, levels)| levels);
    }

    /// Puts each layer in the order of the means of its neighbours' places, again and again from both sides, then exchanges neighbours where that helps;
    /// gives the crossings that are left.
    fn untangle_from_here(&mut self, graph: &Graph, size: usize) -> usize {
        let rounds = if size > 2500 { 6 } else { 16 };
        let mut best = (self.crossings(), self.levels.clone());
        for round in 0..rounds {
            if best.0 == 0 {
                break;
            }
            self.sweep(graph, round % 2 == 0);
            if size <= 1200 && round % 4 == 3 {
                self.exchange();
            }
            let crossings = self.crossings();
            if crossings < best.0 {
                best = (crossings, self.levels.clone());
            }
        }
        self.levels = best.1;
        if best.0 > 0 && size <= 2500 {
            self.exchange();
            return self.crossings();
        }
        best.0
    }

    /// Takes the bends of tracks out of the bands in which these have no end, where a band begins with each of some layers.
    pub fn leave_out_what_passes(&mut self, graph: &Graph, cuts: &[usize]) {
        let band = |level: usize| cuts.partition_point(|&cut| cut <= level);
        let mut passes = vec![false; self.level.len()];
        for (bends, (ends, _)) in self.bends.iter().zip(&graph.tracks) {
            for &bend in bends {
                passes[bend] = ends.iter().all(|&end| band(self.level[end]) != band(self.level[bend]));
            }
        }
        for level in &mut self.levels {
            level.retain(|&node| !passes[node]);
        }
    }

    fn positions(&self) -> Vec<usize> {
        let mut position = vec![0; self.left.len()];
        for level in &self.levels {
            for (place, &node) in level.iter().enumerate() {
                position[node] = place;
            }
        }
        position
    }

    fn sweep(&mut self, graph: &Graph, rightwards: bool) {
        let mut position = self.positions();
        let mut beside_within: Vec<Vec<usize>> = vec![vec![]; graph.nodes];
        for &(_, [one, two]) in &self.within {
            beside_within[one].push(two);
            beside_within[two].push(one);
        }
        let depth = self.levels.len();
        for step in 0..depth {
            let number = if rightwards { step } else { depth - 1 - step };
            let mut level = std::mem::take(&mut self.levels[number]);
            let mean = |node: usize| -> f64 {
                let beside = if rightwards { &self.left[node] } else { &self.right[node] };
                let mut sum: f64 = beside.iter().map(|&(other, _)| position[other] as f64).sum();
                let mut weight = beside.len() as f64;
                for &other in beside_within.get(node).into_iter().flatten() {
                    sum += 0.5 * position[other] as f64;
                    weight += 0.5;
                }
                if weight == 0.0 { position[node] as f64 } else { sum / weight }
            };
            let mut keyed: Vec<(f64, usize)> = level.iter().map(|&node| (mean(node), node)).collect();
            keyed.sort_by(|one, two| one.0.total_cmp(&two.0));
            level.clear();
            level.extend(keyed.into_iter().map(|(_, node)| node));
            for (place, &node) in level.iter().enumerate() {
                position[node] = place;
            }
            self.levels[number] = level;
        }
    }

    /// Exchanges neighbours in a layer as long as that takes crossings away.
    fn exchange(&mut self) {
        let mut position = self.positions();
        for _ in 0..8 {
            let mut gained = false;
            for number in 0..self.levels.len() {
                for place in 1..self.levels[number].len() {
                    let (one, two) = (self.levels[number][place - 1], self.levels[number][place]);
                    let now = self.crossed(one, two, &position);
                    let then = self.crossed(two, one, &position);
                    if then < now {
                        self.levels[number].swap(place - 1, place);
                        position[one] = place;
                        position[two] = place - 1;
                        gained = true;
                    }
                }
            }
            if !gained {
                break;
            }
        }
    }

    /// The crossings between the tracks of two neighbours, the first above the second.
    fn crossed(&self, above: usize, below: usize, position: &[usize]) -> usize {
        let count = |one: &[(usize, usize)], two: &[(usize, usize)]| -> usize {
            one.iter().map(|&(a, _)| two.iter().filter(|&&(b, _)| position[b] < position[a]).count()).sum()
        };
        count(&self.left[above], &self.left[below]) + count(&self.right[above], &self.right[below])
    }

    /// All crossings between neighbouring layers, and those with tracks that turn: of what leaves on that side between their ends.
    pub fn crossings(&self) -> usize {
        let position = self.positions();
        let mut all = 0;
        for &(track, [one, two]) in &self.within {
            let (top, bottom) = (position[one].min(position[two]), position[one].max(position[two]));
            let beside = if self.turns[track] == Side::Right { &self.right } else { &self.left };
            all += self.levels[self.level[one]][top + 1..bottom].iter().map(|&node| beside[node].len()).sum::<usize>();
        }
        for pair in self.levels.windows(2) {
            // Places on the right, by rising place on the left: each inversion is a crossing.
            let mut tree = vec![0_usize; pair[1].len() + 1];
            let mut seen = 0;
            for &node in &pair[0] {
                let mut places: Vec<usize> = self.right[node].iter().map(|&(other, _)| position[other]).collect();
                places.sort_unstable();
                for &place in &places {
                    let mut not_above = 0;
                    let mut index = place + 1;
                    while index > 0 {
                        not_above += tree[index];
                        index &= index - 1;
                    }
                    all += seen - not_above;
                }
                for place in places {
                    seen += 1;
                    let mut index = place + 1;
                    while index < tree.len() {
                        tree[index] += 1;
                        index += index & index.wrapping_neg();
                    }
                }
            }
        }
        all
    }
}

#[cfg(test)]
mod tests {
    use super::*;

    /// Two layers, joined as given.
    fn two_layers(left: usize, right: usize, joined: &[(usize, usize)]) -> (Graph, Levels) {
        let nodes = left + right;
        let mut graph = Graph { nodes, at: vec![vec![]; nodes], ..Graph::default() };
        for (track, &(one, two)) in joined.iter().enumerate() {
            graph.tracks.push(([one, left + two], 1));
            graph.at[one].push(track);
            graph.at[left + two].push(track);
        }
        let part: Vec<usize> = (0..nodes).collect();
        let layer: Vec<i32> = (0..nodes).map(|node| i32::from(node >= left)).collect();
        let levels = Levels::new(&graph, &part, &layer);
        (graph, levels)
    }

    #[test]
    fn crossings_are_counted() {
        let (_, mut levels) = two_layers(2, 2, &[(0, 0), (0, 1), (1, 0), (1, 1)]);
        levels.levels = vec![vec![0, 1], vec![2, 3]];
        assert_eq!(levels.crossings(), 1);
        let (_, mut levels) = two_layers(3, 3, &[(0, 2), (1, 1), (2, 0)]);
        levels.levels = vec![vec![0, 1, 2], vec![3, 4, 5]];
        assert_eq!(levels.crossings(), 3);
    }

    #[test]
    fn crossings_are_taken_away() {
        let (graph, mut levels) = two_layers(4, 4, &[(0, 3), (1, 2), (2, 1), (3, 0), (0, 2), (1, 1)]);
        levels.levels = vec![vec![0, 1, 2, 3], vec![4, 5, 6, 7]];
        assert!(levels.crossings() > 0);
        levels.untangle(&graph, &[0, 1, 2, 3, 4, 5, 6, 7], &mut |_| 0.0);
        assert_eq!(levels.crossings(), 0);
    }

    #[test]
    fn a_long_track_has_bends() {
        let mut graph = Graph { nodes: 4, at: vec![vec![0, 3], vec![0, 1], vec![1, 2], vec![2, 3]], ..Graph::default() };
        graph.tracks = vec![([0, 1], 1), ([1, 2], 1), ([2, 3], 1), ([0, 3], 1)];
        let levels = Levels::new(&graph, &[0, 1, 2, 3], &[0, 1, 2, 3]);
        assert_eq!(levels.bends[3].len(), 2);
        assert_eq!(levels.levels.iter().map(Vec::len).collect::<Vec<_>>(), [1, 2, 2, 1]);
        assert!(levels.is_bend(levels.bends[3][0]));
    }
}
