//! Places on a line, each at least some way after others, with the least sum of prices for the ways between them. This is the simplex method on
//! a graph: a tree of joints with no slack, and at each step a part of the tree that gains by moving away from the rest.

/// One place is at least some way after another, and each step of the way costs something.
#[derive(Clone, Copy, Debug)]
pub struct Joint {
    pub from: usize,
    pub to: usize,
    pub least: i64,
    pub price: i64,
}

impl Joint {
    fn slack(&self, place: &[i64]) -> i64 {
        place[self.to] - place[self.from] - self.least
    }

    fn other(&self, one: usize) -> usize {
        if self.from == one { self.to } else { self.from }
    }
}

/// Whether no joint leads back.
pub fn leads_on(places: usize, joints: &[Joint]) -> bool {
    let mut waits = vec![0; places];
    joints.iter().for_each(|joint| waits[joint.to] += 1);
    let mut ready: Vec<usize> = (0..places).filter(|&one| waits[one] == 0).collect();
    let mut next = 0;
    while let Some(&one) = ready.get(next) {
        next += 1;
        for joint in joints.iter().filter(|joint| joint.from == one) {
            waits[joint.to] -= 1;
            if waits[joint.to] == 0 {
                ready.push(joint.to);
            }
        }
    }
    ready.len() == places
}

/// The lowest places from 0, where no joint leads back; but what comes after nothing is as high as what comes after it allows.
pub fn lowest(places: usize, joints: &[Joint]) -> Vec<i64> {
    let mut waits = vec![0; places];
    let mut out: Vec<Vec<usize>> = vec![vec![]; places];
    for (number, joint) in joints.iter().enumerate() {
        waits[joint.to] += 1;
        out[joint.from].push(number);
    }
    let mut place = vec![0; places];
    let first: Vec<usize> = (0..places).filter(|&one| waits[one] == 0).collect();
    let mut ready = first.clone();
    while let Some(one) = ready.pop() {
        for &number in &out[one] {
            let joint = joints[number];
            place[joint.to] = place[joint.to].max(place[one] + joint.least);
            waits[joint.to] -= 1;
            if waits[joint.to] == 0 {
                ready.push(joint.to);
            }
        }
    }
    for one in first {
        let highest = out[one].iter().map(|&number| place[joints[number].to] - joints[number].least).min();
        place[one] = highest.unwrap_or(0);
    }
    place
}

/// Moves places that satisfy their joints, all of them joined to one another, to where they cost least, in so many steps at most.
pub fn tighten(joints: &[Joint], place: &mut [i64], steps: usize) {
    let mut tree = Tree::new(joints, place);
    for _ in 0..steps {
        if !tree.step(place) {
            break;
        }
    }
}

/// Joints without slack that reach every place.
struct Tree<'a> {
    joints: &'a [Joint],
    /// The joints at each place.
    at: Vec<Vec<usize>>,
    chosen: Vec<bool>,
    /// What is gained where a place goes up by one.
    pull: Vec<i64>,
}

impl Tree<'_> {
    fn new<'a>(joints: &'a [Joint], place: &mut [i64]) -> Tree<'a> {
        let mut tree = Tree { joints, at: vec![vec![]; place.len()], chosen: vec![false; joints.len()], pull: vec![0; place.len()] };
        for (number, joint) in joints.iter().enumerate() {
            tree.at[joint.from].push(number);
            tree.at[joint.to].push(number);
            tree.pull[joint.from] += joint.price;
            tree.pull[joint.to] -= joint.price;
        }
        tree.grow(place);
        tree
    }

    /// From the first place by joints without slack; where there is none, all that was reached moves until there is.
    fn grow(&mut self, place: &mut [i64]) {
        let mut reached = vec![false; place.len()];
        let mut order: Vec<usize> = (0..place.len().min(1)).collect();
        reached.iter_mut().take(1).for_each(|first| *first = true);
        let mut next = 0;
        loop {
            while let Some(&one) = order.get(next) {
                next += 1;
                for &number in &self.at[one] {
                    let joint = self.joints[number];
                    let other = joint.other(one);
                    if !reached[other] && joint.slack(place) == 0 {
                        reached[other] = true;
                        self.chosen[number] = true;
                        order.push(other);
                    }
                }
            }
            let leaving = self.joints.iter().filter(|joint| reached[joint.from] != reached[joint.to]);
            let Some(nearest) = leaving.min_by_key(|joint| joint.slack(place)) else { return };
            let by = if reached[nearest.from] { nearest.slack(place) } else { -nearest.slack(place) };
            order.iter().for_each(|&one| place[one] += by);
            next = 0;
        }
    }

    /// Moves the part that gains most; false where none gains.
    fn step(&mut self, place: &mut [i64]) -> bool {
        let (order, by) = self.walk(place.len());
        let mut sum = self.pull.clone();
        let mut best: Option<(i64, usize, usize)> = None;
        for &one in order.iter().rev() {
            let number = by[one];
            let Some(joint) = self.joints.get(number) else { continue };
            let gain = if joint.to == one { sum[one] } else { -sum[one] };
            if gain > best.map_or(0, |(most, _, _)| most) {
                best = Some((gain, number, one));
            }
            sum[joint.other(one)] += sum[one];
        }
        let Some((_, number, top)) = best else { return false };
        let mut inside = vec![false; place.len()];
        for &one in &order {
            let above = self.joints.get(by[one]).map(|joint| joint.other(one));
            inside[one] = one == top || above.is_some_and(|above| inside[above]);
        }
        let up = self.joints[number].to == top;
        let stops = |joint: &Joint| inside[joint.from] != inside[joint.to] && inside[joint.from] == up;
        let nearest = self.joints.iter().enumerate().filter(|(_, joint)| stops(joint)).min_by_key(|(_, joint)| joint.slack(place));
        let Some((entering, joint)) = nearest else { return false };
        let way = if up { joint.slack(place) } else { -joint.slack(place) };
        for (place, _) in place.iter_mut().zip(inside).filter(|(_, inside)| *inside) {
            *place += way;
        }
        self.chosen[number] = false;
        self.chosen[entering] = true;
        true
    }

    /// All places from the first along the tree, and the joint by which each is reached.
    fn walk(&self, places: usize) -> (Vec<usize>, Vec<usize>) {
        let mut by = vec![usize::MAX; places];
        let mut order: Vec<usize> = (0..places.min(1)).collect();
        let mut next = 0;
        while let Some(&one) = order.get(next) {
            next += 1;
            let back = by[one];
            for &number in self.at[one].iter().filter(|&&number| self.chosen[number] && number != back) {
                let other = self.joints[number].other(one);
                by[other] = number;
                order.push(other);
            }
        }
        (order, by)
    }
}

#[cfg(test)]
mod tests {
    use super::*;

    fn joint(from: usize, to: usize, price: i64) -> Joint {
        Joint { from, to, least: 1, price }
    }

    #[test]
    fn a_branch_stands_where_it_joins() {
        // 0 1 2 3 4 in a row; 5 and 6 join at 4, one after the other.
        let joints = [joint(0, 1, 1), joint(1, 2, 1), joint(2, 3, 1), joint(3, 4, 1), joint(5, 6, 1), joint(6, 4, 1)];
        let mut place = lowest(7, &joints);
        assert_eq!(place, [0, 1, 2, 3, 4, 0, 1]);
        tighten(&joints, &mut place, 100);
        assert_eq!(place.iter().map(|one| one - place[0]).collect::<Vec<_>>(), [0, 1, 2, 3, 4, 2, 3]);
    }

    #[test]
    fn the_dearer_side_wins() {
        // 1 between 0 and 3; the way to 3 costs more.
        let joints = [joint(0, 1, 1), joint(1, 3, 2), joint(0, 2, 1), joint(2, 3, 1), joint(0, 4, 5), joint(4, 5, 5), joint(5, 3, 5)];
        let mut place = lowest(6, &joints);
        tighten(&joints, &mut place, 100);
        assert_eq!(place[3] - place[0], 3);
        assert_eq!(place[3] - place[1], 1);
    }
}
