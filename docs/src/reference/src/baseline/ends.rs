//! The nodes of one step, and the sections at the ends of the pipes.

use super::plan::{PipePlan, Plan, MOST};
use crate::job::Kind;
use crate::node::solve_by;
use crate::wave::{finish_flow, start_flow, Point, Sums};

/// K at the start end and at the finish end.
#[derive(Clone, Copy)]
pub struct EndK {
    pub start: f64,
    pub finish: f64,
}

/// Speed and inflow of each node as the last step left them, in the lent slices.
pub struct Pairs<'a> {
    pub speeds: &'a mut [f64],
    pub inflows: &'a mut [f64],
}

impl Pairs<'_> {
    /// Once a step is finished: +0 twice at every node that is no pump.
    pub fn clear_others(&mut self, plan: &Plan<'_>) {
        for (number, node) in plan.nodes().iter().enumerate() {
            if !matches!(node.kind, Kind::Pump { .. }) {
                (self.speeds[number], self.inflows[number]) = (0.0, 0.0);
            }
        }
    }
}

/// What a step has at a node; a speed and an inflow at pumps only.
#[derive(Clone, Copy)]
struct NewNode {
    head: f64,
    speed: f64,
    inflow: f64,
}

/// K at the ends of each pipe, B of each node, and what the step has at each node.
pub struct Ends {
    k: [EndK; MOST],
    b: [f64; MOST],
    new: [NewNode; MOST],
}

impl Ends {
    pub fn none() -> Ends {
        let new = NewNode { head: 0.0, speed: 0.0, inflow: 0.0 };
        Ends { k: [EndK { start: 0.0, finish: 0.0 }; MOST], b: [0.0; MOST], new: [new; MOST] }
    }

    /// After a step that does not stop: the pairs of the pumps.
    #[inline(always)]
    pub fn take_over_pairs(&self, plan: &Plan<'_>, pairs: &mut Pairs<'_>) {
        for number in plan.pumps() {
            let NewNode { speed, inflow, .. } = self.new[number];
            (pairs.speeds[number], pairs.inflows[number]) = (speed, inflow);
        }
    }

    /// The least section at which a pair after the step that is not finite stops the run.
    #[cold]
    pub fn pair_not_finite(&self, plan: &Plan<'_>) -> Option<usize> {
        let new = plan.pumps().map(|number| (number, self.new[number]));
        let bad = new.filter(|(_, new)| !(new.speed.is_finite() && new.inflow.is_finite()));
        bad.filter_map(|(node, _)| plan.lowest_section(node)).min()
    }

    /// Before a step: B of each node +0.
    pub fn clear(&mut self, nodes: usize) {
        self.b[..nodes].fill(0.0);
    }

    /// Notes K at both ends of a pipe; the pipes come in rising number.
    #[inline(always)]
    pub fn set(&mut self, number: usize, pipe: &PipePlan, k: EndK) {
        self.k[number] = k;
        self.b[pipe.start] += k.start;
        self.b[pipe.finish] += k.finish;
    }

    /// Works out every node, and hands on the new start section and finish section of each pipe, with the
    /// pipe's number. Answers the sum of the new pairs: not finite where one of them is not.
    #[inline(always)]
    pub fn new_ends(
        &mut self,
        plan: &Plan<'_>,
        step: u64,
        pairs: &Pairs<'_>,
        mut hand_on: impl FnMut(usize, &PipePlan, Point, Point),
    ) -> f64 {
        let mut sum = 0.0;
        let nodes = plan.nodes().iter().zip(&self.b).zip(&mut self.new);
        let pairs = pairs.speeds.iter().zip(&*pairs.inflows);
        for (((node, &b), new), (&speed, &inflow)) in nodes.zip(pairs) {
            let v = plan.value_at(node, step, speed, inflow);
            let solved = solve_by(root, node.kind, v, Sums { b, t: node.t });
            new.head = solved.head;
            if matches!(node.kind, Kind::Pump { .. }) {
                (new.speed, new.inflow) = (v, solved.inflow);
                sum += v + solved.inflow;
            }
        }
        for (number, (pipe, k)) in plan.pipes().iter().zip(&self.k).enumerate() {
            let (upper, lower) = (self.new[pipe.start].head, self.new[pipe.finish].head);
            let start = Point { head: upper, flow: start_flow(pipe.s, k.start, upper) };
            let finish = Point { head: lower, flow: finish_flow(pipe.s, k.finish, lower) };
            hand_on(number, pipe, start, finish);
        }
        sum
    }
}

/// The root of a number not below zero, `None` where it is not finite: the machine's, which is the
/// nearest f64. Of -0 that would be -0; neither equation takes the root of it, since each adds to a
/// square or to 1.
#[inline(always)]
fn root(x: f64) -> Option<f64> {
    x.is_finite().then(|| x.sqrt())
}

#[cfg(test)]
mod tests {
    use super::*;
    use crate::generate::Random;

    #[test]
    fn the_root_is_the_plain_one() {
        assert_eq!((root(f64::INFINITY), root(f64::NAN)), (None, None));
        let mut random = Random::new(6);
        let edges = [0.0, 2.0, 144.0, f64::MAX, f64::MIN_POSITIVE, f64::from_bits(1)];
        let squares = (1..2000).map(|t| f64::from(t) * f64::from(t));
        let any = (0..200_000).map(|_| f64::from_bits(random.bits() >> 1));
        let tiny = (0..52).map(|place| f64::from_bits((1 << place) | 1));
        let all = edges.into_iter().chain(squares).chain(tiny).chain(any);
        for x in all.filter(|x| x.is_finite()) {
            let plain = crate::root::root(x).unwrap();
            assert_eq!(root(x).unwrap().to_bits(), plain.to_bits(), "{x:e}");
        }
    }
}
