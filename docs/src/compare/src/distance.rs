//! Distances in reaches: neighbouring sections are one reach apart, ends at one node none. A node is as far as the
//! nearest of its ends.

use reference::draft::Draft;
use std::collections::VecDeque;

/// How far each section is from the node by its shortest path; `None` where no path joins them.
pub fn from_node(draft: &Draft, node: u8) -> Vec<Option<u64>> {
    let ends = ends(draft);
    let mut far = vec![None; draft.section_count()];
    let mut waiting = VecDeque::new();
    for &(_, section) in ends.iter().filter(|&&(at, _)| at == node) {
        far[section] = Some(0);
        waiting.push_back(section);
    }
    // Sections are taken in rising distance, so that the first distance found is the least.
    while let Some(section) = waiting.pop_front() {
        let here = far[section].expect("a waiting section has its distance");
        for &(at, _) in ends.iter().filter(|&&(_, end)| end == section) {
            for &(_, other) in ends.iter().filter(|&&(node, _)| node == at) {
                if far[other].is_none_or(|there| there > here) {
                    far[other] = Some(here);
                    waiting.push_front(other);
                }
            }
        }
        for next in neighbours(draft, section) {
            if far[next].is_none_or(|there| there > here + 1) {
                far[next] = Some(here + 1);
                waiting.push_back(next);
            }
        }
    }
    far
}

/// How far each node is, by the distances of the sections.
pub fn of_nodes(draft: &Draft, sections: &[Option<u64>]) -> Vec<Option<u64>> {
    let ends = ends(draft);
    let at = |node: usize| ends.iter().filter(move |&&(at, _)| usize::from(at) == node);
    (0..draft.nodes.len())
        .map(|node| at(node).filter_map(|&(_, section)| sections[section]).min())
        .collect()
}

/// Each pipe end: its node and its section.
fn ends(draft: &Draft) -> Vec<(u8, usize)> {
    let mut ends = Vec::new();
    let mut first = 0;
    for pipe in &draft.pipes {
        let last = first + usize::from(pipe.reaches);
        ends.push((pipe.start, first));
        ends.push((pipe.finish, last));
        first = last + 1;
    }
    ends
}

/// The sections one reach from a section along its pipe.
fn neighbours(draft: &Draft, section: usize) -> Vec<usize> {
    let mut first = 0;
    for pipe in &draft.pipes {
        let last = first + usize::from(pipe.reaches);
        if (first..=last).contains(&section) {
            let above = (section > first).then(|| section - 1);
            let below = (section < last).then(|| section + 1);
            return above.into_iter().chain(below).collect();
        }
        first = last + 1;
    }
    Vec::new()
}
