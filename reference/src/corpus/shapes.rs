//! Graphs as lists of ends, in rising order of (low, high). Each pair stands once,
//! save where links are repeated.

use crate::random::Random;

/// Low and high end of each link.
pub type Shape = Vec<(u8, u8)>;

pub fn path(nodes: u8) -> Shape {
    sorted((1..nodes).map(|node| (node - 1, node)))
}

/// A ring of at least three nodes.
pub fn ring(nodes: u8) -> Shape {
    sorted((0..nodes).map(|node| (node, (node + 1) % nodes)))
}

/// Links from one node to every other.
pub fn star(nodes: u8, middle: u8) -> Shape {
    let others = (0..nodes).filter(|node| *node != middle);
    sorted(others.map(|node| (middle, node)))
}

pub fn tree(nodes: u8, random: &mut Random) -> Shape {
    sorted((1..nodes).map(|node| (random.below(node.into()) as u8, node)))
}

pub fn grid(width: u8, height: u8) -> Shape {
    let nodes = width * height;
    let right = (0..nodes).filter(|node| (node + 1) % width != 0);
    let down = 0..nodes - width;
    let right = right.map(|node| (node, node + 1));
    sorted(right.chain(down.map(|node| (node, node + width))))
}

/// Two rails with a rung between each two of their nodes.
pub fn ladder(rungs: u8) -> Shape {
    grid(2, rungs)
}

/// A ring with links to the nodes that stand each of `steps` further on.
pub fn ring_with_steps(nodes: u8, steps: &[u8]) -> Shape {
    let from = |node| steps.iter().map(move |step| (node, (node + step) % nodes));
    sorted(ring(nodes).into_iter().chain((0..nodes).flat_map(from)))
}

/// Node 0 with a link to each node of a ring of at least three.
pub fn wheel(nodes: u8) -> Shape {
    let rim = ring(nodes - 1).into_iter();
    let rim = rim.map(|(low, high)| (low + 1, high + 1));
    sorted(star(nodes, 0).into_iter().chain(rim))
}

/// Each of the first `left` nodes with each of the `right` others.
pub fn bipartite(left: u8, right: u8) -> Shape {
    let from = |low| (left..left + right).map(move |high| (low, high));
    (0..left).flat_map(from).collect()
}

/// Nodes 0 and 1, each with a link to every other, also to each other.
pub fn two_hubs(nodes: u8) -> Shape {
    sorted(star(nodes, 0).into_iter().chain(star(nodes, 1)))
}

/// A ring and then paths of new nodes between nodes already there, so that
/// no link's removal parts the mesh. The ends of a path can be the same node
/// where it has two new nodes or more.
pub fn ears(nodes: u8, random: &mut Random) -> Shape {
    let mut there = random.between(3, nodes.into()) as u8;
    let mut ends = ring(there);
    while there < nodes {
        let last = random.between(there.into(), usize::from(nodes) - 1) as u8;
        let least_step = usize::from(last == there);
        let from = random.below(there.into()) as u8;
        let step = random.between(least_step, usize::from(there) - 1) as u8;
        ends.extend((there..last).map(|node| (node, node + 1)));
        ends.extend([(from, there), ((from + step) % there, last)]);
        there = last + 1;
    }
    sorted(ends.into_iter())
}

pub fn complete(nodes: u8) -> Shape {
    let from = |low| (low + 1..nodes).map(move |high| (low, high));
    (0..nodes).flat_map(from).collect()
}

/// `count` random links; a smaller number if the nodes have fewer pairs.
pub fn scattered(nodes: u8, count: usize, random: &mut Random) -> Shape {
    let mut all = complete(nodes);
    random.shuffle(&mut all);
    all.truncate(count);
    sorted(all.into_iter())
}

/// The shape with `count` more random links, as far as pairs are left.
pub fn with_more(nodes: u8, mut shape: Shape, count: usize, random: &mut Random) -> Shape {
    let mut others = complete(nodes);
    others.retain(|ends| shape.binary_search(ends).is_err());
    random.shuffle(&mut others);
    shape.extend(others.into_iter().take(count));
    sorted(shape.into_iter())
}

/// The graph whose links are the pairs of nodes with a bit set in `choice`.
pub fn chosen(nodes: u8, choice: usize) -> Shape {
    let numbered = (0..).zip(complete(nodes));
    let kept = numbered.filter(|(number, _)| choice >> number & 1 == 1);
    kept.map(|(_, ends)| ends).collect()
}

/// Each link of the shape as often as `times` says of its ends.
pub fn repeated(shape: &[(u8, u8)], mut times: impl FnMut((u8, u8)) -> usize) -> Shape {
    let copies = |ends: &(u8, u8)| vec![*ends; times(*ends)];
    shape.iter().flat_map(copies).collect()
}

/// The pairs in rising order, each once.
pub fn sorted(ends: impl Iterator<Item = (u8, u8)>) -> Shape {
    let mut shape: Shape = ends.map(|(a, b)| (a.min(b), a.max(b))).collect();
    shape.sort_unstable();
    shape.dedup();
    shape
}
