//! The L-Tree as nodes with children. Labels stand in the tags and change only where the papers say "renumber".

use crate::fault::Fault;
use crate::params::Params;
use crate::tag::Tag;

#[derive(Clone, PartialEq, Eq, Debug)]
pub enum Node {
    /// A tag, by number.
    Leaf(usize),
    Inner(Inner),
}

#[derive(Clone, PartialEq, Eq, Debug)]
pub struct Inner {
    /// The number of leaves below.
    pub l: u64,
    pub children: Vec<Node>,
}

#[derive(Clone, PartialEq, Eq, Debug)]
pub struct Tree {
    pub params: Params,
    pub height: u32,
    pub root: Inner,
}

impl Inner {
    pub fn over(children: Vec<Node>) -> Inner {
        let l = children.iter().map(Node::l).sum();
        Inner { l, children }
    }
}

impl Node {
    pub fn l(&self) -> u64 {
        match self {
            Node::Leaf(_) => 1,
            Node::Inner(inner) => inner.l,
        }
    }

    fn inner(&self) -> &Inner {
        match self {
            Node::Inner(inner) => inner,
            Node::Leaf(_) => unreachable!("a leaf stands at height 0 only"),
        }
    }

    fn inner_mut(&mut self) -> &mut Inner {
        match self {
            Node::Inner(inner) => inner,
            Node::Leaf(_) => unreachable!("a leaf stands at height 0 only"),
        }
    }
}

/// One more height: nodes over r of the given ones each, the last over all that remain. So ⌊n / r^j⌋ nodes stand at
/// height j, and r^j·k leaves give k complete r-ary trees.
fn gather(nodes: Vec<Node>, r: u64) -> Vec<Node> {
    let r = r as usize;
    let count = nodes.len() / r;
    let mut rest = nodes.into_iter();
    (0..count)
        .map(|i| {
            let take = if i + 1 < count { r } else { usize::MAX };
            Node::Inner(Inner::over(rest.by_ref().take(take).collect()))
        })
        .collect()
}

fn collect_leaves(node: &Inner, leaves: &mut Vec<usize>) {
    for child in &node.children {
        match child {
            Node::Leaf(tag) => leaves.push(*tag),
            Node::Inner(inner) => collect_leaves(inner, leaves),
        }
    }
}

/// The child indices from this node down to the leaf of the tag.
fn find(node: &Inner, tag: usize) -> Option<Vec<usize>> {
    for (i, child) in node.children.iter().enumerate() {
        let below = match child {
            Node::Leaf(leaf) => (*leaf == tag).then(Vec::new),
            Node::Inner(inner) => find(inner, tag),
        };
        if let Some(mut path) = below {
            path.insert(0, i);
            return Some(path);
        }
    }
    None
}

/// Numbers a node and all below it, one height lower at each step.
fn number(node: &Node, height: u32, value: u64, params: &Params, tags: &mut [Tag]) {
    match node {
        Node::Leaf(tag) => tags[*tag].label = value,
        Node::Inner(inner) => {
            for (i, child) in inner.children.iter().enumerate() {
                number(child, height - 1, value + i as u64 * params.step(height - 1), params, tags);
            }
        }
    }
}

impl Tree {
    /// The tree of a load of n tags. Its tags are numbered at once.
    pub fn load(params: Params, tags: &mut [Tag]) -> Tree {
        let height = params.load_height(tags.len() as u64);
        let mut nodes: Vec<Node> = (0..tags.len()).map(Node::Leaf).collect();
        for _ in 1..height {
            nodes = gather(nodes, params.r);
        }
        let tree = Tree { params, height, root: Inner::over(nodes) };
        tree.renumber(&[], 0, usize::MAX, tags);
        tree
    }

    /// The tags in book order.
    pub fn leaves(&self) -> Vec<usize> {
        let mut leaves = Vec::new();
        collect_leaves(&self.root, &mut leaves);
        leaves
    }

    /// Puts the leaf x after the leaf `after`, or at the front, and gives the height of the node split, or 0.
    pub fn insert(&mut self, x: usize, after: Option<usize>, tags: &mut [Tag], fault: Fault) -> u32 {
        // path[d] is the child taken at depth d; the last one is where x comes to stand.
        let path = match after {
            None => vec![0; self.height as usize],
            Some(y) => {
                let mut path = find(&self.root, y).expect("every tag is a leaf");
                *path.last_mut().expect("the root is no leaf") += 1;
                path
            }
        };
        let (place, above) = path.split_last().expect("the height is at least 1");
        self.at(above).children.insert(*place, Node::Leaf(x));
        for depth in 0..path.len() {
            self.at(&path[..depth]).l += 1;
        }
        match self.full(&path, tags, fault) {
            None => {
                self.renumber(above, *place, usize::MAX, tags);
                0
            }
            Some(depth) => self.split(&path[..depth], tags, fault),
        }
    }

    /// The depth of the highest full ancestor of the place.
    fn full(&self, path: &[usize], tags: &[Tag], fault: Fault) -> Option<usize> {
        let mut found = None;
        let mut node = &self.root;
        for depth in 0..path.len() {
            let l = if fault == Fault::MarkedLeftOut { unmarked(node, tags) } else { node.l };
            let is_full = l == self.params.limit(self.height - depth as u32);
            if is_full && (found.is_none() || fault == Fault::LowestFull) {
                found = Some(depth);
            }
            if depth + 1 < path.len() {
                node = node.children[path[depth]].inner();
            }
        }
        found
    }

    /// Replaces the node at the end of the path by complete trees over the same leaves.
    fn split(&mut self, path: &[usize], tags: &mut [Tag], fault: Fault) -> u32 {
        let height = self.height - path.len() as u32;
        let mut leaves = Vec::new();
        collect_leaves(self.at(path), &mut leaves);
        let mut trees: Vec<Node> = leaves.into_iter().map(Node::Leaf).collect();
        for _ in 0..height {
            trees = gather(trees, self.params.r);
        }
        match path.split_last() {
            None => {
                self.root = Inner::over(trees);
                self.height += 1;
                self.renumber(&[], 0, usize::MAX, tags);
            }
            Some((place, above)) => {
                let end = place + trees.len();
                self.at(above).children.splice(place..=place, trees);
                let end = if fault == Fault::RightSiblingsStay { end } else { usize::MAX };
                self.renumber(above, *place, end, tags);
            }
        }
        height
    }

    /// Numbers the children from `from` up to `end` of the node at the end of the path, whole subtrees included.
    fn renumber(&self, path: &[usize], from: usize, end: usize, tags: &mut [Tag]) {
        let mut node = &self.root;
        let mut value = 0;
        let mut height = self.height;
        for &i in path {
            node = node.children[i].inner();
            height -= 1;
            value += i as u64 * self.params.step(height);
        }
        for (i, child) in node.children.iter().enumerate().take(end).skip(from) {
            number(child, height - 1, value + i as u64 * self.params.step(height - 1), &self.params, tags);
        }
    }

    fn at(&mut self, path: &[usize]) -> &mut Inner {
        path.iter().fold(&mut self.root, |node, &i| node.children[i].inner_mut())
    }
}

/// Only for the seeded fault: l without the marked leaves.
fn unmarked(node: &Inner, tags: &[Tag]) -> u64 {
    let mut leaves = Vec::new();
    collect_leaves(node, &mut leaves);
    leaves.iter().filter(|&&tag| !tags[tag].marked).count() as u64
}
