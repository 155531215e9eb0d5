//! From arbitrary words to a book, where they say a sound store.

use crate::book::Book;
use crate::fault::{Clause, Fault};
use crate::params::{MAX_TAGS, Params};
use crate::tag::{Kind, Tag};
use crate::tree::{Inner, Node, Tree};
use crate::words::{HEADER, NO_TAG, RECORD, words_for};

/// The book that the words say, or None where they are not sound. The words may have any length and content.
pub fn read(words: &[u32], fault: Fault) -> Option<Book> {
    if words.len() < HEADER || (words[0] != 1 && !fault.overlooks(Clause::One)) {
        return None;
    }
    let params = Params::new(words[1], words[2], fault)?;
    let height = words[3];
    if height < 1 || !params.labels_fit(height) {
        return None;
    }
    if u64::from(words[4]) > MAX_TAGS || words.len() < words_for(words[4] as usize) {
        return None;
    }
    let n = words[4] as usize;
    let records: Vec<&[u32]> = words[HEADER..words_for(n)].chunks(RECORD).collect();

    let order = chain(words[5], &records, fault)?;
    let tags: Vec<Tag> = records.iter().map(|record| tag(record)).collect::<Option<_>>()?;
    let root = spell(&order, &tags, &params, height, fault)?;
    let nested = nested(&order, &tags, fault) && marks_closed(&tags, fault);
    if !nested || !root_in_limits(&root, &params, height, fault) {
        return None;
    }
    let marked = tags.iter().filter(|tag| tag.marked).count();
    let stamp = u64::from(words[7]);
    if stamp > (n + marked) as u64 && !fault.overlooks(Clause::Stamp) {
        return None;
    }
    Some(Book { tree: Tree { params, height, root }, tags, number: words[6], stamp, fault })
}

/// The tag of a record. Mate, up and depth may still be anything; `nested` compares them with the nesting.
fn tag(record: &[u32]) -> Option<Tag> {
    let (kind, marked) = Tag::of_kind_word(record[5])?;
    let up = if record[4] == NO_TAG { None } else { Some(record[4] as usize) };
    Some(Tag { kind, marked, mate: record[3] as usize, up, depth: record[6] as usize, label: u64::from(record[0]) })
}

/// The numbers along next, where that meets each of them once, ends in no tag, and prior is its reverse.
fn chain(first: u32, records: &[&[u32]], fault: Fault) -> Option<Vec<usize>> {
    let mut order = Vec::with_capacity(records.len());
    let mut seen = vec![false; records.len()];
    let (mut prior, mut here) = (NO_TAG, first);
    while here != NO_TAG {
        let x = here as usize;
        if x >= records.len() || seen[x] || (records[x][2] != prior && !fault.overlooks(Clause::Prior)) {
            return None;
        }
        seen[x] = true;
        order.push(x);
        (prior, here) = (here, records[x][1]);
    }
    (order.len() == records.len()).then_some(order)
}

/// The tree that the digits of the labels spell.
fn spell(order: &[usize], tags: &[Tag], params: &Params, height: u32, fault: Fault) -> Option<Inner> {
    let rises = order.windows(2).all(|two| tags[two[0]].label < tags[two[1]].label);
    let below = order.iter().all(|&x| tags[x].label < params.step(height));
    if !below || (!rises && !fault.overlooks(Clause::Rise)) {
        return None;
    }
    let leaves: Vec<(usize, u64)> = order.iter().map(|&x| (x, tags[x].label)).collect();
    children(&leaves, params, height, fault)
}

/// The node of this height over leaves with their numbers relative to the node's own. Children must stand at 0, 1, 2
/// without gaps. Since the labels rise, the leaves of one child stand together, and a child of height 0 is one leaf.
fn children(leaves: &[(usize, u64)], params: &Params, height: u32, fault: Fault) -> Option<Inner> {
    let step = params.step(height - 1);
    let mut nodes = Vec::new();
    let mut rest = leaves;
    while let Some((tag, number)) = rest.first() {
        let digit = number / step;
        if digit != nodes.len() as u64 && !fault.overlooks(Clause::Gaps) {
            return None;
        }
        let many = rest.iter().take_while(|(_, number)| number / step == digit).count();
        let (mine, others) = rest.split_at(many);
        nodes.push(if height == 1 {
            Node::Leaf(*tag)
        } else {
            let inner: Vec<(usize, u64)> = mine.iter().map(|(tag, number)| (*tag, number % step)).collect();
            Node::Inner(children(&inner, params, height - 1, fault)?)
        });
        rest = others;
    }
    Some(Inner::over(nodes))
}

fn root_in_limits(root: &Inner, params: &Params, height: u32, fault: Fault) -> bool {
    // An empty root of height 2 has no node to insert into, so a fault cannot let it through either.
    let overlooked = root.l > 0 && fault.overlooks(Clause::ThinRoot);
    let enough = height < 2 || root.l >= 2 * params.least(height - 1) || overlooked;
    let few = root.l < params.limit(height) || fault.overlooks(Clause::FullRoot);
    enough && few && below_in_limits(root, params, height, fault)
}

/// Whether r^j ≤ l < s·r^j for every node below this one.
fn below_in_limits(node: &Inner, params: &Params, height: u32, fault: Fault) -> bool {
    let j = height - 1;
    node.children.iter().all(|child| match child {
        Node::Leaf(_) => true,
        Node::Inner(inner) => {
            let enough = params.least(j) <= inner.l || fault.overlooks(Clause::Thin);
            let few = inner.l < params.limit(j) || fault.overlooks(Clause::Full);
            enough && few && below_in_limits(inner, params, j, fault)
        }
    })
}

/// Whether kinds, mates and ups spell proper nesting along the book, and depths are those of the nesting.
fn nested(order: &[usize], tags: &[Tag], fault: Fault) -> bool {
    let mates = !fault.overlooks(Clause::Mates);
    let mut open: Vec<usize> = Vec::new();
    for &x in order {
        let tag = &tags[x];
        match tag.kind {
            Kind::Text if tag.mate != x && mates => return false,
            Kind::End => match open.pop() {
                Some(begin) if (tag.mate == begin && tags[begin].mate == x) || !mates => {}
                _ => return false,
            },
            _ => {}
        }
        // An end has the up of its begin, which is what is open once the begin is closed.
        if tag.up != open.last().copied() && !fault.overlooks(Clause::Ups) {
            return false;
        }
        if tag.depth != open.len() && !fault.overlooks(Clause::Depth) {
            return false;
        }
        if tag.kind == Kind::Begin {
            open.push(x);
        }
    }
    open.is_empty()
}

/// Whether what stands under a marked begin is marked, and mates are marked together. Mates and ups that point past all
/// tags come only where a seeded fault has let them through.
fn marks_closed(tags: &[Tag], fault: Fault) -> bool {
    let marked = |x: usize| tags.get(x).is_some_and(|tag| tag.marked);
    tags.iter().all(|tag| {
        let closed = tag.marked || !tag.up.is_some_and(marked) || fault.overlooks(Clause::MarksClosed);
        let paired = tag.marked == marked(tag.mate) || fault.overlooks(Clause::MarksPaired);
        closed && paired
    })
}
