//! The printed book's tree before and after its split, drawn from the store's words.

use crate::store::{Store, Verified};
use crate::svg::{PAPER, Svg};
use crate::words::*;

/// The tree that the labels of a sound store spell.
pub struct Node {
    /// A leaf's number is its label.
    pub number: u32,
    pub height: u32,
    /// The tag of a leaf.
    pub tag: Option<u32>,
    pub children: Vec<Node>,
}

impl Node {
    pub fn leaves(&self) -> Vec<&Node> {
        match self.tag {
            Some(_) => vec![self],
            None => self.children.iter().flat_map(Node::leaves).collect(),
        }
    }
}

/// The tree of the words: a node of height j holds the labels that agree but for their last j digits in base b.
pub fn tree(words: &[u32]) -> Node {
    let some = |tag: u32| Some(tag).filter(|&tag| tag != NO_TAG);
    let along = std::iter::successors(some(words[FIRST]), |&tag| some(words[at(tag, NEXT)]));
    let row: Vec<(u32, u32)> = along.map(|tag| (tag, words[at(tag, LABEL)])).collect();
    node(&row, 0, words[HEIGHT], words[1] * words[2] - 1)
}

fn node(row: &[(u32, u32)], number: u32, height: u32, base: u32) -> Node {
    if height == 0 {
        return Node { number, height, tag: Some(row[0].0), children: Vec::new() };
    }
    let width = base.pow(height - 1);
    let children = row.chunk_by(|one, two| one.1 / width == two.1 / width);
    let children = children.map(|row| node(row, row[0].1 / width * width, height - 1, base)).collect();
    Node { number, height, tag: None, children }
}

/// One of the pictures.
struct Panel {
    title: String,
    note: String,
    words: Vec<u32>,
    /// The words before the call that is shown.
    before: Vec<u32>,
}

/// Between leaves, and between heights.
const STEP: (f64, f64) = (62.0, 74.0);
const MARGIN: f64 = 28.0;
const LEAF: (f64, f64) = (42.0, 28.0);
/// A new tag, a tag with another label than before, any other.
const FILLS: [(&str, &str); 3] = [("#2f6fb0", "new tag"), ("#f2b441", "label changed"), ("#ffffff", "label as before")];

impl Panel {
    fn fill(&self, leaf: &Node) -> &'static str {
        let tag = leaf.tag.expect("a leaf");
        let which = match () {
            _ if tag >= self.before[COUNT] => 0,
            _ if self.before[at(tag, LABEL)] != leaf.number => 1,
            _ => 2,
        };
        FILLS[which].0
    }
}

struct Picture<'a> {
    svg: &'a mut Svg,
    panel: &'a Panel,
    /// Where the first leaf stands.
    left: f64,
    base: f64,
    drawn: usize,
}

impl Picture<'_> {
    /// Draws a node over what is below it; the middle of it.
    fn node(&mut self, node: &Node) -> f64 {
        let y = self.base - f64::from(node.height) * STEP.1;
        if node.tag.is_some() {
            let x = self.left + self.drawn as f64 * STEP.0;
            self.drawn += 1;
            self.leaf(node, x);
            return x;
        }
        // What is drawn later lies above: lines go below the children, whose middles must be known first.
        let at = self.svg.0.len();
        let middles: Vec<f64> = node.children.iter().map(|child| self.node(child)).collect();
        let above = self.svg.0.split_off(at);
        let x = (middles[0] + middles[middles.len() - 1]) / 2.0;
        for (i, middle) in middles.iter().enumerate() {
            self.svg.line((x, y), (*middle, y + STEP.1), "#8a8a8a");
            // The place among its siblings stands on the line, which makes room for it.
            let half = ((x + middle) / 2.0, y + STEP.1 / 2.0);
            self.svg.rect(half.0 - 6.0, half.1 - 7.0, 12.0, 14.0, PAPER, PAPER);
            self.svg.text(half.0, half.1 + 4.0, 11.0, "middle", GREY, &i.to_string());
        }
        self.svg.0 += &above;
        self.svg.circle(x, y, 16.0, "#eef1f4", "#4a5560");
        self.svg.text(x, y + 5.0, 13.0, "middle", "", &node.number.to_string());
        self.svg.text(x + 20.0, y + 7.0, 11.0, "start", GREY, &format!("l = {}", node.leaves().len()));
        x
    }

    fn leaf(&mut self, leaf: &Node, x: f64) {
        let tag = leaf.tag.expect("a leaf");
        let fill = self.panel.fill(leaf);
        let ink = if fill == FILLS[0].0 { "#ffffff" } else { "#1a1a1a" };
        self.svg.rect(x - LEAF.0 / 2.0, self.base - LEAF.1 / 2.0, LEAF.0, LEAF.1, fill, "#4a5560");
        let style = format!(r#"font-weight="bold" fill="{ink}""#);
        self.svg.text(x, self.base + 5.5, 15.0, "middle", &style, &leaf.number.to_string());
        let kind = ["begin", "end", "text"][self.panel.words[at(tag, KIND)] as usize - 1];
        self.svg.text(x, self.base + 32.0, 12.0, "middle", "", &format!("tag {tag}"));
        self.svg.text(x, self.base + 47.0, 11.0, "middle", GREY, kind);
    }
}

const GREY: &str = r##"fill="#6a6a6a""##;

/// The panels, one above the other, and what the colours mean.
fn draw(title: &str, notes: &[String], panels: &[Panel]) -> String {
    let height = |panel: &Panel| f64::from(panel.words[HEIGHT]) * STEP.1 + 168.0;
    let most = panels.iter().map(|it| it.words[COUNT]).max().unwrap_or(0);
    let width = 2.0 * MARGIN + 130.0 + f64::from(most) * STEP.0;
    let mut y = MARGIN + 36.0 + 18.0 * notes.len() as f64;
    let whole = y + panels.iter().map(height).sum::<f64>() + 40.0;
    let mut svg = Svg::new(width, whole);
    svg.text(MARGIN, MARGIN + 14.0, 20.0, "start", r#"font-weight="bold""#, title);
    for (i, note) in notes.iter().enumerate() {
        svg.text(MARGIN, MARGIN + 38.0 + 18.0 * i as f64, 13.0, "start", "", note);
    }
    for panel in panels {
        svg.text(MARGIN, y + 30.0, 15.0, "start", r#"font-weight="bold""#, &panel.title);
        svg.text(MARGIN, y + 48.0, 13.0, "start", "", &panel.note);
        let base = y + height(panel) - 56.0;
        for j in 0..=panel.words[HEIGHT] {
            let name = if j == 0 { "labels".to_string() } else { format!("height {j}") };
            svg.text(MARGIN, base - f64::from(j) * STEP.1 + 5.0, 12.0, "start", GREY, &name);
        }
        let mut picture = Picture { svg: &mut svg, panel, left: MARGIN + 130.0, base, drawn: 0 };
        picture.node(&tree(&panel.words));
        y += height(panel);
    }
    for (i, (fill, name)) in FILLS.iter().enumerate() {
        let x = MARGIN + 150.0 * i as f64;
        svg.rect(x, y + 4.0, 22.0, 16.0, fill, "#4a5560");
        svg.text(x + 30.0, y + 17.0, 13.0, "start", "", name);
    }
    svg.finish()
}

/// The printed book: `BBEBEE` loaded with s = r = 2, then a text behind tag 2, twice. The second splits the root.
pub fn printed() -> String {
    let kinds = [BEGIN, BEGIN, END, BEGIN, END, END];
    let mut words = vec![0; words_for(8)];
    assert_eq!(Verified::load(2, 2, 7, &kinds, &mut words)[0], 0, "the printed load is accepted");
    let mut panels = Vec::new();
    for title in ["Before the split", "After the split"] {
        let before = words.clone();
        let [refusal, new, moved, split] = Verified::insert(TEXT, 2, &mut words);
        assert_eq!(refusal, 0, "the printed insertions are accepted");
        let did = match split {
            0 => "no node was full".to_string(),
            height => format!("the node of height {height} was full and was split"),
        };
        panels.push(Panel {
            title: format!("{title}: {} tags, height {}", words[COUNT], words[HEIGHT]),
            note: format!("Text {new} has gone in behind tag 2; {did}. Moved: {moved}."),
            words: words.clone(),
            before,
        });
    }
    let notes = [
        "A circle is a node with its number, l the leaves under it. The i-th child of height j".to_string(),
        "has its parent's number plus i·3^j, with i on the line; a leaf's number is its label.".to_string(),
    ];
    draw("The printed book's tree, s = r = 2", &notes, &panels)
}

#[cfg(test)]
mod tests {
    use super::*;

    /// By hand from the manual: six tags under three nodes of two, in base 3.
    #[test]
    fn the_tree_is_the_one_that_the_labels_spell() {
        let mut words = vec![0; words_for(8)];
        assert_eq!(Verified::load(2, 2, 7, &[BEGIN, BEGIN, END, BEGIN, END, END], &mut words), [0, 6, 2]);
        let root = tree(&words);
        let numbers = |node: &Node| node.children.iter().map(|child| child.number).collect::<Vec<_>>();
        assert_eq!((root.height, numbers(&root)), (2, vec![0, 3, 6]));
        assert_eq!(root.children.iter().map(numbers).collect::<Vec<_>>(), [[0, 1], [3, 4], [6, 7]]);
        assert_eq!(root.leaves().iter().map(|leaf| leaf.tag).collect::<Vec<_>>(), (0..6).map(Some).collect::<Vec<_>>());
    }

    /// The labels that document 01 prints before and after the split; the new text's stands in white.
    #[test]
    fn the_picture_has_the_printed_labels() {
        let picture = printed();
        let ink =
            |ink, label| picture.matches(&format!(r##"font-weight="bold" fill="#{ink}">{label}</text>"##)).count();
        assert_eq!([0, 1, 3, 9, 10, 12, 13].map(|label| ink("1a1a1a", label)), [2, 2, 2, 1, 1, 1, 1]);
        assert_eq!([4, 5].map(|label| ink("ffffff", label)), [2, 0]);
        // Paper, leaves, the key to the colours, and the numbers on the lines.
        assert_eq!(picture.matches("<rect ").count(), 1 + 7 + 8 + 3 + 10 + 14);
    }
}
