//! How the plan gives a run, as an outline: a row for each procedure and each step, and what a procedure gives below it.

use super::canvas::{width_of, Canvas, Point};
use super::{Kind, Node, Tree};
use std::collections::{BTreeMap, BTreeSet, VecDeque};
use std::iter::successors;

/// The most nodes that are shown.
const MOST: usize = 32;
/// How much of both ends of the way to a marked node is shown in any case.
const NEAR: usize = 5;
const INDENT: f64 = 30.0;
const ROW: f64 = 34.0;
const TOP: f64 = 34.0;
const BOX: f64 = 26.0;

/// Draws the outline. Of a large tree it shows the ways to the marked nodes, and what is near to the root.
pub fn draw(tree: &Tree) -> Canvas {
    let outline = Outline::of(tree);
    let mut canvas = Canvas::new(0.0, TOP + ROW * outline.rows.len() as f64);
    canvas.text(Point::new(0.0, 8.0), "bold", "How the plan gives it");
    for (at, row) in outline.rows.iter().enumerate() {
        let place = |at: usize, depth: usize| Point::new(INDENT * depth as f64 + BOX / 2.0, TOP + ROW * at as f64);
        let here = place(at, row.depth);
        if let Some(parent) = row.parent {
            let above = place(parent, row.depth - 1);
            let corner = Point::new(above.x, here.y);
            canvas.line(Point::new(above.x, above.y + BOX / 2.0), corner, "line");
            canvas.line(corner, Point::new(here.x - BOX / 2.0, here.y), "line");
        }
        let wide = match row.node {
            Some(node) => draw_node(&mut canvas, here, &tree.nodes[node]),
            None => draw_rest(&mut canvas, here),
        };
        canvas.width = canvas.width.max(here.x + wide);
    }
    let (shown, all) = (outline.shown, tree.nodes.len());
    if shown < all {
        canvas.height += ROW;
        canvas.text(
            Point::new(0.0, canvas.height - 10.0),
            "grey",
            &format!("{shown} of {all} nodes are shown."),
        );
    }
    canvas
}

/// Draws a node, and says how far to the right it goes.
fn draw_node(canvas: &mut Canvas, at: Point, node: &Node) -> f64 {
    let wide = BOX.max(width_of(&node.label) + 10.0);
    let (left, top) = (at.x - BOX / 2.0, at.y - BOX / 2.0);
    let class = match node.kind {
        _ if node.marked => "box lost",
        Kind::Procedure => "box",
        Kind::Step => "box seen",
    };
    if node.kind == Kind::Step && wide == BOX {
        canvas.circle(at, BOX / 2.0, class, &node.note);
    } else {
        canvas.rect(Point::new(left, top), wide, BOX, class);
    }
    canvas.text(Point::new(left + wide / 2.0, at.y + 5.0), "middle bold", &node.label);
    canvas.text(Point::new(left + wide + 8.0, at.y + 5.0), "grey", &node.note);
    wide + width_of(&node.note)
}

fn draw_rest(canvas: &mut Canvas, at: Point) -> f64 {
    canvas.text(Point::new(at.x - BOX / 2.0 + 4.0, at.y + 4.0), "grey", "…");
    BOX
}

/// A row of the outline: a node, or what is left out.
#[derive(Debug, PartialEq)]
struct Row {
    depth: usize,
    /// The row of the node above.
    parent: Option<usize>,
    node: Option<usize>,
}

struct Outline {
    rows: Vec<Row>,
    shown: usize,
}

impl Outline {
    fn of(tree: &Tree) -> Outline {
        let shown = shown(tree);
        let below = below(tree, &shown);
        let mut rows = Vec::new();
        if !tree.nodes.is_empty() {
            add(tree, &shown, &below, &mut rows, (0, 0, None));
        }
        let shown = shown.len();
        Outline { rows, shown }
    }
}

/// Adds the rows of a shown node with its depth and the row above.
fn add(
    tree: &Tree,
    shown: &BTreeSet<usize>,
    below: &Below,
    rows: &mut Vec<Row>,
    (node, depth, parent): (usize, usize, Option<usize>),
) {
    let here = rows.len();
    let row = |depth, parent, node| Row { depth, parent, node };
    rows.push(row(depth, parent, Some(node)));
    let mut left_out = false;
    for child in &tree.nodes[node].children {
        if shown.contains(child) {
            add(tree, shown, below, rows, (*child, depth + 1, Some(here)));
            left_out = false;
            continue;
        }
        if !left_out {
            rows.push(row(depth + 1, Some(here), None));
        }
        let deeper = below.get(child).map_or(&[][..], |nodes| nodes);
        for deep in deeper {
            let rest = rows.len() - 1;
            add(tree, shown, below, rows, (*deep, depth + 2, Some(rest)));
        }
        left_out = deeper.is_empty();
    }
}

/// The shown nodes below a node that is left out, whose parent is shown.
type Below = BTreeMap<usize, Vec<usize>>;

fn below(tree: &Tree, shown: &BTreeSet<usize>) -> Below {
    let parents = parents(tree);
    let mut below = Below::new();
    for &node in shown {
        let mut via = node;
        while let Some(parent) = parents[via].filter(|parent| !shown.contains(parent)) {
            via = parent;
        }
        if via != node {
            below.entry(via).or_default().push(node);
        }
    }
    below
}

/// The parent of each node.
fn parents(tree: &Tree) -> Vec<Option<usize>> {
    let mut parents = vec![None; tree.nodes.len()];
    for (parent, node) in tree.nodes.iter().enumerate() {
        node.children.iter().for_each(|&child| parents[child] = Some(parent));
    }
    parents
}

/// Adds a node to those that are shown, if there is room.
fn add_to(shown: &mut BTreeSet<usize>, node: usize) {
    if shown.len() < MOST {
        shown.insert(node);
    }
}

/// The nodes to show: both ends of the way to each marked one with what is right below them, and then from the root on, the nearest first.
fn shown(tree: &Tree) -> BTreeSet<usize> {
    if tree.nodes.len() <= MOST {
        return (0..tree.nodes.len()).collect();
    }
    let parents = parents(tree);
    let mut shown = BTreeSet::from([0]);
    let marked = tree.nodes.iter().enumerate().filter(|(_, node)| node.marked);
    for (node, _) in marked {
        let way: Vec<usize> = successors(Some(node), |&node| parents[node]).collect();
        let ends = way.iter().take(NEAR).chain(way.iter().rev().take(NEAR));
        for &node in ends.flat_map(|node| [node].into_iter().chain(&tree.nodes[*node].children)) {
            add_to(&mut shown, node);
        }
    }
    let mut next = VecDeque::from([0]);
    while let Some(node) = next.pop_front().filter(|_| shown.len() < MOST) {
        add_to(&mut shown, node);
        next.extend(&tree.nodes[node].children);
    }
    shown
}

#[cfg(test)]
mod tests {
    use super::{Outline, MOST};
    use crate::picture::{Kind, Node, Tree};

    /// A procedure that gives a step and itself, again and again.
    fn chain(depth: usize) -> Tree {
        let node = |kind, children| Node {
            kind,
            label: String::new(),
            note: String::new(),
            marked: false,
            children,
        };
        let pair = |at: usize| {
            let last = at + 1 == depth;
            let children = if last {
                vec![2 * at + 1]
            } else {
                vec![2 * at + 1, 2 * at + 2]
            };
            [node(Kind::Procedure, children), node(Kind::Step, vec![])]
        };
        Tree {
            nodes: (0..depth).flat_map(pair).collect(),
        }
    }

    #[test]
    fn small_trees_are_whole() {
        let outline = Outline::of(&chain(16));
        let nodes: Vec<_> = outline.rows.iter().map(|row| row.node).collect();
        assert_eq!((outline.shown, nodes), (MOST, (0..MOST).map(Some).collect()));
        assert_eq!((outline.rows[31].depth, outline.rows[31].parent), (16, Some(30)));
    }

    #[test]
    fn the_marked_node_of_a_large_tree_is_shown() {
        let mut tree = chain(3_000);
        tree.nodes[5_999].marked = true;
        let outline = Outline::of(&tree);
        let place = outline
            .rows
            .iter()
            .position(|row| row.node == Some(5_999))
            .expect("it is shown");
        assert!(outline.shown == MOST && outline.rows[place].depth < MOST);
        // Each row below another is one deeper, and comes after it.
        for (at, row) in outline.rows.iter().enumerate().skip(1) {
            let parent = row.parent.expect("only the root has none");
            assert!(parent < at && outline.rows[parent].depth + 1 == row.depth);
        }
        assert!(outline.rows.iter().any(|row| row.node.is_none()));
    }
}
