//! The same picture as text for graphviz.

use super::sheet::{arrows, lost, Arrow};
use super::{has, stages_of, Kind, Node, Picture, Run, Stage, Step};
use std::collections::BTreeMap;
use std::fmt::Write;

const FONTS: &str = "graph [fontname=\"sans-serif\"]; node [fontname=\"sans-serif\"]; edge [fontname=\"sans-serif\"];";
const PATH: &str = "color=\"#c2410c\", penwidth=2.5";
const LOST: &str = "color=\"#b91c1c\", penwidth=2.5";

/// The picture for `dot`: one graph, with the sheet and the derivation in it.
pub fn dot(picture: &Picture) -> String {
    let run = picture.run.as_ref();
    let mut lines = vec![FONTS.to_string(), format!("label={};", quoted(&picture.title))];
    lines.push("subgraph cluster_sheet {".to_string());
    lines.push("label=\"sheet\"; start [shape=point]; start -> s0;".to_string());
    lines.extend(picture.sheet.stages.iter().map(|stage| stage_line(stage, run)));
    let arrows = arrows(&picture.sheet, run);
    lines.extend(arrows.iter().map(|arrow| arrow_line(arrow, &picture.sheet.names)));
    lines.extend(run.into_iter().flat_map(stuck_lines));
    lines.push("}".to_string());
    if let Some(tree) = &picture.tree {
        lines.push("subgraph cluster_plan {".to_string());
        lines.push("label=\"how the plan gives it\"; ordering=out;".to_string());
        lines.extend(tree.nodes.iter().enumerate().map(|(at, node)| node_lines(at, node)));
        lines.push("}".to_string());
    }
    format!("digraph bolfrega {{\n{}\n}}\n", lines.join("\n"))
}

fn stage_line(stage: &Stage, run: Option<&Run>) -> String {
    let shape = if stage.finishing { "doublecircle" } else { "circle" };
    let is_lost = run.is_some_and(|run| has(lost(run), stage.number));
    let class = if is_lost { format!(", {LOST}") } else { String::new() };
    let label = format!("{} {}", stage.number, stage.name);
    format!(
        "s{} [shape={shape}, label={}{class}];",
        stage.number,
        quoted(label.trim_end())
    )
}

fn arrow_line(arrow: &Arrow, names: &BTreeMap<u8, String>) -> String {
    let label: String = arrow.label(names).into_iter().map(|(_, text)| text).collect();
    let class = if arrow.taken.is_empty() {
        String::new()
    } else {
        format!(", {PATH}")
    };
    format!("s{} -> s{} [label={}{class}];", arrow.from, arrow.to, quoted(&label))
}

/// A step that no move is on, to a node that is no stage.
fn stuck_lines(run: &Run) -> Vec<String> {
    let Some((_, Step { code, after: 0 })) = run.losing() else {
        return Vec::new();
    };
    let line = |stage| {
        let node = format!("x{stage} [shape=plaintext, label=\"no move\"];");
        format!("{node}\ns{stage} -> x{stage} [style=dashed, label=\"{code}\", {LOST}];")
    };
    stages_of(run.stuck()).map(line).collect()
}

fn node_lines(at: usize, node: &Node) -> String {
    let shape = if node.kind == Kind::Step { "ellipse" } else { "box" };
    let class = if node.marked { format!(", {LOST}") } else { String::new() };
    let label = format!("{}\n{}", node.label, node.note);
    let mut lines = format!("n{at} [shape={shape}, label={}{class}];", quoted(label.trim_end()));
    for child in &node.children {
        write!(lines, "\nn{at} -> n{child};").expect("a string takes any text");
    }
    lines
}

/// A text as graphviz has it.
fn quoted(text: &str) -> String {
    let text = text.replace('\\', "\\\\").replace('"', "\\\"").replace('\n', "\\n");
    format!("\"{text}\"")
}
