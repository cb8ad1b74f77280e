//! Text of SVG drawings: points, shapes and texts, in one style.

use std::fmt::Write;

/// The width of a letter, about, as a part of the size of its font.
const LETTER: f64 = 0.62;
/// The size of the font.
pub const SIZE: f64 = 14.0;

const STYLE: &str = "\
text{font-family:'DejaVu Sans',Verdana,sans-serif;font-size:14px;fill:#1f2933}
.middle{text-anchor:middle}.end{text-anchor:end}.grey{fill:#66727f}.bold{font-weight:bold}.head{font-size:16px;font-weight:bold}
.first{fill:#c2410c;font-weight:bold}
.line,.path,.fine,.stuck{fill:none;stroke:#52606d;stroke-width:1.4}.fine{stroke:#cbd2d9;stroke-width:1}
.path{stroke:#c2410c;stroke-width:3}.stuck{stroke:#b91c1c;stroke-width:3;stroke-dasharray:5 4}.cross{stroke:#b91c1c;stroke-width:3.4}
.far{opacity:.4}.stage,.box{fill:#eef2f6;stroke:#334e68;stroke-width:1.8}.seen{fill:#ffedd5;stroke:#c2410c}.lost{fill:#fee2e2;stroke:#b91c1c;stroke-width:3}
.ring{fill:none;stroke:#334e68;stroke-width:1.8}.back{fill:#fff;opacity:.88}.page{fill:#fff}
.dot1{fill:#c2410c}.dot2{fill:#1d4ed8}.dot3{fill:#fff;stroke:#66727f;stroke-width:1.6}
";

const HEADS: [(&str, &str); 3] = [("line", "#52606d"), ("path", "#c2410c"), ("stuck", "#b91c1c")];

/// A place in a drawing: to the right, and down.
#[derive(Clone, Copy, Debug, PartialEq)]
pub struct Point {
    pub x: f64,
    pub y: f64,
}

impl Point {
    pub fn new(x: f64, y: f64) -> Point {
        Point { x, y }
    }

    /// The place at some distance in a direction, which turns clockwise from the right.
    pub fn away(self, distance: f64, angle: f64) -> Point {
        Point::new(self.x + distance * angle.cos(), self.y + distance * angle.sin())
    }

    /// The place at some distance on the way to another.
    pub fn toward(self, to: Point, distance: f64) -> Point {
        self.away(distance, (to.y - self.y).atan2(to.x - self.x))
    }

    pub fn distance(self, to: Point) -> f64 {
        (to.x - self.x).hypot(to.y - self.y)
    }
}

/// A drawing, or a part of one, and its size.
#[derive(Default)]
pub struct Canvas {
    text: String,
    pub width: f64,
    pub height: f64,
}

impl Canvas {
    pub fn new(width: f64, height: f64) -> Canvas {
        let text = String::new();
        Canvas { text, width, height }
    }

    /// A circle, and what is shown where the mouse rests on it.
    pub fn circle(&mut self, at: Point, radius: f64, class: &str, title: &str) {
        let (x, y, r) = (short(at.x), short(at.y), short(radius));
        let title = escaped(title);
        self.push(&format!(
            "<circle class=\"{class}\" cx=\"{x}\" cy=\"{y}\" r=\"{r}\"><title>{title}</title></circle>"
        ));
    }

    /// A box with round corners.
    pub fn rect(&mut self, corner: Point, width: f64, height: f64, class: &str) {
        let (x, y, w, h) = (short(corner.x), short(corner.y), short(width), short(height));
        self.push(&format!(
            "<rect class=\"{class}\" x=\"{x}\" y=\"{y}\" width=\"{w}\" height=\"{h}\" rx=\"4\"/>"
        ));
    }

    pub fn line(&mut self, from: Point, to: Point, class: &str) {
        let [x, y, z, w] = [from.x, from.y, to.x, to.y].map(short);
        self.push(&format!(
            "<line class=\"{class}\" x1=\"{x}\" y1=\"{y}\" x2=\"{z}\" y2=\"{w}\"/>"
        ));
    }

    /// A curve through places, and what is shown where the mouse rests on it: two, or three with one to bend to, or four with two of these. With
    /// a head it is an arrow.
    pub fn curve(&mut self, places: &[Point], class: &str, head: bool, title: &str) {
        let mut along = String::new();
        for (at, place) in places.iter().enumerate() {
            let letter = match (at, places.len()) {
                (0, _) => "M",
                (1, 3) => " Q",
                (1, 4) => " C",
                (1, _) => " L",
                _ => " ",
            };
            along += &format!("{letter}{} {}", short(place.x), short(place.y));
        }
        let name = class.split(' ').next().unwrap_or_default();
        let head = if head {
            format!(" marker-end=\"url(#{name})\"")
        } else {
            String::new()
        };
        let title = escaped(title);
        self.push(&format!(
            "<path class=\"{class}\" d=\"{along}\"{head}><title>{title}</title></path>"
        ));
    }

    /// A text, upon its base line.
    pub fn text(&mut self, at: Point, class: &str, text: &str) {
        self.texts(at, class, &[("", text)]);
    }

    /// A text of parts, each with a class of its own.
    pub fn texts(&mut self, at: Point, class: &str, parts: &[(&str, &str)]) {
        let (x, y) = (short(at.x), short(at.y));
        let part = |(class, text): &(&str, &str)| match *class {
            "" => escaped(text),
            _ => format!("<tspan class=\"{class}\">{}</tspan>", escaped(text)),
        };
        let parts: String = parts.iter().map(part).collect();
        self.push(&format!("<text class=\"{class}\" x=\"{x}\" y=\"{y}\">{parts}</text>"));
    }

    /// Puts another drawing into this one.
    pub fn place(&mut self, corner: Point, part: Canvas) {
        let (x, y) = (short(corner.x), short(corner.y));
        self.push(&format!("<g transform=\"translate({x} {y})\">\n{}</g>", part.text));
        self.width = self.width.max(corner.x + part.width);
        self.height = self.height.max(corner.y + part.height);
    }

    /// The whole text of the drawing.
    pub fn finish(self, title: &str) -> String {
        let (width, height, title) = (short(self.width.ceil()), short(self.height.ceil()), escaped(title));
        let head = |(name, colour): &(&str, &str)| {
            let size = if *name == "line" { 9 } else { 5 };
            format!("<marker id=\"{name}\" viewBox=\"0 0 10 10\" refX=\"9\" refY=\"5\" markerWidth=\"{size}\" markerHeight=\"{size}\" orient=\"auto\"><path d=\"M0 1 L10 5 L0 9 z\" fill=\"{colour}\"/></marker>\n")
        };
        let heads: String = HEADS.iter().map(head).collect();
        let size = format!("width=\"{width}\" height=\"{height}\" viewBox=\"0 0 {width} {height}\"");
        let page = format!("<rect class=\"page\" width=\"{width}\" height=\"{height}\"/>");
        format!(
            "<svg xmlns=\"http://www.w3.org/2000/svg\" {size}>\n<title>{title}</title>\n<style>\n{STYLE}</style>\n<defs>\n{heads}</defs>\n{page}\n{}</svg>\n",
            self.text
        )
    }

    fn push(&mut self, line: &str) {
        writeln!(self.text, "{line}").expect("a string takes any text");
    }
}

/// How wide a text is, about.
pub fn width_of(text: &str) -> f64 {
    text.chars().count() as f64 * SIZE * LETTER
}

/// A number with at most one place after the point.
fn short(number: f64) -> String {
    let tenths = (number * 10.0).round() + 0.0;
    let text = format!("{:.1}", tenths / 10.0);
    text.strip_suffix(".0").map_or(text.clone(), str::to_string)
}

/// A text as XML has it. What XML can't have is replaced.
pub fn escaped(text: &str) -> String {
    let mut escaped = String::new();
    for letter in text.chars() {
        match letter {
            '&' => escaped += "&amp;",
            '<' => escaped += "&lt;",
            '>' => escaped += "&gt;",
            '"' => escaped += "&quot;",
            '\u{fffe}' | '\u{ffff}' => escaped.push('\u{fffd}'),
            letter if letter.is_control() && !matches!(letter, '\n' | '\t') => escaped.push('\u{fffd}'),
            letter => escaped.push(letter),
        }
    }
    escaped
}

#[cfg(test)]
mod tests {
    use super::{escaped, short, Point};

    #[test]
    fn numbers_are_short() {
        assert_eq!([1.0, -0.04, 0.25, -2.5, 1e4].map(short), ["1", "0", "0.3", "-2.5", "10000"]);
    }

    #[test]
    fn texts_are_escaped() {
        assert_eq!(escaped("a<b>&\"\u{1}é"), "a&lt;b&gt;&amp;&quot;\u{fffd}é");
    }

    #[test]
    fn places() {
        let moved = Point::new(1.0, 2.0).toward(Point::new(1.0, 9.0), 3.0);
        assert!(moved.distance(Point::new(1.0, 5.0)) < 1e-9);
    }
}
