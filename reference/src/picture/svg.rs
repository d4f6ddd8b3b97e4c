//! The elements of SVG that the picture is made of. Every length is a whole
//! number of tenths of a pixel.

pub(super) type Point = (i64, i64);

pub(super) struct Drawing(String);

impl Drawing {
    /// An empty white drawing.
    pub(super) fn new((width, height): Point, title: &str) -> Drawing {
        let mut drawing = Drawing(String::new());
        let pixels = format!("width=\"{}\" height=\"{}\"", width / 10, height / 10);
        let space = "xmlns=\"http://www.w3.org/2000/svg\"";
        drawing.add(&format!(
            "<svg {space} {pixels} viewBox=\"0 0 {width} {height}\" role=\"img\">"
        ));
        drawing.add(&format!("<title>{title}</title>"));
        drawing.group("fill=\"#fff\"", |drawing| {
            drawing.rect((0, 0), (width, height));
        });
        drawing
    }

    pub(super) fn finished(mut self) -> String {
        self.add("</svg>");
        self.0
    }

    /// Adds an element as it is, on a line of its own.
    pub(super) fn add(&mut self, element: &str) {
        self.0.push_str(element);
        self.0.push('\n');
    }

    /// What `draw` draws, with these attributes.
    pub(super) fn group(&mut self, attributes: &str, draw: impl FnOnce(&mut Drawing)) {
        self.add(&format!("<g {attributes}>"));
        draw(self);
        self.add("</g>");
    }

    pub(super) fn rect(&mut self, (left, top): Point, (right, bottom): Point) {
        let place = format!("x=\"{left}\" y=\"{top}\"");
        let size = format!("width=\"{}\" height=\"{}\"", right - left, bottom - top);
        self.add(&format!("<rect {place} {size}/>"));
    }

    pub(super) fn line(&mut self, from: Point, to: Point) {
        self.polyline(&[from, to]);
    }

    pub(super) fn polyline(&mut self, points: &[Point]) {
        let points = listed(points);
        self.add(&format!("<polyline points=\"{points}\" fill=\"none\"/>"));
    }

    pub(super) fn polygon(&mut self, points: &[Point]) {
        let points = listed(points);
        self.add(&format!("<polygon points=\"{points}\"/>"));
    }

    /// A line from left to right that ends in a head.
    pub(super) fn arrow(&mut self, from: i64, to: i64, y: i64) {
        self.line((from, y), (to - 40, y));
        self.polygon(&[(to, y), (to - 50, y - 25), (to - 50, y + 25)]);
    }

    /// The words may not hold the signs that SVG itself uses.
    pub(super) fn text(&mut self, (x, y): Point, words: &str) {
        self.add(&format!("<text x=\"{x}\" y=\"{y}\">{words}</text>"));
    }
}

/// Some points to a line, so that a change shows where it is.
fn listed(points: &[Point]) -> String {
    let row = |row: &[Point]| {
        let points = row.iter().map(|(x, y)| format!("{x},{y}"));
        points.collect::<Vec<String>>().join(" ")
    };
    let rows = points.chunks(16).map(row);
    rows.collect::<Vec<String>>().join("\n")
}
