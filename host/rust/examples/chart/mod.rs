//! Charts as SVG: panels with axes, lines, and a legend.
use std::fmt::Write;

/// A scale from one value to another, straight or logarithmic, with its marks.
pub struct Axis {
    pub label: &'static str,
    pub from: f64,
    pub to: f64,
    pub logarithmic: bool,
    pub marks: Vec<(f64, String)>,
}

impl Axis {
    /// A straight scale with a mark at each step.
    pub fn straight(label: &'static str, from: f64, to: f64, step: f64, digits: usize) -> Axis {
        let count = ((to - from) / step).round() as usize;
        let marks = (0..=count).map(|i| from + i as f64 * step).map(|at| (at, number(at, digits))).collect();
        Axis { label, from, to, logarithmic: false, marks }
    }

    /// A straight scale with these marks.
    pub fn marked(label: &'static str, from: f64, to: f64, marks: &[(f64, &str)]) -> Axis {
        Axis { label, from, to, logarithmic: false, marks: marks.iter().map(|(at, text)| (*at, text.to_string())).collect() }
    }

    /// How far along the scale a value lies, 0 to 1 inside.
    fn place(&self, value: f64) -> f64 {
        let scaled = |value: f64| if self.logarithmic { value.log10() } else { value };
        (scaled(value) - scaled(self.from)) / (scaled(self.to) - scaled(self.from))
    }
}

/// A number as a reader writes it, with a true minus.
fn number(value: f64, digits: usize) -> String {
    format!("{value:.digits$}").replace('-', "\u{2212}")
}

/// How a line is drawn.
#[derive(Clone)]
pub struct Pen {
    pub colour: String,
    pub width: f64,
    /// The lengths of strokes and gaps; nothing for an unbroken line.
    pub dashes: &'static str,
}

impl Pen {
    pub fn new(colour: &str, width: f64, dashes: &'static str) -> Pen {
        Pen { colour: colour.to_string(), width, dashes }
    }

    fn attributes(&self) -> String {
        let dashes = if self.dashes.is_empty() { String::new() } else { format!(r#" stroke-dasharray="{}""#, self.dashes) };
        format!(r#"stroke="{}" stroke-width="{}"{dashes}"#, self.colour, self.width)
    }
}

/// The colour between two that is so far from the first, 0 to 1.
pub fn between(first: [u8; 3], last: [u8; 3], far: f64) -> String {
    let mix = |i: usize| (f64::from(first[i]) + (f64::from(last[i]) - f64::from(first[i])) * far).round() as u8;
    format!("#{:02x}{:02x}{:02x}", mix(0), mix(1), mix(2))
}

/// A rectangle with a horizontal and a vertical axis. Its place is that of the rectangle; title, marks and labels stand around it.
pub struct Panel {
    pub title: &'static str,
    pub left: f64,
    pub top: f64,
    pub width: f64,
    pub height: f64,
    pub across: Axis,
    pub up: Axis,
}

impl Panel {
    fn x(&self, value: f64) -> f64 {
        self.left + self.width * self.across.place(value)
    }

    fn y(&self, value: f64) -> f64 {
        self.top + self.height * (1.0 - self.up.place(value))
    }
}

/// A picture in the making.
pub struct Picture {
    text: String,
    clips: usize,
}

impl Picture {
    /// An empty picture of that size, with its name and a line above all.
    pub fn new(width: u32, height: u32, title: &str, subtitle: &str) -> Picture {
        let mut picture = Picture { text: String::new(), clips: 0 };
        picture.put(&format!(
            r#"<svg xmlns="http://www.w3.org/2000/svg" viewBox="0 0 {width} {height}" width="{width}" height="{height}" font-family="Helvetica, Arial, sans-serif" font-size="13" fill="{INK}">"#
        ));
        picture.put(&format!("<title>{title}</title>"));
        picture.put(&format!(r##"<rect width="{width}" height="{height}" fill="#ffffff"/>"##));
        picture.words(24.0, 32.0, "start", r#" font-size="19" font-weight="bold""#, title);
        picture.words(24.0, 54.0, "start", "", subtitle);
        picture
    }

    fn put(&mut self, line: &str) {
        self.text.push_str(line);
        self.text.push('\n');
    }

    fn words(&mut self, x: f64, y: f64, anchor: &str, more: &str, text: &str) {
        self.put(&format!(r#"<text x="{x:.1}" y="{y:.1}" text-anchor="{anchor}"{more}>{text}</text>"#));
    }

    /// A line of text.
    pub fn note(&mut self, x: f64, y: f64, text: &str) {
        self.words(x, y, "start", "", text);
    }

    /// A panel's frame, title, grid, marks and labels.
    pub fn panel(&mut self, panel: &Panel) {
        let (right, bottom) = (panel.left + panel.width, panel.top + panel.height);
        let middle = panel.left + panel.width / 2.0;
        self.words(panel.left, panel.top - 10.0, "start", r#" font-size="14" font-weight="bold""#, panel.title);
        for (value, text) in &panel.across.marks {
            let x = panel.x(*value);
            self.put(&format!(r#"<path d="M{x:.1} {:.1}V{bottom:.1}" stroke="{GRID}"/>"#, panel.top));
            self.words(x, bottom + 17.0, "middle", SMALL, text);
        }
        for (value, text) in &panel.up.marks {
            let y = panel.y(*value);
            self.put(&format!(r#"<path d="M{:.1} {y:.1}H{right:.1}" stroke="{GRID}"/>"#, panel.left));
            self.words(panel.left - 6.0, y + 4.0, "end", SMALL, text);
        }
        self.words(middle, bottom + 36.0, "middle", "", panel.across.label);
        let (x, y) = (panel.left - 44.0, panel.top + panel.height / 2.0);
        self.words(x, y, "middle", &format!(r#" transform="rotate(-90 {x:.1} {y:.1})""#), panel.up.label);
        self.frame(panel);
    }

    fn frame(&mut self, panel: &Panel) {
        let Panel { left, top, width, height, .. } = panel;
        let place = format!(r#"x="{left:.1}" y="{top:.1}" width="{width:.1}" height="{height:.1}""#);
        self.put(&format!(r#"<rect {place} fill="none" stroke="{INK}"/>"#));
        self.clips += 1;
        self.put(&format!(r#"<clipPath id="c{}"><rect {place}/></clipPath>"#, self.clips));
    }

    /// A line through points, cut at the frame of the panel drawn last.
    pub fn line(&mut self, panel: &Panel, pen: &Pen, points: &[(f64, f64)]) {
        let mut path = String::new();
        for (place, (x, y)) in points.iter().enumerate() {
            let _ = write!(path, "{}{:.1} {:.1}", if place == 0 { 'M' } else { 'L' }, panel.x(*x), panel.y(*y));
        }
        let (pen, clip) = (pen.attributes(), self.clips);
        self.put(&format!(r#"<path d="{path}" fill="none" {pen} stroke-linejoin="round" clip-path="url(#c{clip})"/>"#));
    }

    /// A dot at each point, cut like a line. Light shines through it, so that many in one place are darker than one.
    pub fn dots(&mut self, panel: &Panel, colour: &str, points: &[(f64, f64)]) {
        self.put(&format!(r#"<g fill="{colour}" fill-opacity="0.3" clip-path="url(#c{})">"#, self.clips));
        for (x, y) in points {
            self.put(&format!(r#"<circle cx="{:.1}" cy="{:.1}" r="3.5"/>"#, panel.x(*x), panel.y(*y)));
        }
        self.put("</g>");
    }

    /// A stroke of a pen with what it stands for beside it.
    pub fn key(&mut self, x: f64, y: f64, length: f64, pen: &Pen, text: &str) {
        self.put(&format!(r#"<path d="M{x:.1} {:.1}h{length:.1}" {}/>"#, y - 4.5, pen.attributes()));
        self.words(x + length + 6.0, y, "start", SMALL, text);
    }

    /// The whole file.
    pub fn finish(mut self) -> String {
        self.put("</svg>");
        self.text
    }
}

const INK: &str = "#1a1a1a";
const GRID: &str = "#dddddd";
const SMALL: &str = r#" font-size="12""#;
