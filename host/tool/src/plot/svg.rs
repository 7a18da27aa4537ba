//! Just enough SVG.

use super::{RIGHT, WIDTH};
use crate::words::visible;
use std::fmt::{Display, Write};
use unicode_width::UnicodeWidthChar;

/// Where a text stands to its point.
#[derive(Clone, Copy)]
pub enum Align {
    Start,
    Middle,
    End,
}

/// Styles, and the patterns that stand for colours.
const HEAD: &str = r##"<style>
text{font-family:Helvetica,Arial,"DejaVu Sans",sans-serif;fill:#000}
.thin{stroke:#000;stroke-width:1;fill:none}
.faint{stroke:#bbb;stroke-width:1;fill:none}
.stem{stroke:#888;stroke-width:1;fill:none;stroke-dasharray:1 3}
.curve{stroke:#000;stroke-width:2;fill:none;stroke-linejoin:round}
.band{stroke:#000;stroke-width:1;fill:#aaa;stroke-linejoin:round}
.rim{stroke:#fff;stroke-width:4;fill:none}
.ascend{stroke:#000;stroke-width:1.5;fill:none;stroke-dasharray:9 4}
.descend{stroke:#000;stroke-width:1.5;fill:none;stroke-dasharray:2 3}
.box{stroke:#000;stroke-width:1;fill:#fff}
.solid{stroke:#000;stroke-width:1;fill:#000}
.failed{stroke:#000;stroke-width:1;fill:url(#cross)}
.wait{fill:url(#hatch)}
.low{fill:#d4d4d4}
.high{fill:#fff}
.edged{stroke:#000;stroke-width:1}
.wait-light{fill:url(#hatch-light)}
.low-light{fill:#ededed}
.many{stroke:#000;stroke-width:1;fill:url(#comb)}
</style>
<defs>
<pattern id="hatch" width="6" height="6" patternUnits="userSpaceOnUse" patternTransform="rotate(45)"><rect width="6" height="6" fill="#fff"/><path d="M0 0V6" stroke="#777" stroke-width="3"/></pattern>
<pattern id="hatch-light" width="8" height="8" patternUnits="userSpaceOnUse" patternTransform="rotate(45)"><path d="M0 0V8" stroke="#ddd" stroke-width="3"/></pattern>
<pattern id="cross" width="5" height="5" patternUnits="userSpaceOnUse"><rect width="5" height="5" fill="#fff"/><path d="M0 0L5 5M5 0L0 5" stroke="#000" stroke-width="1"/></pattern>
<pattern id="comb" width="3" height="3" patternUnits="userSpaceOnUse"><rect width="3" height="3" fill="#fff"/><path d="M1 0V3" stroke="#000" stroke-width="1"/></pattern>
</defs>
"##;

/// A picture that is being drawn. Where a shape says what it is about, readers
/// see that under the pointer.
pub struct Svg(String);

impl Svg {
    pub fn new() -> Svg {
        Svg(String::new())
    }

    /// The title that readers of the file are given.
    pub fn title(&mut self, text: &str) {
        self.add(format_args!("<title>{}</title>", escaped(text)));
    }

    /// What the picture shows, for readers of the file that don't see it.
    pub fn description(&mut self, text: &str) {
        let lines: Vec<String> = text.lines().map(escaped).collect();
        self.add(format_args!("<desc>{}</desc>", lines.join("\n")));
    }

    pub fn text(&mut self, x: f64, y: f64, size: u32, align: Align, text: &str) {
        self.styled(x, y, size, align, "", text);
    }

    /// A text in white, to stand on black; the pointer goes through to that.
    pub fn inverse(&mut self, x: f64, y: f64, size: u32, text: &str) {
        let style = r#" style="fill:#fff" pointer-events="none""#;
        self.styled(x, y, size, Align::Middle, style, text);
    }

    /// A text on a shape that is about something.
    pub fn label(&mut self, x: f64, y: f64, size: u32, text: &str) {
        let style = r#" pointer-events="none""#;
        self.styled(x, y, size, Align::Middle, style, text);
    }

    fn styled(&mut self, x: f64, y: f64, size: u32, align: Align, style: &str, text: &str) {
        let anchor = match align {
            Align::Start => "",
            Align::Middle => r#" text-anchor="middle""#,
            Align::End => r#" text-anchor="end""#,
        };
        let (x, y, text) = (short(x), short(y), escaped(text));
        self.add(format_args!(
            r#"<text x="{x}" y="{y}" font-size="{size}"{anchor}{style}>{text}</text>"#
        ));
    }

    /// A text beside the panels, on the right: no wider than there is room.
    pub fn beside(&mut self, y: f64, text: &str) {
        let (x, room) = (RIGHT + 4.0, WIDTH - RIGHT - 8.0);
        self.text(x, y, fitting(text, room), Align::Start, text);
    }

    /// A text that says what it is about.
    pub fn note(&mut self, x: f64, y: f64, size: u32, text: &str, about: &str) {
        let (x, y, text, about) = (short(x), short(y), escaped(text), escaped(about));
        self.add(format_args!(
            r#"<text x="{x}" y="{y}" font-size="{size}">{text}<title>{about}</title></text>"#
        ));
    }

    pub fn line(&mut self, x1: f64, y1: f64, x2: f64, y2: f64, class: &str) {
        let (x1, y1, x2, y2) = (short(x1), short(y1), short(x2), short(y2));
        self.path(&format!("M{x1} {y1}L{x2} {y2}"), class, "");
    }

    /// A rectangle, at least one unit wide so that it can be seen.
    pub fn rect(&mut self, x: f64, y: f64, width: f64, height: f64, class: &str, about: &str) {
        let (x, y, width, height) = (short(x), short(y), short(width.max(1.0)), short(height));
        let place = format!(r#"x="{x}" y="{y}" width="{width}" height="{height}""#);
        self.shape("rect", &place, class, about);
    }

    pub fn circle(&mut self, x: f64, y: f64, radius: f64, class: &str, about: &str) {
        let (x, y, radius) = (short(x), short(y), short(radius));
        let place = format!(r#"cx="{x}" cy="{y}" r="{radius}""#);
        self.shape("circle", &place, class, about);
    }

    pub fn path(&mut self, d: &str, class: &str, about: &str) {
        if !d.is_empty() {
            self.shape("path", &format!(r#"d="{d}""#), class, about);
        }
    }

    fn shape(&mut self, name: &str, place: &str, class: &str, about: &str) {
        let begin = format!(r#"<{name} {place} class="{class}""#);
        match about {
            "" => self.add(format_args!("{begin}/>")),
            about => self.add(format_args!(
                "{begin}><title>{}</title></{name}>",
                escaped(about)
            )),
        }
    }

    /// This place in the picture, to insert something behind what follows.
    pub fn here(&self) -> usize {
        self.0.len()
    }

    pub fn insert(&mut self, here: usize, other: Svg) {
        self.0.insert_str(here, &other.0);
    }

    /// The whole file.
    pub fn finish(self, width: f64, height: f64) -> String {
        let (width, height) = (short(width), short(height));
        format!(
            "<svg xmlns=\"http://www.w3.org/2000/svg\" width=\"{width}\" height=\"{height}\" \
             viewBox=\"0 0 {width} {height}\">\n{HEAD}<rect width=\"{width}\" \
             height=\"{height}\" fill=\"#fff\"/>\n{}</svg>\n",
            self.0
        )
    }

    fn add(&mut self, element: impl Display) {
        // Writing to a string can't fail.
        let _ = writeln!(self.0, "{element}");
    }
}

/// The path of a shape with corners.
pub fn polygon(corners: &[(f64, f64)]) -> String {
    polyline(corners) + "Z"
}

/// The path of a line from place to place.
pub fn polyline(places: &[(f64, f64)]) -> String {
    let mut path = String::new();
    for (at, &(x, y)) in places.iter().enumerate() {
        let to = if at == 0 { 'M' } else { 'L' };
        let _ = write!(path, "{to}{} {}", short(x), short(y));
    }
    path
}

/// A tenth of a unit is fine enough.
pub fn short(number: f64) -> f64 {
    (number * 10.0).round() / 10.0
}

/// About how wide a text is in the wider ones of the fonts, rather too much than
/// too little.
pub fn width(text: &str, size: u32) -> f64 {
    let one = |c: char| match c {
        'i' | 'j' | 'l' | 'I' | ' ' | '.' | ',' | ':' | ';' | '!' | '|' | '\'' => 0.35,
        'm' | 'w' | 'M' | 'W' | '@' | '%' => 1.0,
        c if c.width().unwrap_or(0) > 1 => 1.1,
        c if c.is_uppercase() => 0.75,
        c if c.is_ascii() => 0.6,
        _ => 0.75,
    };
    f64::from(size) * text.chars().map(one).sum::<f64>()
}

/// The greatest size up to 12 in which a text has room, if any is readable.
fn fitting(text: &str, room: f64) -> u32 {
    let mut sizes = (8..=12).rev();
    let fits = sizes.find(|&size| width(text, size) <= room);
    fits.unwrap_or(8)
}

/// A text that is cut where it would be wider than its room.
pub fn cut(text: &str, size: u32, room: f64) -> String {
    if width(text, size) <= room {
        return text.to_string();
    }
    let mut kept = String::new();
    for c in text.chars() {
        if width(&format!("{kept}{c}..."), size) > room {
            break;
        }
        kept.push(c);
    }
    kept + "..."
}

/// A text as it may stand in a file: no character that XML forbids.
fn escaped(text: &str) -> String {
    visible(text)
        .replace('&', "&amp;")
        .replace('<', "&lt;")
        .replace('>', "&gt;")
}
