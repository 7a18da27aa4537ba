//! A picture that was drawn, looked at.

use roxmltree::{Document, Node};

/// Where the panels of every picture begin and end.
pub const PANELS: (f64, f64) = (92.0, 890.0);

/// Whether numbers are the same, to half a unit.
pub fn near(a: f64, b: f64) -> bool {
    (a - b).abs() < 0.5
}

/// What is drawn: a shape, or a text.
#[derive(Debug)]
pub struct Drawn {
    pub element: String,
    pub class: String,
    /// What is seen under the pointer.
    pub about: String,
    /// What a text says.
    pub text: String,
    /// The commands of a path.
    pub path: String,
    pub left: f64,
    pub right: f64,
    pub top: f64,
    pub bottom: f64,
}

impl Drawn {
    pub fn width(&self) -> f64 {
        self.right - self.left
    }

    pub fn height(&self) -> f64 {
        self.bottom - self.top
    }

    pub fn middle(&self) -> f64 {
        (self.left + self.right) / 2.0
    }
}

/// A picture: its size, and what is drawn on it from the bottom up.
pub struct Picture {
    pub title: String,
    pub width: f64,
    pub height: f64,
    pub drawn: Vec<Drawn>,
}

impl Picture {
    /// Reads a picture, which has to be XML.
    pub fn read(svg: &str) -> Picture {
        let document = Document::parse(svg).expect("the picture is XML");
        let root = document.root_element();
        let title = root.children().find(|node| node.has_tag_name("title"));
        let shapes = root.children().filter(|node| {
            let name = node.tag_name().name();
            ["rect", "circle", "path", "text"].contains(&name) && !node.has_attribute("fill")
        });
        Picture {
            title: title
                .and_then(|title| title.text())
                .unwrap_or_default()
                .to_string(),
            width: number(&root, "width"),
            height: number(&root, "height"),
            drawn: shapes.map(|node| drawn(&node)).collect(),
        }
    }

    /// The texts on it.
    pub fn texts(&self) -> impl Iterator<Item = &Drawn> {
        self.drawn.iter().filter(|one| one.element == "text")
    }

    /// The text that is this, if there is one.
    pub fn says(&self, text: &str) -> bool {
        self.texts().any(|one| one.text == text)
    }

    /// The shapes that are about something that holds a text.
    pub fn about(&self, text: &str) -> Vec<&Drawn> {
        let about = self.drawn.iter().filter(|one| one.about.contains(text));
        about.collect()
    }

    /// The shape that is about this.
    pub fn one(&self, about: &str) -> &Drawn {
        match self.about(about)[..] {
            [one] => one,
            ref all => panic!("{} are about {about:?}", all.len()),
        }
    }

    /// Asserts that everything is within the picture, and what says what it is within the
    /// panels, over whose edges it may reach so far.
    pub fn is_framed(&self, name: &str, edge: f64) {
        let (left, right) = (PANELS.0 - edge, PANELS.1 + edge);
        for one in &self.drawn {
            let framed = one.left >= 0.0
                && one.right <= self.width
                && one.top >= 0.0
                && one.bottom <= self.height;
            assert!(framed, "{name}: {one:?} leaves the picture");
            let in_panels = one.left >= left && one.right <= right;
            assert!(
                one.about.is_empty() || in_panels,
                "{name}: {one:?} leaves the panels"
            );
        }
    }

    /// Asserts that no two texts cover each other.
    pub fn has_clear_texts(&self, name: &str) {
        let texts: Vec<&Drawn> = self.texts().collect();
        for (at, one) in texts.iter().enumerate() {
            for other in &texts[..at] {
                let apart = one.left >= other.right
                    || other.left >= one.right
                    || one.top >= other.bottom
                    || other.top >= one.bottom;
                assert!(apart, "{name}: {:?} on {:?}", one.text, other.text);
            }
        }
    }

    /// Where the panels begin: under the legend.
    pub fn panels(&self) -> f64 {
        let mode = self.texts().find(|one| one.text == "mode");
        mode.expect("there is a strip for the mode").top - 8.0
    }
}

fn number(node: &Node, name: &str) -> f64 {
    let text = node.attribute(name);
    text.and_then(|text| text.parse().ok())
        .unwrap_or_else(|| panic!("{} without {name}", node.tag_name().name()))
}

fn drawn(node: &Node) -> Drawn {
    let element = node.tag_name().name().to_string();
    let (left, right, top, bottom) = match element.as_str() {
        "rect" => {
            let (x, y) = (number(node, "x"), number(node, "y"));
            (x, x + number(node, "width"), y, y + number(node, "height"))
        }
        "circle" => {
            let (x, y, r) = (number(node, "cx"), number(node, "cy"), number(node, "r"));
            (x - r, x + r, y - r, y + r)
        }
        "text" => of_text(node),
        _ => of_path(node.attribute("d").unwrap_or_default()),
    };
    let title = node.children().find(|child| child.has_tag_name("title"));
    Drawn {
        element,
        class: node.attribute("class").unwrap_or_default().to_string(),
        about: title
            .and_then(|title| title.text())
            .unwrap_or_default()
            .to_string(),
        text: node.text().unwrap_or_default().to_string(),
        path: node.attribute("d").unwrap_or_default().to_string(),
        left,
        right,
        top,
        bottom,
    }
}

/// Where a text is, if its letters are as wide as Helvetica's are on average.
fn of_text(node: &Node) -> (f64, f64, f64, f64) {
    let size = number(node, "font-size");
    let wide = |c: char| {
        if c.is_ascii_uppercase() || !c.is_ascii() {
            0.8
        } else {
            0.52
        }
    };
    let text = node.text().unwrap_or_default();
    let width: f64 = size * text.chars().map(wide).sum::<f64>();
    let (x, y) = (number(node, "x"), number(node, "y"));
    let left = match node.attribute("text-anchor") {
        Some("middle") => x - width / 2.0,
        Some("end") => x - width,
        _ => x,
    };
    (left, left + width, y - size, y)
}

/// Where a path is that goes from point to point.
fn of_path(d: &str) -> (f64, f64, f64, f64) {
    let (mut xs, mut ys) = (Vec::new(), Vec::new());
    let commands = d.split_inclusive(|c: char| "MLHVZ".contains(c));
    let letters = d.chars().filter(|c| c.is_ascii_alphabetic());
    let numbers = commands
        .skip(1)
        .map(|part| part.trim_end_matches(|c: char| "MLHVZ".contains(c)));
    for (letter, numbers) in letters.zip(numbers.chain([""])) {
        let numbers: Vec<f64> = numbers
            .split_whitespace()
            .map(|n| n.parse().expect(d))
            .collect();
        match (letter, &numbers[..]) {
            ('M' | 'L', [x, y]) => {
                xs.push(*x);
                ys.push(*y);
            }
            ('H', [x]) => xs.push(*x),
            ('V', [y]) => ys.push(*y),
            ('Z', []) => {}
            other => panic!("{other:?} in {d}"),
        }
    }
    let least = |all: &[f64]| all.iter().copied().fold(f64::MAX, f64::min);
    let greatest = |all: &[f64]| all.iter().copied().fold(f64::MIN, f64::max);
    (least(&xs), greatest(&xs), least(&ys), greatest(&ys))
}
