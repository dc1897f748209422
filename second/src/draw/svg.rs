//! The few elements of SVG that the picture is made of. Lengths are whole pixels.

/// A length or a coordinate.
pub type Pixels = usize;

/// A point of the picture.
#[derive(Clone, Copy, Debug, PartialEq, Eq)]
pub struct Point {
    pub x: Pixels,
    pub y: Pixels,
}

/// A rectangle: its corner at the upper left, its width and its height.
#[derive(Clone, Copy, Debug, PartialEq, Eq)]
pub struct Area {
    pub corner: Point,
    pub width: Pixels,
    pub height: Pixels,
}

/// The elements so far, the last on top.
#[derive(Default)]
pub struct Svg {
    text: String,
}

impl Point {
    pub fn at(x: Pixels, y: Pixels) -> Point {
        Point { x, y }
    }
}

impl Area {
    pub fn at(x: Pixels, y: Pixels, width: Pixels, height: Pixels) -> Area {
        let corner = Point::at(x, y);
        Area {
            corner,
            width,
            height,
        }
    }

    /// A point on its upper edge, so far from the left.
    pub fn above(self, from_left: Pixels) -> Point {
        Point::at(self.corner.x + from_left, self.corner.y)
    }

    /// A point on its lower edge, so far from the left.
    pub fn below(self, from_left: Pixels) -> Point {
        Point::at(self.corner.x + from_left, self.corner.y + self.height)
    }
}

impl Svg {
    /// A rectangle; `style` is its further attributes.
    pub fn rect(&mut self, area: Area, style: &str) {
        let Area {
            corner: Point { x, y },
            width,
            height,
        } = area;
        self.text +=
            &format!("<rect x=\"{x}\" y=\"{y}\" width=\"{width}\" height=\"{height}\" {style}/>\n");
    }

    /// A text whose line begins at a point, unless the style has it otherwise.
    pub fn text(&mut self, at: Point, style: &str, text: &str) {
        let Point { x, y } = at;
        let text = escaped(text);
        self.text += &format!("<text x=\"{x}\" y=\"{y}\" {style}>{text}</text>\n");
    }

    /// A path by SVG's own commands.
    pub fn path(&mut self, commands: &str, style: &str) {
        self.text += &format!("<path d=\"{commands}\" {style}/>\n");
    }

    /// A straight line.
    pub fn line(&mut self, from: Point, to: Point, style: &str) {
        self.path(&format!("M{} {}L{} {}", from.x, from.y, to.x, to.y), style);
    }

    /// A dot around a point.
    pub fn dot(&mut self, at: Point, style: &str) {
        let Point { x, y } = at;
        self.text += &format!("<circle cx=\"{x}\" cy=\"{y}\" r=\"3\" {style}/>\n");
    }

    /// What is drawn inside shows a text where the pointer rests on it.
    pub fn with_tooltip(&mut self, tooltip: &str, draw: impl FnOnce(&mut Svg)) {
        self.text += &format!("<g><title>{}</title>\n", escaped(tooltip));
        draw(self);
        self.text += "</g>\n";
    }

    /// The whole document, on a white ground.
    pub fn document(self, width: Pixels, height: Pixels, label: &str) -> String {
        let label = escaped(label);
        format!(
            "<svg xmlns=\"http://www.w3.org/2000/svg\" width=\"{width}\" height=\"{height}\" \
             viewBox=\"0 0 {width} {height}\" role=\"img\" aria-label=\"{label}\" \
             font-family=\"sans-serif\" font-size=\"13\" fill=\"#222222\">\n\
             <rect width=\"{width}\" height=\"{height}\" fill=\"#ffffff\"/>\n{}</svg>\n",
            self.text
        )
    }
}

/// A text as it stands between tags and in quotes.
fn escaped(text: &str) -> String {
    text.replace('&', "&amp;")
        .replace('<', "&lt;")
        .replace('>', "&gt;")
        .replace('"', "&quot;")
}
