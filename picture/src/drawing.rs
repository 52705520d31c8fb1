//! A drawing is a list of shapes, which is written as an SVG.

/// What a text is set in.
#[derive(Clone, Copy, Debug, PartialEq, Eq)]
pub enum Anchor {
    Start,
    Middle,
    End,
}

#[derive(Clone, Debug)]
pub struct Text {
    pub x: f64,
    /// Where the letters stand.
    pub y: f64,
    pub size: f64,
    pub bold: bool,
    pub colour: &'static str,
    pub anchor: Anchor,
    pub said: String,
}

#[derive(Clone, Copy, Debug, PartialEq)]
pub struct Area {
    pub left: f64,
    pub top: f64,
    pub right: f64,
    pub bottom: f64,
}

impl Area {
    pub fn wide(&self) -> f64 {
        self.right - self.left
    }

    pub fn middle(&self) -> f64 {
        (self.left + self.right) / 2.0
    }
}

#[derive(Clone, Debug)]
pub enum Shape {
    /// A rectangle: what it shows, its colour, and how round its corners are.
    Area(&'static str, Area, &'static str, f64),
    Line((f64, f64), (f64, f64), &'static str),
    Disc((f64, f64), f64, &'static str),
    /// A small triangle that stands on its point.
    Flag((f64, f64), &'static str),
    Text(Text),
}

pub struct Drawing {
    pub wide: f64,
    pub high: f64,
    pub title: String,
    pub described: String,
    pub shapes: Vec<Shape>,
}

/// The greatest width of a text in the sans-serif letters that pages use.
pub fn width_of(said: &str, size: f64) -> f64 {
    said.chars().map(|letter| share_of(letter) * size).sum()
}

fn share_of(letter: char) -> f64 {
    match letter {
        'i' | 'j' | 'l' => 0.28,
        'f' | ' ' | ',' | '.' | ':' => 0.36,
        'r' | 't' => 0.42,
        'w' => 0.82,
        'm' => 0.98,
        'A'..='Z' => 0.72,
        _ => 0.64,
    }
}

impl Text {
    /// The room that the text takes.
    pub fn area(&self) -> Area {
        let wide = width_of(&self.said, self.size) * if self.bold { 1.1 } else { 1.0 };
        let left = match self.anchor {
            Anchor::Start => self.x,
            Anchor::Middle => self.x - wide / 2.0,
            Anchor::End => self.x - wide,
        };
        Area {
            left,
            top: self.y - 0.76 * self.size,
            right: left + wide,
            bottom: self.y + 0.24 * self.size,
        }
    }
}

impl Drawing {
    pub fn svg(&self) -> String {
        let Drawing { wide, high, .. } = self;
        let shapes: String = self.shapes.iter().map(written).collect();
        format!(
            "<svg xmlns=\"http://www.w3.org/2000/svg\" viewBox=\"0 0 {wide} {high}\" \
             width=\"{wide}\" height=\"{high}\" role=\"img\" aria-labelledby=\"title desc\" \
             font-family=\"Helvetica, Arial, sans-serif\">\n\
             <title id=\"title\">{}</title>\n<desc id=\"desc\">{}</desc>\n\
             <rect width=\"{wide}\" height=\"{high}\" fill=\"#ffffff\"/>\n{shapes}</svg>\n",
            escaped(&self.title),
            escaped(&self.described)
        )
    }
}

fn written(shape: &Shape) -> String {
    match shape {
        Shape::Area(shows, area, colour, round) => format!(
            "<rect class=\"{shows}\" x=\"{:.1}\" y=\"{:.1}\" width=\"{:.1}\" height=\"{:.1}\" rx=\"{round}\" fill=\"{colour}\"/>\n",
            area.left,
            area.top,
            area.wide(),
            area.bottom - area.top
        ),
        Shape::Line(from, to, colour) => format!(
            "<line x1=\"{:.1}\" y1=\"{:.1}\" x2=\"{:.1}\" y2=\"{:.1}\" stroke=\"{colour}\"/>\n",
            from.0, from.1, to.0, to.1
        ),
        Shape::Disc((x, y), radius, colour) => {
            format!("<circle cx=\"{x:.1}\" cy=\"{y:.1}\" r=\"{radius}\" fill=\"{colour}\"/>\n")
        }
        Shape::Flag((x, y), colour) => format!(
            "<path d=\"M{:.1} {:.1}h10l-5 8z\" fill=\"{colour}\"/>\n",
            x - 5.0,
            y - 8.0
        ),
        Shape::Text(text) => {
            let anchor = match text.anchor {
                Anchor::Start => "start",
                Anchor::Middle => "middle",
                Anchor::End => "end",
            };
            let weight = if text.bold { " font-weight=\"bold\"" } else { "" };
            format!(
                "<text x=\"{:.1}\" y=\"{:.1}\" font-size=\"{}\"{weight} fill=\"{}\" text-anchor=\"{anchor}\">{}</text>\n",
                text.x,
                text.y,
                text.size,
                text.colour,
                escaped(&text.said)
            )
        }
    }
}

fn escaped(said: &str) -> String {
    said.replace('&', "&amp;").replace('<', "&lt;")
}

#[cfg(test)]
mod tests {
    use super::*;

    #[test]
    fn letters_that_mean_something_in_an_svg_are_escaped() {
        assert_eq!(escaped("a < b & c"), "a &lt; b &amp; c");
    }

    #[test]
    fn a_text_takes_its_room_on_the_side_that_it_is_anchored() {
        let text = |anchor| Text {
            x: 100.0,
            y: 50.0,
            size: 10.0,
            bold: false,
            colour: "#000000",
            anchor,
            said: "0000".to_string(),
        };
        let wide = width_of("0000", 10.0);
        let left = |anchor| text(anchor).area().left;
        assert_eq!(left(Anchor::Start), 100.0);
        assert_eq!(left(Anchor::Middle), 100.0 - wide / 2.0);
        assert_eq!(left(Anchor::End), 100.0 - wide);
    }
}
