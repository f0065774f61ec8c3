//! The elements of an SVG, written one behind the other.

use std::fmt::Write;

/// An SVG that is being written.
#[derive(Default)]
pub struct Svg(String);

impl Svg {
    /// The SVG up to its first elements: size, title and description.
    pub fn new(width: f64, height: f64, title: &str, description: &str) -> Svg {
        let mut svg = Svg::default();
        svg.line(format_args!(
            "<svg xmlns=\"http://www.w3.org/2000/svg\" width=\"{width}\" height=\"{height}\" \
             viewBox=\"0 0 {width} {height}\" role=\"img\" aria-labelledby=\"title desc\">"
        ));
        let (title, description) = (escaped(title), escaped(description));
        svg.line(format_args!("<title id=\"title\">{title}</title>"));
        svg.line(format_args!("<desc id=\"desc\">{description}</desc>"));
        svg
    }

    /// A line that is SVG already.
    pub fn line(&mut self, line: impl std::fmt::Display) {
        writeln!(self.0, "{line}").expect("a string takes every line");
    }

    /// Opens a group that a browser shows the text of.
    pub fn open_group(&mut self, title: &str) {
        let title = escaped(title);
        self.line(format_args!("<g><title>{title}</title>"));
    }

    pub fn close_group(&mut self) {
        self.line("</g>");
    }

    /// A rectangle of a class: its left side, top, width and height.
    pub fn rectangle(&mut self, class: &str, [left, top, width, height]: [f64; 4]) {
        self.line(format_args!(
            "<rect class=\"{class}\" x=\"{left:.1}\" y=\"{top:.1}\" \
             width=\"{width:.1}\" height=\"{height:.1}\"/>"
        ));
    }

    /// A stroke of a class from one point to another.
    pub fn stroke(&mut self, class: &str, [x1, y1, x2, y2]: [f64; 4]) {
        self.line(format_args!(
            "<path class=\"{class}\" d=\"M{x1:.1} {y1:.1}L{x2:.1} {y2:.1}\"/>"
        ));
    }

    /// A text of a class at a point.
    pub fn text(&mut self, class: &str, x: f64, y: f64, text: &str) {
        let text = escaped(text);
        self.line(format_args!(
            "<text class=\"{class}\" x=\"{x:.1}\" y=\"{y:.1}\">{text}</text>"
        ));
    }

    /// The whole SVG.
    pub fn finish(mut self) -> String {
        self.line("</svg>");
        self.0
    }
}

/// A text as it stands between elements.
fn escaped(text: &str) -> String {
    let mut to = String::new();
    for character in text.chars() {
        match character {
            '&' => to.push_str("&amp;"),
            '<' => to.push_str("&lt;"),
            '>' => to.push_str("&gt;"),
            '"' => to.push_str("&quot;"),
            '\'' => to.push_str("&apos;"),
            _ => to.push(character),
        }
    }
    to
}

#[cfg(test)]
mod tests {
    use super::*;

    #[test]
    fn text_is_escaped() {
        assert_eq!(
            escaped("F 3 <&> \"'\u{2026}"),
            "F 3 &lt;&amp;&gt; &quot;&apos;\u{2026}"
        );
        let mut svg = Svg::new(1.0, 2.0, "<", "&");
        svg.open_group(">");
        svg.text("step", 0.0, 0.0, "]]>");
        svg.close_group();
        assert_eq!(
            svg.finish(),
            "<svg xmlns=\"http://www.w3.org/2000/svg\" width=\"1\" height=\"2\" \
             viewBox=\"0 0 1 2\" role=\"img\" aria-labelledby=\"title desc\">\n\
             <title id=\"title\">&lt;</title>\n<desc id=\"desc\">&amp;</desc>\n\
             <g><title>&gt;</title>\n\
             <text class=\"step\" x=\"0.0\" y=\"0.0\">]]&gt;</text>\n</g>\n</svg>\n"
        );
    }
}
