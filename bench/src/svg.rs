//! An SVG under way: shapes and texts, as far as the plots and the pictures need them.

use std::fmt::Write;

/// The colour of what is not drawn on.
pub const PAPER: &str = "#fcfcfa";

pub struct Svg(pub String);

impl Svg {
    pub fn new(width: f64, height: f64) -> Svg {
        Svg(format!(
            r##"<svg xmlns="http://www.w3.org/2000/svg" width="{width:.0}" height="{height:.0}"
  viewBox="0 0 {width:.0} {height:.0}" font-family="DejaVu Sans, Verdana, Arial, sans-serif" fill="#1a1a1a">
<rect width="100%" height="100%" fill="{PAPER}"/>
"##
        ))
    }

    pub fn finish(self) -> String {
        self.0 + "</svg>\n"
    }

    pub fn rect(&mut self, x: f64, y: f64, width: f64, height: f64, fill: &str, stroke: &str) {
        let _ = writeln!(
            self.0,
            r##"<rect x="{x:.1}" y="{y:.1}" width="{width:.1}" height="{height:.1}" fill="{fill}" stroke="{stroke}"/>"##
        );
    }

    pub fn line(&mut self, from: (f64, f64), to: (f64, f64), stroke: &str) {
        let _ = writeln!(
            self.0,
            r##"<line x1="{:.1}" y1="{:.1}" x2="{:.1}" y2="{:.1}" stroke="{stroke}"/>"##,
            from.0, from.1, to.0, to.1
        );
    }

    pub fn circle(&mut self, x: f64, y: f64, radius: f64, fill: &str, stroke: &str) {
        let _ = writeln!(self.0, r##"<circle cx="{x:.1}" cy="{y:.1}" r="{radius}" fill="{fill}" stroke="{stroke}"/>"##);
    }

    /// Text with its middle, or its start, at x.
    pub fn text(&mut self, x: f64, y: f64, size: f64, anchor: &str, style: &str, text: &str) {
        let text = text.replace('&', "&amp;").replace('<', "&lt;");
        let _ = writeln!(
            self.0,
            r#"<text x="{x:.1}" y="{y:.1}" font-size="{size}" text-anchor="{anchor}" {style}>{text}</text>"#
        );
    }
}
