//! Heat maps by s and r as SVG, with the figure in every cell.

use crate::svg::Svg;
use std::fmt::Write;

pub struct Cell {
    pub text: String,
    /// A second figure in small print, or nothing.
    pub small: String,
    /// From 0, light, to 1, dark; None where there is no figure to shade.
    pub shade: Option<f64>,
}

pub struct Panel {
    pub title: String,
    /// By s downward, then by r to the right.
    pub cells: Vec<Vec<Cell>>,
}

pub struct Plot {
    pub title: String,
    pub notes: Vec<String>,
    /// The values of s and of r.
    pub degrees: Vec<u32>,
    pub panels: Vec<Panel>,
    /// What the shades stand for, and shades with their figures.
    pub scale: String,
    pub ticks: Vec<(f64, String)>,
    /// What a cell without a shade stands for.
    pub blank: String,
}

const CELL: (f64, f64) = (46.0, 36.0);
const MARGIN: f64 = 28.0;
/// Left of a panel's cells, for the values of s.
const AXIS: f64 = 40.0;
const GREY: &str = "#e4e4e4";

/// Anchors of the shades, light to dark.
const RAMP: [[f64; 3]; 5] =
    [[255., 255., 217.], [199., 233., 180.], [65., 182., 196.], [34., 94., 168.], [8., 29., 88.]];

fn colour(shade: f64) -> String {
    let at = shade.clamp(0.0, 1.0) * (RAMP.len() - 1) as f64;
    let from = (at as usize).min(RAMP.len() - 2);
    let part = at - from as f64;
    let mix = |c: usize| (RAMP[from][c] + part * (RAMP[from + 1][c] - RAMP[from][c])).round() as u8;
    format!("#{:02x}{:02x}{:02x}", mix(0), mix(1), mix(2))
}

impl Svg {
    fn cell(&mut self, x: f64, y: f64, cell: &Cell) {
        let fill = cell.shade.map_or(GREY.to_string(), colour);
        self.rect(x, y, CELL.0, CELL.1, &fill, "#ffffff");
        let ink = match cell.shade {
            None => "#777777",
            Some(shade) if shade > 0.55 => "#ffffff",
            Some(_) => "#1a1a1a",
        };
        let style = format!(r#"fill="{ink}""#);
        let (middle, base) = (x + CELL.0 / 2.0, y + CELL.1 / 2.0 + 5.0);
        if cell.small.is_empty() {
            self.text(middle, base, 14.0, "middle", &style, &cell.text);
        } else {
            self.text(middle, base - 4.0, 14.0, "middle", &style, &cell.text);
            self.text(middle, base + 8.5, 9.5, "middle", &style, &cell.small);
        }
    }

    fn panel(&mut self, x: f64, y: f64, degrees: &[u32], panel: &Panel) {
        let (left, top) = (x + AXIS, y + 26.0);
        let many = degrees.len() as f64;
        self.text(left + many * CELL.0 / 2.0, y + 12.0, 14.0, "middle", r#"font-weight="bold""#, &panel.title);
        for (i, (degree, row)) in degrees.iter().zip(&panel.cells).enumerate() {
            let down = top + i as f64 * CELL.1;
            for (k, cell) in row.iter().enumerate() {
                self.cell(left + k as f64 * CELL.0, down, cell);
            }
            self.text(left - 8.0, down + CELL.1 / 2.0 + 5.0, 13.0, "end", "", &degree.to_string());
            let right = left + (i as f64 + 0.5) * CELL.0;
            self.text(right, top + many * CELL.1 + 17.0, 13.0, "middle", "", &degree.to_string());
        }
        self.text(left + many * CELL.0 / 2.0, top + many * CELL.1 + 36.0, 14.0, "middle", "", "r");
        self.text(x + 8.0, top + many * CELL.1 / 2.0 + 5.0, 14.0, "middle", "", "s");
    }

    fn legend(&mut self, x: f64, y: f64, plot: &Plot) {
        const LENGTH: f64 = 420.0;
        const STEPS: usize = 84;
        self.text(x, y, 13.0, "start", "", &plot.scale);
        for i in 0..STEPS {
            let part = i as f64 / STEPS as f64;
            let fill = colour(part + 0.5 / STEPS as f64);
            let _ = writeln!(
                self.0,
                r#"<rect x="{:.1}" y="{:.1}" width="{:.1}" height="16" fill="{fill}"/>"#,
                x + part * LENGTH,
                y + 8.0,
                LENGTH / STEPS as f64 + 0.4
            );
        }
        for (shade, text) in &plot.ticks {
            let tick = x + shade * LENGTH;
            self.line((tick, y + 24.0), (tick, y + 29.0), "#333333");
            self.text(tick, y + 42.0, 12.0, "middle", "", text);
        }
        self.rect(x + LENGTH + 60.0, y + 6.0, 30.0, 20.0, GREY, "#ffffff");
        self.text(x + LENGTH + 98.0, y + 21.0, 13.0, "start", "", &plot.blank);
    }
}

pub fn svg(plot: &Plot) -> String {
    let many = plot.degrees.len() as f64;
    let panel = (AXIS + many * CELL.0 + 24.0, many * CELL.1 + 78.0);
    let width = 2.0 * MARGIN + plot.panels.len() as f64 * panel.0 - 24.0;
    let top = MARGIN + 30.0 + 18.0 * plot.notes.len() as f64 + 14.0;
    let height = top + panel.1 + 62.0 + MARGIN;
    let mut svg = Svg::new(width, height);
    svg.text(MARGIN, MARGIN + 14.0, 20.0, "start", r#"font-weight="bold""#, &plot.title);
    for (i, note) in plot.notes.iter().enumerate() {
        svg.text(MARGIN, MARGIN + 38.0 + 18.0 * i as f64, 13.0, "start", "", note);
    }
    for (i, it) in plot.panels.iter().enumerate() {
        svg.panel(MARGIN + i as f64 * panel.0, top, &plot.degrees, it);
    }
    svg.legend(MARGIN + AXIS, top + panel.1 + 14.0, plot);
    svg.finish()
}
