//! Elements of SVG as text. Every text is escaped; every number is written with at most one decimal.

use std::fmt::Write;

pub struct Svg {
    body: String,
}

/// XML's own characters as references, and what XML does not have at all as a replacement character.
pub fn escaped(text: &str) -> String {
    let mut out = String::new();
    for c in text.chars() {
        match c {
            '&' => out.push_str("&amp;"),
            '<' => out.push_str("&lt;"),
            '>' => out.push_str("&gt;"),
            '"' => out.push_str("&quot;"),
            '\'' => out.push_str("&#39;"),
            '\t' | '\n' | '\r' => out.push(' '),
            c if c.is_control() || matches!(c, '\u{fffe}' | '\u{ffff}') => out.push('\u{fffd}'),
            c => out.push(c),
        }
    }
    out
}

pub fn number(x: f64) -> String {
    let text = format!("{x:.1}");
    text.strip_suffix(".0").map_or(text.clone(), str::to_string)
}

impl Svg {
    pub fn new() -> Svg {
        Svg { body: String::new() }
    }

    pub fn rect(&mut self, x: f64, y: f64, width: f64, height: f64, round: f64, style: &str) {
        let _ = writeln!(
            self.body,
            "<rect x=\"{}\" y=\"{}\" width=\"{}\" height=\"{}\" rx=\"{}\" {style}/>",
            number(x),
            number(y),
            number(width.max(0.0)),
            number(height.max(0.0)),
            number(round)
        );
    }

    pub fn text(&mut self, x: f64, y: f64, text: &str, style: &str) {
        let _ = writeln!(self.body, "<text x=\"{}\" y=\"{}\" {style}>{}</text>", number(x), number(y), escaped(text));
    }

    pub fn path(&mut self, d: &str, style: &str) {
        let _ = writeln!(self.body, "<path d=\"{d}\" fill=\"none\" {style}/>");
    }

    pub fn dot(&mut self, x: f64, y: f64, radius: f64, style: &str) {
        let _ =
            writeln!(self.body, "<circle cx=\"{}\" cy=\"{}\" r=\"{}\" {style}/>", number(x), number(y), number(radius));
    }

    /// A way along these points; with `round`, its corners are.
    pub fn way(&mut self, points: &[(f64, f64)], round: f64, style: &str) {
        let Some(((x, y), rest)) = points.split_first() else { return };
        let mut d = format!("M{} {}", number(*x), number(*y));
        let mut before = (*x, *y);
        for (i, corner) in rest.iter().enumerate() {
            match rest.get(i + 1) {
                Some(next) if round > 0.0 => {
                    let towards = |from: (f64, f64), to: (f64, f64)| {
                        let length = ((to.0 - from.0).powi(2) + (to.1 - from.1).powi(2)).sqrt().max(0.001);
                        let part = (round / length).min(0.5);
                        (from.0 + (to.0 - from.0) * part, from.1 + (to.1 - from.1) * part)
                    };
                    let (a, b) = (towards(*corner, before), towards(*corner, *next));
                    let _ = write!(
                        d,
                        "L{} {}Q{} {} {} {}",
                        number(a.0),
                        number(a.1),
                        number(corner.0),
                        number(corner.1),
                        number(b.0),
                        number(b.1)
                    );
                }
                _ => {
                    let _ = write!(d, "L{} {}", number(corner.0), number(corner.1));
                }
            }
            before = *corner;
        }
        self.path(&d, style);
    }

    /// The whole picture, with its definitions.
    pub fn finish(self, width: f64, height: f64, title: &str, definitions: &str) -> String {
        let (w, h) = (number(width), number(height));
        format!(
            "<svg xmlns=\"http://www.w3.org/2000/svg\" width=\"{w}\" height=\"{h}\" viewBox=\"0 0 {w} {h}\" \
             font-family=\"DejaVu Sans Mono, Menlo, Consolas, Liberation Mono, monospace\" font-size=\"12\">\n\
             <title>{}</title>\n{definitions}<rect width=\"{w}\" height=\"{h}\" fill=\"#ffffff\"/>\n{}</svg>\n",
            escaped(title),
            self.body
        )
    }
}

impl Default for Svg {
    fn default() -> Svg {
        Svg::new()
    }
}
