//! Panels of lines side by side, as an SVG on white. The linked library has solid lines and full marks, the plain engine
//! dashed lines and hollow marks, the tuned one thin dotted lines without marks.

use crate::axis::Axis;
use crate::line::SIDES;

pub struct Series {
    pub name: &'static str,
    pub points: Vec<(f64, f64)>,
}

pub struct Panel {
    pub title: &'static str,
    pub across: &'static str,
    pub up: &'static str,
    pub logarithmic: bool,
    /// For each thing that is measured, all sides.
    pub series: Vec<[Series; SIDES.len()]>,
}

/// How a line is drawn: the second thing that is measured has squares instead of circles, and another colour.
#[derive(Clone, Copy)]
struct Style {
    second: bool,
    side: Side,
}

#[derive(Clone, Copy, PartialEq, Eq)]
enum Side {
    Linked,
    Plain,
    Tuned,
}

const WIDTH: f64 = 1000.0;
const HEIGHT: f64 = 360.0;

/// What a panel has about its lines.
const LEFT: f64 = 66.0;
const RIGHT: f64 = 14.0;
const TOP: f64 = 36.0;
const BOTTOM: f64 = 96.0;

/// What the name of a thing that is measured has in the legend.
const NAME: f64 = 76.0;

const FRAME: &str = "#606060";
const GRID: &str = "#dddddd";

pub fn svg(panels: &[Panel]) -> String {
    let size = format!(r#"width="{WIDTH}" height="{HEIGHT}""#);
    let font = r#"font-family="Helvetica, Arial, sans-serif""#;
    let head = format!(
        r##"<svg xmlns="http://www.w3.org/2000/svg" {size} viewBox="0 0 {WIDTH} {HEIGHT}" {font}>
<rect {size} fill="#ffffff"/>
"##
    );
    let width = WIDTH / panels.len() as f64;
    let drawn = panels.iter().enumerate().map(|(i, panel)| panel.drawn(i as f64 * width, width));
    head + &drawn.collect::<String>() + "</svg>\n"
}

impl Series {
    pub fn new(name: &'static str) -> Series {
        Series { name, points: Vec::new() }
    }
}

impl Panel {
    fn drawn(&self, left: f64, width: f64) -> String {
        let points = || self.series.iter().flatten().flat_map(|series| &series.points);
        let (xs, ys): (Vec<f64>, Vec<f64>) = points().copied().unzip();
        let (from, to) = (left + LEFT, left + width - RIGHT);
        let (across, up) = if self.logarithmic {
            (Axis::decades(&xs, from, to), Axis::decades(&ys, HEIGHT - BOTTOM, TOP))
        } else {
            (Axis::whole(&xs, from, to), Axis::from_zero(&ys, HEIGHT - BOTTOM, TOP))
        };
        let mut out = self.frame(&across, &up);
        for (style, series) in self.styled() {
            let place = |&(x, y): &(f64, f64)| (across.place(x), up.place(y));
            out += &curve(&series.points.iter().map(place).collect::<Vec<_>>(), style);
        }
        out + &self.legend(left + 14.0, width - 14.0)
    }

    fn styled(&self) -> impl Iterator<Item = (Style, &Series)> {
        self.series.iter().enumerate().flat_map(|(i, [linked, plain, tuned])| {
            let style = |side| Style { second: i > 0, side };
            [(style(Side::Linked), linked), (style(Side::Plain), plain), (style(Side::Tuned), tuned)]
        })
    }

    /// Title, axes, ticks and labels.
    fn frame(&self, across: &Axis, up: &Axis) -> String {
        let (left, right, bottom, top) = (across.from, across.to, up.from, up.to);
        let middle = (left + right) / 2.0;
        let mut out = text((middle, top - 14.0), "middle", 13, self.title);
        for &tick in &across.ticks {
            let x = across.place(tick);
            out += &line((x, bottom), (x, top), GRID);
            out += &text((x, bottom + 16.0), "middle", 11, &tick.to_string());
        }
        for &tick in &up.ticks {
            let y = up.place(tick);
            out += &line((left, y), (right, y), GRID);
            out += &text((left - 6.0, y + 4.0), "end", 11, &tick.to_string());
        }
        out += &line((left, bottom), (right, bottom), FRAME);
        out += &line((left, bottom), (left, top), FRAME);
        out += &text((middle, bottom + 34.0), "middle", 12, self.across);
        out + &text((left - 6.0, top - 14.0), "end", 12, self.up)
    }

    /// Below the axis: a row for each thing that is measured, with its name and then the sides.
    fn legend(&self, left: f64, width: f64) -> String {
        let mut out = String::new();
        for (style, series) in self.styled() {
            let y = HEIGHT - BOTTOM + if style.second { 74.0 } else { 56.0 };
            if style.side == Side::Linked {
                out += &text((left, y + 4.0), "start", 11, series.name);
            }
            let side = style.side as usize;
            let x = left + NAME + side as f64 * (width - NAME) / SIDES.len() as f64;
            out += &curve(&[(x, y), (x + 24.0, y)], style);
            out += &text((x + 32.0, y + 4.0), "start", 11, SIDES[side]);
        }
        out
    }
}

/// A line through its points, with a mark at each unless it is of the tuned engine.
fn curve(places: &[(f64, f64)], style: Style) -> String {
    let colour = if style.second { "#0060b0" } else { "#000000" };
    let stroke = match style.side {
        Side::Linked => r#"stroke-width="1.5""#,
        Side::Plain => r#"stroke-width="1.5" stroke-dasharray="5 3""#,
        Side::Tuned => r#"stroke-width="0.9" stroke-dasharray="1 2""#,
    };
    let points: String = places.iter().map(|(x, y)| format!("{x:.1},{y:.1} ")).collect();
    let points = points.trim_end();
    let line = format!(r##"<polyline points="{points}" fill="none" stroke="{colour}" {stroke}/>"##) + "\n";
    let marked = if style.side == Side::Tuned { &[] } else { places };
    marked.iter().fold(line, |out, &place| out + &mark(place, style, colour))
}

fn mark((x, y): (f64, f64), style: Style, colour: &str) -> String {
    let fill = if style.side == Side::Linked { colour } else { "#ffffff" };
    let paint = format!(r##"fill="{fill}" stroke="{colour}""##);
    if style.second {
        format!("<rect x=\"{:.1}\" y=\"{:.1}\" width=\"6\" height=\"6\" {paint}/>\n", x - 3.0, y - 3.0)
    } else {
        format!("<circle cx=\"{x:.1}\" cy=\"{y:.1}\" r=\"3.2\" {paint}/>\n")
    }
}

fn line((x1, y1): (f64, f64), (x2, y2): (f64, f64), colour: &str) -> String {
    format!("<line x1=\"{x1:.1}\" y1=\"{y1:.1}\" x2=\"{x2:.1}\" y2=\"{y2:.1}\" stroke=\"{colour}\"/>\n")
}

fn text((x, y): (f64, f64), anchor: &str, size: usize, text: &str) -> String {
    format!("<text x=\"{x:.1}\" y=\"{y:.1}\" text-anchor=\"{anchor}\" font-size=\"{size}\">{text}</text>\n")
}
