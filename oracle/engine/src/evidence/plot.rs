//! Plots as SVG: panels side by side, lines and points on two axes, and one legend.

use std::fmt::Write;

/// How an axis is divided.
#[derive(Clone, Copy, PartialEq)]
pub enum Scale {
    Linear,
    Log,
}

/// An axis from one value to another, with marks that have a text.
pub struct Axis {
    pub label: String,
    pub scale: Scale,
    pub from: f64,
    pub to: f64,
    pub marks: Vec<(f64, String)>,
}

impl Axis {
    pub fn new(label: &str, scale: Scale, marks: &[(f64, &str)]) -> Self {
        let marks: Vec<(f64, String)> = marks.iter().map(|(at, t)| (*at, t.to_string())).collect();
        let (from, to) = (marks[0].0, marks[marks.len() - 1].0);
        Axis {
            label: label.to_string(),
            scale,
            from,
            to,
            marks,
        }
    }

    /// The same axis with its ends elsewhere than at the first and the last mark.
    pub fn between(self, from: f64, to: f64) -> Self {
        Axis { from, to, ..self }
    }

    /// Where a value stands, 0 at the start and 1 at the end.
    fn place(&self, value: f64) -> f64 {
        let on = |v: f64| match self.scale {
            Scale::Linear => v,
            Scale::Log => v.ln(),
        };
        (on(value) - on(self.from)) / (on(self.to) - on(self.from))
    }

    fn shows(&self, value: f64) -> bool {
        (-1e-9..=1.0 + 1e-9).contains(&self.place(value))
    }
}

/// How a series is drawn.
#[derive(Clone, Copy, PartialEq)]
pub enum Style {
    Line,
    Dashes,
    Dots,
    Points,
    Circles,
}

/// Points that belong together. Series of one name have one line in the legend.
#[derive(Clone)]
pub struct Series {
    pub name: String,
    pub colour: &'static str,
    pub style: Style,
    pub points: Vec<(f64, f64)>,
    /// For each point the least and the most, where they are shown.
    pub spread: Vec<(f64, f64)>,
}

impl Series {
    pub fn new(name: &str, colour: &'static str, style: Style, points: Vec<(f64, f64)>) -> Self {
        Series {
            name: name.to_string(),
            colour,
            style,
            points,
            spread: Vec::new(),
        }
    }

    pub fn with_spread(self, spread: Vec<(f64, f64)>) -> Self {
        assert_eq!(spread.len(), self.points.len(), "{}", self.name);
        Series { spread, ..self }
    }
}

pub struct Panel {
    pub title: String,
    pub x: Axis,
    pub y: Axis,
    pub series: Vec<Series>,
}

/// Colours that are told apart by those too who see few of them.
pub const BLUE: &str = "#0072b2";
pub const ORANGE: &str = "#d55e00";
pub const GREEN: &str = "#009e73";
pub const PURPLE: &str = "#9b4f96";
pub const GREY: &str = "#555555";

const WIDE: f64 = 960.0;
const PANEL_HIGH: f64 = 300.0;
const LEFT: f64 = 62.0;
const RIGHT: f64 = 30.0;
const TOP: f64 = 58.0;
const BELOW: f64 = 46.0;
const LEGEND_LINE: f64 = 20.0;

/// The plot, with a title above and in words for those who cannot see it.
pub fn svg(title: &str, words: &str, panels: &[Panel]) -> String {
    let legend = legend(panels);
    let lines = (legend.len() + 3) / 4;
    let high = TOP + PANEL_HIGH + BELOW + LEGEND_LINE * lines as f64 + 10.0;
    let mut out = String::new();
    let o = &mut out;
    put(
        o,
        format!(
            "<svg xmlns=\"http://www.w3.org/2000/svg\" viewBox=\"0 0 {WIDE} {high}\" role=\"img\" \
             font-family=\"sans-serif\" font-size=\"12\">"
        ),
    );
    put(o, format!("<title>{}</title>", escaped(title)));
    put(o, format!("<desc>{}</desc>", escaped(words)));
    put(
        o,
        format!("<rect width=\"{WIDE}\" height=\"{high}\" fill=\"#ffffff\"/>"),
    );
    text(
        o,
        WIDE / 2.0,
        20.0,
        "middle",
        "font-size=\"15\" font-weight=\"bold\"",
        title,
    );
    let each = WIDE / panels.len() as f64;
    for (i, panel) in panels.iter().enumerate() {
        draw(o, panel, each * i as f64, each);
    }
    for (i, series) in legend.iter().enumerate() {
        let x = LEFT + (i % 4) as f64 * (WIDE - LEFT) / 4.0;
        let y = TOP + PANEL_HIGH + BELOW + LEGEND_LINE * (i / 4) as f64 + 8.0;
        match series.style {
            Style::Points => point(o, x + 14.0, y - 4.0, series.colour),
            Style::Circles => circle(o, x + 14.0, y - 4.0, series.colour),
            _ => line(o, &[(x, y - 4.0), (x + 28.0, y - 4.0)], series),
        }
        text(o, x + 34.0, y, "start", "", &series.name);
    }
    put(o, "</svg>".to_string());
    out
}

fn put(out: &mut String, line: String) {
    out.push_str(&line);
    out.push('\n');
}

/// The first series of each name.
fn legend(panels: &[Panel]) -> Vec<&Series> {
    let mut first: Vec<&Series> = Vec::new();
    for series in panels.iter().flat_map(|panel| &panel.series) {
        if first.iter().all(|known| known.name != series.name) {
            first.push(series);
        }
    }
    first
}

fn draw(o: &mut String, panel: &Panel, at: f64, wide: f64) {
    let (left, right) = (at + LEFT, at + wide - RIGHT);
    let (top, bottom) = (TOP, TOP + PANEL_HIGH);
    let x = |value: f64| left + panel.x.place(value) * (right - left);
    let y = |value: f64| bottom - panel.y.place(value) * (bottom - top);
    let middle = (left + right) / 2.0;
    text(
        o,
        middle,
        top - 12.0,
        "middle",
        "font-weight=\"bold\"",
        &panel.title,
    );
    for (value, mark) in panel.x.marks.iter().filter(|(at, _)| panel.x.shows(*at)) {
        let x = x(*value);
        straight(o, (x, top), (x, bottom), "#e4e4e4");
        text(o, x, bottom + 16.0, "middle", "fill=\"#333333\"", mark);
    }
    for (value, mark) in panel.y.marks.iter().filter(|(at, _)| panel.y.shows(*at)) {
        let y = y(*value);
        straight(o, (left, y), (right, y), "#e4e4e4");
        text(o, left - 6.0, y + 4.0, "end", "fill=\"#333333\"", mark);
    }
    straight(o, (left, bottom), (right, bottom), "#333333");
    straight(o, (left, top), (left, bottom), "#333333");
    text(o, middle, bottom + 34.0, "middle", "", &panel.x.label);
    let turned = format!(
        "transform=\"rotate(-90 {:.1} {:.1})\"",
        at + 13.0,
        (top + bottom) / 2.0
    );
    text(
        o,
        at + 13.0,
        (top + bottom) / 2.0,
        "middle",
        &turned,
        &panel.y.label,
    );
    for series in &panel.series {
        let shown = |value: f64| value.clamp(panel.y.from, panel.y.to);
        for (&(value, _), &(least, most)) in series.points.iter().zip(&series.spread) {
            if panel.x.shows(value) {
                let x = x(value);
                straight(o, (x, y(shown(least))), (x, y(shown(most))), series.colour);
            }
        }
        let inside = |&&(a, b): &&(f64, f64)| panel.x.shows(a) && panel.y.shows(b);
        let places: Vec<(f64, f64)> = series
            .points
            .iter()
            .filter(inside)
            .map(|&(a, b)| (x(a), y(b)))
            .collect();
        match series.style {
            Style::Points => places
                .iter()
                .for_each(|&(x, y)| point(o, x, y, series.colour)),
            Style::Circles => places
                .iter()
                .for_each(|&(x, y)| circle(o, x, y, series.colour)),
            _ => line(o, &places, series),
        }
    }
}

fn straight(o: &mut String, from: (f64, f64), to: (f64, f64), colour: &str) {
    put(
        o,
        format!(
            "<line x1=\"{:.1}\" y1=\"{:.1}\" x2=\"{:.1}\" y2=\"{:.1}\" stroke=\"{colour}\"/>",
            from.0, from.1, to.0, to.1
        ),
    );
}

fn point(o: &mut String, x: f64, y: f64, colour: &str) {
    put(
        o,
        format!("<circle cx=\"{x:.1}\" cy=\"{y:.1}\" r=\"2.6\" fill=\"{colour}\"/>"),
    );
}

fn circle(o: &mut String, x: f64, y: f64, colour: &str) {
    put(
        o,
        format!(
            "<circle cx=\"{x:.1}\" cy=\"{y:.1}\" r=\"4.6\" fill=\"none\" stroke=\"{colour}\" \
             stroke-width=\"1.4\"/>"
        ),
    );
}

fn line(o: &mut String, places: &[(f64, f64)], series: &Series) {
    let mut path = String::new();
    for (i, (x, y)) in places.iter().enumerate() {
        let step = if i == 0 { 'M' } else { 'L' };
        // A String takes whatever is written to it.
        let _ = write!(path, "{step}{x:.1} {y:.1}");
    }
    let dashes = match series.style {
        Style::Dashes => " stroke-dasharray=\"7 4\"",
        Style::Dots => " stroke-dasharray=\"2 3\"",
        Style::Line | Style::Points | Style::Circles => "",
    };
    put(
        o,
        format!(
            "<path d=\"{path}\" fill=\"none\" stroke=\"{}\" stroke-width=\"1.8\"{dashes}/>",
            series.colour
        ),
    );
}

fn text(o: &mut String, x: f64, y: f64, anchor: &str, more: &str, words: &str) {
    let space = if more.is_empty() { "" } else { " " };
    put(
        o,
        format!(
            "<text x=\"{x:.1}\" y=\"{y:.1}\" text-anchor=\"{anchor}\"{space}{more}>{}</text>",
            escaped(words)
        ),
    );
}

fn escaped(words: &str) -> String {
    words
        .replace('&', "&amp;")
        .replace('<', "&lt;")
        .replace('>', "&gt;")
}
