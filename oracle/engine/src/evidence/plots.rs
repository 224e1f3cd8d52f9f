//! The plots, each drawn from its data.

use super::data::{Row, Set};
use super::measure::{rule_name, RULES, WIDTH};
use super::plot::{svg, Axis, Panel, Scale, Series, Style, BLUE, GREEN, GREY, ORANGE};
use super::speed;

/// What draws a plot.
type Drawn = fn(&Set) -> String;

/// Every plot: the name of its file, and what draws it.
pub const ALL: [(&str, Drawn); 5] = [
    ("held_by_chance", held_by_chance),
    ("first_refusal", first_refusal),
    ("moves", moves),
    ("space", space),
    ("cost", speed::plot),
];

/// The name of a plot's file.
pub fn file(name: &str) -> String {
    format!("{name}.svg")
}

const COLOURS: [&str; 3] = [BLUE, ORANGE, GREEN];

fn colour(rule: u32) -> &'static str {
    COLOURS[rule as usize]
}

/// The plain rule and the ring rule often have the same values: the one has circles round the points
/// of the other.
fn mark(rule: u32) -> Style {
    if rule == 0 {
        Style::Circles
    } else {
        Style::Points
    }
}

/// Marks of an axis in percent.
const PERCENTS: [(f64, &str); 6] = [
    (0.0, "0 %"),
    (20.0, "20 %"),
    (40.0, "40 %"),
    (60.0, "60 %"),
    (80.0, "80 %"),
    (100.0, "100 %"),
];

/// Marks of an axis of bucket counts.
const COUNTS: [(f64, &str); 5] = [
    (16.0, "16"),
    (128.0, "128"),
    (1_024.0, "1,024"),
    (8_192.0, "8,192"),
    (65_536.0, "65,536"),
];

/// A series of points, one for each row.
fn points(rows: &[Row], point: impl Fn(&Row) -> (f64, f64)) -> Vec<(f64, f64)> {
    rows.iter().map(point).collect()
}

/// The share of lookups in all lists.
fn share(row: &Row) -> f64 {
    row.number("held") / row.number("lists") / row.number("lookups")
}

fn share_of_list(row: &Row, column: &str) -> f64 {
    row.number(column) / row.number("lookups")
}

const SHARES: [(f64, &str); 5] = [
    (1e-5, "0.001 %"),
    (1e-4, "0.01 %"),
    (1e-3, "0.1 %"),
    (1e-2, "1 %"),
    (1e-1, "10 %"),
];

fn held_by_chance(set: &Set) -> String {
    let data = set.get("held_by_chance");
    let mut by_width = Vec::new();
    let mut by_load = Vec::new();
    for rule in RULES {
        let name = rule_name(rule);
        let rows = data.with(&[("rule", &name), ("percent", &50)]);
        let spread = points(&rows, |r| {
            (share_of_list(r, "least"), share_of_list(r, "most"))
        });
        let measured = points(&rows, |r| (r.number("width"), share(r)));
        let style = mark(rule);
        by_width.push(Series::new(name, colour(rule), style, measured).with_spread(spread));
        let expected = points(&rows, |r| (r.number("width"), r.number("expected")));
        by_width.push(Series::new("expected", GREY, Style::Dots, expected));
        for width in [8, 12, 16] {
            let rows = data.with(&[("rule", &name), ("width", &width)]);
            let spread = points(&rows, |r| {
                (share_of_list(r, "least"), share_of_list(r, "most"))
            });
            let measured = points(&rows, |r| (r.number("percent"), share(r)));
            by_load.push(Series::new(name, colour(rule), style, measured).with_spread(spread));
            let expected = points(&rows, |r| (r.number("percent"), r.number("expected")));
            by_load.push(Series::new("expected", GREY, Style::Dots, expected));
        }
    }
    let shares = || Axis::new("read held", Scale::Log, &SHARES).between(2e-5, 0.5);
    let widths: Vec<(f64, String)> = (4..=16).map(|w| (f64::from(w), w.to_string())).collect();
    let widths: Vec<(f64, &str)> = widths.iter().map(|(at, t)| (*at, t.as_str())).collect();
    svg(
        "Tags that were never held and read held",
        "On the left by width at half load, on the right by load at widths 8, 12 and 16. The share \
         halves with each bit of the width, grows in proportion to the load, is twice as large under \
         the masked rule as under the other two, and lies on the expected value throughout.",
        &[
            Panel {
                title: "by width, at 50 % load".to_string(),
                x: Axis::new("bits of a fingerprint", Scale::Linear, &widths).between(3.5, 16.5),
                y: shares(),
                series: by_width,
            },
            Panel {
                title: "by load, at widths 8, 12 and 16 from above".to_string(),
                x: Axis::new("filled cells", Scale::Linear, &PERCENTS),
                y: shares(),
                series: by_load,
            },
        ],
    )
}

/// A number of entries of the row as a share of its cells, in percent.
fn load(row: &Row, column: &str) -> f64 {
    100.0 * row.number(column) / row.number("buckets") / 4.0
}

/// The rows of powers of two alone.
fn powers<'a>(rows: Vec<Row<'a>>) -> Vec<Row<'a>> {
    let power = |r: &Row| (r.number("buckets") as u32).is_power_of_two();
    rows.into_iter().filter(power).collect()
}

fn first_refusal(set: &Set) -> String {
    let data = set.get("first_refusal");
    let panel = |tags: &str, title: &str, from: f64, marks: &[(f64, &str)]| {
        let mut series = Vec::new();
        for rule in RULES {
            let name = rule_name(rule);
            let rows = powers(data.with(&[("tags", &tags), ("rule", &name), ("width", &WIDTH)]));
            for (what, style, columns) in [
                ("", Style::Line, ["least", "median", "most"]),
                (
                    ", random displacement",
                    Style::Dashes,
                    ["kick least", "kick median", "kick most"],
                ),
            ] {
                let [least, median, most] = columns;
                // Each rule a little to the side, so that no spread covers another.
                let aside = [0.96, 1.0, 1.04][rule as usize];
                let spread = points(&rows, |r| (load(r, least), load(r, most)));
                let medians = points(&rows, |r| (aside * r.number("buckets"), load(r, median)));
                let name = format!("{name}{what}");
                series.push(Series::new(&name, colour(rule), style, medians).with_spread(spread));
            }
        }
        Panel {
            title: title.to_string(),
            x: Axis::new("buckets", Scale::Log, &COUNTS).between(14.0, 75_000.0),
            y: Axis::new("load at the first refusal", Scale::Linear, marks).between(from, 101.0),
            series,
        }
    };
    let close = [
        (84.0, "84 %"),
        (88.0, "88 %"),
        (92.0, "92 %"),
        (96.0, "96 %"),
        (100.0, "100 %"),
    ];
    svg(
        "How full a list gets before the first tag finds no room (width 12)",
        "Median, least and most of the lists. On the left tags that differ throughout: the plain and \
         the ring rule come close to full, the masked rule closer still, and random displacement \
         gives up earlier under each. On the right tags that count up: lists are full much earlier, \
         those of a thousand buckets earliest, and under the masked rule last.",
        &[
            panel("differ", "tags that differ throughout", 84.0, &close),
            panel("count up", "tags that count up", 0.0, &PERCENTS),
        ],
    )
}

fn moves(set: &Set) -> String {
    let data = set.get("moves");
    const BUCKETS: u32 = 65_536;
    let (mut means, mut longest) = (Vec::new(), Vec::new());
    for rule in RULES {
        let name = rule_name(rule);
        let rows = data.with(&[("rule", &name), ("buckets", &BUCKETS)]);
        for (what, style, [holds, moves, most]) in [
            ("", Style::Line, ["holds", "moves", "longest"]),
            (
                ", random displacement",
                Style::Dashes,
                ["kick holds", "kicks", "kicks longest"],
            ),
        ] {
            let filled: Vec<Row> = rows
                .iter()
                .copied()
                .filter(|r| r.number(holds) > 0.0)
                .collect();
            let name = format!("{name}{what}");
            let middle = |r: &Row| r.number("percent") + 0.5;
            let mean = points(&filled, |r| (middle(r), r.number(moves) / r.number(holds)));
            means.push(Series::new(&name, colour(rule), style, mean));
            let most = points(&filled, |r| (middle(r), r.number(most)));
            longest.push(Series::new(&name, colour(rule), style, most));
        }
    }
    let loads = || {
        let marks = [
            (50.0, "50 %"),
            (60.0, "60 %"),
            (70.0, "70 %"),
            (80.0, "80 %"),
            (90.0, "90 %"),
            (100.0, "100 %"),
        ];
        Axis::new("filled cells before the hold", Scale::Linear, &marks)
    };
    let numbers = |label: &str, from: f64, to: f64| {
        let marks = [
            (0.01, "0.01"),
            (0.1, "0.1"),
            (1.0, "1"),
            (10.0, "10"),
            (100.0, "100"),
        ];
        let marks: Vec<(f64, &str)> = marks.into_iter().filter(|(at, _)| *at >= from).collect();
        Axis::new(label, Scale::Log, &marks).between(from, to)
    };
    svg(
        "Entries that move for one hold (65,536 buckets, width 16)",
        "By load, until the first refusal: on the left the mean, on the right the most. The engine \
         makes the fewest moves that there can be; random displacement makes many times as many where \
         a list is nearly full.",
        &[
            Panel {
                title: "mean".to_string(),
                x: loads(),
                y: numbers("moves for a hold", 0.01, 100.0),
                series: means,
            },
            Panel {
                title: "longest".to_string(),
                x: loads(),
                y: numbers("moves for a hold", 0.9, 600.0),
                series: longest,
            },
        ],
    )
}

/// Bits of the table for each entry of a full list.
fn full_bits(row: &Row) -> f64 {
    64.0 * row.number("buckets") / row.number("median")
}

fn space(set: &Set) -> String {
    let mut full = Vec::new();
    for (rule, name, style) in [
        (1, "ring, any even count", Style::Line),
        (0, "plain, powers of two", Style::Circles),
        (2, "masked, powers of two", Style::Points),
    ] {
        let data = set.get("first_refusal");
        let rows = data.with(&[
            ("tags", &"differ"),
            ("rule", &rule_name(rule)),
            ("width", &WIDTH),
        ]);
        let bits = points(&rows, |r| (r.number("buckets"), full_bits(r)));
        full.push(Series::new(name, colour(rule), style, bits));
    }
    let mut least = Vec::new();
    for (rule, name) in [(0, "plain, smallest list"), (1, "ring, smallest list")] {
        let rows = set.get("space").with(&[("rule", &rule_name(rule))]);
        let bits = points(&rows, |r| {
            let bits = 8.0 * r.number("table bytes") / r.number("entries");
            (r.number("entries"), bits)
        });
        least.push(Series::new(name, colour(rule), Style::Line, bits));
    }
    let bits = |marks: &[(f64, &str)]| Axis::new("bits for an entry", Scale::Linear, marks);
    let close = [
        (16.0, "16.0"),
        (16.1, "16.1"),
        (16.2, "16.2"),
        (16.3, "16.3"),
        (16.4, "16.4"),
    ];
    let wide = [
        (16.0, "16"),
        (20.0, "20"),
        (24.0, "24"),
        (28.0, "28"),
        (32.0, "32"),
    ];
    let entries = [
        (1_000.0, "1,000"),
        (4_000.0, "4,000"),
        (16_000.0, "16,000"),
        (64_000.0, "64,000"),
        (256_000.0, "256,000"),
    ];
    svg(
        "Bits of the table for an entry (width 12, tags that differ throughout)",
        "On the left of a full list, by bucket count: little more than the 16 bits of a cell under \
         every rule, and the ring rule has counts between the powers of two. On the right of the \
         smallest list for a number of entries: with powers of two it falls from twice the space to \
         what the entries need, again and again, and under the ring rule it stays there.",
        &[
            Panel {
                title: "a full list, by bucket count".to_string(),
                x: Axis::new("buckets", Scale::Log, &COUNTS).between(14.0, 75_000.0),
                y: bits(&close).between(15.95, 16.45),
                series: full,
            },
            Panel {
                title: "the smallest list for so many entries".to_string(),
                x: Axis::new("entries", Scale::Log, &entries).between(950.0, 280_000.0),
                y: bits(&wide).between(15.0, 34.0),
                series: least,
            },
        ],
    )
}
