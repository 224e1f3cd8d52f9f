//! What the benchmark measured, in several runs put together, and what may be claimed of it.

use super::data::{Data, Row, Set};
use super::plot::{svg, Axis, Panel, Scale, Series, Style, BLUE, GREY, ORANGE};
use super::text::{count, headed, joined};
use crate::row;

/// The runs of a benchmark put together: of each row the medians, and of the ratio the least and the
/// most too. Below 1 the engine is faster, in times and in speeds.
pub fn together(runs: &[Data]) -> Vec<Data> {
    const COLUMNS: &str = "list,call,against,unit,runs,engine,other,least,median,most";
    let mut rows = Vec::new();
    for first in runs[0].rows() {
        let keys = ["list", "call", "against", "unit"].map(|column| first.text(column));
        let [list, call, against, unit] = keys;
        let same: Vec<Row> = runs
            .iter()
            .flat_map(|run| run.with(&[("list", &list), ("call", &call), ("against", &against)]))
            .collect();
        assert_eq!(
            same.len(),
            runs.len(),
            "{list}, {call}: not once in each run"
        );
        let ratios = sorted(same.iter().map(|row| {
            let (engine, other) = (row.number("engine"), row.number("other"));
            match unit {
                "ns" => engine / other,
                _ => other / engine,
            }
        }));
        let median = |column: &str| {
            let values = sorted(same.iter().map(|row| row.number(column)));
            values[values.len() / 2]
        };
        let (engine, other) = (median("engine"), median("other"));
        rows.push(row![
            list,
            call,
            against,
            unit,
            runs.len(),
            format!("{engine:.2}"),
            format!("{other:.2}"),
            format!("{:.3}", ratios[0]),
            format!("{:.3}", ratios[ratios.len() / 2]),
            format!("{:.3}", ratios[ratios.len() - 1]),
        ]);
    }
    let (cost, speed) = rows.into_iter().partition(|row| row[1].starts_with("cost"));
    vec![
        Data::new("speed", COLUMNS, speed),
        Data::new("cost", COLUMNS, cost),
    ]
}

fn sorted(values: impl Iterator<Item = f64>) -> Vec<f64> {
    let mut values: Vec<f64> = values.collect();
    values.sort_by(f64::total_cmp);
    values
}

/// The data of each machine on which the benchmark was run: its name, and its files.
pub const MACHINES: [(&str, &str); 2] = [("EPYC", "speed_epyc"), ("Xeon", "speed_xeon")];

/// How many times as long a call may take since a machine's data was measured: the Xeon's is of
/// version 0.5, and two changes after it cost holds up to 1.04 and 1.05 in their medians, and other
/// calls up to 1.04 together.
fn since(machine: &str, call: &str) -> f64 {
    match machine {
        "Xeon" if call.starts_with("hold ") && !of_form(call) => 1.1,
        "Xeon" => 1.05,
        _ => 1.0,
    }
}

/// The cost by load, on one of them.
pub const COST: &str = "cost_epyc";

/// How many runs a claim takes, on each machine.
const RUNS: f64 = 5.0;

/// A table in Markdown of the calls that begin with a word, or nothing if there is no such table. A
/// refused hold stands in a table of its own.
pub fn table(name: &str, set: &Set) -> Option<String> {
    let wanted: fn(&str) -> bool = match name {
        "holds" => |call| call.starts_with("hold ") && !of_form(call) && !call.contains("refused"),
        "refused" => |call| call.contains("refused"),
        "lookups" => |call| {
            ["lookup", "release", "forecast"]
                .iter()
                .any(|w| call.starts_with(w))
        },
        "forms" => of_form,
        _ => return None,
    };
    let heads = MACHINES
        .map(|(machine, _)| format!("Ratio, {machine}"))
        .join(" | ");
    let (first, _) = MACHINES[0];
    let mut lines = vec![headed(&format!(
        "List | Call | Against | {first}: engine | other | {heads} | Claim"
    ))];
    for row in set.get(MACHINES[0].1).rows() {
        let [list, call, against] = ["list", "call", "against"].map(|column| row.text(column));
        if !wanted(call) {
            continue;
        }
        let words: Vec<String> = list.split(' ').map(spelt).collect();
        let mut cells = vec![words.join(" "), call.to_string(), against.to_string()];
        for column in ["engine", "other"] {
            cells.push(shown(row.number(column), row.text("unit")));
        }
        for (_, data) in MACHINES {
            let row = found(set, data, list, call, against);
            cells.push(row.map_or("–".to_string(), |row| ratio(&row)));
        }
        cells.push(claim(set, list, call, against).to_string());
        lines.push(joined(&cells));
    }
    Some(lines.join("\n"))
}

fn of_form(call: &str) -> bool {
    call.starts_with("hold file") || call.starts_with("packed form")
}

fn found<'a>(set: &'a Set, data: &str, list: &str, call: &str, against: &str) -> Option<Row<'a>> {
    let rows = set
        .get(data)
        .with(&[("list", &list), ("call", &call), ("against", &against)]);
    rows.first().copied()
}

/// The median of the ratio, and its spread.
fn ratio(row: &Row) -> String {
    let [least, median, most] = ["least", "median", "most"].map(|column| row.number(column));
    let places = if median >= 10.0 { 0 } else { 2 };
    format!("{median:.places$} ({least:.places$} to {most:.places$})")
}

/// What may be said of the engine: only what held in every run on every machine.
fn claim(set: &Set, list: &str, call: &str, against: &str) -> &'static str {
    let all = |holds: fn(&Row, f64) -> bool| {
        MACHINES.iter().all(|(machine, data)| {
            let row = found(set, data, list, call, against);
            let since = since(machine, call);
            row.map_or(false, |row| {
                row.number("runs") >= RUNS && holds(&row, since)
            })
        })
    };
    if all(|row, since| since * row.number("most") <= 1.0) {
        "not slower"
    } else if all(|row, _| row.number("least") > 1.0) {
        "slower"
    } else {
        "–"
    }
}

/// A time in a unit of its size, or a speed.
fn shown(value: f64, unit: &str) -> String {
    match unit {
        "ns" if value >= 1e6 => format!("{:.2} ms", value / 1e6),
        "ns" if value >= 1e3 => format!("{:.1} µs", value / 1e3),
        "ns" => format!("{value:.1} ns"),
        _ => format!("{} {unit}", count(value)),
    }
}

/// A word of a list's name, with commas where it is a long number.
fn spelt(word: &str) -> String {
    word.parse().map_or(word.to_string(), count)
}

/// A figure of the benchmark that the words of a template pick, or nothing if they pick none.
pub fn figure(words: &[&str], set: &Set) -> Option<String> {
    Some(match words {
        // The least and the most of the medians of the ratio, over the lists with such a call.
        ["ratios", machine, call, against] => {
            let rows = calls(set, machine, call, against)?;
            spread(rows.iter().map(|row| row.number("median")))
        }
        // The same of all single runs.
        ["runs", machine, call, against] => {
            let rows = calls(set, machine, call, against)?;
            let ends = rows
                .iter()
                .flat_map(|row| [row.number("least"), row.number("most")]);
            spread(ends)
        }
        // The engine's or the other's time on a list.
        ["time", machine, list, call, against, side] => {
            let rows = calls(set, machine, call, against)?;
            let row = rows.into_iter().find(|row| row.text("list") == *list)?;
            shown(row.number(side), row.text("unit"))
        }
        ["claims", what] => {
            let rows = set.get(MACHINES[0].1).rows().map(|row| {
                let [list, call, against] = ["list", "call", "against"].map(|c| row.text(c));
                claim(set, list, call, against)
            });
            let what = what.replace("none", "–");
            count(rows.filter(|claim| *claim == what).count() as f64)
        }
        _ => return None,
    })
}

/// The rows of a machine whose call begins so.
fn calls<'a>(set: &'a Set, machine: &str, call: &str, against: &str) -> Option<Vec<Row<'a>>> {
    let (_, data) = MACHINES.iter().find(|(name, _)| *name == machine)?;
    let rows = set.get(data).rows();
    let rows: Vec<Row> = rows
        .filter(|row| row.text("call").starts_with(call) && row.text("against") == against)
        .collect();
    (!rows.is_empty()).then(|| rows)
}

fn spread(values: impl Iterator<Item = f64> + Clone) -> String {
    let least = values.clone().fold(f64::INFINITY, f64::min);
    let most = values.fold(0.0, f64::max);
    format!("{least:.2} to {most:.2}")
}

/// The plot of the cost by load.
pub fn plot(set: &Set) -> String {
    let data = set.get(COST);
    let panel = |title: &str, rule: &str, call: &str, y: Axis| {
        let mut series = Vec::new();
        for (name, against, column, colour, style) in [
            ("the engine", "plain form", "engine", BLUE, Style::Line),
            (
                "the other implementation",
                "plain form",
                "other",
                GREY,
                Style::Dots,
            ),
            (
                "random displacement",
                "random displacement",
                "other",
                ORANGE,
                Style::Dashes,
            ),
        ] {
            let start = format!("cost of a {call} at ");
            let rows = data.with(&[("list", &rule), ("against", &against)]);
            let points = rows.iter().filter_map(|row| {
                let load = row.text("call").strip_prefix(&start)?.strip_suffix(" %")?;
                Some((load.parse().ok()?, row.number(column)))
            });
            series.push(Series::new(name, colour, style, points.collect()));
        }
        let loads = [
            (0.0, "0 %"),
            (25.0, "25 %"),
            (50.0, "50 %"),
            (75.0, "75 %"),
            (100.0, "100 %"),
        ];
        Panel {
            title: title.to_string(),
            x: Axis::new("filled cells", Scale::Linear, &loads),
            y,
            series,
        }
    };
    let holds = || {
        let marks = [
            (10.0, "10"),
            (20.0, "20"),
            (50.0, "50"),
            (100.0, "100"),
            (200.0, "200"),
            (500.0, "500"),
            (1_000.0, "1,000"),
            (2_000.0, "2,000"),
        ];
        Axis::new("ns", Scale::Log, &marks)
    };
    let lookups = [
        (0.0, "0"),
        (5.0, "5"),
        (10.0, "10"),
        (15.0, "15"),
        (20.0, "20"),
        (25.0, "25"),
        (30.0, "30"),
    ];
    svg(
        "Cost by load (65,536 buckets, width 16)",
        "A hold costs more as the list fills, by the engine, the other implementation and random \
         displacement alike, and under the masked rule later than under the plain one. The lookup of \
         a clear tag costs the same at every load.",
        &[
            panel("a hold, plain rule", "plain", "hold", holds()),
            panel("a hold, masked rule", "masked", "hold", holds()),
            panel(
                "a lookup, clear, plain rule",
                "plain",
                "lookup",
                Axis::new("ns", Scale::Linear, &lookups),
            ),
        ],
    )
}
