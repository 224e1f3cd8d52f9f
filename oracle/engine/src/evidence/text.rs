//! The text of the evidence: a template in which every figure that was measured stands as braces with
//! the words that pick it out of the data. So no figure is typed, and none is older than the data.

use super::data::{Data, Row, Set};
use super::measure::{rule_name, RULES, WIDTH};
use super::speed;
use std::fmt::Display;

/// The template with its figures in place, or what is wrong with it.
pub fn rendered(template: &str, set: &Set) -> Result<String, String> {
    let mut out = String::new();
    let mut rest = template;
    while let Some(open) = rest.find('{') {
        let close = open + rest[open..].find('}').ok_or("a brace is not closed")?;
        out.push_str(&rest[..open]);
        let words: Vec<&str> = rest[open + 1..close].split_whitespace().collect();
        out.push_str(&figure(&words, set).map_err(|e| format!("{}: {e}", words.join(" ")))?);
        rest = &rest[close + 1..];
    }
    out.push_str(rest);
    Ok(out)
}

/// A page in which a section, from its heading to the next one of its kind, is another.
pub fn with_section(page: &str, section: &str) -> Result<String, String> {
    let heading = section.lines().next().unwrap_or_default();
    let start = page
        .find(&format!("{heading}\n"))
        .ok_or("the section is not there")?;
    let rest = &page[start + heading.len()..];
    let end = rest.find("\n## ").map_or(rest.len(), |at| at + 1);
    Ok([&page[..start], section, &rest[end..]].concat())
}

/// What the words in braces stand for. A low line in them is a blank in the data.
fn figure(words: &[&str], set: &Set) -> Result<String, String> {
    let words: Vec<String> = words.iter().map(|word| word.replace('_', " ")).collect();
    let words: Vec<&str> = words.iter().map(String::as_str).collect();
    let data = |name| set.get(name);
    Ok(match words[..] {
        ["table", name] => table(name, set)?,
        // What all rows have in a column, such as how many lists there were.
        ["each", name, column] => {
            let mut values: Vec<&str> = data(&name.replace(' ', "_"))
                .rows()
                .map(|row| row.text(column))
                .collect();
            values.dedup();
            match values[..] {
                [one] => count(one.parse().map_err(|_| "no number")?),
                _ => return Err("it is not the same in all rows".to_string()),
            }
        }
        ["chance", rule, width, load] => percent(share(&chance(set, rule, width, load)?)),
        ["expected", rule, width, load] => {
            percent(chance(set, rule, width, load)?.number("expected"))
        }
        // The furthest that a measured share lies from the expected one, where as many as this read held.
        ["furthest", least] => {
            let least: f64 = least.parse().map_err(|_| "no number")?;
            let rows = data("held_by_chance").rows();
            let sure = rows.filter(|r| r.number("held") >= least);
            let away = sure.map(|r| (share(&r) / r.number("expected") - 1.0).abs());
            percent(away.fold(0.0, f64::max))
        }
        ["load", tags, rule, width, buckets, column] => {
            load(&filled(set, tags, rule, width, buckets)?, column)
        }
        ["whole", tags, rule, width, buckets, column] => {
            part(loaded(&filled(set, tags, rule, width, buckets)?, column), 0)
        }
        ["finely", tags, rule, width, buckets, column] => {
            part(loaded(&filled(set, tags, rule, width, buckets)?, column), 2)
        }
        ["lists", tags, rule, width, buckets] => {
            count(filled(set, tags, rule, width, buckets)?.number("lists"))
        }
        // The least and the most of a load over the bucket counts from one on.
        ["loads", tags, rule, width, from, column] => {
            let from: f64 = from.parse().map_err(|_| "no number")?;
            let rows =
                data("first_refusal").with(&[("tags", &tags), ("rule", &rule), ("width", &width)]);
            let rows = rows.iter().filter(|r| r.number("buckets") >= from);
            range(rows.map(|r| loaded(r, column)))
        }
        // The load of a ring whose half has factors in common with the offsets.
        ["split", width, buckets, column] => {
            load(&filled(set, "differ", "ring", width, buckets)?, column)
        }
        // Lists of tags that differ in which a held tag was lost, and all such lists, at a width.
        ["lost", width] => {
            let rows = data("first_refusal").with(&[("tags", &"differ"), ("width", &width)]);
            count(rows.iter().map(|r| r.number("lost")).sum())
        }
        ["filled", width] => {
            let rows = data("first_refusal").with(&[("tags", &"differ"), ("width", &width)]);
            count(rows.iter().map(|r| r.number("lists")).sum())
        }
        ["herds", tags, rule, width, column] => {
            let keys: [(&str, &dyn Display); 3] =
                [("tags", &tags), ("rule", &rule), ("width", &width)];
            hundredths(one(data("herds"), &keys)?.number(column))
        }
        ["moves", rule, load, side, what] => moves(set, rule, load, side, what)?,
        ["offered", rule, what] => offered(set, rule, what)?,
        ["bits", rule, entries, form] => bits(set, rule, entries, form)?,
        // How many times as much the power of two takes, at most.
        ["inflation"] => {
            let rows = data("space").with(&[("rule", &"plain")]);
            let ratios = rows.iter().map(|plain| {
                let keys: [(&str, &dyn Display); 2] =
                    [("rule", &"ring"), ("entries", &plain.text("entries"))];
                Ok(plain.number("buckets") / one(data("space"), &keys)?.number("buckets"))
            });
            let ratios: Result<Vec<f64>, String> = ratios.collect();
            format!("{:.2}", ratios?.into_iter().fold(0.0, f64::max))
        }
        ["flips", form, rule, part, column] => {
            let keys: [(&str, &dyn Display); 3] =
                [("form", &form), ("rule", &rule), ("part", &part)];
            count(one(data("flipped_bits"), &keys)?.number(column))
        }
        // Over all parts of the hold files of all rules.
        ["flips", column] => {
            let rows = data("flipped_bits").with(&[("form", &"hold file")]);
            count(rows.iter().map(|r| r.number(column)).sum())
        }
        _ => speed::figure(&words, set).ok_or("nothing has this name")?,
    })
}

/// The one row with these values.
fn one<'a>(data: &'a Data, keys: &[(&str, &dyn Display)]) -> Result<Row<'a>, String> {
    match data.with(keys)[..] {
        [row] => Ok(row),
        ref rows => Err(format!("{} rows of {}", rows.len(), data.name)),
    }
}

/// A share as a percentage of three figures.
fn percent(share: f64) -> String {
    let percent = 100.0 * share;
    let places = match percent {
        p if p >= 9.995 => 1,
        p if p >= 0.9995 => 2,
        p if p >= 0.09995 => 3,
        _ => 4,
    };
    format!("{percent:.places$}")
}

/// A part of a hundred, rounded, but never to the whole: what is not full is not told as full.
fn part(percent: f64, places: usize) -> String {
    let rounded = format!("{percent:.places$}");
    if percent < 100.0 && rounded.starts_with("100") {
        let scale = f64::powi(10.0, places as i32);
        return format!("{:.places$}", (percent * scale).floor() / scale);
    }
    rounded
}

/// How much of the cells of a row is filled, in percent.
fn loaded(row: &Row, column: &str) -> f64 {
    100.0 * row.number(column) / row.number("buckets") / 4.0
}

fn load(row: &Row, column: &str) -> String {
    part(loaded(row, column), 1)
}

/// Hundredths of a percent as percent.
fn hundredths(value: f64) -> String {
    format!("{:.2}", value / 100.0)
}

/// The least and the most of some percentages.
fn range(values: impl Iterator<Item = f64> + Clone) -> String {
    let least = values.clone().fold(f64::INFINITY, f64::min);
    let most = values.fold(0.0, f64::max);
    format!("{} to {}", part(least, 1), part(most, 1))
}

/// A whole number with a comma between thousands.
pub fn count(value: f64) -> String {
    let digits = format!("{value:.0}");
    let mut out = String::new();
    for (i, digit) in digits.chars().enumerate() {
        if i > 0 && (digits.len() - i) % 3 == 0 {
            out.push(',');
        }
        out.push(digit);
    }
    out
}

fn share(row: &Row) -> f64 {
    row.number("held") / row.number("lists") / row.number("lookups")
}

fn chance<'a>(
    set: &'a Set,
    rule: impl Display,
    width: impl Display,
    load: impl Display,
) -> Result<Row<'a>, String> {
    let keys: [(&str, &dyn Display); 3] = [("rule", &rule), ("width", &width), ("percent", &load)];
    one(set.get("held_by_chance"), &keys)
}

fn filled<'a>(
    set: &'a Set,
    tags: &str,
    rule: impl Display,
    width: impl Display,
    buckets: impl Display,
) -> Result<Row<'a>, String> {
    let keys: [(&str, &dyn Display); 4] = [
        ("tags", &tags),
        ("rule", &rule),
        ("width", &width),
        ("buckets", &buckets),
    ];
    one(set.get("first_refusal"), &keys)
}

/// The mean or the most moves at a load, of the engine or of random displacement.
fn moves(set: &Set, rule: &str, load: &str, side: &str, what: &str) -> Result<String, String> {
    let keys: [(&str, &dyn Display); 3] =
        [("rule", &rule), ("buckets", &65_536), ("percent", &load)];
    let row = one(set.get("moves"), &keys)?;
    let [holds, moves, longest] = match side {
        "engine" => ["holds", "moves", "longest"],
        "kicks" => ["kick holds", "kicks", "kicks longest"],
        _ => return Err("no such side".to_string()),
    };
    if row.number(holds) == 0.0 {
        return Ok("–".to_string());
    }
    Ok(match what {
        "mean" => format!("{:.2}", row.number(moves) / row.number(holds)),
        "longest" => count(row.number(longest)),
        _ => return Err("no such figure".to_string()),
    })
}

fn offered(set: &Set, rule: &str, what: &str) -> Result<String, String> {
    let keys: [(&str, &dyn Display); 2] = [("rule", &rule), ("buckets", &16_384)];
    let row = one(set.get("offered"), &keys)?;
    let stored = |column| part(100.0 * row.number(column) / row.number("offered"), 2);
    Ok(match what {
        "stored" => stored("stored"),
        "kick stored" => stored("kick stored"),
        "moves" => format!("{:.2}", row.number("moves") / row.number("stored")),
        "kicks" => format!("{:.2}", row.number("kicks") / row.number("offered")),
        _ => return Err("no such figure".to_string()),
    })
}

/// Bits for an entry in one of the forms, or how many buckets there are.
fn bits(set: &Set, rule: &str, entries: &str, form: &str) -> Result<String, String> {
    let keys: [(&str, &dyn Display); 2] = [("rule", &rule), ("entries", &entries)];
    let row = one(set.get("space"), &keys)?;
    if form == "buckets" {
        return Ok(count(row.number(form)));
    }
    let bytes = row.number(&format!("{form} bytes"));
    Ok(format!("{:.2}", 8.0 * bytes / row.number("entries")))
}

/// A table in Markdown.
fn table(name: &str, set: &Set) -> Result<String, String> {
    let mut lines = Vec::new();
    match name {
        "chance" => {
            lines.push(headed(
                "Width | Load | plain | ring | expected of both | masked | expected",
            ));
            for width in [4, 6, 8, 10, 12, 14, 16] {
                for load in [50, 95] {
                    let mut cells = vec![width.to_string(), format!("{load} %")];
                    let shown = |row: Result<Row, String>, of: fn(&Row) -> f64| {
                        // A list that does not get so full has no row.
                        row.map_or("–".to_string(), |r| percent(of(&r)))
                    };
                    let wanted = |row: &Row| row.number("expected");
                    cells.push(shown(chance(set, "plain", width, load), share));
                    cells.push(shown(chance(set, "ring", width, load), share));
                    cells.push(shown(chance(set, "plain", width, load), wanted));
                    cells.push(shown(chance(set, "masked", width, load), share));
                    cells.push(shown(chance(set, "masked", width, load), wanted));
                    lines.push(joined(&cells));
                }
            }
        }
        "loads" => {
            let counts = [64, 256, 1_024, 4_096, 16_384, 65_536];
            let heads: Vec<String> = counts.iter().map(|&m| count(f64::from(m))).collect();
            lines.push(headed(&format!("Tags | Rule | {}", heads.join(" | "))));
            for tags in ["differ", "count up", "backwards"] {
                for rule in RULES.map(rule_name) {
                    for (what, columns) in [
                        ("", ["median", "least", "most"]),
                        (", random", ["kick median", "kick least", "kick most"]),
                    ] {
                        let mut cells = vec![tags.to_string(), format!("{rule}{what}")];
                        for buckets in counts {
                            let row = filled(set, tags, rule, WIDTH, buckets)?;
                            let [median, least, most] = columns.map(|c| load(&row, c));
                            cells.push(format!("{median} ({least} to {most})"));
                        }
                        lines.push(joined(&cells));
                    }
                }
            }
        }
        "widths" => {
            let counts = [256, 4_096, 65_536];
            let heads = RULES.map(rule_name).map(|rule| {
                let heads = counts.map(|m| format!("{rule}, {}", count(f64::from(m))));
                heads.join(" | ")
            });
            lines.push(headed(&format!("Width | {}", heads.join(" | "))));
            for width in [4, 5, 6, 7, 8, 10, 12, 14, 16] {
                let mut cells = vec![width.to_string()];
                for rule in RULES.map(rule_name) {
                    for buckets in counts {
                        let row = filled(set, "differ", rule, width, buckets)?;
                        cells.push(load(&row, "least"));
                    }
                }
                lines.push(joined(&cells));
            }
        }
        "moves" => {
            let heads = RULES.map(|rule| {
                let name = rule_name(rule);
                format!("{name} | {name}, random")
            });
            lines.push(headed(&format!("Load | {}", heads.join(" | "))));
            for load in ["50", "70", "80", "90", "95", "96", "97", "99"] {
                let mut cells = vec![format!("{load} %")];
                for rule in RULES.map(rule_name) {
                    for side in ["engine", "kicks"] {
                        let mean = moves(set, rule, load, side, "mean")?;
                        let longest = moves(set, rule, load, side, "longest")?;
                        cells.push(match mean.as_str() {
                            "–" => mean,
                            _ => format!("{mean}, {longest}"),
                        });
                    }
                }
                lines.push(joined(&cells));
            }
        }
        "offered" => {
            lines.push(headed(
                "Rule | Held | Held, random | Moves for a hold | Kicks for a tag, random",
            ));
            for rule in RULES.map(rule_name) {
                let mut cells = vec![rule.to_string()];
                cells.push(format!("{} %", offered(set, rule, "stored")?));
                cells.push(format!("{} %", offered(set, rule, "kick stored")?));
                cells.push(offered(set, rule, "moves")?);
                cells.push(offered(set, rule, "kicks")?);
                lines.push(joined(&cells));
            }
        }
        "space" => {
            lines.push(headed(
                "Entries | plain, buckets | bits | ring, buckets | bits | packed, bits | hold file, bits",
            ));
            for entries in [
                "1000", "2000", "2828", "4000", "8000", "16000", "22627", "32000", "64000",
                "128000", "181019", "256000",
            ] {
                let mut cells = vec![count(entries.parse().expect("a number"))];
                for (rule, form) in [
                    ("plain", "buckets"),
                    ("plain", "table"),
                    ("ring", "buckets"),
                    ("ring", "table"),
                    ("ring", "packed"),
                    ("ring", "file"),
                ] {
                    cells.push(bits(set, rule, entries, form)?);
                }
                lines.push(joined(&cells));
            }
        }
        "herds" => {
            lines.push(headed(
                "Width | plain | ring | masked | plain, backwards | ring, backwards | masked, backwards",
            ));
            for width in [8, 10, 11, 12, 13, 14, 15, 16] {
                let mut cells = vec![width.to_string()];
                for tags in ["count up", "backwards"] {
                    for rule in RULES.map(rule_name) {
                        let keys: [(&str, &dyn Display); 3] =
                            [("tags", &tags), ("rule", &rule), ("width", &width)];
                        let row = one(set.get("herds"), &keys)?;
                        let [least, most] = ["least", "most"].map(|c| hundredths(row.number(c)));
                        cells.push(format!("{least} to {most}"));
                    }
                }
                lines.push(joined(&cells));
            }
        }
        "flips" => {
            lines.push(headed(
                "Form | Rule | Where the bit is | Bits | Refused | With | Accepted | No held tag lost | Most held tags lost",
            ));
            for row in set.get("flipped_bits").rows() {
                let mut cells = vec![row.text("form").to_string(), row.text("rule").to_string()];
                cells.push(row.text("part").to_string());
                for column in ["flips", "refused"] {
                    cells.push(count(row.number(column)));
                }
                cells.push(match row.text("numbers") {
                    "" => "–".to_string(),
                    numbers => numbers.replace(' ', ", "),
                });
                cells.push(count(row.number("accepted")));
                for column in ["unharmed", "most cleared"] {
                    cells.push(match row.number("accepted") {
                        a if a == 0.0 => "–".to_string(),
                        _ => count(row.number(column)),
                    });
                }
                lines.push(joined(&cells));
            }
        }
        "spellings" => {
            lines.push(headed("The tag is looked up | Of as many | Read held"));
            for row in set.get("spellings").rows() {
                let cells = [
                    row.text("spelling").to_string(),
                    count(row.number("tags")),
                    count(row.number("held")),
                ];
                lines.push(joined(&cells));
            }
        }
        _ => return speed::table(name, set).ok_or_else(|| "there is no such table".to_string()),
    }
    Ok(lines.join("\n"))
}

/// Where the table of loads starts in the Rust crate's source, of which it is the last part.
const LOADS: &str = "const LOADS: [[[u16; 17]; 13]; 3] = [";

/// The source that has the table of loads, with the loads of the data: by rule, width and power of two
/// the least of the lists with tags that differ, in thousandths of the cells, rounded down.
pub fn with_loads(source: &str, set: &Set) -> Result<String, String> {
    let start = source
        .find(LOADS)
        .ok_or("the table of loads is not there")?;
    let mut lines = vec![LOADS.to_string()];
    for rule in RULES {
        let name = rule_name(rule);
        lines.push(format!("    // rule {rule}, {name}\n    ["));
        for width in 4..=16 {
            let loads = (0..=16).map(|log| {
                // A rule that does not take so few buckets has no row.
                filled(set, "differ", name, width, 1u32 << log).map_or(0, |row| {
                    (250.0 * row.number("least") / row.number("buckets")) as u32
                })
            });
            let loads: Vec<String> = loads.map(|load| format!("{load:4}")).collect();
            lines.push(format!("        [{}], // width {width}", loads.join(", ")));
        }
        lines.push("    ],".to_string());
    }
    lines.push("];\n".to_string());
    Ok([&source[..start], &lines.join("\n")].concat())
}

/// The head of a table, with the line below it.
pub fn headed(heads: &str) -> String {
    let columns = heads.split(" | ").count();
    format!("| {heads} |\n|{}", "---|".repeat(columns))
}

pub fn joined(cells: &[String]) -> String {
    format!("| {} |", cells.join(" | "))
}
