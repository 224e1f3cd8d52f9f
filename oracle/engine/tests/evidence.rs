//! What the pages of figures rest on: that a figure is picked out of the data and nothing else, that a
//! row which was measured otherwise is seen, and what may be claimed of a benchmark.

use engine::evidence::data::{Data, Set};
use engine::evidence::plot::{svg, Axis, Panel, Scale, Series, Style, BLUE};
use engine::evidence::speed::{self, together, MACHINES};
use engine::evidence::text::{count, rendered, with_section};

const FILLED: &str =
    "tags,rule,width,buckets,lists,least,median,most,kick least,kick median,kick most,lost
differ,plain,12,256,1000,978,1004,1019,975,998,1015,995
differ,plain,12,512,512,1978,2009,2030,1962,1992,2023,511
count up,ring,12,256,8,159,182,190,159,182,190,2
";

fn filled() -> Set {
    Set(vec![Data::of("first_refusal", FILLED)])
}

#[test]
fn a_figure_is_picked_out_of_the_data() {
    let text = |template| rendered(template, &filled());
    // 978 of 1,024 cells
    assert_eq!(
        text("a {load differ plain 12 256 least} b"),
        Ok("a 95.5 b".to_string())
    );
    assert_eq!(
        text("{finely differ plain 12 256 least}"),
        Ok("95.51".to_string())
    );
    assert_eq!(
        text("{whole count_up ring 12 256 least}"),
        Ok("16".to_string())
    );
    assert_eq!(
        text("{lost 12} of {filled 12}"),
        Ok("1,506 of 1,512".to_string())
    );
    assert_eq!(
        text("{loads differ plain 12 256 median}"),
        Ok("98.0 to 98.1".to_string())
    );
    assert_eq!(text("none"), Ok("none".to_string()));
    // what is not there is not made up
    for bad in [
        "{load differ plain 12 1024 least}",
        "{load differ plain 13 256 least}",
        "{nothing}",
        "{}",
        "{table nothing}",
        "{each first_refusal lists}",
        "{load differ plain 12 256 least",
    ] {
        assert!(text(bad).is_err(), "{bad}");
    }
}

#[test]
fn what_is_not_full_is_not_told_as_full() {
    // of 262,144 cells all but one, and all
    let rows = FILLED.lines().next().unwrap().to_string()
        + "\ndiffer,masked,12,65536,4,262143,262144,262144,1,1,1,0\n";
    let set = Set(vec![Data::of("first_refusal", &rows)]);
    for (figure, least, most) in [
        ("load", "99.9", "100.0"),
        ("finely", "99.99", "100.00"),
        ("whole", "99", "100"),
    ] {
        let of = |column| {
            rendered(
                &format!("{{{figure} differ masked 12 65536 {column}}}"),
                &set,
            )
        };
        assert_eq!(
            (of("least"), of("most")),
            (Ok(least.to_string()), Ok(most.to_string()))
        );
    }
}

#[test]
fn numbers_have_commas() {
    for (number, shown) in [
        (0.0, "0"),
        (999.0, "999"),
        (1e3, "1,000"),
        (1_234_567.0, "1,234,567"),
    ] {
        assert_eq!(count(number), shown);
    }
}

#[test]
fn a_section_takes_the_place_of_the_one_of_its_heading() {
    let page = "# A\n\none\n\n## B\n\nold\n\n## C\n\nthree\n";
    let with = with_section(page, "## B\n\nnew\n\n");
    assert_eq!(
        with,
        Ok("# A\n\none\n\n## B\n\nnew\n\n## C\n\nthree\n".to_string())
    );
    let last = with_section(page, "## C\nnew\n");
    assert_eq!(
        last,
        Ok("# A\n\none\n\n## B\n\nold\n\n## C\nnew\n".to_string())
    );
    assert!(with_section(page, "## D\nnew\n").is_err());
}

#[test]
fn a_row_that_was_measured_otherwise_is_seen() {
    let kept = Data::of("first_refusal", FILLED);
    assert_eq!(kept.text(), FILLED);
    let again = |text: &str| Data::of("first_refusal", text).missing_in(&kept);
    assert!(again(FILLED).is_empty());
    // some of the rows are enough, and one cell is too much
    let some: Vec<&str> = FILLED.lines().take(2).collect();
    assert!(again(&some.join("\n")).is_empty());
    let other = FILLED.replace("512,1978", "512,1979");
    assert_eq!(again(&other).len(), 1);
    assert!(again(&other)[0].starts_with("differ,plain,12,512,512,1979,"));
}

/// The data of a run in which one call took the engine so long, and the others 100.
fn run(engine: f64) -> Data {
    let text = format!(
        "list,call,against,unit,engine,other\n\
         plain 65536,release,plain form,ns,{engine:.2},100.00\n\
         plain 65536,hold file read,plain form,MB/s,{engine:.2},100.00\n\
         plain,cost of a hold at 5 %,plain form,ns,{engine:.2},100.00\n"
    );
    Data::of("run", &text)
}

#[test]
fn runs_are_put_together_with_their_spread() {
    let runs = [90.0, 80.0, 125.0, 95.0, 85.0].map(run);
    let data = together(&runs);
    let lines: Vec<String> = data.iter().map(Data::text).collect();
    let head = "list,call,against,unit,runs,engine,other,least,median,most\n";
    // of a speed the ratio is turned round
    let speed = "plain 65536,release,plain form,ns,5,90.00,100.00,0.800,0.900,1.250\n\
                 plain 65536,hold file read,plain form,MB/s,5,90.00,100.00,0.800,1.111,1.250\n";
    let cost = "plain,cost of a hold at 5 %,plain form,ns,5,90.00,100.00,0.800,0.900,1.250\n";
    assert_eq!(lines, [format!("{head}{speed}"), format!("{head}{cost}")]);
}

/// The claim for a row with these ratios, least and most, on each machine, and so many runs.
fn claim(call: &str, ratios: [Option<(f64, f64)>; 2], runs: usize) -> String {
    let data = MACHINES.iter().zip(ratios).map(|((_, name), ratio)| {
        let mut text = "list,call,against,unit,runs,engine,other,least,median,most\n".to_string();
        if let Some((least, most)) = ratio {
            let row =
                format!("plain 65536,{call},plain form,ns,{runs},1,1,{least},{least},{most}\n");
            text.push_str(&row);
        }
        Data::of(name, &text)
    });
    let set = Set(data.collect());
    let name = if call == "release" {
        "lookups"
    } else {
        "holds"
    };
    let table = speed::table(name, &set).expect("there is such a table");
    let row = table.lines().nth(2).expect("it has a row").to_string();
    row.split(" | ")
        .last()
        .expect("a last cell")
        .replace(" |", "")
}

#[test]
fn only_what_held_everywhere_is_claimed() {
    let both = |least, most| [Some((least, most)); 2];
    assert_eq!(claim("release", both(0.5, 0.9), 5), "not slower");
    assert_eq!(claim("release", both(1.1, 1.2), 5), "slower");
    // one run above, or one below
    assert_eq!(
        claim("release", [Some((0.5, 1.01)), Some((0.5, 0.9))], 5),
        "–"
    );
    assert_eq!(
        claim("release", [Some((0.5, 0.9)), Some((0.5, 1.01))], 5),
        "–"
    );
    assert_eq!(
        claim("release", [Some((1.0, 1.2)), Some((1.1, 1.2))], 5),
        "–"
    );
    // one machine, or too few runs
    assert_eq!(claim("release", [Some((0.5, 0.9)), None], 5), "–");
    assert_eq!(claim("release", both(0.5, 0.9), 4), "–");
    // what a later version may have cost is allowed for, and for a hold more of it
    assert_eq!(claim("release", both(0.5, 0.952), 5), "not slower");
    assert_eq!(claim("release", both(0.5, 0.96), 5), "–");
    assert_eq!(claim("hold 50 to 90 %", both(0.5, 0.909), 5), "not slower");
    assert_eq!(claim("hold 50 to 90 %", both(0.5, 0.92), 5), "–");
}

#[test]
fn a_plot_has_its_points_where_its_axes_say() {
    let panel = |scale, middle: f64| Panel {
        title: "a < b & c".to_string(),
        x: Axis::new("x", scale, &[(1.0, "1"), (100.0, "100")]),
        y: Axis::new("y", Scale::Linear, &[(0.0, "0"), (1.0, "1")]),
        series: vec![Series::new(
            "series",
            BLUE,
            Style::Points,
            // the last two lie outside
            vec![
                (1.0, 0.0),
                (middle, 0.5),
                (100.0, 1.0),
                (101.0, 0.5),
                (50.0, 1.5),
            ],
        )],
    };
    let circles = |scale, middle| -> Vec<String> {
        let text = svg("title", "words", &[panel(scale, middle)]);
        assert!(text.starts_with("<svg ") && text.ends_with("</svg>\n"));
        assert!(text.contains("a &lt; b &amp; c") && !text.contains("a < b"));
        let circles = text.lines().filter(|line| line.starts_with("<circle"));
        circles.map(String::from).collect()
    };
    // three points, and one in the legend; the middle of a logarithmic axis from 1 to 100 is 10
    let linear = circles(Scale::Linear, 50.5);
    assert_eq!(linear.len(), 4);
    assert_eq!(circles(Scale::Log, 10.0), linear);
    assert_ne!(circles(Scale::Log, 50.5), linear);
}
