//! The picture of the benchmark: it has a mark for each point that it is given, where the point belongs, and is XML.

use compared::plot::{svg, Mark, Series};

/// Like a run of the benchmark, with names that XML would take for its own.
fn series() -> Vec<Series> {
    let line = |name, mark, full, points: &[(f64, f64)]| Series {
        name,
        colour: "#0072b2",
        mark,
        full,
        points: points.to_vec(),
    };
    vec![
        line(
            "check, proved",
            Mark::Circle,
            true,
            &[(36.0, 0.0213), (738.0, 8.19), (3_060.0, 131.1)],
        ),
        line(
            "a < b & c > d",
            Mark::Square,
            false,
            &[(36.0, 0.0098), (738.0, 0.24), (3_060.0, 0.99)],
        ),
    ]
}

/// The only line of the picture that has this text in an element of its own.
fn line<'a>(picture: &'a str, text: &str) -> &'a str {
    let text = format!(">{text}</");
    let mut lines = picture.lines().filter(|line| line.contains(&text));
    let line = lines.next().unwrap_or_else(|| panic!("{text} is there"));
    assert_eq!(lines.next(), None, "{text} once");
    line
}

/// A number among a line's attributes.
fn number(line: &str, name: &str) -> f64 {
    let (_, value) = line.split_once(&format!(" {name}='")).unwrap();
    value.split('\'').next().unwrap().parse().unwrap()
}

/// The middle of the mark for a point.
fn mark(picture: &str, name: &str, (records, time): (f64, f64)) -> (f64, f64) {
    let mark = line(picture, &format!("{name}: {records} records, {time:.4} ms"));
    let number = |attribute| number(mark, attribute);
    if mark.starts_with("<circle ") {
        return (number("cx"), number("cy"));
    }
    assert!(mark.starts_with("<rect "), "{mark}");
    let half = |length| number(length) / 2.0;
    (number("x") + half("width"), number("y") + half("height"))
}

#[test]
fn each_point_has_a_mark() {
    let picture = svg("Times", &series());
    let names = ["check, proved", "a &lt; b &amp; c &gt; d"];
    for (name, series) in names.iter().zip(series()) {
        for point in series.points {
            mark(&picture, name, point);
        }
        assert!(picture.contains(&format!(">{name}</text>")), "the legend");
    }
    // No others but one of each series in the legend.
    assert_eq!(picture.matches("</circle>").count(), 4);
    assert_eq!(picture.matches("</rect>").count(), 4);
}

/// On a logarithmic axis equal factors are equal steps; times rise up the page.
#[test]
fn a_mark_stands_where_its_point_belongs() {
    let points = [(10.0, 0.5), (100.0, 5.0), (1_000.0, 50.0), (20.0, 0.05)];
    let one = Series {
        name: "check",
        colour: "black",
        mark: Mark::Square,
        full: true,
        points: points.to_vec(),
    };
    let picture = svg("Times", &[one]);
    let [a, b, c, d] = points.map(|point| mark(&picture, "check", point));
    let near = |one: f64, other: f64| (one - other).abs() < 0.21;
    assert!(a.0 < b.0 && a.1 > b.1, "right and up");
    assert!(near(b.0 - a.0, c.0 - b.0) && near(b.1 - a.1, c.1 - b.1));
    assert!(near(d.0 - a.0, (b.0 - a.0) * 2f64.log10()), "twice");
    assert!(near(d.1 - a.1, a.1 - b.1), "a tenth");
    // The axes' numbers stand below and beside the points that have them.
    assert!(near(number(line(&picture, "100"), "x"), b.0));
    assert!(near(number(line(&picture, "1000"), "x"), c.0));
    assert!(near(number(line(&picture, "0.5"), "y"), a.1 + 4.0));
    assert!(near(number(line(&picture, "5"), "y"), b.1 + 4.0));
}

/// Every tag that is opened is closed, in order; attributes are quoted; what is left is text.
fn assert_is_xml(picture: &str) {
    let mut open = Vec::new();
    let mut rest = picture.trim_end();
    while let Some((text, after)) = rest.split_once('<') {
        assert!(!text.contains('>'), "{text}");
        let entity = |word: &str| ["amp;", "lt;", "gt;"].iter().any(|e| word.starts_with(e));
        assert!(text.split('&').skip(1).all(entity), "{text}");
        let (tag, after) = after.split_once('>').expect("a tag ends");
        assert!(!tag.contains(['<', '&']), "{tag}");
        let (name, attributes) = tag.split_once(' ').unwrap_or((tag, ""));
        if let Some(name) = name.strip_prefix('/') {
            assert_eq!(open.pop(), Some(name));
        } else {
            let (single, attributes) = match attributes.strip_suffix('/') {
                Some(attributes) => (true, attributes),
                None => (false, attributes),
            };
            let parts: Vec<&str> = attributes.split('\'').collect();
            let (last, pairs) = parts.split_last().expect("at least one");
            assert!(last.is_empty() && pairs.len() % 2 == 0, "{tag}");
            assert!(
                pairs.iter().step_by(2).all(|name| name.ends_with('=')),
                "{tag}"
            );
            assert!(open.is_empty() == (name == "svg"), "one element holds all");
            if !single {
                open.push(name);
            }
        }
        rest = after;
    }
    assert!(open.is_empty() && rest.is_empty(), "{rest}");
}

#[test]
fn it_is_small_whole_and_has_numbers_only() {
    let one = |records, time| Series {
        name: "one",
        colour: "black",
        mark: Mark::Circle,
        full: false,
        points: vec![(records, time)],
    };
    // A single point, on a tick and between two, has axes too.
    for series in [series(), vec![one(100.0, 1.0)], vec![one(3.0, 0.003)]] {
        let picture = svg("Times < & >", &series);
        assert_is_xml(&picture);
        assert!(picture.len() < 20_000);
        for wrong in ["NaN", "inf"] {
            assert!(!picture.contains(wrong), "{wrong}");
        }
    }
}

#[test]
#[should_panic(expected = "above 0")]
fn no_time_at_all_has_no_place() {
    let mut series = series();
    series[0].points[0].1 = 0.0;
    svg("Times", &series);
}
