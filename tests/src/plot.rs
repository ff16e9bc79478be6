//! The picture of docs/BENCH.md: milliseconds against records, as SVG. Both axes are logarithmic: a time in
//! proportion to the records rises by as many decades as they do.

use std::ops::RangeInclusive;

/// A line of the picture, with a mark at each point.
pub struct Series {
    pub name: &'static str,
    pub colour: &'static str,
    pub mark: Mark,
    /// Drawn through, with full marks; or else broken, with hollow ones.
    pub full: bool,
    /// Records and milliseconds, all above 0.
    pub points: Vec<(f64, f64)>,
}

#[derive(Clone, Copy)]
pub enum Mark {
    Circle,
    Square,
}

/// The page, and on it the field that the axes bound: left, right, top, bottom.
const PAGE: [f64; 2] = [760.0, 460.0];
const FIELD: [f64; 4] = [72.0, 590.0, 48.0, 404.0];

/// The picture of at least one point.
pub fn svg(title: &str, series: &[Series]) -> String {
    let points = || series.iter().flat_map(|line| &line.points);
    let good = |value: f64| value.is_finite() && value > 0.0;
    assert!(
        points().all(|&(records, time)| good(records) && good(time)),
        "a logarithm is of a number above 0"
    );
    let [left, right, top, bottom] = FIELD;
    let across = Axis::over(points().map(|point| point.0), left, right);
    let up = Axis::over(points().map(|point| point.1), bottom, top);

    let mut parts = vec![sheet(title)];
    parts.extend(across.ticks().map(|number| tick_across(&across, number)));
    parts.extend(up.ticks().map(|number| tick_up(&up, number)));
    parts.push(frame(title));
    parts.extend(series.iter().map(|line| drawn(line, &across, &up)));
    parts.extend((0..).zip(series).map(|(row, line)| legend(row, line)));
    parts.push("</svg>\n".into());
    parts.concat()
}

/// A logarithmic axis: its first tick and its last, and where on the page these two stand.
struct Axis {
    ticks: [i32; 2],
    ends: [f64; 2],
}

impl Axis {
    /// From the last tick that is not above the values to the first that is not below them.
    fn over(values: impl Iterator<Item = f64> + Clone, start: f64, end: f64) -> Axis {
        let least = values.clone().min_by(f64::total_cmp).expect("a point");
        let greatest = values.max_by(f64::total_cmp).expect("a point");
        let first = TICKS.rev().find(|&number| tick(number) <= least);
        let last = TICKS.into_iter().find(|&number| tick(number) >= greatest);
        let (first, last) = (first.expect("a tick"), last.expect("a tick"));
        Axis {
            ticks: [first, last.max(first + 1)],
            ends: [start, end],
        }
    }

    fn ticks(&self) -> impl Iterator<Item = i32> {
        self.ticks[0]..=self.ticks[1]
    }

    /// Where a value stands on the page.
    fn at(&self, value: f64) -> f64 {
        let [first, last] = self.ticks.map(|number| tick(number).log10());
        let [start, end] = self.ends;
        start + (end - start) * (value.log10() - first) / (last - first)
    }
}

/// Far more than any time needs.
const TICKS: RangeInclusive<i32> = -36..=36;

/// Ticks by number: 0 is 1, 1 is 2, 2 is 5, 3 is 10 and so on, and -1 is 0.5.
fn tick(number: i32) -> f64 {
    [1.0, 2.0, 5.0][number.rem_euclid(3) as usize] * 10f64.powi(number.div_euclid(3))
}

/// With no more decimals than it needs.
fn tick_text(number: i32) -> String {
    let decimals = (-number.div_euclid(3)).max(0) as usize;
    format!("{:.decimals$}", tick(number))
}

/// The beginning, and a white page.
fn sheet(title: &str) -> String {
    let [width, height] = PAGE;
    format!(
        "<svg xmlns='http://www.w3.org/2000/svg' viewBox='0 0 {width} {height}' width='{width}' \
         height='{height}' role='img' font-family='system-ui, sans-serif' font-size='12' \
         fill='#222'>\n<title>{}</title>\n<rect width='{width}' height='{height}' fill='#fff'/>\n",
        escaped(title)
    )
}

/// The field's frame, the title above it, and what its axes count.
fn frame(title: &str) -> String {
    let [left, right, top, bottom] = FIELD;
    let (middle, height) = ((left + right) / 2.0, (top + bottom) / 2.0);
    format!(
        "<path d='M{left} {top}H{right}V{bottom}H{left}Z' fill='none' stroke='#888'/>\n\
         <text x='{middle}' y='{}' text-anchor='middle' font-size='15'>{}</text>\n\
         <text x='{middle}' y='{}' text-anchor='middle'>records</text>\n\
         <text transform='translate({} {height}) rotate(-90)' text-anchor='middle'>milliseconds</text>\n",
        top - 20.0,
        escaped(title),
        bottom + 40.0,
        left - 48.0
    )
}

/// A tick of the axis across: a line up the field, and its number below.
fn tick_across(axis: &Axis, number: i32) -> String {
    let [_, _, top, bottom] = FIELD;
    let x = axis.at(tick(number));
    format!(
        "<path d='M{x:.1} {top}V{bottom}' stroke='#ddd'/>\n\
         <text x='{x:.1}' y='{}' text-anchor='middle'>{}</text>\n",
        bottom + 18.0,
        tick_text(number)
    )
}

/// A tick of the axis up: a line across the field, and its number to the left.
fn tick_up(axis: &Axis, number: i32) -> String {
    let [left, right, _, _] = FIELD;
    let y = axis.at(tick(number));
    format!(
        "<path d='M{left} {y:.1}H{right}' stroke='#ddd'/>\n\
         <text x='{}' y='{:.1}' text-anchor='end'>{}</text>\n",
        left - 8.0,
        y + 4.0,
        tick_text(number)
    )
}

/// A series in the field: its line, and its marks, each with a title that says its name and numbers.
fn drawn(series: &Series, across: &Axis, up: &Axis) -> String {
    let place = |&(records, time): &(f64, f64)| [across.at(records), up.at(time)];
    let places: Vec<[f64; 2]> = series.points.iter().map(place).collect();
    let marks = series.points.iter().map(|point| {
        let (records, time) = point;
        let said = format!("{}: {records} records, {time:.4} ms", series.name);
        marked(series, place(point), &said)
    });
    path(series, &places) + &marks.collect::<String>()
}

/// A row of the legend, beside the field: a piece of the line, a mark and the name.
fn legend(row: u8, series: &Series) -> String {
    let [_, right, top, _] = FIELD;
    let (x, y) = (right + 16.0, top + 12.0 + 24.0 * f64::from(row));
    format!(
        "{}{}<text x='{}' y='{}'>{}</text>\n",
        path(series, &[[x, y], [x + 32.0, y]]),
        marked(series, [x + 16.0, y], series.name),
        x + 42.0,
        y + 4.0,
        escaped(series.name)
    )
}

/// A line through places of the page.
fn path(series: &Series, places: &[[f64; 2]]) -> String {
    let steps = places.iter().map(|[x, y]| format!("{x:.1},{y:.1} "));
    let dashes = match series.full {
        true => "",
        false => " stroke-dasharray='5 4'",
    };
    format!(
        "<polyline points='{}' fill='none' stroke='{}' stroke-width='1.5'{}/>\n",
        steps.collect::<String>().trim_end(),
        series.colour,
        dashes
    )
}

/// A mark at a place of the page, with a title.
fn marked(series: &Series, [x, y]: [f64; 2], said: &str) -> String {
    let colour = series.colour;
    let fill = match series.full {
        true => colour,
        false => "#fff",
    };
    let (name, shape) = match series.mark {
        Mark::Circle => ("circle", format!("cx='{x:.1}' cy='{y:.1}' r='4.5'")),
        Mark::Square => (
            "rect",
            format!("x='{:.1}' y='{:.1}' width='7' height='7'", x - 3.5, y - 3.5),
        ),
    };
    format!(
        "<{name} {shape} fill='{fill}' stroke='{colour}' stroke-width='1.5'><title>{}</title></{name}>\n",
        escaped(said)
    )
}

/// As text of XML.
fn escaped(text: &str) -> String {
    text.replace('&', "&amp;")
        .replace('<', "&lt;")
        .replace('>', "&gt;")
}
