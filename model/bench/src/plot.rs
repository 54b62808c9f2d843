//! benchmarks.svg: the time of a call against the words lent, both axes logarithmic.

use crate::report::grouped;
use crate::results::{Line, Point};
use std::fmt::Write;

const WIDTH: f64 = 900.0;
const HEIGHT: f64 = 560.0;
/// Where the field of the plot begins and ends.
const LEFT: f64 = 100.0;
const RIGHT: f64 = 730.0;
const TOP: f64 = 70.0;
const BOTTOM: f64 = 490.0;
/// The width that a number below the field needs.
const LABEL: f64 = 56.0;
const TITLE: &str = "Time of a call against the words that it is lent";
const DESCRIPTION: &str = "Lines of look_up, commit, flush and a plain pass over the words, in nanoseconds and microseconds \
    from 64 to 12,096 words lent, with the same calls in safe Rust dashed. The table below the picture on the page has the numbers.";
/// The colours of the lines, told apart by the colour-blind too.
const COLOURS: [&str; 4] = ["#0072B2", "#D55E00", "#009E73", "#555555"];

/// An axis: numbers between two ends lie between two places of the picture.
struct Axis {
    ends: (f64, f64),
    places: (f64, f64),
}

impl Axis {
    fn at(&self, number: f64) -> f64 {
        let part = (number / self.ends.0).log2() / (self.ends.1 / self.ends.0).log2();
        self.places.0 + part * (self.places.1 - self.places.0)
    }
}

/// The picture of some lines.
pub fn plot(lines: &[Line]) -> String {
    let points = || lines.iter().flat_map(|line| &line.points);
    let words: Vec<usize> = lines[0].points.iter().map(|point| point.words).collect();
    let across = Axis { ends: (words[0] as f64, words[words.len() - 1] as f64), places: (LEFT, RIGHT) };
    let least = points().map(|point| unit(point).min(rust(point))).fold(f64::INFINITY, f64::min);
    let most = points().map(|point| unit(point).max(rust(point))).fold(0.0, f64::max);
    let up = Axis { ends: (ten_below(least), 10.0 * ten_below(most)), places: (BOTTOM, TOP) };
    let mut svg = format!(
        "<svg xmlns=\"http://www.w3.org/2000/svg\" viewBox=\"0 0 {WIDTH} {HEIGHT}\" width=\"{WIDTH}\" height=\"{HEIGHT}\" \
         role=\"img\" font-family=\"sans-serif\" font-size=\"14\" fill=\"#222222\">\n\
         <title>{TITLE}</title>\n<desc>{DESCRIPTION}</desc>\n\
         <rect width=\"{WIDTH}\" height=\"{HEIGHT}\" fill=\"white\"/>\n\
         <text x=\"{LEFT}\" y=\"36\" font-size=\"19\" font-weight=\"bold\">{TITLE}</text>\n"
    );
    scale_across(&mut svg, &across, &words);
    scale_up(&mut svg, &up);
    for (line, colour) in lines.iter().zip(COLOURS) {
        draw(&mut svg, line, colour, &across, &up);
    }
    legend(&mut svg, lines);
    svg + "</svg>\n"
}

fn unit(point: &Point) -> f64 {
    point.figure.unit.median
}

fn rust(point: &Point) -> f64 {
    point.figure.rust.median
}

/// The highest power of ten that is not above a number.
fn ten_below(number: f64) -> f64 {
    10f64.powf(number.log10().floor())
}

fn text(svg: &mut String, x: f64, y: f64, anchor: &str, words: &str) {
    let _ = writeln!(svg, "<text x=\"{x:.1}\" y=\"{y:.1}\" text-anchor=\"{anchor}\">{words}</text>");
}

fn rule(svg: &mut String, from: (f64, f64), to: (f64, f64)) {
    let _ = writeln!(
        svg,
        "<line x1=\"{:.1}\" y1=\"{:.1}\" x2=\"{:.1}\" y2=\"{:.1}\" stroke=\"#dddddd\"/>",
        from.0, from.1, to.0, to.1
    );
}

fn scale_across(svg: &mut String, across: &Axis, words: &[usize]) {
    for (place, &number) in words.iter().enumerate() {
        let x = across.at(number as f64);
        rule(svg, (x, TOP), (x, BOTTOM));
        // A number is left out where the next one stands too near.
        if words.get(place + 1).is_none_or(|&next| across.at(next as f64) - x > LABEL) {
            text(svg, x, BOTTOM + 22.0, "middle", &grouped(number));
        }
    }
    let name = "words lent, table and journal together (a logarithmic scale)";
    text(svg, (LEFT + RIGHT) / 2.0, BOTTOM + 52.0, "middle", name);
}

fn scale_up(svg: &mut String, up: &Axis) {
    let mut number = up.ends.0;
    while number < up.ends.1 * 1.5 {
        let y = up.at(number);
        rule(svg, (LEFT, y), (RIGHT, y));
        let label =
            if number < 999.0 { format!("{number:.0} ns") } else { format!("{:.0} µs", number / 1000.0) };
        text(svg, LEFT - 8.0, y + 4.0, "end", &label);
        number *= 10.0;
    }
    let middle = (TOP + BOTTOM) / 2.0;
    let _ = writeln!(
        svg,
        "<text transform=\"translate(26 {middle}) rotate(-90)\" text-anchor=\"middle\">time of a call (a logarithmic scale)</text>"
    );
}

fn draw(svg: &mut String, line: &Line, colour: &str, across: &Axis, up: &Axis) {
    let path = |time: fn(&Point) -> f64| {
        let points = line
            .points
            .iter()
            .map(|point| format!("{:.1},{:.1}", across.at(point.words as f64), up.at(time(point))));
        points.collect::<Vec<_>>().join(" ")
    };
    let mut stroke = |points: String, style: &str| {
        let _ = writeln!(svg, "<polyline points=\"{points}\" fill=\"none\" stroke=\"{colour}\" {style}/>");
    };
    stroke(path(unit), "stroke-width=\"2.5\"");
    if line.call != "plain pass" {
        stroke(path(rust), "stroke-width=\"1.5\" stroke-dasharray=\"5 4\"");
    }
}

fn legend(svg: &mut String, lines: &[Line]) {
    let x = RIGHT + 20.0;
    for ((line, colour), place) in lines.iter().zip(COLOURS).zip(0..) {
        let y = TOP + 20.0 + 24.0 * f64::from(place);
        let _ = writeln!(
            svg,
            "<line x1=\"{x}\" y1=\"{y}\" x2=\"{}\" y2=\"{y}\" stroke=\"{colour}\" stroke-width=\"2.5\"/>",
            x + 28.0
        );
        text(svg, x + 36.0, y + 4.0, "start", line.call);
    }
    let y = TOP + 36.0 + 24.0 * lines.len() as f64;
    text(svg, x, y, "start", "whole: the unit");
    text(svg, x, y + 20.0, "start", "dashed: safe Rust");
}

#[cfg(test)]
mod tests {
    use super::{plot, BOTTOM, LEFT, RIGHT, TITLE, TOP};
    use crate::results::{Figure, Line, Point};
    use crate::timing::Spread;

    #[test]
    fn every_point_lies_in_the_field() {
        let points = |factor: f64| {
            let time = |time: f64| Spread { low: time, median: time, high: time };
            let figure = |words| {
                let unit = factor * words as f64;
                Figure { unit: time(unit), rust: time(2.0 * unit), ratio: time(0.5) }
            };
            let point = |words| Point { words, figure: figure(words), to_last: 12096.0 / words as f64 };
            [64, 1024, 12096].map(point).to_vec()
        };
        let lines =
            [Line { call: "flush", points: points(3.0) }, Line { call: "plain pass", points: points(0.1) }];
        let svg = plot(&lines);
        assert!(
            svg.contains(&format!("<title>{TITLE}</title>")) && svg.contains("words lent, table and journal")
        );
        let paths: Vec<&str> =
            svg.split("<polyline points=\"").skip(1).map(|rest| rest.split('"').next().unwrap()).collect();
        assert_eq!(paths.len(), 3);
        for point in paths.iter().flat_map(|path| path.split(' ')) {
            let (x, y) = point.split_once(',').unwrap();
            let (x, y): (f64, f64) = (x.parse().unwrap(), y.parse().unwrap());
            assert!((LEFT..=RIGHT).contains(&x) && (TOP..=BOTTOM).contains(&y), "{point}");
        }
    }
}
