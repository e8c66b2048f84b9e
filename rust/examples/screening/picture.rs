//! The growth as a picture: two panels with logarithmic axes, as SVG.

use crate::case::Measured;
use crate::growth::{Growth, Point};
use crate::measure::grouped;
use std::fs;
use std::io;

const WIDTH: f64 = 960.0;
const HEIGHT: f64 = 500.0;
/// The lower and the upper end of a panel.
const BOTTOM: f64 = 430.0;
const TOP: f64 = 90.0;
/// Where the panels begin, and how wide they are.
const LEFTS: [f64; 2] = [75.0, 555.0];
const PANEL: f64 = 375.0;
/// The height of a line's name.
const NAME: f64 = 19.0;

/// Colours that differ for every eye, and in grey.
const PLAIN: (&str, &str) = ("#b3400d", "");
const LIBRARY: (&str, &str) = ("#0b5fa5", "");
const CLASHING: (&str, &str) = ("#0b5fa5", "5 4");
const SUM: (&str, &str) = ("#6b6b6b", "2 3");

/// A line of a panel: its name, its colour and dashes, its points.
struct Line {
    name: &'static str,
    look: (&'static str, &'static str),
    points: Vec<(f64, f64)>,
}

impl Line {
    fn new(
        name: &'static str,
        look: (&'static str, &'static str),
        points: &[Point],
        time: fn(&Measured) -> f64,
    ) -> Line {
        let of = |(entries, measured): &Point| (*entries as f64, time(measured) / 1_000.0);
        let points = points.iter().map(of).collect();
        Line { name, look, points }
    }
}

struct Panel {
    left: f64,
    title: &'static str,
    below: &'static str,
    ticks: Vec<usize>,
    /// The lowest and the highest number of entries, and of microseconds.
    entries: (f64, f64),
    times: (f64, f64),
    lines: Vec<Line>,
}

/// Writes the picture.
pub fn write(path: &str, growth: &Growth) -> io::Result<()> {
    let head = format!(
        "<svg xmlns=\"http://www.w3.org/2000/svg\" width=\"{w}\" height=\"{h}\" viewBox=\"0 0 {w} {h}\" \
         font-family=\"Helvetica, Arial, sans-serif\" font-size=\"13\" fill=\"#222222\">\n\
         <rect width=\"{w}\" height=\"{h}\" fill=\"#ffffff\"/>\n",
        w = WIDTH,
        h = HEIGHT
    );
    let title = text(
        (WIDTH / 2.0, 32.0),
        "Screening a Version Negotiation packet with nothing in common",
        "text-anchor=\"middle\" font-size=\"18\" font-weight=\"bold\"",
    );
    let panels = [with_the_list(growth), with_the_table(growth)];
    let drawn: String = panels.iter().map(Panel::drawn).collect();
    fs::write(path, head + &title + &drawn + "</svg>\n")
}

fn with_the_list(growth: &Growth) -> Panel {
    let (list, library) = (&growth.list, "library, the whole event");
    Panel::new(
        LEFTS[0],
        "Table of 64 versions",
        "entries of the list",
        vec![1, 10, 100, 1_000, 10_000],
        vec![
            Line::new("plain Rust", PLAIN, list, Measured::plain),
            Line::new(library, LIBRARY, list, |m| m.by_event),
            Line::new("one pass that only sums the list", SUM, list, |m| m.sum),
        ],
    )
}

fn with_the_table(growth: &Growth) -> Panel {
    let (table, clashing) = (&growth.table, &growth.clashing);
    let (library, clash) = ("library, the whole event", "library, entries that clash");
    Panel::new(
        LEFTS[1],
        "List of 16,382 entries",
        "entries of the table",
        vec![1, 2, 4, 8, 16, 32, 64],
        vec![
            Line::new("plain Rust", PLAIN, table, Measured::plain),
            Line::new(library, LIBRARY, table, |m| m.by_event),
            Line::new(clash, CLASHING, clashing, |m| m.by_event),
        ],
    )
}

fn text(at: (f64, f64), text: &str, more: &str) -> String {
    format!(
        "<text x=\"{:.1}\" y=\"{:.1}\" {}>{}</text>\n",
        at.0, at.1, more, text
    )
}

fn line(from: (f64, f64), to: (f64, f64), more: &str) -> String {
    format!(
        "<line x1=\"{:.1}\" y1=\"{:.1}\" x2=\"{:.1}\" y2=\"{:.1}\" {}/>\n",
        from.0, from.1, to.0, to.1, more
    )
}

fn rect(at: (f64, f64), size: (f64, f64), more: &str) -> String {
    format!(
        "<rect x=\"{:.1}\" y=\"{:.1}\" width=\"{:.1}\" height=\"{:.1}\" {}/>\n",
        at.0, at.1, size.0, size.1, more
    )
}

/// How a line and its points are drawn.
fn stroke(look: (&str, &str)) -> String {
    format!(
        "fill=\"none\" stroke=\"{}\" stroke-width=\"2\" stroke-dasharray=\"{}\"",
        look.0, look.1
    )
}

impl Panel {
    fn new(
        left: f64,
        title: &'static str,
        below: &'static str,
        ticks: Vec<usize>,
        lines: Vec<Line>,
    ) -> Panel {
        let points = || lines.iter().flat_map(|line| line.points.iter());
        let entries = points().map(|point| point.0).fold(1.0, f64::max);
        let lowest = points().map(|point| point.1).fold(f64::MAX, f64::min);
        let highest = points().map(|point| point.1).fold(0.0, f64::max);
        // Whole powers of ten.
        let times = (
            10_f64.powf(lowest.log10().floor()),
            10_f64.powf(highest.log10().ceil()),
        );
        Panel {
            left,
            title,
            below,
            ticks,
            entries: (1.0, entries),
            times,
            lines,
        }
    }

    /// Where a number of entries and a time lie.
    fn place(&self, entries: f64, time: f64) -> (f64, f64) {
        let part = |value: f64, (low, high): (f64, f64)| (value / low).ln() / (high / low).ln();
        (
            self.left + PANEL * part(entries, self.entries),
            BOTTOM - (BOTTOM - TOP) * part(time, self.times),
        )
    }

    fn drawn(&self) -> String {
        let middle = self.left + PANEL / 2.0;
        let centred = "text-anchor=\"middle\"";
        let title = format!("{} font-size=\"15\"", centred);
        let mut drawn = text((middle, TOP - 14.0), self.title, &title);
        drawn += &text((middle, BOTTOM + 44.0), self.below, centred);
        drawn += &self.axes();
        // White behind the names, so that no line of the grid crosses them.
        let names = NAME * self.lines.len() as f64;
        drawn += &rect(
            (self.left + 6.0, TOP + 6.0),
            (256.0, names + 8.0),
            "fill=\"#ffffff\"",
        );
        for (place, line) in self.lines.iter().enumerate() {
            drawn += &self.curve(line);
            drawn += &self.name(line, TOP + NAME * (place + 1) as f64);
        }
        drawn
    }

    fn axes(&self) -> String {
        let grid = "stroke=\"#dddddd\"";
        let mut drawn = String::new();
        for tick in &self.ticks {
            let (x, _) = self.place(*tick as f64, 1.0);
            drawn += &line((x, TOP), (x, BOTTOM), grid);
            let name = grouped(*tick);
            drawn += &text((x, BOTTOM + 20.0), &name, "text-anchor=\"middle\"");
        }
        let mut time = self.times.0;
        while time < self.times.1 * 1.5 {
            let (_, y) = self.place(1.0, time);
            drawn += &line((self.left, y), (self.left + PANEL, y), grid);
            let name = if time < 0.9 {
                format!("{} us", (time * 1_000.0).round() / 1_000.0)
            } else {
                format!("{} us", grouped(time.round() as usize))
            };
            let at = (self.left - 8.0, y + 4.0);
            drawn += &text(at, &name, "text-anchor=\"end\"");
            time *= 10.0;
        }
        let frame = "fill=\"none\" stroke=\"#555555\"";
        drawn + &rect((self.left, TOP), (PANEL, BOTTOM - TOP), frame)
    }

    fn curve(&self, line: &Line) -> String {
        let places: Vec<(f64, f64)> = line.points.iter().map(|p| self.place(p.0, p.1)).collect();
        let joined: Vec<String> = places
            .iter()
            .map(|(x, y)| format!("{:.1},{:.1}", x, y))
            .collect();
        let mut drawn = format!(
            "<polyline points=\"{}\" {}/>\n",
            joined.join(" "),
            stroke(line.look)
        );
        for (x, y) in places {
            drawn += &format!(
                "<circle cx=\"{:.1}\" cy=\"{:.1}\" r=\"2.6\" fill=\"{}\"/>\n",
                x, y, line.look.0
            );
        }
        drawn
    }

    /// The name of a line, beside a piece of it.
    fn name(&self, named: &Line, y: f64) -> String {
        let x = self.left + 12.0;
        line((x, y), (x + 30.0, y), &stroke(named.look))
            + &text((x + 38.0, y + 4.0), named.name, "")
    }
}
