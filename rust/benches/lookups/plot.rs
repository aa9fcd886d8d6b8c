//! The plot: how the ratio and the commands of a look-up grow with N.

use crate::Row;

/// A panel's inner size, and the room around it.
const WIDE: f64 = 290.0;
const HIGH: f64 = 200.0;
const EDGE: f64 = 50.0;
/// The left edges of the two panels.
const LEFT: f64 = EDGE;
const RIGHT: f64 = 2.0 * EDGE + WIDE;

struct Series {
    name: &'static str,
    colour: &'static str,
    points: Vec<(usize, f64)>,
}

struct Panel {
    title: &'static str,
    /// The panel's left edge.
    left: f64,
    /// The top of the axis, and the step of its marks.
    top: f64,
    mark: f64,
    /// A range to compare with, and what it is.
    band: Option<(f64, f64, &'static str)>,
    series: Vec<Series>,
}

fn label(x: f64, y: f64, anchor: &str, colour: &str, text: &str) -> String {
    format!(
        "<text x=\"{x:.1}\" y=\"{y:.1}\" text-anchor=\"{anchor}\" fill=\"{colour}\">{text}</text>\n"
    )
}

impl Panel {
    /// Where a value stands; values grow upward.
    fn y(&self, value: f64) -> f64 {
        EDGE + HIGH * (1.0 - value / self.top)
    }

    /// Where N = 64 to 4,096 stands, by its logarithm.
    fn x(&self, n: usize) -> f64 {
        self.left + WIDE * ((n as f64).log2() - 5.5) / 7.0
    }

    fn axes(&self) -> String {
        let (left, right) = (self.left, self.left + WIDE);
        let mut out = label(left, 30.0, "start", "#000", self.title);
        if let Some((low, high, name)) = self.band {
            let (y, tall) = (self.y(high), self.y(low) - self.y(high));
            out += &format!(
                "<rect x=\"{left}\" y=\"{y:.1}\" width=\"{WIDE}\" height=\"{tall:.1}\" fill=\"#dde6f0\"/>\n"
            );
            out += &label(left + 6.0, y - 5.0, "start", "#456", name);
        }
        for step in 0..=(self.top / self.mark) as usize {
            let value = step as f64 * self.mark;
            let y = self.y(value);
            out += &format!(
                "<line x1=\"{left}\" y1=\"{y:.1}\" x2=\"{right}\" y2=\"{y:.1}\" stroke=\"#ccc\"/>\n"
            );
            out += &label(left - 6.0, y + 4.0, "end", "#000", &value.to_string());
        }
        let ticks = self.series.first().map_or(&[][..], |first| &first.points);
        for (n, _) in ticks {
            let (x, y) = (self.x(*n), EDGE + HIGH + 18.0);
            out += &label(x, y, "middle", "#000", &format!("N = {n}"));
        }
        out
    }

    /// A line through the points, each with its value, and the line's name.
    fn line(&self, index: usize) -> String {
        let Series {
            name,
            colour,
            points,
        } = &self.series[index];
        let at = |(n, value): &(usize, f64)| format!("{:.1},{:.1}", self.x(*n), self.y(*value));
        let all: Vec<String> = points.iter().map(at).collect();
        let all = all.join(" ");
        let mut out = format!(
            "<polyline points=\"{all}\" fill=\"none\" stroke=\"{colour}\" stroke-width=\"2\"/>\n"
        );
        for (n, value) in points {
            let (x, y) = (self.x(*n), self.y(*value));
            out += &format!("<circle cx=\"{x:.1}\" cy=\"{y:.1}\" r=\"3.5\" fill=\"{colour}\"/>\n");
            // the values of the first of two lines stand below it
            let below = index == 0 && self.series.len() > 1;
            let beside = if below { y + 17.0 } else { y - 8.0 };
            out += &label(x, beside, "middle", colour, &format!("{value:.1}"));
        }
        let legend = EDGE + HIGH + 40.0 + 16.0 * index as f64;
        out + &label(self.left, legend, "start", colour, name)
    }

    fn draw(&self) -> String {
        let lines = (0..self.series.len()).map(|index| self.line(index));
        self.axes() + &lines.collect::<String>()
    }
}

fn series(
    rows: &[Row],
    name: &'static str,
    colour: &'static str,
    value: impl Fn(&Row) -> f64,
) -> Series {
    let points = rows.iter().map(|row| (row.shape.blocks, value(row)));
    Series {
        name,
        colour,
        points: points.collect(),
    }
}

/// The picture as the text of an SVG file.
pub fn svg(rows: &[Row]) -> String {
    let memory = series(rows, "host in memory", "#1f5fa8", |row| row.memory.ratio());
    let nothing = series(rows, "host that does nothing", "#b5541c", |row| {
        row.nothing.ratio()
    });
    let all = memory.points.iter().chain(&nothing.points);
    let most = all.map(|(_, ratio)| *ratio).fold(1.0, f64::max);
    let ratios = Panel {
        title: "time per command: proved / plain",
        left: LEFT,
        top: most.ceil() + 1.0,
        mark: 1.0,
        band: None,
        series: vec![memory, nothing],
    };
    let commands = Panel {
        title: "commands per look-up",
        left: RIGHT,
        top: 60.0,
        mark: 10.0,
        band: Some((40.0, 50.0, "document 001: 40 to 50 blocks per access")),
        series: vec![series(rows, "either client", "#1f5fa8", |row| row.commands)],
    };
    let (wide, high) = (3.0 * EDGE + 2.0 * WIDE, HIGH + EDGE + 70.0);
    format!(
        "<svg xmlns=\"http://www.w3.org/2000/svg\" viewBox=\"0 0 {wide} {high}\" \
         font-family=\"sans-serif\" font-size=\"12\">\n\
         <rect width=\"{wide}\" height=\"{high}\" fill=\"#fff\"/>\n{}{}</svg>\n",
        ratios.draw(),
        commands.draw(),
    )
}
