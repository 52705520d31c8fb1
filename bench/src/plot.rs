//! The plot of docs/performance.svg: cost a record against the number of
//! records, a panel for each kind of feed.

use crate::feeds::{Kind, KINDS};
use crate::table::grouped;
use crate::Row;

const WIDTH: f64 = 960.0;
const HEIGHT: f64 = 700.0;
const COLOURS: [&str; 2] = ["#1f5fa8", "#c2571a"];
const INK: &str = "#222222";
const GREY: &str = "#666666";
const RULE: &str = "#dddddd";

pub fn svg(names: &[String; 2], rows: &[Row]) -> String {
    let mut svg = format!(
        "<svg xmlns=\"http://www.w3.org/2000/svg\" viewBox=\"0 0 {WIDTH} {HEIGHT}\" \
         width=\"{WIDTH}\" height=\"{HEIGHT}\" font-family=\"sans-serif\">\n\
         <rect width=\"{WIDTH}\" height=\"{HEIGHT}\" fill=\"#ffffff\"/>\n"
    );
    svg += &text(40.0, 32.0, 18, INK, "start", "Nanoseconds a record");
    svg += &legend(names);
    for (number, kind) in KINDS.iter().enumerate() {
        let panel = Panel::new(number, kind, rows);
        svg += &panel.drawn();
    }
    svg + "</svg>\n"
}

fn legend(names: &[String; 2]) -> String {
    let mut legend = String::new();
    for (which, name) in names.iter().enumerate() {
        let x = 620.0 + 170.0 * which as f64;
        legend += &line((x, 26.0), (x + 30.0, 26.0), COLOURS[which], 2.5);
        legend += &dot((x + 15.0, 26.0), which);
        legend += &text(x + 38.0, 31.0, 14, INK, "start", name);
    }
    legend
}

/// Nanoseconds a record of each program.
fn costs(row: &Row) -> [f64; 2] {
    let work = row.times.work;
    work.map(|time| time.as_nanos() as f64 / f64::from(row.records))
}

/// One kind of feed: its rows, and the corner and size of its axes.
struct Panel<'a> {
    kind: &'a Kind,
    rows: Vec<&'a Row>,
    left: f64,
    top: f64,
    wide: f64,
    high: f64,
    /// The cost between two rules, and how many of them stand above 0.
    step: f64,
    rules: f64,
}

impl Panel<'_> {
    fn new<'a>(number: usize, kind: &'a Kind, rows: &'a [Row]) -> Panel<'a> {
        let rows: Vec<&Row> = rows.iter().filter(|row| row.feed == kind.name).collect();
        let most = rows.iter().flat_map(|row| costs(row)).fold(1.0, f64::max);
        let step = round_step(most / 5.0);
        Panel {
            kind,
            rows,
            left: 90.0 + 470.0 * (number % 2) as f64,
            top: 100.0 + 315.0 * (number / 2) as f64,
            wide: 330.0,
            high: 210.0,
            step,
            rules: (most / step).ceil(),
        }
    }

    fn drawn(&self) -> String {
        let mut drawn = self.title();
        drawn += &self.cost_axis();
        drawn += &self.records_axis();
        for which in [0, 1] {
            drawn += &self.course(which);
        }
        drawn + &self.last_costs()
    }

    fn title(&self) -> String {
        let (x, y) = (self.left, self.top - 18.0);
        let name = text(x, y, 15, INK, "start", self.kind.name);
        name + &text(x + 56.0, y, 13, GREY, "start", self.kind.says)
    }

    fn cost_axis(&self) -> String {
        let mut axis = String::new();
        for rule in 0..=self.rules as u32 {
            let cost = self.step * f64::from(rule);
            let y = self.y(cost);
            axis += &line((self.left, y), (self.left + self.wide, y), RULE, 1.0);
            let label = grouped(cost as u64);
            axis += &text(self.left - 8.0, y + 4.0, 12, GREY, "end", &label);
        }
        axis
    }

    fn records_axis(&self) -> String {
        let bottom = self.top + self.high;
        let mut axis = line(
            (self.left, bottom),
            (self.left + self.wide, bottom),
            GREY,
            1.0,
        );
        for row in &self.rows {
            let x = self.x(row.records);
            axis += &line((x, bottom), (x, bottom + 5.0), GREY, 1.0);
            let label = grouped(row.records.into());
            axis += &text(x, bottom + 20.0, 12, GREY, "middle", &label);
        }
        let middle = self.left + self.wide / 2.0;
        axis + &text(
            middle,
            bottom + 40.0,
            12,
            GREY,
            "middle",
            "records (log scale)",
        )
    }

    fn course(&self, which: usize) -> String {
        let points: Vec<(f64, f64)> = self
            .rows
            .iter()
            .map(|row| (self.x(row.records), self.y(costs(row)[which])))
            .collect();
        let lines = points
            .windows(2)
            .map(|ends| line(ends[0], ends[1], COLOURS[which], 2.5));
        let dots = points.iter().map(|point| dot(*point, which));
        lines.chain(dots).collect()
    }

    /// Beside the last points, moved apart where they would overlap.
    fn last_costs(&self) -> String {
        let Some(row) = self.rows.last() else {
            return String::new();
        };
        let costs = costs(row);
        let heights = apart(costs.map(|cost| self.y(cost)), 15.0);
        let x = self.x(row.records) + 10.0;
        [0, 1]
            .map(|which| {
                let label = format!("{:.0} ns", costs[which]);
                text(x, heights[which] + 4.0, 12, COLOURS[which], "start", &label)
            })
            .concat()
    }

    /// From a thousand records to two million, with a margin on both sides.
    fn x(&self, records: u32) -> f64 {
        let (first, last) = (1_000f64.log10(), 2_000_000f64.log10());
        let share = (f64::from(records).log10() - first) / (last - first);
        self.left + 30.0 + share * (self.wide - 60.0)
    }

    fn y(&self, cost: f64) -> f64 {
        self.top + self.high * (1.0 - cost / (self.step * self.rules))
    }
}

/// The least of 1, 2, 5, 10, 20, 50 and so on that is not below `least`.
fn round_step(least: f64) -> f64 {
    let mut power = 1.0;
    loop {
        for step in [1.0, 2.0, 5.0] {
            if step * power >= least {
                return step * power;
            }
        }
        power *= 10.0;
    }
}

/// Two heights at least so far apart, with the same middle and order.
fn apart(heights: [f64; 2], distance: f64) -> [f64; 2] {
    let [x, y] = heights;
    if (x - y).abs() >= distance {
        return heights;
    }
    let (middle, half) = ((x + y) / 2.0, distance / 2.0);
    if x <= y {
        [middle - half, middle + half]
    } else {
        [middle + half, middle - half]
    }
}

fn line(from: (f64, f64), to: (f64, f64), colour: &str, width: f64) -> String {
    format!(
        "<line x1=\"{:.1}\" y1=\"{:.1}\" x2=\"{:.1}\" y2=\"{:.1}\" stroke=\"{colour}\" stroke-width=\"{width}\"/>\n",
        from.0, from.1, to.0, to.1
    )
}

/// Round for the first program, square for the second.
fn dot((x, y): (f64, f64), which: usize) -> String {
    let colour = COLOURS[which];
    match which {
        0 => format!("<circle cx=\"{x:.1}\" cy=\"{y:.1}\" r=\"4.5\" fill=\"{colour}\"/>\n"),
        _ => format!(
            "<rect x=\"{:.1}\" y=\"{:.1}\" width=\"8\" height=\"8\" fill=\"{colour}\"/>\n",
            x - 4.0,
            y - 4.0
        ),
    }
}

fn text(x: f64, y: f64, size: u32, colour: &str, anchor: &str, said: &str) -> String {
    let said = said.replace('&', "&amp;").replace('<', "&lt;");
    format!(
        "<text x=\"{x:.1}\" y=\"{y:.1}\" font-size=\"{size}\" fill=\"{colour}\" text-anchor=\"{anchor}\">{said}</text>\n"
    )
}

#[cfg(test)]
mod tests {
    use super::*;

    #[test]
    fn steps_are_round_and_wide_enough() {
        assert_eq!(round_step(0.3), 1.0);
        assert_eq!(round_step(2.0), 2.0);
        assert_eq!(round_step(21.0), 50.0);
        assert_eq!(round_step(501.0), 1000.0);
    }

    #[test]
    fn labels_are_moved_apart_in_their_order() {
        assert_eq!(apart([10.0, 40.0], 15.0), [10.0, 40.0]);
        assert_eq!(apart([10.0, 13.0], 15.0), [4.0, 19.0]);
        assert_eq!(apart([13.0, 10.0], 15.0), [19.0, 4.0]);
    }
}
