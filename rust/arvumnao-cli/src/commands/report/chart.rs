//! A chart of the overfull nodes over the iterations, as SVG.

use super::figures::Row;
use crate::table::counted;
use std::fmt::{Display, Write};

const WIDTH: f64 = 720.0;
const HEIGHT: f64 = 240.0;
/// Room at the left and below, for the numbers, and at the other sides.
const MARGIN: f64 = 48.0;
const EDGE: f64 = 12.0;

/// Where iterations and numbers of nodes stand.
struct Scale {
    last: u32,
    top: u32,
    step: u32,
}

impl Scale {
    fn of(rows: &[Row]) -> Scale {
        let most = rows.iter().map(|row| row.overfull).max().unwrap_or(0).max(1);
        let step = step(most);
        Scale { last: rows.last().map_or(1, |row| row.number), top: most.div_ceil(step) * step, step }
    }

    fn x(&self, iteration: u32) -> f64 {
        let share = f64::from(iteration - 1) / f64::from(self.last.max(2) - 1);
        MARGIN + (WIDTH - MARGIN - EDGE) * share
    }

    fn y(&self, overfull: u32) -> f64 {
        EDGE + (HEIGHT - MARGIN - EDGE) * (1.0 - f64::from(overfull) / f64::from(self.top))
    }
}

pub fn of(rows: &[Row]) -> String {
    let scale = Scale::of(rows);
    let points: Vec<String> =
        rows.iter().map(|row| format!("{:.1},{:.1}", scale.x(row.number), scale.y(row.overfull))).collect();
    let label = "overfull nodes over the iterations";
    let head = format!(
        "<svg class=\"chart\" viewBox=\"0 0 {WIDTH} {HEIGHT}\" role=\"img\" aria-label=\"{label}\">\n"
    );
    let line = format!("<polyline points=\"{}\"/>\n", points.join(" "));
    head + &axes(rows, &scale) + &line + &dots(rows, &scale) + "</svg>\n"
}

/// The lines behind the chart with their numbers, and the numbers of iterations below, a dozen at most.
fn axes(rows: &[Row], scale: &Scale) -> String {
    let mut svg = String::new();
    for value in (0..=scale.top).step_by(scale.step as usize) {
        let (left, right, y) = (MARGIN, WIDTH - EDGE, scale.y(value));
        let _ =
            writeln!(svg, "<line class=\"grid\" x1=\"{left}\" x2=\"{right}\" y1=\"{y:.1}\" y2=\"{y:.1}\"/>");
        let _ = writeln!(svg, "{}", text(left - 6.0, y + 4.0, "end", value));
    }
    let between = scale.last.div_ceil(12).max(1);
    for row in rows.iter().filter(|row| (row.number - 1) % between == 0) {
        let _ = writeln!(svg, "{}", text(scale.x(row.number), HEIGHT - MARGIN + 18.0, "middle", row.number));
    }
    let _ = writeln!(svg, "{}", text(WIDTH / 2.0, HEIGHT - 8.0, "middle", "iteration"));
    svg
}

fn text(x: f64, y: f64, anchor: &str, words: impl Display) -> String {
    format!("<text x=\"{x:.1}\" y=\"{y:.1}\" text-anchor=\"{anchor}\">{words}</text>")
}

/// A dot for each iteration, which shows its number of nodes when pointed at.
fn dots(rows: &[Row], scale: &Scale) -> String {
    let dot = |row: &Row| {
        let (x, y) = (scale.x(row.number), scale.y(row.overfull));
        let nodes = counted(row.overfull as usize, "node");
        let title = format!("iteration {}: {nodes} overfull", row.number);
        format!("<circle cx=\"{x:.1}\" cy=\"{y:.1}\" r=\"3.5\"><title>{title}</title></circle>\n")
    };
    rows.iter().map(dot).collect()
}

/// The distance of the lines behind the chart: 1, 2 or 5 times a power of ten, so that there are at most six.
fn step(most: u32) -> u32 {
    let mut power = 1;
    loop {
        if let Some(step) = [1, 2, 5].iter().map(|times| times * power).find(|step| most.div_ceil(*step) <= 5)
        {
            return step;
        }
        power *= 10;
    }
}

#[cfg(test)]
mod tests {
    use super::*;

    #[test]
    fn steps_are_round() {
        let steps: Vec<u32> = [1, 5, 6, 10, 11, 26, 100, 4096].iter().map(|most| step(*most)).collect();
        assert_eq!(steps, [1, 1, 2, 2, 5, 10, 20, 1000]);
    }
}
