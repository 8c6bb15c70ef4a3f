//! A chart of time and turns beside size, both on logarithmic scales, as SVG.

use std::fmt::Write;

/// A line of the chart: its name, its colour, its points.
pub struct Series {
    pub name: &'static str,
    pub colour: &'static str,
    pub points: Vec<(f64, f64)>,
}

const WIDTH: f64 = 360.0;
const HEIGHT: f64 = 300.0;
/// Room on the left and below for the scale.
const LEFT: f64 = 56.0;
const BELOW: f64 = 40.0;
const ABOVE: f64 = 28.0;

/// One axis: the ends of its scale, and where they are drawn.
struct Axis {
    ends: (f64, f64),
    drawn: (f64, f64),
}

impl Axis {
    fn place(&self, value: f64) -> f64 {
        let share = (value / self.ends.0).ln() / (self.ends.1 / self.ends.0).ln();
        self.drawn.0 + share * (self.drawn.1 - self.drawn.0)
    }
}

/// The powers of ten around all values.
fn tens(series: &[Series]) -> (f64, f64) {
    let values = || series.iter().flat_map(|line| line.points.iter().map(|point| point.1));
    let least = values().fold(f64::INFINITY, f64::min);
    let most = values().fold(0.0, f64::max);
    (10f64.powf(least.log10().floor()), 10f64.powf(most.log10().ceil()))
}

fn label(svg: &mut String, x: f64, y: f64, anchor: &str, text: &str) {
    let _ = writeln!(svg, "<text x=\"{x:.0}\" y=\"{y:.0}\" text-anchor=\"{anchor}\">{text}</text>");
}

fn rule(svg: &mut String, from: (f64, f64), to: (f64, f64)) {
    let _ =
        writeln!(svg, "<path d=\"M{:.0} {:.0}L{:.0} {:.0}\" stroke=\"#ddd\"/>", from.0, from.1, to.0, to.1);
}

/// The scales of a panel.
fn scales(svg: &mut String, title: &str, across: &Axis, up: &Axis) {
    for nodes in [500.0, 1_000.0, 2_000.0, 4_000.0] {
        let x = across.place(nodes);
        rule(svg, (x, up.drawn.0), (x, up.drawn.1));
        label(svg, x, up.drawn.0 + 16.0, "middle", &nodes.to_string());
    }
    let mut value = up.ends.0;
    while value < up.ends.1 * 1.01 {
        let y = up.place(value);
        rule(svg, (across.drawn.0, y), (across.drawn.1, y));
        label(svg, across.drawn.0 - 6.0, y + 4.0, "end", &value.to_string());
        value *= 10.0;
    }
    label(svg, (across.drawn.0 + across.drawn.1) / 2.0, up.drawn.0 + 32.0, "middle", "nodes");
    label(svg, across.drawn.0, up.drawn.1 - 10.0, "start", title);
}

/// A line with its points.
fn draw(svg: &mut String, series: &Series, across: &Axis, up: &Axis) {
    let colour = series.colour;
    let places: Vec<(f64, f64)> =
        series.points.iter().map(|point| (across.place(point.0), up.place(point.1))).collect();
    let path: Vec<String> = places.iter().map(|(x, y)| format!("{x:.1} {y:.1}")).collect();
    let _ = writeln!(
        svg,
        "<path d=\"M{}\" fill=\"none\" stroke=\"{colour}\" stroke-width=\"2\"/>",
        path.join("L")
    );
    for (x, y) in &places {
        let _ = writeln!(svg, "<circle cx=\"{x:.1}\" cy=\"{y:.1}\" r=\"3\" fill=\"{colour}\"/>");
    }
}

/// Each line's name beside its last point, moved down where it would touch the one above.
fn names(svg: &mut String, series: &[Series], across: &Axis, up: &Axis) {
    let mut ends: Vec<(f64, f64, &Series)> = Vec::new();
    for line in series {
        if let Some(last) = line.points.last() {
            ends.push((up.place(last.1) + 4.0, across.place(last.0) + 8.0, line));
        }
    }
    ends.sort_by(|one, other| one.0.total_cmp(&other.0));
    let mut least = 0.0;
    for (y, x, line) in ends {
        let y = f64::max(y, least);
        let _ =
            writeln!(svg, "<text x=\"{x:.0}\" y=\"{y:.0}\" fill=\"{}\">{}</text>", line.colour, line.name);
        least = y + 14.0;
    }
}

/// Panels side by side, each with its title.
pub fn svg(panels: &[(&str, Vec<Series>)]) -> String {
    let whole = WIDTH + 60.0;
    let (width, height) = (whole * panels.len() as f64, HEIGHT);
    let mut svg = format!("<svg xmlns=\"http://www.w3.org/2000/svg\" viewBox=\"0 0 {width} {height}\" width=\"{width}\" height=\"{height}\" font-family=\"sans-serif\" font-size=\"12\">\n");
    svg.push_str("<rect width=\"100%\" height=\"100%\" fill=\"#fff\"/>\n");
    for (place, (title, series)) in panels.iter().enumerate() {
        let left = whole * place as f64;
        let across = Axis { ends: (450.0, 4_400.0), drawn: (left + LEFT, left + WIDTH) };
        let up = Axis { ends: tens(series), drawn: (HEIGHT - BELOW, ABOVE) };
        scales(&mut svg, title, &across, &up);
        series.iter().for_each(|line| draw(&mut svg, line, &across, &up));
        names(&mut svg, series, &across, &up);
    }
    svg.push_str("</svg>\n");
    svg
}

#[cfg(test)]
mod tests {
    use super::*;

    #[test]
    fn scales_are_powers_of_ten() {
        let series = |values: &[f64]| {
            vec![Series { name: "", colour: "", points: values.iter().map(|&v| (1.0, v)).collect() }]
        };
        assert_eq!(tens(&series(&[0.3, 20.0])), (0.1, 100.0));
        let axis = Axis { ends: (1.0, 100.0), drawn: (0.0, 10.0) };
        assert!((axis.place(10.0) - 5.0).abs() < 1e-9);
    }
}
