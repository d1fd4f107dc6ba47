//! A plot as SVG: curves over two logarithmic axes.

use std::fmt::Write;

pub struct Curve {
    pub name: &'static str,
    pub colour: &'static str,
    pub points: Vec<(f64, f64)>,
}

pub struct Plot<'a> {
    pub title: &'a str,
    pub x: &'a str,
    pub y: &'a str,
    pub curves: Vec<Curve>,
}

const WIDTH: f64 = 860.0;
const HEIGHT: f64 = 520.0;
const LEFT: f64 = 80.0;
const RIGHT: f64 = 190.0;
const TOP: f64 = 50.0;
const BOTTOM: f64 = 60.0;

/// An axis from the least to the greatest number, in pixels.
struct Axis {
    least: f64,
    greatest: f64,
    from: f64,
    to: f64,
}

impl Axis {
    fn over(numbers: impl Iterator<Item = f64> + Clone, from: f64, to: f64) -> Self {
        let least = numbers.clone().fold(f64::INFINITY, f64::min);
        let greatest = numbers.fold(0.0, f64::max);
        Self {
            least: least / 1.25,
            greatest: greatest * 1.25,
            from,
            to,
        }
    }

    fn at(&self, number: f64) -> f64 {
        let share = (number / self.least).ln() / (self.greatest / self.least).ln();
        self.from + share * (self.to - self.from)
    }

    /// 1, 2 and 5 of each power of ten, within the axis.
    fn ticks(&self) -> Vec<f64> {
        let powers = (-6..=9).map(|power| 10f64.powi(power));
        let ticks = powers.flat_map(|power| [power, 2.0 * power, 5.0 * power]);
        ticks
            .filter(|tick| (self.least..=self.greatest).contains(tick))
            .collect()
    }
}

impl Plot<'_> {
    /// The text of the picture.
    pub fn svg(&self) -> String {
        let points = || self.curves.iter().flat_map(|curve| curve.points.iter());
        let x = Axis::over(points().map(|point| point.0), LEFT, WIDTH - RIGHT);
        let y = Axis::over(points().map(|point| point.1), HEIGHT - BOTTOM, TOP);
        let mut svg = String::new();
        self.draw(&mut svg, &x, &y).expect("a text takes all");
        svg
    }

    fn draw(&self, svg: &mut String, x: &Axis, y: &Axis) -> std::fmt::Result {
        writeln!(
            svg,
            r#"<svg xmlns="http://www.w3.org/2000/svg" viewBox="0 0 {WIDTH} {HEIGHT}" width="{WIDTH}" height="{HEIGHT}" font-family="sans-serif" font-size="13">"#
        )?;
        writeln!(
            svg,
            r##"<rect width="100%" height="100%" fill="#ffffff"/>"##
        )?;
        let middle = f64::midpoint(x.from, x.to);
        writeln!(
            svg,
            r##"<text x="{middle:.1}" y="28" text-anchor="middle" font-size="16" fill="#222222">{}</text>"##,
            self.title
        )?;
        grid(svg, x, y)?;
        self.frame(svg, x, y)?;
        let mut labels = Vec::new();
        for curve in &self.curves {
            draw_curve(svg, curve, x, y)?;
            if let Some(last) = curve.points.last() {
                labels.push((y.at(last.1), curve));
            }
        }
        draw_labels(svg, labels, x.at(x.greatest))?;
        writeln!(svg, "</svg>")
    }

    /// A box around the curves, and what the axes are.
    fn frame(&self, svg: &mut String, x: &Axis, y: &Axis) -> std::fmt::Result {
        writeln!(
            svg,
            r##"<rect x="{:.1}" y="{:.1}" width="{:.1}" height="{:.1}" fill="none" stroke="#888888"/>"##,
            x.from,
            y.to,
            x.to - x.from,
            y.from - y.to
        )?;
        let (middle, height) = (f64::midpoint(x.from, x.to), f64::midpoint(y.from, y.to));
        writeln!(
            svg,
            r##"<text x="{middle:.1}" y="{:.1}" text-anchor="middle" fill="#222222">{}</text>"##,
            HEIGHT - 14.0,
            self.x
        )?;
        writeln!(
            svg,
            r##"<text x="22" y="{height:.1}" text-anchor="middle" transform="rotate(-90 22 {height:.1})" fill="#222222">{}</text>"##,
            self.y
        )
    }
}

/// A line and a number for each tick.
fn grid(svg: &mut String, x: &Axis, y: &Axis) -> std::fmt::Result {
    for tick in x.ticks() {
        let at = x.at(tick);
        writeln!(
            svg,
            r##"<line x1="{at:.1}" y1="{:.1}" x2="{at:.1}" y2="{:.1}" stroke="#dddddd"/><text x="{at:.1}" y="{:.1}" text-anchor="middle" fill="#444444">{tick}</text>"##,
            y.from,
            y.to,
            y.from + 20.0
        )?;
    }
    for tick in y.ticks() {
        let at = y.at(tick);
        writeln!(
            svg,
            r##"<line x1="{:.1}" y1="{at:.1}" x2="{:.1}" y2="{at:.1}" stroke="#dddddd"/><text x="{:.1}" y="{:.1}" text-anchor="end" fill="#444444">{tick}</text>"##,
            x.from,
            x.to,
            x.from - 8.0,
            at + 4.0
        )?;
    }
    Ok(())
}

fn draw_curve(svg: &mut String, curve: &Curve, x: &Axis, y: &Axis) -> std::fmt::Result {
    let places: Vec<(f64, f64)> = curve
        .points
        .iter()
        .map(|&(size, time)| (x.at(size), y.at(time)))
        .collect();
    let path: Vec<String> = places
        .iter()
        .map(|(x, y)| format!("{x:.1},{y:.1}"))
        .collect();
    let colour = curve.colour;
    writeln!(
        svg,
        r#"<polyline points="{}" fill="none" stroke="{colour}" stroke-width="2"/>"#,
        path.join(" ")
    )?;
    for (x, y) in places {
        writeln!(
            svg,
            r#"<circle cx="{x:.1}" cy="{y:.1}" r="3.5" fill="{colour}"/>"#
        )?;
    }
    Ok(())
}

/// The names at the ends of their curves, apart from one another.
fn draw_labels(svg: &mut String, mut labels: Vec<(f64, &Curve)>, x: f64) -> std::fmt::Result {
    labels.sort_by(|first, second| first.0.total_cmp(&second.0));
    let mut free = TOP;
    for (y, curve) in labels {
        let y = y.max(free);
        free = y + 18.0;
        writeln!(
            svg,
            r#"<text x="{:.1}" y="{:.1}" fill="{}">{}</text>"#,
            x + 8.0,
            y + 4.0,
            curve.colour,
            curve.name
        )?;
    }
    Ok(())
}

#[cfg(test)]
mod tests {
    use super::{Axis, Curve, Plot};

    #[test]
    fn ticks_lie_on_the_axis() {
        let axis = Axis::over([1.0, 100.0].into_iter(), 0.0, 300.0);
        assert_eq!(axis.ticks(), [1.0, 2.0, 5.0, 10.0, 20.0, 50.0, 100.0]);
        assert!(axis.at(1.0) > 0.0 && axis.at(100.0) < 300.0);
        assert!((axis.at(10.0) - 150.0).abs() < 1e-9);
    }

    #[test]
    fn every_curve_is_drawn_and_named() {
        let curve = |name| Curve {
            name,
            colour: "#000000",
            points: vec![(1.0, 2.0), (10.0, 4.0)],
        };
        let plot = Plot {
            title: "t",
            x: "bytes",
            y: "ms",
            curves: vec![curve("first"), curve("second")],
        };
        let svg = plot.svg();
        assert_eq!(svg.matches("<polyline").count(), 2);
        assert_eq!(svg.matches("<circle").count(), 4);
        assert!(svg.contains(">first</text>") && svg.contains(">second</text>"));
        assert!(svg.starts_with("<svg") && svg.ends_with("</svg>\n"));
    }
}
