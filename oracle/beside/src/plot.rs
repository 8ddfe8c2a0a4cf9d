//! A plot as SVG: panels side by side, in each a line for the proved run and one for the Rust, over 1, 2, 3 .. live sends.

/// The size of a panel and of its margins.
const WIDTH: f64 = 360.0;
const HEIGHT: f64 = 250.0;
const LEFT: f64 = 48.0;
const RIGHT: f64 = 74.0;
const TOP: f64 = 30.0;
const BOTTOM: f64 = 40.0;

const NAMES: [&str; 2] = ["proved run", "the Rust"];
const COLOURS: [&str; 2] = ["#1f5fa8", "#c4571a"];

/// A title, and the values of both sides for 1, 2, 3 .. live sends.
pub struct Panel {
    pub title: String,
    pub sides: [Vec<f64>; 2],
}

/// A step between grid lines of 1, 2 or 5 times a power of ten, so that there are at most six of them.
fn step(most: f64) -> f64 {
    let power = 10f64.powf((most / 6.0).log10().floor());
    let steps = [1.0, 2.0, 5.0, 10.0].map(|times| times * power);
    steps.into_iter().find(|step| most / step <= 6.0).unwrap_or(most)
}

fn text(x: f64, y: f64, anchor: &str, colour: &str, words: &str) -> String {
    format!("<text x=\"{x:.1}\" y=\"{y:.1}\" text-anchor=\"{anchor}\" fill=\"{colour}\">{words}</text>\n")
}

/// Where values lie in a panel.
struct Scale {
    left: f64,
    places: usize,
    top_value: f64,
}

impl Scale {
    fn x(&self, live: usize) -> f64 {
        let width = WIDTH - LEFT - RIGHT;
        self.left + LEFT + width * (live - 1) as f64 / (self.places - 1).max(1) as f64
    }

    fn y(&self, value: f64) -> f64 {
        HEIGHT - BOTTOM - (HEIGHT - TOP - BOTTOM) * value / self.top_value
    }
}

fn grid(scale: &Scale, step: f64) -> String {
    let (left, right) = (scale.x(1), scale.x(scale.places));
    let mut svg = String::new();
    let mut value = 0.0;
    while value <= scale.top_value {
        let y = scale.y(value);
        svg += &format!("<path d=\"M{left:.1} {y:.1}H{right:.1}\" stroke=\"#ddd\"/>\n");
        svg += &text(left - 6.0, y + 4.0, "end", "#444", &format!("{value}"));
        value += step;
    }
    for live in (1..=scale.places).filter(|live| *live == 1 || live.is_multiple_of(8)) {
        svg += &text(scale.x(live), HEIGHT - BOTTOM + 16.0, "middle", "#444", &live.to_string());
    }
    svg + &text((left + right) / 2.0, HEIGHT - 8.0, "middle", "#444", "live sends")
}

/// A line, and its name at its end, moved up or down where the other's would be in its way.
fn line(scale: &Scale, side: usize, values: &[f64], name_at: f64) -> String {
    let point = |(place, value): (usize, &f64)| format!("{:.1},{:.1}", scale.x(place + 1), scale.y(*value));
    let points: Vec<String> = values.iter().enumerate().map(point).collect();
    let colour = COLOURS[side];
    let drawn = points.join(" ");
    let svg = format!("<polyline points=\"{drawn}\" fill=\"none\" stroke=\"{colour}\" stroke-width=\"2\"/>\n");
    svg + &text(scale.x(scale.places) + 6.0, name_at, "start", colour, NAMES[side])
}

fn panel(number: usize, panel: &Panel) -> String {
    let most = panel.sides.iter().flatten().fold(0.0, |most: f64, value| most.max(*value));
    let step = step(most);
    let scale =
        Scale { left: WIDTH * number as f64, places: panel.sides[0].len(), top_value: step * (most / step).ceil() };
    let ends = [0, 1].map(|side| scale.y(*panel.sides[side].last().expect("a value for each number")) + 4.0);
    let apart = (7.0 - (ends[0] - ends[1]).abs() / 2.0).max(0.0);
    let lower = if ends[0] < ends[1] { [-apart, apart] } else { [apart, -apart] };
    let mut svg = text(scale.x(1), TOP - 12.0, "start", "#000", &panel.title) + &grid(&scale, step);
    for side in [0, 1] {
        svg += &line(&scale, side, &panel.sides[side], ends[side] + lower[side]);
    }
    svg
}

/// The whole picture.
pub fn svg(panels: &[Panel]) -> String {
    let width = WIDTH * panels.len() as f64;
    let head = format!("<svg xmlns=\"http://www.w3.org/2000/svg\" viewBox=\"0 0 {width} {HEIGHT}\" font-size=\"12\"");
    let mut svg = format!("{head} font-family=\"sans-serif\">\n<rect width=\"100%\" height=\"100%\" fill=\"#fff\"/>\n");
    for (number, one) in panels.iter().enumerate() {
        svg += &panel(number, one);
    }
    svg + "</svg>\n"
}

#[cfg(test)]
mod tests {
    use super::*;

    #[test]
    fn a_plot_has_a_line_for_each_side_with_a_point_for_each_number() {
        let sides = [(1..=32).map(f64::from).collect(), vec![7.5; 32]];
        let text = svg(&[Panel { title: "one".into(), sides }]);
        let lines: Vec<&str> = text.lines().filter(|line| line.starts_with("<polyline")).collect();
        assert_eq!(lines.len(), 2);
        assert!(lines.iter().all(|line| line.matches(',').count() == 32));
        assert!(text.starts_with("<svg ") && text.ends_with("</svg>\n"));
    }

    #[test]
    fn grid_lines_are_few_and_round() {
        assert_eq!([7.0, 42.0, 130.0, 1300.0].map(step), [2.0, 10.0, 50.0, 500.0]);
    }
}
