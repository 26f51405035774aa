//! Time against n as an SVG, both axes logarithmic.

/// One curve: n and nanoseconds.
pub struct Series {
    pub name: String,
    pub dashed: bool,
    pub points: Vec<(usize, f64)>,
}

const WIDTH: f64 = 940.0;
const HEIGHT: f64 = 500.0;
const LEFT: f64 = 80.0;
const RIGHT: f64 = 330.0;
const TOP: f64 = 50.0;
const BOTTOM: f64 = 60.0;
const COLOURS: [&str; 4] = ["#1b6ca8", "#c0562f", "#3a7d44", "#7a4f9a"];

/// The axes' ranges: n from 1 to 32, nanoseconds between powers of ten.
struct Axes {
    low: f64,
    high: f64,
}

impl Axes {
    fn of(series: &[Series]) -> Self {
        let times = || {
            series
                .iter()
                .flat_map(|s| s.points.iter().map(|&(_, time)| time.max(1.0).log10()))
        };
        let low = times().fold(f64::INFINITY, f64::min).floor();
        let high = times().fold(f64::NEG_INFINITY, f64::max).ceil();
        Axes {
            low,
            high: if high > low { high } else { low + 1.0 },
        }
    }

    fn x(&self, n: usize) -> f64 {
        LEFT + (n as f64).log2() / 5.0 * (WIDTH - LEFT - RIGHT)
    }

    fn y(&self, nanoseconds: f64) -> f64 {
        let place = (nanoseconds.max(1.0).log10() - self.low) / (self.high - self.low);
        HEIGHT - BOTTOM - place * (HEIGHT - TOP - BOTTOM)
    }
}

/// The whole picture.
pub fn svg(series: &[Series]) -> String {
    let axes = Axes::of(series);
    let mut text = format!(
        "<svg xmlns=\"http://www.w3.org/2000/svg\" width=\"{WIDTH}\" height=\"{HEIGHT}\" viewBox=\"0 0 {WIDTH} {HEIGHT}\" \
         font-family=\"sans-serif\" font-size=\"14\">\n<rect width=\"100%\" height=\"100%\" fill=\"white\"/>\n\
         <text x=\"{LEFT}\" y=\"28\" font-size=\"17\">Time of one call against n</text>\n"
    );
    text.push_str(&grid(&axes));
    for (k, one) in series.iter().enumerate() {
        text.push_str(&curve(&axes, one, COLOURS[k / 2 % COLOURS.len()]));
        text.push_str(&legend(k, one, COLOURS[k / 2 % COLOURS.len()]));
    }
    text.push_str("</svg>\n");
    text
}

fn grid(axes: &Axes) -> String {
    let (bottom, right) = (HEIGHT - BOTTOM, WIDTH - RIGHT);
    let mut text = String::new();
    for n in [1, 2, 4, 8, 16, 32] {
        let x = axes.x(n);
        text.push_str(&format!(
            "<line x1=\"{x:.1}\" y1=\"{TOP}\" x2=\"{x:.1}\" y2=\"{bottom}\" stroke=\"#dddddd\"/>\n"
        ));
        text.push_str(&format!(
            "<text x=\"{x:.1}\" y=\"{:.1}\" text-anchor=\"middle\">{n}</text>\n",
            bottom + 22.0
        ));
    }
    for power in axes.low as i32..=axes.high as i32 {
        let y = axes.y(10f64.powi(power));
        text.push_str(&format!(
            "<line x1=\"{LEFT}\" y1=\"{y:.1}\" x2=\"{right}\" y2=\"{y:.1}\" stroke=\"#dddddd\"/>\n"
        ));
        let label = duration(power);
        text.push_str(&format!(
            "<text x=\"{}\" y=\"{:.1}\" text-anchor=\"end\">{label}</text>\n",
            LEFT - 10.0,
            y + 5.0
        ));
    }
    let middle = (LEFT + right) / 2.0;
    text.push_str(&format!(
        "<text x=\"{middle}\" y=\"{}\" text-anchor=\"middle\">n</text>\n",
        bottom + 46.0
    ));
    text
}

/// A power of ten of nanoseconds in words.
fn duration(power: i32) -> String {
    match power {
        0..=2 => format!("{} ns", 10i64.pow(power as u32)),
        3..=5 => format!("{} us", 10i64.pow(power as u32 - 3)),
        _ => format!("1e{power} ns"),
    }
}

fn dash(series: &Series) -> &'static str {
    if series.dashed {
        " stroke-dasharray=\"7 5\""
    } else {
        ""
    }
}

fn curve(axes: &Axes, series: &Series, colour: &str) -> String {
    let points: Vec<String> = series
        .points
        .iter()
        .map(|&(n, time)| format!("{:.1},{:.1}", axes.x(n), axes.y(time)))
        .collect();
    let mut text = format!(
        "<polyline points=\"{}\" fill=\"none\" stroke=\"{colour}\" stroke-width=\"2.2\"{}/>\n",
        points.join(" "),
        dash(series)
    );
    for point in &points {
        let (x, y) = point.split_once(',').unwrap_or_default();
        text.push_str(&format!(
            "<circle cx=\"{x}\" cy=\"{y}\" r=\"3.2\" fill=\"{colour}\"/>\n"
        ));
    }
    text
}

fn legend(place: usize, series: &Series, colour: &str) -> String {
    let (x, y) = (WIDTH - RIGHT + 20.0, TOP + 24.0 * place as f64 + 10.0);
    format!(
        "<line x1=\"{x}\" y1=\"{y}\" x2=\"{}\" y2=\"{y}\" stroke=\"{colour}\" stroke-width=\"2.2\"{}/>\n\
         <text x=\"{}\" y=\"{}\">{}</text>\n",
        x + 30.0,
        dash(series),
        x + 38.0,
        y + 5.0,
        series.name
    )
}
