// Panels of lines over records and microseconds, both axes logarithmic, as SVG.
use std::fmt::Write;

pub struct Line {
    pub name: String,
    pub colour: usize,
    pub dashed: bool,
    pub points: Vec<(f64, f64)>,
}

pub struct Panel {
    pub title: &'static str,
    pub lines: Vec<Line>,
}

const COLOURS: [&str; 3] = ["#1b5fa8", "#b8321f", "#23794b"];
const WIDTH: f64 = 300.0;
const HEIGHT: f64 = 320.0;
const TOP: f64 = 60.0;
const APART: f64 = 580.0;
const RECORDS: (i32, i32) = (3, 5);

// A power of ten with commas.
fn power(n: i32) -> String {
    match n {
        ..=-1 => format!("{}", 10f64.powi(n)),
        0..=2 => format!("{}", 10u64.pow(n as u32)),
        _ => format!("{},000", power(n - 3)),
    }
}

struct Axes {
    left: f64,
    times: (i32, i32),
}

impl Axes {
    fn x(&self, records: f64) -> f64 {
        self.left + WIDTH * (records.log10() - RECORDS.0 as f64) / (RECORDS.1 - RECORDS.0) as f64
    }

    fn y(&self, us: f64) -> f64 {
        TOP + HEIGHT * (self.times.1 as f64 - us.log10()) / (self.times.1 - self.times.0) as f64
    }

    fn draw(&self, out: &mut String, title: &str) {
        let (left, right, bottom) = (self.left, self.left + WIDTH, TOP + HEIGHT);
        for n in RECORDS.0..=RECORDS.1 {
            let x = self.x(10f64.powi(n));
            text(out, (x, bottom + 18.0), "middle", "#333", &power(n));
            grid(out, (x, TOP), (x, bottom));
        }
        for n in self.times.0..=self.times.1 {
            let y = self.y(10f64.powi(n));
            text(out, (left - 8.0, y + 4.0), "end", "#333", &power(n));
            grid(out, (left, y), (right, y));
        }
        text(out, (left, TOP - 30.0), "start", "#000", &format!("<tspan font-weight=\"bold\">{title}</tspan>"));
        text(out, (left, TOP - 12.0), "start", "#333", "µs per call, port solid, crate dashed");
        text(out, (left + WIDTH / 2.0, bottom + 38.0), "middle", "#333", "records in the store");
    }
}

fn text(out: &mut String, (x, y): (f64, f64), anchor: &str, colour: &str, t: &str) {
    writeln!(out, "<text x=\"{x:.1}\" y=\"{y:.1}\" text-anchor=\"{anchor}\" fill=\"{colour}\">{t}</text>").unwrap();
}

fn grid(out: &mut String, (x, y): (f64, f64), (x2, y2): (f64, f64)) {
    writeln!(out, "<path d=\"M{x:.1} {y:.1}L{x2:.1} {y2:.1}\" stroke=\"#ddd\"/>").unwrap();
}

fn line(out: &mut String, axes: &Axes, l: &Line) {
    let points: Vec<String> = l.points.iter().map(|(r, us)| format!("{:.1},{:.1}", axes.x(*r), axes.y(*us))).collect();
    let dash = if l.dashed { " stroke-dasharray=\"5 4\"" } else { "" };
    let colour = COLOURS[l.colour];
    writeln!(out, "<polyline points=\"{}\" fill=\"none\" stroke=\"{colour}\" stroke-width=\"1.8\"{dash}/>", points.join(" ")).unwrap();
}

// Each name beside its line's end, at least a line of text apart.
fn names(out: &mut String, axes: &Axes, lines: &[Line]) {
    let mut ends: Vec<(f64, &Line)> = lines.iter().map(|l| (axes.y(l.points.last().unwrap().1), l)).collect();
    ends.sort_by(|a, b| a.0.total_cmp(&b.0));
    let mut last = f64::NEG_INFINITY;
    for (y, l) in ends {
        last = y.max(last + 15.0);
        let name = l.name.replace('&', "&amp;");
        text(out, (axes.left + WIDTH + 10.0, last + 4.0), "start", COLOURS[l.colour], &name);
    }
}

pub fn svg(panels: &[Panel]) -> String {
    let (width, height) = (60.0 + APART * panels.len() as f64, TOP + HEIGHT + 55.0);
    let mut out = String::from("<svg xmlns=\"http://www.w3.org/2000/svg\" font-family=\"sans-serif\" font-size=\"12\" ");
    writeln!(out, "viewBox=\"0 0 {width} {height}\">").unwrap();
    out.push_str("<rect width=\"100%\" height=\"100%\" fill=\"#fff\"/>\n");
    for (i, panel) in panels.iter().enumerate() {
        let times = panel.lines.iter().flat_map(|l| l.points.iter().map(|p| p.1.log10()));
        let (low, high) = times.fold((f64::INFINITY, f64::NEG_INFINITY), |(low, high), t| (t.min(low), t.max(high)));
        let axes = Axes { left: 60.0 + APART * i as f64, times: (low.floor() as i32, high.ceil() as i32) };
        axes.draw(&mut out, panel.title);
        panel.lines.iter().for_each(|l| line(&mut out, &axes, l));
        names(&mut out, &axes, &panel.lines);
    }
    out + "</svg>\n"
}
