//! The picture of how a removal's cost grows: panels side by side, kernel and Rust as a line with points each, in SVG.

use std::fmt::Display;

const WIDTH: f64 = 760.0;
const HEIGHT: f64 = 340.0;

/// Where the titles stand, and the legend on the line of the first.
const MARGIN: f64 = 20.0;
const TITLE: f64 = 30.0;
const SUBTITLE: f64 = 50.0;
const LEGEND: f64 = 590.0;
const NEXT_ENTRY: f64 = 84.0;

/// Where the first panel's plot stands, and how far it is to the next one.
const LEFT: f64 = 62.0;
const TOP: f64 = 100.0;
const BOTTOM: f64 = 286.0;
const PLOT_WIDTH: f64 = 300.0;
const NEXT_PANEL: f64 = 376.0;

/// Everything has a colour of its own on a white ground, so that it looks the same in every viewer.
const GROUND: &str = "#ffffff";
const INK: &str = "#1f2328";
const FAINT_INK: &str = "#59636e";
const GRID: &str = "#e3e6ea";
const KERNEL: &str = "#0b62c4";
const RUST: &str = "#d1480f";

/// The most ticks above 0 on an axis of microseconds.
const TICKS: f64 = 8.0;

/// A place in the picture: how far from its left side and from its top.
type Place = (f64, f64);

/// One panel: both sides by what grows.
pub struct Panel {
    pub title: String,
    /// What grows.
    pub axis: &'static str,
    pub points: Vec<Point>,
}

/// Microseconds of both sides where what grows is `at`.
pub struct Point {
    pub at: f64,
    pub kernel: f64,
    pub rust: f64,
}

/// Which of the two is drawn.
#[derive(Clone, Copy)]
enum Side {
    Kernel,
    Rust,
}

impl Side {
    const BOTH: [Side; 2] = [Side::Kernel, Side::Rust];

    fn name(self) -> &'static str {
        match self {
            Side::Kernel => "Kernel",
            Side::Rust => "Rust",
        }
    }

    fn colour(self) -> &'static str {
        match self {
            Side::Kernel => KERNEL,
            Side::Rust => RUST,
        }
    }

    fn microseconds(self, point: &Point) -> f64 {
        match self {
            Side::Kernel => point.kernel,
            Side::Rust => point.rust,
        }
    }

    /// A disc or a square, so that they are told apart without colours too.
    fn marker(self, (x, y): Place) -> String {
        let paint = format!("fill='{}' stroke='{GROUND}'", self.colour());
        match self {
            Side::Kernel => format!("<circle cx='{x:.1}' cy='{y:.1}' r='4.5' {paint}/>\n"),
            Side::Rust => {
                let (x, y) = (x - 4.0, y - 4.0);
                format!("<rect x='{x:.1}' y='{y:.1}' width='8' height='8' {paint}/>\n")
            }
        }
    }

    fn line(self, places: &[Place]) -> String {
        let colour = self.colour();
        let places = places.iter().map(|(x, y)| format!("{x:.1},{y:.1}"));
        let places = places.collect::<Vec<String>>().join(" ");
        format!("<polyline points='{places}' fill='none' stroke='{colour}' stroke-width='2'/>\n")
    }
}

/// What a text is for.
#[derive(Clone, Copy)]
enum Style {
    Title,
    Subtitle,
    PanelTitle,
    Entry,
    Axis,
    /// Below its tick.
    At,
    /// Before its tick.
    Microseconds,
}

impl Style {
    fn attributes(self) -> String {
        match self {
            Style::Title => format!("fill='{INK}' font-size='17' font-weight='bold'"),
            Style::Subtitle => format!("fill='{FAINT_INK}'"),
            Style::PanelTitle => format!("fill='{INK}' font-weight='bold'"),
            Style::Entry => format!("fill='{INK}'"),
            Style::Axis => format!("fill='{FAINT_INK}' text-anchor='middle'"),
            Style::At => format!("fill='{INK}' text-anchor='middle'"),
            Style::Microseconds => format!("fill='{INK}' text-anchor='end'"),
        }
    }
}

/// From what grows and microseconds to places in the picture.
struct Scale {
    left: f64,
    /// What grows, at the left and at the right side of the plot.
    from: f64,
    to: f64,
    /// Microseconds from one tick to the next, and how many ticks there are above 0.
    step: f64,
    ticks: f64,
}

impl Scale {
    /// Half a step of room on both sides, and ticks from 0 to the first that nothing is above.
    fn new(left: f64, points: &[Point]) -> Scale {
        let (first, last) = (points[0].at, points[points.len() - 1].at);
        let room = (last - first) / (points.len() - 1) as f64 / 2.0;
        let all = points
            .iter()
            .flat_map(|point| Side::BOTH.map(|side| side.microseconds(point)));
        let most = all.fold(0.0, f64::max);
        let step = tick_step(most);
        Scale {
            left,
            from: first - room,
            to: last + room,
            step,
            ticks: (most / step).ceil(),
        }
    }

    fn right(&self) -> f64 {
        self.left + PLOT_WIDTH
    }

    fn x(&self, at: f64) -> f64 {
        self.left + (at - self.from) / (self.to - self.from) * PLOT_WIDTH
    }

    fn y(&self, microseconds: f64) -> f64 {
        BOTTOM - microseconds / (self.ticks * self.step) * (BOTTOM - TOP)
    }
}

/// The least of 1, 2 and 5 times a power of ten with which there are not too many ticks.
fn tick_step(most: f64) -> f64 {
    let least = most / TICKS;
    let power = 10f64.powf(least.log10().floor());
    let steps = [power, 2.0 * power, 5.0 * power];
    let enough = steps.into_iter().find(|step| *step >= least);
    enough.unwrap_or(10.0 * power)
}

/// The whole picture.
pub fn svg(title: &str, subtitle: &str, panels: &[Panel]) -> String {
    let mut drawn = head(title);
    drawn += &text((MARGIN, TITLE), Style::Title, title);
    drawn += &text((MARGIN, SUBTITLE), Style::Subtitle, subtitle);
    for (number, side) in Side::BOTH.into_iter().enumerate() {
        drawn += &entry(LEGEND + number as f64 * NEXT_ENTRY, side);
    }
    for (number, panel) in panels.iter().enumerate() {
        drawn += &panel_at(LEFT + number as f64 * NEXT_PANEL, panel);
    }
    drawn + "</svg>\n"
}

/// The ground, with a title for those who do not see it.
fn head(title: &str) -> String {
    let title = escaped(title);
    let size = format!("width='{WIDTH}' height='{HEIGHT}'");
    let space = format!("xmlns='http://www.w3.org/2000/svg' viewBox='0 0 {WIDTH} {HEIGHT}'");
    let font = "font-family='sans-serif' font-size='12'";
    let ground = format!("<rect {size} fill='{GROUND}'/>");
    format!("<svg {space} {size} role='img' {font}>\n<title>{title}</title>\n{ground}\n")
}

/// An entry of the legend.
fn entry(x: f64, side: Side) -> String {
    let y = TITLE - 4.0;
    let line = side.line(&[(x, y), (x + 26.0, y)]);
    let marker = side.marker((x + 13.0, y));
    line + &marker + &text((x + 33.0, TITLE), Style::Entry, side.name())
}

fn panel_at(left: f64, panel: &Panel) -> String {
    let scale = Scale::new(left, &panel.points);
    let title = text((left, TOP - 14.0), Style::PanelTitle, &panel.title);
    let curves = Side::BOTH.map(|side| curve(&scale, side, &panel.points));
    title + &upward_axis(&scale) + &sideward_axis(&scale, panel) + &curves.concat()
}

/// The axis of microseconds.
fn upward_axis(scale: &Scale) -> String {
    let ticks = 0..=scale.ticks as usize;
    let ticks: String = ticks.map(|number| upward_tick(scale, number)).collect();
    let (x, y) = (scale.left - 34.0, (TOP + BOTTOM) / 2.0);
    let name = text((x, y), Style::Axis, "microseconds");
    format!("{ticks}<g transform='rotate(-90 {x:.1} {y:.1})'>{name}</g>\n")
}

/// A tick of microseconds, with its line across the plot.
fn upward_tick(scale: &Scale, number: usize) -> String {
    let microseconds = number as f64 * scale.step;
    let digits = usize::from(scale.step < 1.0);
    let y = scale.y(microseconds);
    let said = format!("{microseconds:.digits$}");
    let across = line((scale.left, y), (scale.right(), y), GRID);
    across + &text((scale.left - 8.0, y + 4.0), Style::Microseconds, said)
}

/// The axis of what grows, with a tick for each point.
fn sideward_axis(scale: &Scale, panel: &Panel) -> String {
    let along = line((scale.left, BOTTOM), (scale.right(), BOTTOM), FAINT_INK);
    let ticks = panel.points.iter().map(|point| {
        let x = scale.x(point.at);
        let mark = line((x, BOTTOM), (x, BOTTOM + 5.0), FAINT_INK);
        mark + &text((x, BOTTOM + 19.0), Style::At, point.at)
    });
    let ticks: String = ticks.collect();
    let middle = scale.left + PLOT_WIDTH / 2.0;
    along + &ticks + &text((middle, BOTTOM + 38.0), Style::Axis, panel.axis)
}

/// One side's line with its points.
fn curve(scale: &Scale, side: Side, points: &[Point]) -> String {
    let place = |point: &Point| (scale.x(point.at), scale.y(side.microseconds(point)));
    let places: Vec<Place> = points.iter().map(place).collect();
    let markers: String = places.iter().map(|place| side.marker(*place)).collect();
    side.line(&places) + &markers
}

fn line((x1, y1): Place, (x2, y2): Place, colour: &str) -> String {
    format!("<line x1='{x1:.1}' y1='{y1:.1}' x2='{x2:.1}' y2='{y2:.1}' stroke='{colour}'/>\n")
}

fn text((x, y): Place, style: Style, said: impl Display) -> String {
    let (attributes, said) = (style.attributes(), escaped(&said.to_string()));
    format!("<text x='{x:.1}' y='{y:.1}' {attributes}>{said}</text>\n")
}

/// The text with nothing in it that is taken for markup.
fn escaped(text: &str) -> String {
    text.replace('&', "&amp;")
        .replace('<', "&lt;")
        .replace('>', "&gt;")
}
