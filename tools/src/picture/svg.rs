//! The picture: one SVG file that needs nothing else.

use super::lanes::Lanes;
use super::scale::{room, stacked, Scale};
use super::story::{Arrow, Story};
use crate::names::{Names, Space};
use crate::table::{End, Row};
use crate::toggles::{broken, Broken};
use jidlekuvo_reference::plan_file::Plan;
use std::io::{Result, Write};

const COLOURS: [&str; 8] =
    ["#9ecae1", "#fdd0a2", "#c7e9c0", "#dadaeb", "#fcbba1", "#d9d9d9", "#ffe699", "#b3e2cd"];
const BAR: f64 = 30.0;
const LANE: f64 = 42.0;
const HEADING: f64 = 22.0;
const LABEL_ROW: f64 = 15.0;
const MOST_LABEL_ROWS: usize = 6;
const MARGIN: f64 = 12.0;
const AXIS: &str = "microseconds";

struct Picture<'a> {
    plan: &'a Plan,
    names: &'a Names,
    story: &'a Story,
    lanes: Lanes,
    scale: Scale,
    /// The top of each lane, and the bottom of the last.
    tops: Vec<f64>,
    /// The row of each outcome's label.
    labels: Vec<Option<usize>>,
    /// The right edge of the lanes.
    right: f64,
}

/// Writes the picture of a story.
pub fn svg(plan: &Plan, names: &Names, story: &Story, out: &mut impl Write) -> Result<()> {
    let picture = Picture::new(plan, names, story);
    picture.frame(out)?;
    // Arrows and lines go over the bars, and the texts over all.
    story.rows.iter().try_for_each(|row| picture.bar(row, out))?;
    picture.held(out)?;
    story.arrows.iter().try_for_each(|arrow| picture.arrow(arrow, out))?;
    story.rows.iter().try_for_each(|row| picture.texts(row, out))?;
    picture.legend(out)?;
    writeln!(out, "</svg>")
}

fn escaped(text: &str) -> String {
    text.replace('&', "&amp;").replace('<', "&lt;").replace('>', "&gt;").replace('"', "&quot;")
}

impl<'a> Picture<'a> {
    fn new(plan: &'a Plan, names: &'a Names, story: &'a Story) -> Picture<'a> {
        let lanes = Lanes::of(plan);
        let labels = (0..lanes.list.len()).map(|lane| room(&lanes.name(lane, names)));
        let left = labels.fold(room(AXIS), f64::max) + 3.0 * MARGIN;
        let scale = Scale::of(story, names, left);
        let mut picture =
            Picture { plan, names, story, lanes, scale, tops: vec![], labels: vec![], right: 0.0 };
        let spans: Vec<(f64, f64)> = story
            .held
            .iter()
            .map(|held| (picture.scale.x(held.at), room(&picture.label(held.event, held.outcome))))
            .collect();
        picture.labels = stacked(&spans, MOST_LABEL_ROWS);
        let last = picture.scale.x(picture.scale.latest) + room("00000000");
        picture.right = spans.iter().map(|(x, room)| x + room + 4.0).fold(last, f64::max);
        let label_rows = picture.labels.iter().flatten().max().map_or(0, |row| row + 1);
        let mut top = 2.0 * LABEL_ROW + label_rows as f64 * LABEL_ROW + MARGIN;
        for lane in 0..picture.lanes.list.len() {
            picture.tops.push(top);
            top += if picture.lanes.is_heading(lane) { HEADING } else { LANE };
        }
        picture.tops.push(top);
        picture
    }

    fn label(&self, event: u8, outcome: u8) -> String {
        let outcome = self.names.of(Space::Outcome(event), outcome as usize);
        format!("{} {outcome}", self.names.of(Space::Event, event as usize))
    }

    fn top(&self) -> f64 {
        self.tops[0]
    }

    fn bottom(&self) -> f64 {
        self.tops[self.tops.len() - 1]
    }

    /// The size, the lanes with their names, and the axis.
    fn frame(&self, out: &mut impl Write) -> Result<()> {
        let legend_rows = self.legend_places().last().map_or(0, |(row, _)| row + 1);
        let (right, rows) = (self.right, legend_rows as f64 + 2.5);
        let (width, height) = (right + MARGIN, self.bottom() + rows * LABEL_ROW);
        writeln!(
            out,
            "<svg xmlns=\"http://www.w3.org/2000/svg\" width=\"{width:.0}\" height=\"{height:.0}\" viewBox=\"0 0 {width:.0} {height:.0}\" font-family=\"DejaVu Sans Mono, monospace\" font-size=\"11\">"
        )?;
        writeln!(out, "<defs><marker id=\"head\" viewBox=\"0 0 8 8\" refX=\"7\" refY=\"4\" markerWidth=\"7\" markerHeight=\"7\" orient=\"auto\"><path d=\"M0 0L8 4L0 8z\" fill=\"#333\"/></marker></defs>")?;
        writeln!(out, "<rect width=\"{width:.0}\" height=\"{height:.0}\" fill=\"white\"/>")?;
        for lane in 0..self.lanes.list.len() {
            self.lane(lane, right, out)?;
        }
        self.axis(out)
    }

    fn lane(&self, lane: usize, right: f64, out: &mut impl Write) -> Result<()> {
        let (top, bottom) = (self.tops[lane], self.tops[lane + 1]);
        let is_heading = self.lanes.is_heading(lane);
        let fill = if is_heading { "#e8e8e8" } else { "#fafafa" };
        let weight = if is_heading { " font-weight=\"bold\"" } else { "" };
        let indent = if is_heading { MARGIN } else { 2.0 * MARGIN };
        let name = escaped(&self.lanes.name(lane, self.names));
        let height = bottom - top - 1.0;
        let wide = right - MARGIN;
        writeln!(out, "<rect x=\"{MARGIN}\" y=\"{top:.1}\" width=\"{wide:.1}\" height=\"{height:.1}\" fill=\"{fill}\"/>")?;
        let middle = (top + bottom) / 2.0 + 3.5;
        writeln!(out, "<text x=\"{indent}\" y=\"{middle:.1}\"{weight}>{name}</text>")
    }

    fn axis(&self, out: &mut impl Write) -> Result<()> {
        let (top, bottom) = (self.top(), self.bottom());
        writeln!(out, "<text x=\"{MARGIN}\" y=\"{LABEL_ROW}\" fill=\"#555\">{AXIS}</text>")?;
        for time in self.scale.marks() {
            let x = self.scale.x(time);
            writeln!(
                out,
                "<text x=\"{x:.1}\" y=\"{LABEL_ROW}\" text-anchor=\"middle\" fill=\"#555\">{time}</text>"
            )?;
            writeln!(out, "<path d=\"M{x:.1} {:.1}V{bottom:.1}\" stroke=\"#ddd\"/>", LABEL_ROW + 4.0)?;
            writeln!(out, "<path d=\"M{x:.1} {:.1}v4\" stroke=\"#555\"/>", top - 4.0)?;
        }
        Ok(())
    }

    /// A line over all lanes for each outcome.
    fn held(&self, out: &mut impl Write) -> Result<()> {
        for (held, row) in self.story.held.iter().zip(&self.labels) {
            let (x, label) = (self.scale.x(held.at), escaped(&self.label(held.event, held.outcome)));
            let from = row.map_or(self.top(), |row| (row + 2) as f64 * LABEL_ROW);
            write!(
                out,
                "<path class=\"held\" d=\"M{x:.1} {:.1}V{:.1}\" stroke=\"#c00\" stroke-width=\"1.5\"",
                from - 9.0,
                self.bottom()
            )?;
            writeln!(
                out,
                " fill=\"none\"><title>{label} at {}: every resource is held back until here</title></path>",
                held.at
            )?;
            if row.is_some() {
                writeln!(out, "<text x=\"{:.1}\" y=\"{from:.1}\" fill=\"#c00\">{label}</text>", x + 4.0)?;
            }
        }
        Ok(())
    }

    /// The middle of the lane that a row's bar stands in.
    fn middle(&self, row: &Row) -> f64 {
        let kind = self.plan.activities[row.activity as usize][row.node as usize].kind;
        let lane = self.lanes.of_node(kind) + broken(Broken::BarOneLaneDown) as usize;
        self.tops[lane.min(self.tops.len() - 1)] + LANE / 2.0
    }

    /// The left edge and the width of a row's bar.
    fn span(&self, row: &Row) -> (f64, f64) {
        let x = self.scale.x(row.start);
        (x, (self.scale.x(row.end) - x).max(2.0))
    }

    fn colour(&self, activity: usize) -> &'static str {
        COLOURS[activity % COLOURS.len()]
    }

    fn node(&self, row: &Row) -> String {
        escaped(&self.names.of(Space::Node(row.activity), row.node as usize))
    }

    fn bar(&self, row: &Row, out: &mut impl Write) -> Result<()> {
        let ((x, wide), y) = (self.span(row), self.middle(row) - BAR / 2.0);
        let (colour, name) = (self.colour(row.activity as usize), self.node(row));
        let activity = escaped(&self.names.of(Space::Activity, row.activity as usize));
        write!(
            out,
            "<rect class=\"bar\" x=\"{x:.1}\" y=\"{y:.1}\" width=\"{wide:.1}\" height=\"{BAR}\" rx=\"3\""
        )?;
        write!(
            out,
            " fill=\"{colour}\" stroke=\"#444\"><title>position {}, {activity}, {name}:",
            row.position
        )?;
        writeln!(out, " {} to {}</title></rect>", row.start, row.end)
    }

    /// The name and the times of a bar, each where it fits. What does not fit is in the bar's title.
    fn texts(&self, row: &Row, out: &mut impl Write) -> Result<()> {
        let ((x, wide), middle) = (self.span(row), self.middle(row));
        let (colour, times) = (self.colour(row.activity as usize), format!("{}-{}", row.start, row.end));
        for (text, below) in [(&self.node(row), -3.0), (&times, 10.0)] {
            if room(text) + 4.0 <= wide {
                let (x, y) = (x + wide / 2.0, middle + below);
                write!(out, "<text x=\"{x:.1}\" y=\"{y:.1}\" text-anchor=\"middle\" paint-order=\"stroke\"")?;
                writeln!(out, " stroke=\"{colour}\" stroke-width=\"3\">{text}</text>")?;
            }
        }
        Ok(())
    }

    /// An arrow from the end of a bar to the start of another. Bars of one lane that touch need none.
    fn arrow(&self, arrow: &Arrow, out: &mut impl Write) -> Result<()> {
        let (from, to) = (&self.story.rows[arrow.from as usize], &self.story.rows[arrow.to as usize]);
        let (x, y) = (self.scale.x(from.end), self.middle(from));
        let (to_x, to_y) = (self.scale.x(to.start), self.middle(to));
        let dash = if arrow.handed { " stroke-dasharray=\"4 3\"" } else { "" };
        let inside = |row: &Row| (self.span(row).1 / 2.0).min(5.0);
        if y == to_y && to_x - x < 8.0 {
            return Ok(());
        }
        let way = match to_x - x < 20.0 {
            // One begins where the other ends: from edge to edge, straight.
            true => {
                let edge = if y < to_y { BAR / 2.0 } else { -BAR / 2.0 };
                let (one, other) = (x - inside(from), to_x + inside(to));
                format!("M{one:.1} {:.1}L{other:.1} {:.1}", y + edge, to_y - edge)
            }
            false => {
                let bend = ((to_x - x) / 2.0).min(40.0);
                let (one, other) = (x + bend, to_x - bend);
                format!("M{x:.1} {y:.1}C{one:.1} {y:.1} {other:.1} {to_y:.1} {to_x:.1} {to_y:.1}")
            }
        };
        writeln!(out, "<path class=\"arrow\" d=\"{way}\" fill=\"none\" stroke=\"#333\"{dash} marker-end=\"url(#head)\"/>")
    }

    /// The row and the left edge of each activity in the legend.
    fn legend_places(&self) -> Vec<(usize, f64)> {
        let (mut row, mut x) = (0, MARGIN);
        let mut place = |activity: usize| {
            let wide = room(&self.names.of(Space::Activity, activity)) + 30.0;
            if x > MARGIN && x + wide > self.right {
                (row, x) = (row + 1, MARGIN);
            }
            x += wide;
            (row, x - wide)
        };
        (0..self.plan.activities.len()).map(&mut place).collect()
    }

    /// Which colour is which activity, and how the table ends.
    fn legend(&self, out: &mut impl Write) -> Result<()> {
        let mut y = self.bottom();
        for (activity, (row, x)) in self.legend_places().into_iter().enumerate() {
            y = self.bottom() + (row as f64 + 1.3) * LABEL_ROW;
            let name = escaped(&self.names.of(Space::Activity, activity));
            let colour = self.colour(activity);
            let top = y - 9.0;
            writeln!(out, "<rect x=\"{x:.1}\" y=\"{top:.1}\" width=\"10\" height=\"10\" fill=\"{colour}\" stroke=\"#444\"/>")?;
            writeln!(out, "<text x=\"{:.1}\" y=\"{y:.1}\">{name}</text>", x + 14.0)?;
        }
        let state = |state: u8| escaped(&self.names.of(Space::State, state as usize));
        let end = match self.story.closing.end {
            End::At(at) => format!("ends in {}", state(at)),
            End::Waits { state: at, event } => {
                format!(
                    "waits in {} for {}",
                    state(at),
                    escaped(&self.names.of(Space::Event, event as usize))
                )
            }
            End::Refused(fault) => format!("refused {} {}", fault.number, fault.place),
        };
        writeln!(out, "<text x=\"{MARGIN}\" y=\"{:.1}\" fill=\"#555\">{end}</text>", y + 1.3 * LABEL_ROW)
    }
}
