//! The picture itself: the axis, the lanes over the clock, what stands left and right of them.
//!
//! Assumes nothing. Every box says its ticks exactly (`data-t`, its first tick in the window and
//! its length), whatever its width is rounded to.

use crate::lanes::{head, lanes, Lane, Look};
use crate::layout::{layout, Layout, Place, BOX, BUDGET, STRIP};
use crate::marks::{marks, placed, Mark, Placed};
use crate::markup::{cut, escaped, line, number, rectangle, text, title, width_of};
use crate::names::Names;
use crate::run::{Run, View};
use crate::scale::Scale;
use crate::spans::Span;
use crate::words;
use std::collections::BTreeMap;

pub const LABELS: f64 = 158.0;
pub const ACCOUNTS: f64 = 236.0;
pub const AXIS: f64 = 58.0;
/// Above so many boxes they have no titles, so that a file stays small.
const TITLED: usize = 2_000;
/// Narrower boxes have hardly an outline, or they would be nothing else.
const THIN: f64 = 4.0;
/// A pile of marks tells so many of its lines.
const TOLD: usize = 12;

/// A view made ready for drawing.
pub struct Plot<'a> {
    pub view: View<'a>,
    pub names: &'a Names,
    pub scale: Scale,
    pub lanes: Vec<Lane>,
    pub layout: Layout,
    /// Those that have no lane.
    pub over: Vec<Mark>,
    /// For files without a script: the titles of boxes.
    titled: bool,
    /// For the page: the number of each set of labels.
    pub labelled: BTreeMap<Vec<String>, usize>,
}

impl<'a> Plot<'a> {
    pub fn of(view: View<'a>, names: &'a Names) -> Plot<'a> {
        let lanes = lanes(&view, names);
        let count: usize = lanes
            .iter()
            .map(|lane| lane.boxes.len() + lane.strip.len())
            .sum();
        let over = marks(&view)
            .into_iter()
            .filter(|mark| mark.entry.is_none())
            .collect();
        Plot {
            scale: Scale::fitting(view.from, view.to),
            layout: layout(&lanes),
            titled: count <= TITLED,
            labelled: BTreeMap::new(),
            view,
            names,
            lanes,
            over,
        }
    }

    /// Made ready for a page: its script writes labels and titles, from the sets of labels that the
    /// boxes number.
    pub fn for_page(view: View<'a>, names: &'a Names) -> Plot<'a> {
        let mut plot = Plot::of(view, names);
        plot.titled = false;
        for span in plot
            .lanes
            .iter()
            .flat_map(|lane| lane.boxes.iter().chain(&lane.strip))
        {
            let next = plot.labelled.len();
            plot.labelled
                .entry(span.what.labels.clone())
                .or_insert(next);
        }
        plot
    }

    fn pairs(&self) -> impl Iterator<Item = (&Lane, &Place)> {
        self.lanes.iter().zip(&self.layout.places)
    }

    /// The names of the lanes, with the headings.
    pub fn labels(&self) -> String {
        let mut out = String::new();
        for &(top, heading) in &self.layout.headings {
            out += &text("heading", 0.0, top + 16.0, heading);
        }
        for (lane, place) in self.pairs() {
            out += &self.label(lane, place);
        }
        out
    }

    fn label(&self, lane: &Lane, place: &Place) -> String {
        let head = head(&self.view, self.names, lane.entry);
        let mut out = format!("<g>{}\n", title(&head.title));
        let (base, name) = (place.boxes + 14.0, cut(&head.name, LABELS - 36.0));
        out += &text("sign", 0.0, base, &head.sign);
        out += &text("name", 30.0, base, &name);
        if place.bottom - place.strip > 9.0 {
            out += &text("under", 30.0, place.strip + 10.0, &head.under);
        }
        out + "</g>\n"
    }

    /// The clock's ticks, and over them the numbers of the events at their instants.
    pub fn axis(&self) -> String {
        let mut out = line("axis", (0.0, AXIS - 6.0), (self.scale.width, AXIS - 6.0));
        for tick in self.scale.ticks() {
            let x = self.scale.x(tick);
            out += &line("axis", (x, AXIS - 10.0), (x, AXIS - 6.0));
            out += &text("tick", x, AXIS - 13.0, &tick.to_string());
        }
        out += &self.event_numbers();
        for placed in placed(&self.over, &self.scale) {
            out += &self.mark(&placed, 0.0);
        }
        out
    }

    /// The numbers of the events at each instant. Where there is no room, a label goes on to those
    /// of the next instants.
    fn event_numbers(&self) -> String {
        let instants = self.instants();
        let mut out = String::new();
        let mut first = None;
        for (place, &(tick, from, to)) in instants.iter().enumerate() {
            let (start, x) = *first.get_or_insert((from, self.scale.x(tick)));
            let label = if start == to {
                to.to_string()
            } else {
                format!("{start}–{to}")
            };
            let next = instants
                .get(place + 1)
                .map(|&(tick, _, _)| self.scale.x(tick));
            if next.is_none_or(|next| next - x >= width_of(&label) + 8.0) {
                out += &text("event", x, 24.0, &label);
                first = None;
            }
        }
        out
    }

    /// Each tick at which something other than the passing of time happened, with the first and the
    /// last such event.
    fn instants(&self) -> Vec<(u32, usize, usize)> {
        let mut found: Vec<(u32, usize, usize)> = Vec::new();
        for moment in self.view.moments {
            let tick = moment.after.clock;
            if moment.start < tick || tick < self.view.from {
                continue;
            }
            match found.last_mut() {
                Some(last) if last.0 == tick => last.2 = moment.number,
                _ => found.push((tick, moment.number, moment.number)),
            }
        }
        found
    }

    /// Upright lines at the named ticks, and where a faulty trace stopped.
    pub fn grid(&self, run: &Run) -> String {
        let height = self.layout.height;
        let mut out = String::new();
        for tick in self.scale.ticks() {
            let x = self.scale.x(tick);
            out += &line("grid", (x, 0.0), (x, height));
        }
        if run.stop.is_some() && self.view.whole {
            let x = self.scale.x(self.view.last().clock);
            out += &line("stop", (x, 0.0), (x, height));
        }
        out
    }

    pub fn all_lanes(&self) -> String {
        self.pairs()
            .map(|(lane, place)| self.lane(lane, place))
            .collect()
    }

    fn lane(&self, lane: &Lane, place: &Place) -> String {
        let id = lane.entry.id();
        let (top, bottom) = (number(place.top), number(place.bottom));
        let mut out = format!("<g class=\"lane\" id=\"{id}\" data-y=\"{top} {bottom}\">\n");
        for span in &lane.boxes {
            out += &self.boxed(span, place.boxes, BOX);
        }
        for span in &lane.strip {
            out += &self.boxed(span, place.strip, STRIP);
        }
        for span in &lane.boxes {
            out += &self.boxed_label(span, place.boxes + 13.5);
        }
        for span in &lane.strip {
            out += &self.boxed_label(span, place.strip + 9.5);
        }
        out += &self.budget(lane, place);
        out += &self.arrows(lane, place);
        for placed in placed(&lane.marks, &self.scale) {
            out += &self.mark(&placed, place.top);
        }
        out + "</g>\n"
    }

    fn boxed(&self, span: &Span<Look>, y: f64, height: f64) -> String {
        let ticks = span.to - span.from;
        let (x, width) = (
            number(self.scale.x(span.from)),
            number(self.scale.pixels(ticks)),
        );
        let (y, height, class) = (number(y), number(height), &span.what.class);
        let thin = if self.scale.pixels(ticks) < THIN {
            " thin"
        } else {
            ""
        };
        let start = span.from - self.view.from;
        let mut out = format!(
            "<rect class=\"{class}{thin}\" x=\"{x}\" y=\"{y}\" width=\"{width}\" height=\"{height}\" data-t=\"{start} {ticks}\""
        );
        if let Some(set) = self.labelled.get(&span.what.labels) {
            out += &format!(" data-l=\"{set}\"");
        }
        if self.titled {
            let said = format!("{}, ticks {} to {}", span.what.title, span.from, span.to);
            out += &format!(">{}</rect>\n", title(&said));
        } else {
            out += "/>\n";
        }
        out
    }

    /// The longest label that fits into a box.
    fn boxed_label(&self, span: &Span<Look>, y: f64) -> String {
        let room = self.scale.pixels(span.to - span.from);
        let fits = |label: &&String| width_of(label) + 5.0 <= room;
        let Some(label) = span.what.labels.iter().find(fits) else {
            return String::new();
        };
        let class = format!(
            "in {}",
            span.what.class.split(' ').next().unwrap_or_default()
        );
        text(&class, self.scale.x(span.from) + 4.0, y, label)
    }

    /// A server's budget: at the strip's top all of Q, at its bottom nothing.
    fn budget(&self, lane: &Lane, place: &Place) -> String {
        if lane.budget.is_empty() {
            return String::new();
        }
        let floor = place.strip + BUDGET;
        let high = (BUDGET - 2.0) / f64::from(lane.quota.max(1));
        let point = |&(tick, left): &(u32, u32)| {
            let y = floor - high * f64::from(left);
            format!("{},{}", number(self.scale.x(tick)), number(y))
        };
        let points: Vec<String> = lane.budget.iter().map(point).collect();
        let start = self.view.from;
        let exact = lane
            .budget
            .iter()
            .map(|&(tick, left)| format!("{} {left}", tick - start));
        let exact: Vec<String> = exact.collect();
        let mut out = line("floor", (0.0, floor), (self.scale.width, floor));
        out += &format!(
            "<polyline class=\"budget\" points=\"{}\" data-p=\"{}\" data-y=\"{} {}\"/>\n",
            points.join(" "),
            exact.join(","),
            number(floor),
            high
        );
        out
    }

    fn arrows(&self, lane: &Lane, place: &Place) -> String {
        let mut out = String::new();
        let mut add = |sign: &str, tick: u32, said: String| {
            let (x, y, at) = (
                number(self.scale.x(tick)),
                number(place.boxes),
                tick - self.view.from,
            );
            out += &format!("<use href=\"#{sign}\" x=\"{x}\" y=\"{y}\" data-x=\"{at}\">");
            out += &format!("{}</use>\n", title(&said));
        };
        for &tick in &lane.deadlines {
            add("deadline", tick, format!("deadline {tick}"));
        }
        for &tick in &lane.recharges {
            add("recharge", tick, format!("recharged at {tick}"));
        }
        out
    }

    /// A mark with its number, or several as one.
    fn mark(&self, placed: &Placed, y: f64) -> String {
        let (class, content) = match placed.marks {
            [mark] => (mark.sign.word(), mark.number.to_string()),
            several => ("several", format!("×{}", several.len())),
        };
        let said: Vec<String> = placed
            .marks
            .iter()
            .take(TOLD)
            .map(|mark| self.told(mark))
            .collect();
        let more = placed.marks.len().saturating_sub(TOLD);
        let more = if more > 0 {
            format!("\nand {more} more")
        } else {
            String::new()
        };
        format!(
            "<g class=\"m {class}\" transform=\"translate({} {})\">{}<use href=\"#{class}\"/><text x=\"10\" y=\"9\">{}</text></g>\n",
            number(placed.x),
            number(y),
            format_args!("<title>{}{more}</title>", escaped_lines(&said)),
            escaped(&content),
        )
    }

    /// A mark's line of the listing, and what happened.
    pub fn told(&self, mark: &Mark) -> String {
        let moment = &self.view.moments[mark.number - self.view.first];
        format!(
            "{} · {}",
            words::line(moment),
            words::sentence(moment, self.names)
        )
    }

    /// How each entry is after the last event, and its accounts.
    pub fn accounts(&self) -> String {
        let mut out = String::new();
        for (lane, place) in self.pairs() {
            if let Some(look) = &lane.last {
                out += &rectangle(&look.class, 0.0, place.boxes, 34.0, BOX);
                let fits = |label: &&String| width_of(label) <= 30.0;
                let label = look.labels.iter().find(fits).map_or("", String::as_str);
                let class = look.class.split(' ').next().unwrap_or_default();
                out += &text(&format!("in {class}"), 4.0, place.boxes + 13.5, label);
            }
            let mut lines = lane.accounts.iter();
            let first = lines.next().map_or("", String::as_str);
            out += &text(
                "account",
                42.0,
                place.boxes + 13.5,
                &cut(first, ACCOUNTS - 44.0),
            );
            if let (Some(second), true) = (lines.next(), place.bottom - place.strip > 9.0) {
                out += &text("under", 42.0, place.strip + 10.0, second);
            }
        }
        out
    }
}

fn escaped_lines(lines: &[String]) -> String {
    let lines: Vec<String> = lines.iter().map(|line| escaped(line)).collect();
    lines.join("\n")
}
