//! A picture for documents: one SVG file with its legend.
//!
//! Assumes nothing.

use crate::legend::{legend, mark_lines};
use crate::marks::OVERHANG;
use crate::markup::{escaped, moved, number, rectangle, text};
use crate::names::Names;
use crate::plot::{Plot, ACCOUNTS, AXIS, LABELS};
use crate::run::{Run, View};
use crate::signs;
use crate::words;

const MARGIN: f64 = 16.0;

/// What a picture is called, and what is told about its trace.
pub struct Heading {
    pub title: String,
    pub facts: String,
    pub stop: Option<String>,
}

impl Heading {
    pub fn of(run: &Run, view: Option<&View>, source: &str) -> Heading {
        let facts = match view {
            Some(view) => facts(run, view),
            None => "The trace has no whole table, so there is no state to draw.".to_string(),
        };
        Heading {
            title: format!("Timeline of {source}"),
            facts,
            stop: run.stop.map(words::stop),
        }
    }
}

fn facts(run: &Run, view: &View) -> String {
    let counted = |count: usize, word: &str| match count {
        1 => format!("1 {word}"),
        n => format!("{n} {word}s"),
    };
    let state = view.before;
    format!(
        "{}, {}, {}; {}; ticks {} to {}",
        counted(state.processors.into(), "processor"),
        counted(state.tasks.len(), "task"),
        counted(state.resources.len(), "resource"),
        counted(run.moments.len(), "event"),
        view.from,
        view.to
    )
}

/// The whole file.
pub fn svg(run: &Run, view: Option<View>, names: &Names, source: &str) -> String {
    let heading = Heading::of(run, view.as_ref(), source);
    let (content, width, height) = match view {
        Some(view) => drawn(run, &Plot::of(view, names)),
        None => (String::new(), 640.0, 0.0),
    };
    let top = if heading.stop.is_some() { 78.0 } else { 58.0 };
    let (width, height) = (width + 2.0 * MARGIN, height + top + MARGIN);
    let mut out = opening(&heading, width, height);
    out += &format!("<style>\n{}{}</style>\n", signs::STYLE, signs::fills());
    out += &signs::definitions();
    out += &rectangle("page", 0.0, 0.0, width, height);
    out += &text("main", MARGIN, 26.0, &heading.title);
    out += &text("facts", MARGIN, 44.0, &heading.facts);
    if let Some(stop) = &heading.stop {
        out += &text("told", MARGIN, 62.0, stop);
    }
    out += &moved(MARGIN, top, &content);
    out + "</svg>\n"
}

fn opening(heading: &Heading, width: f64, height: f64) -> String {
    let (width, height) = (number(width), number(height));
    let told = heading.stop.clone().unwrap_or_default();
    format!(
        "<svg xmlns=\"http://www.w3.org/2000/svg\" viewBox=\"0 0 {width} {height}\" \
         width=\"{width}\" height=\"{height}\" role=\"img\" aria-labelledby=\"what about\">\n\
         <title id=\"what\">{}</title>\n<desc id=\"about\">{} {}</desc>\n",
        escaped(&heading.title),
        escaped(&heading.facts),
        escaped(&told)
    )
}

/// The picture with what stands under it, its width and its height.
fn drawn(run: &Run, plot: &Plot) -> (String, f64, f64) {
    let width = LABELS + plot.scale.width + OVERHANG + ACCOUNTS;
    let right = LABELS + plot.scale.width + OVERHANG;
    let mut out = moved(LABELS, 0.0, &plot.axis());
    out += &text(
        "heading",
        right,
        AXIS - 13.0,
        &format!("after tick {}", plot.view.last().clock),
    );
    out += &moved(LABELS, AXIS, &(plot.grid(run) + &plot.all_lanes()));
    out += &moved(0.0, AXIS, &plot.labels());
    out += &moved(right, AXIS, &plot.accounts());
    let mut height = AXIS + plot.layout.height + 8.0;
    out += &text("heading", 0.0, height + 12.0, "Signs");
    height += 20.0;
    for part in [legend(width), mark_lines(plot, width)] {
        out += &moved(0.0, height, &part.content);
        height += part.height + 8.0;
    }
    (out, width, height)
}
