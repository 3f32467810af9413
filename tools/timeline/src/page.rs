//! One page that works by itself: the picture, the listing beside it, the state after the event
//! that is stepped to.
//!
//! Assumes nothing. Without a script the picture and the listing still stand there.

use crate::data::data;
use crate::legend::legend;
use crate::marks::OVERHANG;
use crate::markup::{escaped, number, text};
use crate::names::Names;
use crate::plot::{Plot, ACCOUNTS, AXIS, LABELS};
use crate::run::{Run, View};
use crate::signs;
use crate::svg::Heading;
use crate::words;

const STYLE: &str = include_str!("page.css");
const SCRIPT: &str = include_str!("page.js");
const BUTTONS: &str = include_str!("buttons.html");
const LEGEND_WIDTH: f64 = 1_100.0;

pub fn page(run: &Run, view: Option<View>, names: &Names, source: &str) -> String {
    let heading = Heading::of(run, view.as_ref(), source);
    let mut out = head(&heading);
    out += &format!("<header>\n<h1>{}</h1>\n", escaped(&heading.title));
    out += &format!("<p>{}</p>\n", escaped(&heading.facts));
    if let Some(stop) = &heading.stop {
        out += &format!("<p class=\"told\" role=\"note\">{}</p>\n", escaped(stop));
    }
    match view {
        Some(view) => out += &body(run, &Plot::for_page(view, names)),
        None => out += &format!("</header>\n<pre>{}</pre>\n", escaped(&run.listing)),
    }
    out + "</body>\n</html>\n"
}

fn head(heading: &Heading) -> String {
    let mut out =
        String::from("<!DOCTYPE html>\n<html lang=\"en\">\n<head>\n<meta charset=\"utf-8\">\n");
    out += "<meta name=\"viewport\" content=\"width=device-width\">\n";
    out += "<meta name=\"color-scheme\" content=\"light dark\">\n";
    out += &format!("<title>{}</title>\n", escaped(&heading.title));
    out += &format!(
        "<style>\n{}{}{}</style>\n",
        signs::STYLE,
        signs::fills(),
        STYLE
    );
    out + "</head>\n<body>\n"
}

fn body(run: &Run, plot: &Plot) -> String {
    let mut out = format!("{BUTTONS}</header>\n<main>\n");
    out += "<section id=\"picture\" tabindex=\"0\" aria-label=\"Picture\" aria-describedby=\"keys\">\n";
    out += &format!(
        "<div id=\"board\">\n{}</div>\n</section>\n",
        board(run, plot)
    );
    out += "<aside>\n<p id=\"now\" role=\"status\" aria-live=\"polite\"></p>\n";
    out +=
        "<section id=\"states\" tabindex=\"0\" aria-label=\"States after the event\"></section>\n";
    out += &format!(
        "<section id=\"lines\" aria-label=\"Listing\">\n{}</section>\n",
        listing(run, plot)
    );
    out += "</aside>\n</main>\n";
    out += &signs_below();
    out += "<div id=\"tip\" hidden></div>\n";
    out += &format!(
        "<script type=\"application/json\" id=\"data\">\n{}\n</script>\n",
        data(plot)
    );
    out + &format!("<script>\n{SCRIPT}</script>\n")
}

/// Five pictures side by side, so that the names and the axis stay while the rest is moved.
fn board(run: &Run, plot: &Plot) -> String {
    let wide = plot.scale.width + OVERHANG;
    let height = plot.layout.height;
    let end = format!("after tick {}", plot.view.last().clock);
    let mut out = String::from("<div class=\"corner\"></div>\n");
    out += &part("axis", wide, AXIS, "Clock and event numbers", &plot.axis());
    out += &part(
        "end",
        ACCOUNTS,
        AXIS,
        "After the last event",
        &text("heading", 0.0, AXIS - 13.0, &end),
    );
    out += &part("labels", LABELS, height, "Lanes", &plot.labels());
    let content = signs::definitions() + &plot.grid(run) + &plot.all_lanes();
    out += &part("plot", wide, height, "Lanes over the clock", &content);
    out + &part(
        "accounts",
        ACCOUNTS,
        height,
        "States and accounts at the end",
        &plot.accounts(),
    )
}

fn part(id: &str, width: f64, height: f64, label: &str, content: &str) -> String {
    let (width, height) = (number(width), number(height));
    format!(
        "<svg xmlns=\"http://www.w3.org/2000/svg\" id=\"{id}\" \
         width=\"{width}\" height=\"{height}\" role=\"group\" aria-label=\"{label}\">\n{content}</svg>\n"
    )
}

fn signs_below() -> String {
    let legend = legend(LEGEND_WIDTH);
    let picture = part(
        "legend",
        LEGEND_WIDTH,
        legend.height,
        "Signs",
        &legend.content,
    );
    format!("<details>\n<summary>Signs: what boxes, lines and marks mean</summary>\n{picture}</details>\n")
}

/// The view's lines of the listing, each with its event in words, and the lines after the last.
fn listing(run: &Run, plot: &Plot) -> String {
    let mut out = String::from("<ol>\n");
    for moment in plot.view.moments {
        let (line, said) = (words::line(moment), words::sentence(moment, plot.names));
        out += &format!("<li><b>{line}</b> {}</li>\n", escaped(&said));
    }
    out += "</ol>\n";
    if plot.view.whole {
        let rest = run.listing.lines().skip(run.moments.len());
        let rest: Vec<&str> = rest.collect();
        out += &format!("<pre>{}</pre>\n", escaped(&rest.join("\n")));
    }
    out
}
