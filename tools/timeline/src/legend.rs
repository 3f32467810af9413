//! What stands under the picture: what the signs mean, and the marks' lines of the listing.
//!
//! Assumes nothing.

use crate::marks::Sign;
use crate::markup::{cut, line, moved, rectangle, text, width_of};
use crate::plot::Plot;

/// Under so many marks their lines stand in the picture.
const LISTED: usize = 48;
const ROW: f64 = 20.0;
const COLUMN: f64 = 560.0;
const SAMPLE: f64 = 30.0;

/// A part of the picture, and how high it is.
pub struct Part {
    pub content: String,
    pub height: f64,
}

/// The signs, in rows of a width.
pub fn legend(width: f64) -> Part {
    let mut content = String::new();
    let (mut x, mut y) = (0.0, 0.0);
    for (sample, says) in samples() {
        let wide = SAMPLE + 6.0 + width_of(says) + 18.0;
        if x + wide > width && x > 0.0 {
            x = 0.0;
            y += ROW;
        }
        content += &moved(x, y, &(sample + &text("account", SAMPLE + 6.0, 11.5, says)));
        x += wide;
    }
    Part {
        content,
        height: y + ROW,
    }
}

fn samples() -> Vec<(String, &'static str)> {
    let boxed = |class: &str| rectangle(class, 0.0, 1.0, SAMPLE, 13.0);
    let used = |sign: &str| format!("<use href=\"#{sign}\" x=\"15\" y=\"-19\"/>\n");
    let mut all = vec![
        (boxed("x t0"), "executes its own task"),
        (boxed("x t0 lent"), "executes another's task (lent)"),
        (boxed("s t0"), "spins for a task that executes elsewhere"),
        (boxed("a"), "Active without a processor; ready"),
        (boxed("r"), "Recharging"),
        (boxed("w"), "waits for a resource"),
        (boxed("h"), "holds; queue"),
        (line("budget", (0.0, 2.0), (SAMPLE, 14.0)), "budget left"),
        (used("recharge"), "recharged"),
        (used("deadline"), "deadline"),
    ];
    for sign in Sign::ALL {
        let word = sign.word();
        let mark = format!("<g class=\"m {word}\"><use href=\"#{word}\" x=\"14\" y=\"2\"/></g>\n");
        all.push((mark, sign_says(sign)));
    }
    let several = "<g class=\"m several\"><use href=\"#several\" x=\"14\" y=\"2\"/></g>\n";
    all.push((several.to_string(), "so many marks"));
    all
}

fn sign_says(sign: Sign) -> &'static str {
    match sign {
        Sign::Granted => "lock granted",
        Sign::Waits => "lock waits",
        Sign::Passed => "unlock passes it on",
        Sign::Freed => "unlock frees it",
        Sign::Refused => "refused, nothing changed",
    }
}

/// The lines of the marks, where they are not too many.
pub fn mark_lines(plot: &Plot, width: f64) -> Part {
    let lanes = plot.lanes.iter().flat_map(|lane| &lane.marks);
    let mut marks: Vec<_> = lanes.chain(&plot.over).collect();
    marks.sort_by_key(|mark| mark.number);
    if marks.is_empty() || marks.len() > LISTED {
        return Part {
            content: String::new(),
            height: 0.0,
        };
    }
    let columns = ((width / COLUMN) as usize).max(1);
    let rows = marks.len().div_ceil(columns);
    let wide = width / columns as f64;
    let mut content = text(
        "heading",
        0.0,
        12.0,
        "Marks: the line of the listing, and what happened",
    );
    for (place, mark) in marks.iter().enumerate() {
        let (x, y) = (wide * (place / rows) as f64, 16.0 * (place % rows) as f64);
        let (word, said) = (mark.sign.word(), cut(&plot.told(mark), wide - 30.0));
        let sign = format!("<g class=\"m {word}\"><use href=\"#{word}\"/></g>\n");
        content += &moved(x, y + 20.0, &(sign + &text("account", 16.0, 9.5, &said)));
    }
    Part {
        content,
        height: 28.0 + 16.0 * rows as f64,
    }
}
