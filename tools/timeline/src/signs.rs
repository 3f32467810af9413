//! The signs of the picture: colours and patterns of tasks, marks and arrows, and their style.
//!
//! Assumes nothing. Eight fills that people with any kind of colour vision tell apart under dark
//! letters (Paul Tol's light scheme); the tasks from 8 on have the same fills with stripes.

/// Shared by both kinds of file; plain rules, so that other programs than browsers draw them too.
pub const STYLE: &str = include_str!("picture.css");

const FILLS: [&str; 8] = [
    "#77aadd", "#ee8866", "#eedd88", "#ffaabb", "#99ddff", "#44bb99", "#bbcc33", "#aaaa00",
];
const TASKS: usize = 16;

const MARKS: &str = "\
<g id=\"granted\"><circle cx=\"5\" cy=\"5.5\" r=\"3.8\"/></g>
<g id=\"waits\"><circle cx=\"5\" cy=\"5.5\" r=\"3.2\" fill=\"none\" stroke-width=\"1.5\"/></g>
<g id=\"passed\"><path d=\"M5 .9L9.4 5.5L5 10.1L.6 5.5Z\"/></g>
<g id=\"freed\"><path d=\"M5 1.4L9 5.5L5 9.6L1 5.5Z\" fill=\"none\" stroke-width=\"1.4\"/></g>
<g id=\"refused\"><path d=\"M1.8 2.3L8.2 8.7M8.2 2.3L1.8 8.7\" stroke-width=\"2\"/></g>
<g id=\"several\"><path d=\"M1.5 2.5H8.5M1.5 5.5H8.5M1.5 8.5H8.5\" stroke-width=\"1.3\"/></g>
<g id=\"deadline\"><path class=\"arrow\" d=\"M0 18V34M-3 30L0 34.5L3 30\"/></g>
<g id=\"recharge\"><path class=\"arrow\" d=\"M0 35V19M-3 23L0 18.5L3 23\"/></g>
";

/// Patterns and marks, to be used by their names.
pub fn definitions() -> String {
    let mut out = String::from("<defs>\n");
    for task in 0..TASKS {
        let fill = FILLS[task % FILLS.len()];
        out += &format!(
            "<pattern id=\"h{task}\" width=\"6\" height=\"6\" patternUnits=\"userSpaceOnUse\" \
             patternTransform=\"rotate(45)\"><rect class=\"paper\" width=\"6\" height=\"6\"/>\
             <rect width=\"3\" height=\"6\" fill=\"{fill}\"/></pattern>\n"
        );
        if task >= FILLS.len() {
            out += &format!(
                "<pattern id=\"p{task}\" width=\"4\" height=\"4\" patternUnits=\"userSpaceOnUse\">\
                 <rect width=\"4\" height=\"4\" fill=\"{fill}\"/>\
                 <rect width=\"4\" height=\"1\" fill=\"#000\" fill-opacity=\".2\"/></pattern>\n"
            );
        }
    }
    out + MARKS + "</defs>\n"
}

/// The rules that give each task its fill.
pub fn fills() -> String {
    let mut out = String::new();
    for task in 0..TASKS {
        match FILLS.get(task) {
            Some(fill) => out += &format!(".t{task}{{fill:{fill}}}\n"),
            None => out += &format!(".t{task}{{fill:url(#p{task})}}\n"),
        }
        out += &format!(".s.t{task}{{fill:url(#h{task})}}\n");
    }
    out
}
