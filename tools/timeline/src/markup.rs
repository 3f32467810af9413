//! Small pieces of SVG and HTML.
//!
//! Assumes nothing of the texts: what would end an attribute or an element is written otherwise,
//! and what XML cannot hold is left out.

/// A text as it stands in an element or an attribute.
pub fn escaped(text: &str) -> String {
    let mut out = String::with_capacity(text.len());
    for letter in text.chars() {
        match letter {
            '&' => out.push_str("&amp;"),
            '<' => out.push_str("&lt;"),
            '>' => out.push_str("&gt;"),
            '"' => out.push_str("&quot;"),
            '\t' => out.push(' '),
            '\n' => out.push('\n'),
            _ if letter.is_control() || matches!(letter, '\u{fffe}' | '\u{ffff}') => {}
            _ => out.push(letter),
        }
    }
    out
}

/// A place or a length, to a hundredth.
pub fn number(value: f64) -> String {
    let text = format!("{value:.2}");
    let text = text.trim_end_matches('0').trim_end_matches('.');
    if text == "-0" { "0" } else { text }.to_string()
}

pub fn title(text: &str) -> String {
    format!("<title>{}</title>", escaped(text))
}

/// A text whose left end is at a place.
pub fn text(class: &str, x: f64, y: f64, content: &str) -> String {
    let (x, y) = (number(x), number(y));
    format!(
        "<text class=\"{class}\" x=\"{x}\" y=\"{y}\">{}</text>\n",
        escaped(content)
    )
}

pub fn rectangle(class: &str, x: f64, y: f64, width: f64, height: f64) -> String {
    let (x, y, width, height) = (number(x), number(y), number(width), number(height));
    format!("<rect class=\"{class}\" x=\"{x}\" y=\"{y}\" width=\"{width}\" height=\"{height}\"/>\n")
}

pub fn line(class: &str, from: (f64, f64), to: (f64, f64)) -> String {
    let (x1, y1, x2, y2) = (number(from.0), number(from.1), number(to.0), number(to.1));
    format!("<line class=\"{class}\" x1=\"{x1}\" y1=\"{y1}\" x2=\"{x2}\" y2=\"{y2}\"/>\n")
}

/// A group that is moved to a place.
pub fn moved(x: f64, y: f64, content: &str) -> String {
    format!(
        "<g transform=\"translate({} {})\">\n{content}</g>\n",
        number(x),
        number(y)
    )
}

/// About how wide a text is, in the small letters that labels have.
pub fn width_of(text: &str) -> f64 {
    6.2 * text.chars().count() as f64
}

/// A text cut to a width.
pub fn cut(text: &str, width: f64) -> String {
    let most = (width / 6.3) as usize;
    if text.chars().count() <= most {
        return text.to_string();
    }
    let kept: String = text.chars().take(most.saturating_sub(1)).collect();
    format!("{}…", kept.trim_end())
}

#[cfg(test)]
mod tests {
    use super::{cut, escaped, number};

    #[test]
    fn texts_and_numbers() {
        assert_eq!(
            escaped("a<b>&\"c\"\u{1}\td"),
            "a&lt;b&gt;&amp;&quot;c&quot; d"
        );
        assert_eq!(number(3.0), "3");
        assert_eq!(number(2.5), "2.5");
        assert_eq!(number(-0.001), "0");
        assert_eq!(number(100.0), "100");
        assert_eq!(cut("abcdef", 30.0), "abc…");
        assert_eq!(cut("abcdef", 40.0), "abcdef");
    }
}
