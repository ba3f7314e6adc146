//! Elements of an SVG file as text. The texts given to them need no escaping.

/// How many marks of a path stand on a line of the file.
const MARKS_OF_A_LINE: usize = 8;

/// A length in px with at most one decimal, always written in the same way.
pub fn px(length: f64) -> String {
    let tenths = (length * 10.0).round() as i64;
    let sign = if tenths < 0 { "-" } else { "" };
    match (tenths.abs() / 10, tenths.abs() % 10) {
        (whole, 0) => format!("{sign}{whole}"),
        (whole, tenth) => format!("{sign}{whole}.{tenth}"),
    }
}

pub fn text(class: &str, x: f64, y: f64, words: &str) -> String {
    format!("<text class=\"{class}\" x=\"{}\" y=\"{}\">{words}</text>\n", px(x), px(y))
}

/// Elements whose point 0, 0 stands at `x`, `y`.
pub fn group(x: f64, y: f64, elements: &str) -> String {
    format!("<g transform=\"translate({} {})\">\n{elements}</g>\n", px(x), px(y))
}

/// A path of all marks in lines of that width, or nothing if there is no mark.
pub fn path(class: &str, width: f64, marks: &[String]) -> String {
    if marks.is_empty() {
        return String::new();
    }
    let lines: Vec<String> = marks.chunks(MARKS_OF_A_LINE).map(<[String]>::concat).collect();
    let (width, lines) = (px(width), lines.join("\n"));
    format!("<path class=\"{class}\" stroke-width=\"{width}\" d=\"{lines}\"/>\n")
}

/// A dot as wide as the path's lines, which must have round ends.
pub fn dot(x: f64, y: f64) -> String {
    format!("M{} {}h0", px(x), px(y))
}

/// A square that stands on a corner; `radius` is from its centre to a corner.
pub fn diamond(x: f64, y: f64, radius: f64) -> String {
    let (x, top, r) = (px(x), px(y - radius), px(radius));
    format!("M{x} {top}l{r} {r}-{r} {r}-{r}-{r}z")
}

/// A level line from `x` to `end`.
pub fn level(x: f64, end: f64, y: f64) -> String {
    format!("M{} {}h{}", px(x), px(y), px(end - x))
}

/// An upright line from `y` down to `end`.
pub fn upright(x: f64, y: f64, end: f64) -> String {
    format!("M{} {}v{}", px(x), px(y), px(end - y))
}

#[cfg(test)]
mod tests {
    use super::*;

    #[test]
    fn a_length_has_at_most_one_decimal() {
        let lengths = [0.0, -0.04, 7.0, 7.25, 7.949, 7.951, -7.95, -0.5];
        let written = ["0", "0", "7", "7.3", "7.9", "8", "-8", "-0.5"];
        assert_eq!(lengths.map(px), written);
    }

    #[test]
    fn a_path_without_marks_is_left_out() {
        assert_eq!(path("received", 5.0, &[]), "");
        let marks = vec![dot(1.0, 2.0); MARKS_OF_A_LINE + 1];
        let line = "M1 2h0".repeat(MARKS_OF_A_LINE);
        let written = format!("<path class=\"a\" stroke-width=\"2.4\" d=\"{line}\nM1 2h0\"/>\n");
        assert_eq!(path("a", 2.4, &marks), written);
    }

    #[test]
    fn a_diamond_goes_round_its_centre() {
        assert_eq!(diamond(10.0, 20.0, 4.5), "M10 15.5l4.5 4.5-4.5 4.5-4.5-4.5z");
    }
}
