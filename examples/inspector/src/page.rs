//! The drawing of all packets, as an SVG file.

use crate::element::{dot, group, level, path, px, text, upright};
use crate::panel;
use crate::streams::Streams;

const LEFT: f64 = 84.0;
const RIGHT: f64 = 26.0;
const WIDTH: f64 = LEFT + panel::WIDTH + RIGHT;
/// How far down the title, the legend right of it and the first panel's heading stand.
const TITLE: f64 = 33.0;
const LEGEND: f64 = 28.0;
const PANELS: f64 = 68.0;
/// Where the signs of the legend stand: received, CE, missing, and where a block begins.
const SIGNS: [f64; 4] = [462.0, 546.0, 670.0, 748.0];
/// Half the height of the line that shows where a block begins.
const BEGIN_SIGN: f64 = 8.0;
/// The height of a drawing without panels.
const HEIGHT_OF_NONE: f64 = 56.0;

/// From a sign of the legend to its words, and the line they stand on below the sign's middle.
const WORDS_GAP: f64 = 10.0;
const WORDS_DROP: f64 = 4.0;

const STYLE: &str = "\
text{font-family:sans-serif;font-size:11px;fill:#57606a}
.title{font-size:16px;font-weight:bold;fill:#1f2328}
.heading{font-size:12px}
.heading,.sign{fill:#1f2328}
.name{font-weight:bold}
.left{text-anchor:end}
.number,.axis{text-anchor:middle}
path{fill:none}
.page{fill:#fff;stroke:#d0d7de}
.grid{stroke:#e4e8ec}
.lane{stroke:#f3f5f8}
.tick{stroke:#8c959f}
.begin{stroke:#afb8c1;stroke-dasharray:2 3}
.band{stroke:#fbe9e9}
.missing{stroke:#c62828}
.received{stroke:#2b6cb0;stroke-linecap:round}
.ce{fill:#e67700}
";

/// A title, a legend and a panel for each stream.
pub fn draw(streams: &Streams) -> String {
    let title = title(streams.packets(), streams.all().len());
    if streams.all().is_empty() {
        return file(HEIGHT_OF_NONE, &title, "");
    }
    let (mut content, mut top) = (legend(), PANELS);
    for stream in streams.all() {
        content += &group(LEFT, top, &panel::draw(stream));
        top += panel::height(stream);
    }
    file(top, &title, &content)
}

fn file(height: f64, title: &str, content: &str) -> String {
    let heading = text("title", LEFT, TITLE, title);
    let [width, height, inner_width, inner_height] =
        [WIDTH, height, WIDTH - 1.0, height - 1.0].map(px);
    format!(
        "<svg xmlns=\"http://www.w3.org/2000/svg\" width=\"{width}\" height=\"{height}\" \
         viewBox=\"0 0 {width} {height}\">\n\
         <title>{title}</title>\n\
         <style>\n{STYLE}</style>\n\
         <rect class=\"page\" x=\"0.5\" y=\"0.5\" width=\"{inner_width}\" \
         height=\"{inner_height}\" rx=\"6\"/>\n\
         {heading}{content}</svg>\n"
    )
}

fn title(packets: usize, streams: usize) -> String {
    let packets = match packets {
        0 => return "No CCFB packet".to_string(),
        1 => "1 CCFB packet".to_string(),
        _ => format!("{packets} CCFB packets"),
    };
    match streams {
        0 => format!("{packets} without a report block"),
        1 => format!("{packets} on 1 stream"),
        _ => format!("{packets} on {streams} streams"),
    }
}

fn legend() -> String {
    let (width, half) = (panel::MOST_MARK, panel::MOST_MARK / 2.0);
    let received = path("received", width, &[dot(0.0, 0.0)]);
    let ce = path("ce", 0.0, &[panel::ce_mark(0.0, 0.0, width)]);
    let missing = path("missing", panel::LOSS_HEIGHT, &[level(-half, half, 0.0)]);
    let begin = path("begin", panel::HAIRLINE, &[upright(0.0, -BEGIN_SIGN, BEGIN_SIGN)]);
    let sign = |x: f64, sign: &str, words: &str| {
        let words = text("sign", WORDS_GAP, WORDS_DROP, words);
        group(x, LEGEND, &(sign.to_string() + &words))
    };
    [
        sign(SIGNS[0], &received, "received"),
        sign(SIGNS[1], &ce, "received with CE"),
        sign(SIGNS[2], &missing, "missing"),
        sign(SIGNS[3], &begin, "a report block begins"),
    ]
    .concat()
}

#[cfg(test)]
mod tests {
    use super::*;
    use ccfb::Packet;

    #[test]
    fn titles() {
        assert_eq!(title(0, 0), "No CCFB packet");
        assert_eq!(title(1, 0), "1 CCFB packet without a report block");
        assert_eq!(title(2, 0), "2 CCFB packets without a report block");
        assert_eq!(title(1, 1), "1 CCFB packet on 1 stream");
        assert_eq!(title(3, 2), "3 CCFB packets on 2 streams");
    }

    #[test]
    fn without_a_packet_the_drawing_says_so() {
        let drawing = draw(&Streams::default());
        assert!(drawing.contains(">No CCFB packet</text>"));
        assert!(drawing.contains("height=\"56\""));
        assert!(!drawing.contains("<path"));
    }

    #[test]
    fn each_stream_has_a_panel() {
        // Blocks of streams 7 and 8, both on number 9, which is lost.
        let packet = [
            0x8b, 0xcd, 0, 8, 0, 0, 0, 0xf1, 0, 0, 0, 7, 0, 9, 0, 1, 0, 0, 0, 0, // stream 7
            0, 0, 0, 8, 0, 9, 0, 1, 0, 0, 0, 0, 0, 5, 0, 0, // stream 8, RTS
        ];
        let mut streams = Streams::default();
        streams.take(&Packet::read(&packet).expect("a packet"));
        let drawing = draw(&streams);
        let panels = [">stream 00000007<", ">stream 00000008<"].map(|name| drawing.find(name));
        assert!(panels[0].is_some() && panels[0] < panels[1]);
        assert!(drawing.contains("height=\"528\""));
    }
}
