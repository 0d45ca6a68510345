//! The ratios as bars in an SVG picture, on a logarithmic scale.
use crate::measured::Row;

const LEFT: f64 = 230.0;
const WIDTH: f64 = 520.0;
const BAR: f64 = 11.0;
const GAP: f64 = 16.0;
/// The scale goes from a tenth to a thousand.
const LEAST: f64 = 0.1;
const DECADES: f64 = 4.0;
const COLOURS: [&str; 6] = ["#9ecae1", "#4292c6", "#084594", "#fdae6b", "#f16913", "#8c2d04"];

fn x(ratio: f64) -> f64 {
    LEFT + WIDTH * ((ratio / LEAST).log10() / DECADES).clamp(0.0, 1.0)
}

fn key(row: &Row) -> String {
    let labels = if row.labels { "labels" } else { "no labels" };
    format!("capacity {}, {labels}", row.capacity)
}

/// `rows` in the order in which they are drawn: all of one kind together.
pub fn drawn(rows: &[Row]) -> String {
    let mut kinds: Vec<&str> = Vec::new();
    let mut keys: Vec<String> = Vec::new();
    for row in rows {
        if !kinds.contains(&row.what) {
            kinds.push(row.what);
        }
        if !keys.contains(&key(row)) {
            keys.push(key(row));
        }
    }
    let group = keys.len() as f64 * BAR + GAP;
    let height = 70.0 + kinds.len() as f64 * group + keys.len() as f64 * 15.0 + 20.0;
    let mut svg = format!(
        "<svg xmlns=\"http://www.w3.org/2000/svg\" width=\"{}\" height=\"{height}\" font-family=\"sans-serif\" font-size=\"11\">\n\
         <rect width=\"100%\" height=\"100%\" fill=\"white\"/>\n\
         <text x=\"10\" y=\"20\" font-size=\"14\">Time of the library as a multiple of the Rust's (of a C loop's for the check)</text>\n",
        LEFT + WIDTH + 70.0
    );
    let bottom = 50.0 + kinds.len() as f64 * group;
    for decade in 0..=DECADES as i32 {
        let ratio = LEAST * 10f64.powi(decade);
        let colour = if decade == 1 { "black" } else { "#cccccc" };
        svg += &format!(
            "<line x1=\"{0:.1}\" y1=\"46\" x2=\"{0:.1}\" y2=\"{bottom:.1}\" stroke=\"{colour}\"/>\n\
             <text x=\"{0:.1}\" y=\"42\" text-anchor=\"middle\">{1}</text>\n",
            x(ratio),
            ratio
        );
    }
    for row in rows {
        let kind = kinds.iter().position(|k| *k == row.what).expect("a kind of the rows");
        let bar = keys.iter().position(|k| *k == key(row)).expect("a key of the rows");
        let y = 54.0 + kind as f64 * group + bar as f64 * BAR;
        let ratio = row.here / row.there;
        let (from, to) = (x(ratio.min(1.0)), x(ratio.max(1.0)));
        if bar == 0 {
            svg += &format!(
                "<text x=\"10\" y=\"{:.1}\" font-size=\"12\">{}</text>\n",
                y + 10.0,
                row.what
            );
        }
        svg += &format!(
            "<rect x=\"{from:.1}\" y=\"{y:.1}\" width=\"{:.1}\" height=\"{:.1}\" fill=\"{}\"/>\n\
             <text x=\"{:.1}\" y=\"{:.1}\" font-size=\"9\">{ratio:.2}</text>\n",
            (to - from).max(1.0),
            BAR - 1.0,
            COLOURS[bar % COLOURS.len()],
            to + 4.0,
            y + 9.0
        );
    }
    for (k, name) in keys.iter().enumerate() {
        let y = bottom + 12.0 + k as f64 * 15.0;
        svg += &format!(
            "<rect x=\"{LEFT}\" y=\"{y:.1}\" width=\"10\" height=\"10\" fill=\"{}\"/>\n\
             <text x=\"{:.1}\" y=\"{:.1}\">{name}</text>\n",
            COLOURS[k % COLOURS.len()],
            LEFT + 16.0,
            y + 9.0
        );
    }
    svg + "</svg>\n"
}
