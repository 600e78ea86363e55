//! The results as a Markdown table and as a chart of the ratios.

use crate::measure::Times;

pub struct Row {
    pub call: &'static str,
    pub input: String,
    pub beside: &'static str,
    pub times: Times,
}

#[derive(Default)]
pub struct Report {
    rows: Vec<Row>,
    notes: Vec<String>,
}

const TITLE: &str = "Proved engine beside plain Rust";
const METHOD: &str = "Times are medians for a call (for the program: for a run) of interleaved samples in one process \
after a warm-up. The ratio is engine / beside: below 1 the proved engine is faster. The middle half of the samples \
lies within the spread around each median. `active` is the average number of active states after a link, `forced` the \
number of links that the rules force on a chain. Lent tables, steps and networks are the same for all calls and are not \
cleared, except where a row says so.";

impl Report {
    /// Adds a row and prints it at once.
    pub fn add(&mut self, row: Row) {
        let Row {
            call,
            input,
            beside,
            times,
        } = &row;
        let (archive, other) = (time(times.archive), time(times.beside));
        println!(
            "{call:8} {input:62} {archive:>9} {other:>9} {:6.2}  {beside}",
            times.ratio()
        );
        self.rows.push(row);
    }

    pub fn note(&mut self, note: &str) {
        println!("{note}");
        self.notes.push(note.to_string());
    }

    pub fn markdown(&self) -> String {
        let mut text = format!("# {TITLE}\n\n{METHOD}\n");
        for note in &self.notes {
            text += &format!("\n{note}\n");
        }
        text += "\n| call | input | engine | beside | | ratio | spread |\n|---|---|---:|---:|---|---:|---:|\n";
        for Row {
            call,
            input,
            beside,
            times,
        } in &self.rows
        {
            let (archive, other) = (time(times.archive), time(times.beside));
            let (ratio, spread) = (times.ratio(), 100.0 * times.spread);
            text += &format!("| {call} | {input} | {archive} | {other} | {beside} | {ratio:.2} | ±{spread:.0}% |\n");
        }
        text
    }

    /// Bars from ratio 1, to the left where the engine is faster, on a scale of powers of two.
    pub fn svg(&self) -> String {
        let logs: Vec<f64> = self
            .rows
            .iter()
            .map(|row| row.times.ratio().log2())
            .collect();
        let scale = Scale {
            low: logs.iter().copied().fold(-1.0, f64::min).floor(),
            high: logs.iter().copied().fold(1.0, f64::max).ceil(),
        };
        let bottom = TOP + ROW * self.rows.len() as f64;
        let (width, height) = (TEXT + CHART + VALUES, bottom + 16.0);
        let mut svg = format!(
            "<svg xmlns=\"http://www.w3.org/2000/svg\" width=\"{width}\" height=\"{height}\" font-family=\"sans-serif\" font-size=\"11\">\n\
             <rect width=\"100%\" height=\"100%\" fill=\"white\"/>\n\
             <text x=\"12\" y=\"22\" font-size=\"15\">{TITLE}: ratio of times, engine / beside</text>\n\
             <text x=\"12\" y=\"40\">Green: the engine is faster. Orange: plain Rust is faster. Violet: beside RE2. Blue: beside gringo. Grey: beside the search that goes rule by rule.</text>\n"
        );
        svg += &scale.grid(bottom);
        for (number, row) in self.rows.iter().enumerate() {
            svg += &scale.bar(row, TOP + ROW * number as f64);
        }
        svg + "</svg>\n"
    }
}

/// Widths of the chart's columns, height of a row, and where the rows start.
const TEXT: f64 = 400.0;
const CHART: f64 = 420.0;
const VALUES: f64 = 190.0;
const ROW: f64 = 20.0;
const TOP: f64 = 62.0;

/// The powers of two at the ends of the chart.
struct Scale {
    low: f64,
    high: f64,
}

impl Scale {
    fn at(&self, log: f64) -> f64 {
        TEXT + CHART * (log - self.low) / (self.high - self.low)
    }

    fn grid(&self, bottom: f64) -> String {
        let mut svg = String::new();
        let text = TOP - 6.0;
        for power in self.low as i32..=self.high as i32 {
            let x = self.at(f64::from(power));
            let colour = if power == 0 { "black" } else { "#ddd" };
            let tick = match power {
                0.. => format!("{}", 1u64 << power),
                _ => format!("1/{}", 1u64 << -power),
            };
            svg += &format!(
                "<line x1=\"{x:.1}\" y1=\"{TOP}\" x2=\"{x:.1}\" y2=\"{bottom}\" stroke=\"{colour}\"/>\n\
                 <text x=\"{x:.1}\" y=\"{text}\" text-anchor=\"middle\">{tick}</text>\n"
            );
        }
        svg
    }

    /// A row's words, its bar and its numbers.
    fn bar(&self, row: &Row, top: f64) -> String {
        let Row {
            call,
            input,
            beside,
            times,
        } = row;
        let log = times.ratio().log2();
        let (start, end) = (self.at(log.min(0.0)), self.at(log.max(0.0)));
        let (colour, other) = match *beside {
            "RE2" => ("#8a6db1", " (RE2)"),
            "gringo" => ("#4a7fb5", " (gringo)"),
            "rule by rule" => ("#8c8c8c", " (rule by rule)"),
            _ if log <= 0.0 => ("#4c9a6a", ""),
            _ => ("#c9803c", ""),
        };
        let (words, numbers) = (TEXT - 10.0, TEXT + CHART + 10.0);
        let (text, bar) = (top + 14.0, top + 4.0);
        let (width, height) = ((end - start).max(1.0), ROW - 8.0);
        let (ratio, archive, beside) = (times.ratio(), time(times.archive), time(times.beside));
        format!(
            "<text x=\"{words}\" y=\"{text}\" text-anchor=\"end\">{call}: {input}{other}</text>\n\
             <rect x=\"{start:.1}\" y=\"{bar}\" width=\"{width:.1}\" height=\"{height}\" fill=\"{colour}\"/>\n\
             <text x=\"{numbers}\" y=\"{text}\">{ratio:.2}  ({archive} / {beside})</text>\n"
        )
    }
}

/// Nanoseconds in a unit that suits them.
fn time(nanoseconds: f64) -> String {
    let (number, unit) = match nanoseconds {
        n if n < 1e3 => (n, "ns"),
        n if n < 1e6 => (n / 1e3, "µs"),
        n => (n / 1e6, "ms"),
    };
    let digits = if number < 10.0 {
        2
    } else if number < 100.0 {
        1
    } else {
        0
    };
    format!("{number:.digits$} {unit}")
}
