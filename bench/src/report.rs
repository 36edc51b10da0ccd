//! The tables of docs/PERFORMANCE.md.
use crate::checksum::Checksum;
use crate::compare::{Row, Size};
use crate::limits::{Hostile, Limit};
use crate::midi::Midi;
use crate::sheet::Sheet;

/// 1234567 as 1,234,567.
pub fn grouped(n: usize) -> String {
    let digits = n.to_string();
    let mut out = String::new();
    for (i, digit) in digits.chars().enumerate() {
        if i > 0 && (digits.len() - i) % 3 == 0 {
            out.push(',');
        }
        out.push(digit);
    }
    out
}

fn ratio(ours: f64, theirs: f64) -> String {
    format!("{:.2}", ours / theirs)
}

pub fn line(cells: impl IntoIterator<Item = String>) {
    println!("| {} |", cells.into_iter().collect::<Vec<_>>().join(" | "));
}

pub fn head(first: &str, rest: impl IntoIterator<Item = String>) {
    let rest: Vec<String> = rest.into_iter().collect();
    println!("| {first} | {} |", rest.join(" | "));
    println!("|---|{}", "--:|".repeat(rest.len()));
}

fn columns(sizes: &[Size]) -> Vec<String> {
    let of = |size: &Size| {
        let n = grouped(size.documents);
        [format!("{n}: Rust"), format!("{n}: with a table")]
    };
    sizes.iter().flat_map(of).collect()
}

pub fn data(sizes: &[Size]) {
    head("Documents", ["postings", "positions", "bytes of segment"].map(String::from));
    for size in sizes {
        line([size.documents, size.postings, size.positions, size.bytes].map(grouped));
    }
}

pub fn whole(sizes: &[Size]) {
    head("Call", columns(sizes));
    for (i, row) in sizes[0].rows.iter().enumerate() {
        let ratios = sizes.iter().flat_map(|size| {
            let [ours, quick, slow] = size.rows[i].whole;
            [ratio(ours, quick), ratio(ours, slow)]
        });
        line([row.name.clone()].into_iter().chain(ratios));
    }
}

/// The calls that decode lists; what the others answer, the Rust keeps from its open.
pub fn apart(sizes: &[Size]) {
    head("Call", columns(sizes));
    let kept = ["open", "document_lengths", "document_len", "df", "write"];
    for (i, row) in sizes[0].rows.iter().enumerate().filter(|(_, row)| !kept.contains(&&row.name[..])) {
        let ratios = sizes.iter().flat_map(|size| {
            let [ours, quick, slow] = size.rows[i].apart;
            [ratio(ours, quick), ratio(ours, slow)]
        });
        line([row.name.clone()].into_iter().chain(ratios));
    }
}

/// What was aimed at, for 100,000 documents.
pub fn aims(size: &Size) {
    let row = |name: &str| -> &Row { size.rows.iter().find(|row| row.name == name).expect("a call") };
    let aim = |what: String, most: f64, seen: f64| {
        let met = if seen <= most { "met" } else { "missed" };
        line([what, format!("{most:.1}"), format!("{seen:.2}"), met.into()]);
    };
    head("Aim, at 100,000 documents", ["at most", "seen", ""].map(String::from));
    let asked = ["phrase of 4", "phrase of 8", "near of 3, ordered", "near of 3, unordered"];
    for name in asked {
        let [ours, quick, _] = row(name).whole;
        aim(format!("{name}, opened each time"), 1.0, ours / quick);
    }
    for name in asked {
        let [ours, quick, _] = row(name).apart;
        aim(format!("{name}, apart from opening"), 0.3, ours / quick);
    }
    let [ours, _, slow] = row("write").whole;
    aim("write, against the Rust with a table".into(), 0.8, ours / slow);
}

/// Nanoseconds a document.
pub fn growth(sizes: &[Size]) {
    let of = |size: &Size| {
        let n = grouped(size.documents);
        [n.clone(), format!("{n}: Rust")]
    };
    head("Call", sizes.iter().flat_map(of));
    for (i, row) in sizes[0].rows.iter().enumerate() {
        let each = sizes.iter().flat_map(|size| {
            let n = size.documents as f64;
            let [ours, quick, _] = size.rows[i].whole;
            [format!("{:.0}", ours / n), format!("{:.0}", quick / n)]
        });
        line([row.name.clone()].into_iter().chain(each));
    }
}

pub fn limits(limits: &[Limit]) {
    let names = ["terms", "bytes", "write, s", "of the Rust", "with a table", "open, s", "of the Rust", "with a table"];
    head("Lists", names.map(String::from));
    for l in limits {
        let three = |[ours, quick, slow]: [f64; 3]| [format!("{:.1}", ours / 1e9), ratio(ours, quick), ratio(ours, slow)];
        line([l.name.into(), grouped(l.terms), grouped(l.bytes)].into_iter().chain(three(l.write)).chain(three(l.open)));
    }
}

/// Millions of bytes a second.
pub fn checksum(all: &[Checksum]) {
    let names = ["MB/s", "Rust: MB/s", "with a table: MB/s", "of the Rust", "with a table", "steps as they stand: MB/s"];
    head("Bytes of the list", names.map(String::from));
    for c in all {
        let [ours, quick, slow] = c.open;
        let speed = |time: f64| format!("{:.0}", c.bytes as f64 / time * 1e3);
        let ratios = [ratio(ours, quick), ratio(ours, slow)];
        line([grouped(c.bytes)].into_iter().chain(c.open.map(speed)).chain(ratios).chain([speed(c.steps)]));
    }
}

pub fn hostile(all: &[Hostile]) {
    head("Question", ["positions", "ns a position", "at twice as many", "at four times", "there, of the Rust"].map(String::from));
    for h in all {
        let each = h.times.iter().zip(&h.positions).map(|(time, n)| format!("{:.1}", time / *n as f64));
        let last = ratio(h.times[h.times.len() - 1], h.original);
        line([h.name.clone(), grouped(h.positions[0])].into_iter().chain(each).chain([last]));
    }
}

pub fn midi(all: &[Midi]) {
    head("File", ["bytes", "postings", "positions", "of the plain reader", "MB/s", "plain reader: MB/s"].map(String::from));
    for m in all {
        let [ours, plain] = m.times;
        let speed = |time: f64| format!("{:.0}", m.bytes as f64 / time * 1e3);
        let counts = [m.bytes, m.postings, m.positions].map(grouped);
        line([m.name.into()].into_iter().chain(counts).chain([ratio(ours, plain), speed(ours), speed(plain)]));
    }
}

/// Opened each time, and nanoseconds a document of both; then apart from opening.
pub fn sheets(all: &[Sheet]) {
    let names = [
        "sounds",
        "bytes of segment",
        "lines",
        "of the Rust",
        "with a table",
        "ns a document",
        "Rust: ns",
        "apart: of the Rust",
        "with a table",
    ];
    head("Documents", names.map(String::from));
    for s in all {
        let ([ours, quick, slow], [own, fast, table]) = (s.row.whole, s.row.apart);
        let each = |time: f64| format!("{:.1}", time / s.documents as f64);
        let whole = [ratio(ours, quick), ratio(ours, slow), each(ours), each(quick)];
        let counts = [s.documents, s.sounds, s.bytes, s.lines].map(grouped);
        line(counts.into_iter().chain(whole).chain([ratio(own, fast), ratio(own, table)]));
    }
}

pub fn stack(depths: &[(String, Vec<usize>)]) {
    head("Call", ["per call", "opened once", "checked once"].map(String::from));
    for (name, depths) in depths {
        let cells = (0..3).map(|i| depths.get(i).map_or("".into(), |depth| grouped(*depth)));
        line([name.clone()].into_iter().chain(cells));
    }
}
