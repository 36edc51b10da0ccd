//! The tables of questions that are asked often.
use crate::growth::Grown;
use crate::measure::Timed;
use crate::often::{Asked, Often, Opens, Who};
use crate::report::{grouped, head, line};
use crate::{fts5, text};

/// As many digits as a comparison needs.
fn fine(ratio: f64) -> String {
    match ratio {
        r if r >= 100.0 => grouped(r.round() as usize),
        r if r >= 1.0 => format!("{r:.2}"),
        r if r >= 0.001 => format!("{r:.3}"),
        r if r > 0.0 => format!("{r:.*}", -r.log10().floor() as usize),
        _ => "0".into(),
    }
}

/// Nanoseconds a bar.
fn few(time: f64) -> String {
    if time >= 0.1 {
        format!("{time:.1}")
    } else {
        fine(time)
    }
}

fn micros(time: f64) -> String {
    match time / 1e3 {
        t if t >= 100.0 => grouped(t.round() as usize),
        t if t >= 1.0 => format!("{t:.1}"),
        t => format!("{t:.3}"),
    }
}

fn with_fts5(size: &Often) -> bool {
    size.questions.iter().any(|asked| asked.ratio(Who::Fts5, Who::RustOnce).is_some())
}

fn data(sizes: &[Often]) {
    head("Bars", ["postings", "positions", "bytes of segment"].map(String::from));
    for size in sizes {
        line([size.documents, size.postings, size.positions, size.bytes].map(grouped));
    }
}

/// Ratios to the Rust opened once, and its microseconds and those of a checked call.
fn questions(size: &Often) {
    use Who::*;
    let mut ways = vec![("Rust per call", RustEach), ("per call", Each), ("opened once", Opened), ("**checked once**", Checked)];
    if with_fts5(size) {
        ways.insert(1, ("FTS5", Fts5));
    }
    let names = ways.iter().map(|way| way.0.to_string());
    let last = "checked once, µs".to_string();
    head("Question", ["bars found".into(), "Rust opened once, µs".into()].into_iter().chain(names).chain([last]));
    for asked in &size.questions {
        let ratios = ways.iter().map(|way| asked.ratio(way.1, RustOnce).map_or("none".into(), fine));
        let first = [asked.name.clone(), grouped(asked.found), micros(asked.time(RustOnce))];
        line(first.into_iter().chain(ratios).chain([micros(asked.time(Checked))]));
    }
}

/// Microseconds of the other calls, and the checked one's ratio.
fn reads(size: &Often) {
    use Who::*;
    let names = ["Rust opened once, µs", "Rust per call, µs", "per call, µs", "opened once, µs", "checked once, µs"];
    head("Call", names.into_iter().chain(["checked, of the Rust opened once", "checked, of per call"]).map(String::from));
    for asked in &size.reads {
        let times = [RustOnce, RustEach, Each, Opened, Checked].map(|who| micros(asked.time(who)));
        let ratios = [RustOnce, Each].map(|of| asked.ratio(Checked, of).map_or("none".into(), fine));
        line([asked.name.clone()].into_iter().chain(times).chain(ratios));
    }
}

/// Nanoseconds a bar, and ratios to the Rust's and to the Rust's with a table, at each size.
fn opening(sizes: &[Often]) {
    let of = |size: &Often| {
        let n = grouped(size.documents);
        ["ns a bar", "of the Rust", "with a table"].map(|what| format!("{n}: {what}"))
    };
    head("Call", sizes.iter().flat_map(of));
    let row = |name: &str, times: &dyn Fn(&Often) -> &Timed, ours: usize, theirs: [usize; 2]| {
        let cells = sizes.iter().flat_map(|size| {
            let times = times(size);
            let ratios = theirs.map(|to| times.ratio(ours, to).map_or("".into(), fine));
            [format!("{:.1}", times.of(ours) / size.documents as f64)].into_iter().chain(ratios)
        });
        line([name.to_string()].into_iter().chain(cells));
    };
    let opens = [Opens::Rust as usize, Opens::RustTable as usize];
    row("open", &|size| &size.opening, Opens::Open as usize, opens);
    row("open_once", &|size| &size.opening, Opens::OpenOnce as usize, opens);
    row("check", &|size| &size.opening, Opens::Check as usize, opens);
    let lists = [Opens::RustLists as usize, usize::MAX];
    row("check, beside an open and every list", &|size| &size.opening, Opens::Check as usize, lists);
    row("write", &|size| &size.write, 0, [1, 2]);
}

/// The parts of a call that opens, as the three ways and a byte's checksum tell them apart.
const PARTS: [&str; 5] = ["segment's checksums", "rest of opening", "lists' checksums", "rest of the lists' check", "walk"];

fn parts(size: &Often, asked: &Asked) -> [f64; 5] {
    let opening = asked.more(Who::Each, Who::Opened);
    let lists = asked.more(Who::Opened, Who::Checked);
    let checksum = size.opening.of(Opens::Checksum as usize);
    let sum = opening.min(checksum);
    let sums = lists.min(checksum * asked.lists as f64 / size.bytes as f64);
    [sum, opening - sum, sums, lists - sums, asked.time(Who::Checked)]
}

/// The part that takes most.
fn most(parts: &[f64], names: &[&str]) -> String {
    let greatest = (0..parts.len()).max_by(|a, b| parts[*a].total_cmp(&parts[*b])).expect("a part");
    let share = parts[greatest] / parts.iter().sum::<f64>() * 100.0;
    format!("{} {share:.0} %", names[greatest])
}

/// Shares of a call that opens, what bounds it and a call that was opened once, and from which question on `check` is less work.
fn bounds(size: &Often) {
    let names = PARTS.iter().copied().chain(["bounds a call", "bounds it opened once", "check pays from question"]);
    head("Question", names.map(String::from));
    for asked in size.questions.iter().chain(&size.reads) {
        let parts = parts(size, asked);
        let all: f64 = parts.iter().sum();
        let shares = parts.iter().map(|part| format!("{:.0} %", part / all * 100.0));
        let saved = asked.more(Who::Each, Who::Checked);
        let check = size.opening.of(Opens::Check as usize);
        let pays = if saved > 0.0 { grouped((check / saved) as usize + 1) } else { "never".into() };
        let words = [most(&parts, &PARTS), most(&parts[2..], &PARTS[2..]), pays];
        line([asked.name.clone()].into_iter().chain(shares).chain(words));
    }
}

/// Nanoseconds a bar.
fn growth(sizes: &[Grown], names: &[String]) {
    let ways = ["per call", "opened once", "checked once"];
    let label = |size: &Grown| if size.segments > 1 { format!(", {} in turn", size.segments) } else { String::new() };
    let column = |way: &str, size: &Grown| format!("{way}: {}{}", grouped(size.bars), label(size));
    head("Question", ways.iter().flat_map(|way| sizes.iter().map(move |size| column(way, size))));
    for (i, name) in names.iter().enumerate() {
        let each = (0..ways.len()).flat_map(|way| sizes.iter().map(move |size| few(size.questions[i][way])));
        line([name.clone()].into_iter().chain(each));
    }
    let empty = vec![String::new(); sizes.len() * (ways.len() - 1)];
    line(["check".into()].into_iter().chain(sizes.iter().map(|size| few(size.check))).chain(empty.clone()));
    line(["write".into()].into_iter().chain(sizes.iter().map(|size| few(size.write))).chain(empty));
}

/// Growth up to so many times the nanoseconds a bar is counted as linear.
const LINEAR: f64 = 1.2;

/// What was aimed at, at every size but the first.
fn aims(sizes: &[Often], grown: &[Grown]) {
    use Who::*;
    let (first, larger) = (&sizes[0], &sizes[1..]);
    let columns = larger.iter().flat_map(|size| [format!("{} bars", grouped(size.documents)), "".into()]);
    head("Aim", ["at most".to_string()].into_iter().chain(columns));
    let aim = |what: String, most: f64, seen: &dyn Fn(&Often) -> Option<f64>| {
        let cells = larger.iter().flat_map(|size| match seen(size) {
            Some(seen) => [fine(seen), if seen <= most { "met" } else { "missed" }.into()],
            None => ["".into(), "not run".into()],
        });
        line([what, format!("{most:.2}")].into_iter().chain(cells));
    };
    let names: Vec<&String> = first.questions.iter().map(|asked| &asked.name).collect();
    for (i, name) in names.iter().enumerate().filter(|(_, name)| **name != "near_match") {
        aim(format!("{name}: checked, of the Rust opened once"), 0.15, &|size| size.questions[i].ratio(Checked, RustOnce));
    }
    for (i, name) in names.iter().enumerate().filter(|(_, name)| !name.ends_with(" ordered")) {
        aim(format!("{name}: checked, of FTS5"), 1.0, &|size| size.questions[i].ratio(Checked, Fts5));
    }
    let weighty = |name: &str| ["phrase of 4", "phrase of 8", "near of 3"].iter().any(|start| name.starts_with(start));
    for (i, name) in names.iter().enumerate().filter(|(_, name)| weighty(name)) {
        aim(format!("{name}: per call, of the Rust per call"), 1.0, &|size| size.questions[i].ratio(Each, RustEach));
    }
    aim("write, of the Rust with a table".into(), 0.8, &|size| size.write.ratio(0, 2));
    let linear = |what: &str, most: &dyn Fn(&Grown, &Grown) -> f64| {
        let start = &grown[1];
        let what = format!("{what}: ns a bar, of those at {} bars, {} segments in turn", grouped(start.bars), start.segments);
        aim(what, LINEAR, &|size| grown.iter().find(|grown| grown.bars == size.documents).map(|last| most(start, last)));
    };
    for (way, name) in ["per call", "opened once", "checked"].iter().enumerate() {
        linear(&format!("{name}, the question that grows most"), &|start, last| {
            let pairs = start.questions.iter().zip(&last.questions);
            pairs.map(|(start, last)| last[way] / start[way]).fold(0.0, f64::max)
        });
    }
    linear("check", &|start, last| last.check / start.check);
    linear("write", &|start, last| last.write / start.write);
}

/// All of them, with what is said above each.
pub fn section(sizes: &[Often], grown: &[Grown]) {
    println!("{}", text::OFTEN);
    data(sizes);
    if with_fts5(&sizes[0]) {
        println!("\nFTS5 is that of SQLite {}, Debian's libsqlite3.\n{}", fts5::version(), text::FTS5);
    } else {
        println!("\n(This machine has no libsqlite3 with FTS5: its column is left out.)\n");
    }
    println!("{}", text::RATIOS);
    for size in sizes {
        println!("{} bars:\n", grouped(size.documents));
        questions(size);
        println!();
    }
    let middle = &sizes[1];
    println!("### The other calls with a handle\n\n{}", text::READS);
    reads(middle);
    println!("\n### Opening, checking, writing\n\n{}", text::OPENING);
    opening(sizes);
    println!("\n### What bounds each row\n\n{}", text::BOUNDS);
    bounds(middle);
    println!("\n### Growth\n\n{}", text::OFTEN_GROWTH);
    let names: Vec<String> = middle.questions.iter().map(|asked| asked.name.clone()).collect();
    growth(grown, &names);
    println!("\n### Aims\n\n{}", text::AIMS);
    aims(sizes, grown);
}
