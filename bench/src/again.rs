//! One call of the library over and over, for a profiler:  bench again CALL DOCUMENTS TIMES
//! or, with the name of a MIDI file for the call and the length of the long ones for the documents, midi_bars;
//! and one question to a segment that was checked once:  bench checked QUESTION BARS TIMES
use crate::library::{self, Buffers};
use crate::originals::fast;
use crate::{calls, data, handles, measure, midi, words};

fn report(taken: Vec<f64>) {
    let least = taken.iter().copied().fold(f64::INFINITY, f64::min);
    println!("{:.3} ms, at least {:.3}", measure::median(taken) / 1e6, least / 1e6);
}

pub fn again(name: &str, documents: usize, times: usize) {
    if let Some((_, file)) = midi::files(documents.max(4096)).into_iter().find(|(of, _)| *of == name) {
        let (mut lists, mut velocities) = midi::enough(file.len());
        return report((0..times).map(|_| measure::once(|| library::midi_bars(&file, &mut lists, &mut velocities)).0).collect());
    }
    let lists = data::bars(documents);
    let bytes = fast::write(&fast::given(&lists));
    let mut buffers = Buffers::new(documents, lists.positions.len());
    let mut out = vec![0; lists.room()];
    let snares = fast::open(&bytes).docs_with_term("snare").expect("decodes");
    let calls = calls::all(snares[snares.len() / 2]);
    let call = calls.iter().find(|call| call.name() == name);
    let mut taken = Vec::new();
    for _ in 0..times {
        let (time, reply) = measure::once(|| match call {
            Some(call) => library::ask(call, &bytes, &mut buffers),
            None => library::write(&lists, &mut out),
        });
        assert_eq!(reply.kind, 0);
        taken.push(time);
    }
    report(taken);
}

pub fn checked(name: &str, bars: usize, times: usize) {
    let lists = words::bars(bars, bars as u64).lists();
    let bytes = fast::write(&fast::given(&lists));
    let mut buffers = Buffers::new(bars, lists.positions.len());
    let questions = words::questions().into_iter().chain(words::reads(lists.ids[bars / 2]));
    let question = questions.into_iter().find(|question| question.name == name).expect("a question of the table");
    let handle = handles::check(&bytes);
    let mut ask = || measure::once(|| handles::ask(&question.call, &bytes, handle, &mut buffers)).0;
    report((0..times).map(|_| ask()).collect());
}
