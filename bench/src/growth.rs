//! Growth with size. One small segment asked over and over would not do: the processor learns its branches by heart.
use crate::calls::Call;
use crate::handles::{self, Handle};
use crate::library::{self, Buffers};
use crate::measure::{rounds, Timed};
use crate::often::Often;
use crate::originals::fast;
use crate::words;
use std::hint::black_box;

/// Nanoseconds a bar of one number of bars.
pub struct Grown {
    pub bars: usize,
    /// How many segments took turns.
    pub segments: usize,
    /// For each question: opened in each call, opened once, checked once.
    pub questions: Vec<[f64; 3]>,
    pub check: f64,
    pub write: f64,
}

/// One segment, as it was timed already.
pub fn large(size: &Often) -> Grown {
    use crate::often::{Opens, Who};
    let bar = |time: f64| time / size.documents as f64;
    let questions = size.questions.iter().map(|asked| [Who::Each, Who::Opened, Who::Checked].map(|who| bar(asked.time(who))));
    let check = bar(size.opening.of(Opens::Check as usize));
    Grown { bars: size.documents, segments: 1, questions: questions.collect(), check, write: bar(size.write.of(0)) }
}

/// So many different segments, each asked once in turn. The answers are compared first.
pub fn small(bars: usize, segments: usize, count: usize) -> Grown {
    eprintln!("{segments} segments of {bars} bars of 16 steps");
    let lists: Vec<_> = (1..=segments as u64).map(|seed| words::bars(bars, seed).lists()).collect();
    let all: Vec<Vec<u8>> = lists.iter().map(|lists| fast::write(&fast::given(lists))).collect();
    let opened: Vec<Handle> = all.iter().map(|bytes| handles::open_once(bytes)).collect();
    let checked: Vec<Handle> = all.iter().map(|bytes| handles::check(bytes)).collect();
    let mut room = vec![0; lists.iter().map(|lists| lists.room()).max().expect("a segment")];
    let bar = |time: f64| time / (bars * segments) as f64;
    let asked = |call: &Call| {
        let mut lent = [(); 3].map(|()| Buffers::new(bars, 0));
        let [first, second, third] = &mut lent;
        for ((bytes, opened), checked) in all.iter().zip(&opened).zip(&checked) {
            let right = fast::answer(call, &fast::open(bytes));
            assert_eq!(handles::answer(call, bytes, *opened, second), right, "{}, opened once", call.name());
            assert_eq!(handles::answer(call, bytes, *checked, third), right, "{}, checked once", call.name());
        }
        let once = |handles: &[Handle], b: &mut Buffers| {
            for (bytes, handle) in all.iter().zip(handles) {
                black_box(handles::ask(call, black_box(bytes), *handle, b));
            }
        };
        let times = Timed(rounds(
            count,
            &mut [
                &mut || {
                    all.iter().for_each(|bytes| {
                        black_box(library::ask(call, black_box(bytes), first));
                    })
                },
                &mut || once(&opened, second),
                &mut || once(&checked, third),
            ],
        ));
        [bar(times.of(0)), bar(times.of(1)), bar(times.of(2))]
    };
    let questions = words::questions().iter().map(|question| asked(&question.call)).collect();
    let times = Timed(rounds(
        count,
        &mut [
            &mut || {
                all.iter().for_each(|bytes| {
                    black_box(handles::check(black_box(bytes)));
                })
            },
            &mut || {
                lists.iter().for_each(|lists| {
                    black_box(library::write(black_box(lists), &mut room));
                })
            },
        ],
    ));
    Grown { bars, segments, questions, check: bar(times.of(0)), write: bar(times.of(1)) }
}

/// The smallest size twice, one segment over and over and many in turn, then each larger one.
pub fn all(sizes: &[Often], quick: bool) -> Vec<Grown> {
    let many = small(sizes[0].documents, 100, if quick { 3 } else { 15 });
    [large(&sizes[0]), many].into_iter().chain(sizes[1..].iter().map(large)).collect()
}
