//! Bars that a text can say as well: 16 steps, on each one of 50 sounds or a rest. For a search in texts a bar is 16 words.
use crate::calls::{Call, Names};
use crate::data::{sound, Gathered, Lists, Random, Sound};

const STEPS: usize = 16;
const SOUNDS: usize = 50;

/// The sounds in byte order; the second is hit half as often as the first, the third a third as often, and so on.
fn sounds() -> Vec<Sound> {
    (1..=SOUNDS as u32).map(|i| (&*format!("s{i:02}").leak(), 10_000 / i)).collect()
}

/// The bars: on each step the sound's number, or none.
pub struct Bars {
    pub ids: Vec<u32>,
    steps: Vec<[Option<u8>; STEPS]>,
    sounds: Vec<Sound>,
}

/// So many bars, others for each seed. Ids rise by 1 to 3; a step in four is a rest; one bar in 32 has the eight most frequent sounds on consecutive steps. No
/// bar has the second sound right before the first.
pub fn bars(count: usize, seed: u64) -> Bars {
    let mut random = Random(seed);
    let mut bars = Bars { ids: Vec::new(), steps: Vec::new(), sounds: sounds() };
    let mut id = 0;
    for bar in 0..count {
        id += 1 + random.below(3);
        let mut steps = [None; STEPS];
        for step in &mut steps {
            *step = (random.below(4) > 0).then(|| sound(&mut random, &bars.sounds) as u8);
        }
        if bar % 32 == 7 {
            let start = random.below(STEPS as u32 - 7) as usize;
            (0..8).for_each(|i| steps[start + i] = Some(i as u8));
        }
        for i in 1..STEPS {
            if (steps[i - 1], steps[i]) == (Some(1), Some(0)) {
                steps[i - 1] = None;
            }
        }
        bars.ids.push(id);
        bars.steps.push(steps);
    }
    bars
}

impl Bars {
    pub fn lists(&self) -> Lists {
        let mut gathered = Gathered::new(SOUNDS);
        for (id, steps) in self.ids.iter().zip(&self.steps) {
            let hits = steps.iter().enumerate().filter_map(|(step, sound)| sound.map(|sound| (sound as usize, step as u32)));
            gathered.bar(*id, STEPS as u32, hits.collect());
        }
        gathered.whole(&self.sounds)
    }

    /// A bar as words, a rest being one too.
    #[cfg_attr(not(sqlite), allow(dead_code))]
    pub fn text(&self, place: usize) -> String {
        let word = |step: &Option<u8>| step.map_or("rest", |sound| self.sounds[sound as usize].0);
        self.steps[place].iter().map(word).collect::<Vec<_>>().join(" ")
    }
}

/// A question, and whether a bar has what it asks for.
pub struct Question {
    pub name: String,
    pub call: Call,
    pub found: bool,
}

/// The phrases that are found begin as the eight sounds do; those that are not have the first two of them exchanged.
pub fn questions() -> Vec<Question> {
    let right = ["s01", "s02", "s03", "s04", "s05", "s06", "s07", "s08"];
    let mut exchanged = right;
    exchanged.swap(0, 1);
    let mut all = Vec::new();
    for many in [2, 4, 8] {
        for (names, found) in [(&right[..many], true), (&exchanged[..many], false)] {
            let call = Call::Phrase(Names::new(names));
            all.push(Question { name: format!("{}, {}", call.name(), if found { "found" } else { "not found" }), call, found });
        }
    }
    let three = ["s01", "s03", "s05"];
    for ordered in [true, false] {
        let call = Call::Near(Names::new(&three), 8, ordered);
        all.push(Question { name: call.name(), call, found: true });
    }
    let call = Call::Phrase(Names::new(&["s04", "tuba"]));
    all.push(Question { name: "phrase of 2, one unknown".into(), call, found: false });
    let call = Call::NearMatch("s02", "s04", 8);
    all.push(Question { name: call.name(), call, found: true });
    all
}

/// The sound that is read.
pub const SOUND: &str = "s04";

/// The other calls that there are with a handle. `id` is a bar in which the sound stands.
pub fn reads(id: u32) -> Vec<Question> {
    [Call::DocumentLen(id), Call::Df(SOUND), Call::DocsWithTerm(SOUND), Call::TermPostings(SOUND), Call::Positions(SOUND, id)]
        .into_iter()
        .map(|call| Question { name: call.name(), call, found: true })
        .collect()
}
