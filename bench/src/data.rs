//! Bars as a drum machine has them, by a generator that always gives the same.

/// The writer's eight flat lists.
#[derive(Default)]
pub struct Lists {
    pub ids: Vec<u32>,
    pub lengths: Vec<u32>,
    pub text: Vec<u8>,
    pub ends: Vec<u32>,
    pub posting_counts: Vec<u32>,
    pub posting_ids: Vec<u32>,
    pub position_counts: Vec<u32>,
    pub positions: Vec<u32>,
}

impl Lists {
    /// A length that every segment of these lists keeps within.
    pub fn room(&self) -> usize {
        72 + 32 * self.ends.len() + self.text.len() + 10 * (self.ids.len() + self.posting_ids.len()) + 5 * self.positions.len()
    }

    /// The names in directory order.
    pub fn names(&self) -> Vec<&str> {
        let text = std::str::from_utf8(&self.text).expect("UTF-8");
        let starts = [0].into_iter().chain(self.ends.iter().copied());
        starts.zip(&self.ends).map(|(from, to)| &text[from as usize..*to as usize]).collect()
    }
}

/// A sound, and how often it is hit.
pub type Sound = (&'static str, u32);

/// The sounds in byte order, each with how often it is hit among 121 hits.
const SOUNDS: [Sound; 24] = [
    ("agogo", 1),
    ("bongo", 2),
    ("cabasa", 1),
    ("china", 1),
    ("clap", 6),
    ("claves", 1),
    ("closed hat", 24),
    ("conga", 2),
    ("cowbell", 2),
    ("crash", 3),
    ("cuica", 1),
    ("guiro", 1),
    ("kick", 20),
    ("maracas", 2),
    ("open hat", 8),
    ("pedal hat", 4),
    ("ride", 8),
    ("rim", 5),
    ("shaker", 4),
    ("snare", 16),
    ("splash", 1),
    ("tambourine", 3),
    ("tom", 4),
    ("triangle", 1),
];

/// A fill on eight consecutive steps; one bar in 32 has it. The phrases that are asked for are its beginnings.
pub const FILL: [&str; 8] = ["kick", "closed hat", "snare", "open hat", "clap", "tom", "ride", "crash"];

/// splitmix64.
pub struct Random(pub u64);

impl Random {
    pub fn below(&mut self, n: u32) -> u32 {
        self.0 = self.0.wrapping_add(0x9E37_79B9_7F4A_7C15);
        let mut z = self.0;
        z = (z ^ (z >> 30)).wrapping_mul(0xBF58_476D_1CE4_E5B9);
        z = (z ^ (z >> 27)).wrapping_mul(0x94D0_49BB_1331_11EB);
        ((z ^ (z >> 31)) % n as u64) as u32
    }
}

/// A sound, each as often as it is hit.
pub fn sound(random: &mut Random, sounds: &[Sound]) -> usize {
    let mut left = random.below(sounds.iter().map(|s| s.1).sum());
    sounds
        .iter()
        .position(|s| {
            let here = left < s.1;
            left = left.wrapping_sub(s.1);
            here
        })
        .expect("a sound")
}

/// So many bars: ids rise by 1 to 3, a bar has 16, 32, 48 or 64 steps and 8 to 12 hits, one in 32 has the fill.
pub fn bars(count: usize) -> Lists {
    made(count, &SOUNDS, 4, true)
}

/// Their names in directory order.
pub fn names() -> Vec<&'static str> {
    SOUNDS.iter().map(|sound| sound.0).collect()
}

/// 50 names of sounds that are hit equally often.
pub fn kit_names() -> Vec<&'static str> {
    (0..50).map(|i| &*format!("sound {i:02}").leak()).collect()
}

/// So many bars of 16 steps with 8 to 12 hits of these.
pub fn kit(count: usize, names: &[&'static str]) -> Lists {
    let sounds: Vec<Sound> = names.iter().map(|name| (*name, 1)).collect();
    made(count, &sounds, 1, false)
}

/// So many names, in byte order.
pub fn many_names(sounds: usize) -> Vec<&'static str> {
    (0..sounds).map(|i| &*format!("s{i:06}").leak()).collect()
}

/// So many bars of 16 steps, the first and the last with one hit of each of these.
pub fn scattered(count: usize, names: &[&'static str]) -> Lists {
    let mut lists = Lists { ids: (0..count as u32).collect(), lengths: vec![16; count], ..Lists::default() };
    for (i, name) in names.iter().enumerate() {
        lists.text.extend_from_slice(name.as_bytes());
        lists.ends.push(lists.text.len() as u32);
        lists.posting_counts.push(2);
        lists.posting_ids.extend([0, count as u32 - 1]);
        lists.position_counts.extend([1, 1]);
        lists.positions.extend([i as u32 % 16; 2]);
    }
    lists
}

fn made(count: usize, sounds: &[Sound], longest: u32, with_fill: bool) -> Lists {
    let mut random = Random(count as u64);
    let mut gathered = Gathered::new(sounds.len());
    let mut id = 0;
    for bar in 0..count {
        id += 1 + random.below(3);
        let length = 16 * (1 + random.below(longest));
        let mut hits = Vec::new();
        for _ in 0..8 + random.below(5) {
            hits.push((sound(&mut random, sounds), random.below(length)));
        }
        if with_fill && bar % 32 == 7 {
            let start = random.below(length - 7);
            for (i, name) in FILL.iter().enumerate() {
                let term = sounds.iter().position(|s| s.0 == *name).expect("a sound");
                hits.push((term, start + i as u32));
            }
        }
        gathered.bar(id, length, hits);
    }
    gathered.whole(sounds)
}

/// Bars as they come, and the postings of each sound so far.
pub struct Gathered {
    lists: Lists,
    terms: Vec<Lists>,
}

impl Gathered {
    pub fn new(sounds: usize) -> Gathered {
        Gathered { lists: Lists::default(), terms: (0..sounds).map(|_| Lists::default()).collect() }
    }

    /// A bar and its hits: sound and step of each, in any order, the same one any number of times.
    pub fn bar(&mut self, id: u32, length: u32, mut hits: Vec<(usize, u32)>) {
        self.lists.ids.push(id);
        self.lists.lengths.push(length);
        hits.sort_unstable();
        hits.dedup();
        for of_term in hits.chunk_by(|a, b| a.0 == b.0) {
            let term = &mut self.terms[of_term[0].0];
            term.posting_ids.push(id);
            term.position_counts.push(of_term.len() as u32);
            term.positions.extend(of_term.iter().map(|hit| hit.1));
        }
    }

    pub fn whole(self, sounds: &[Sound]) -> Lists {
        let mut lists = self.lists;
        for (term, sound) in self.terms.iter().zip(sounds) {
            lists.text.extend_from_slice(sound.0.as_bytes());
            lists.ends.push(lists.text.len() as u32);
            lists.posting_counts.push(term.posting_ids.len() as u32);
            lists.posting_ids.extend(&term.posting_ids);
            lists.position_counts.extend(&term.position_counts);
            lists.positions.extend(&term.positions);
        }
        lists
    }
}
