//! What the program is asked to do.

use std::path::PathBuf;

pub struct Options {
    pub seed: u64,
    pub calls: u64,
    pub home: PathBuf,
    pub whole: bool,
    pub uneven: bool,
    pub sample: Option<String>,
    pub case: Option<String>,
    pub only_midi: bool,
    pub midi_files: u64,
    pub midi_sample: Option<String>,
    pub midi_case: Option<String>,
    pub only_sheets: bool,
    pub sheets: u64,
    pub sheet_case: Option<String>,
    pub only_ranked: bool,
    pub ranked: u64,
    pub ranked_case: Option<String>,
    pub only_pads: bool,
    pub pads: u64,
    pub pad_case: Option<String>,
    pub only_lookups: bool,
    pub lookups: u64,
    pub lookup_case: Option<String>,
    pub only_handles: bool,
    pub handles: u64,
    pub handle_case: Option<String>,
}

/// As they are given; README.md lists them.
pub fn options() -> Result<Options, String> {
    let mut options = Options {
        seed: 1,
        calls: 2_000_000,
        home: ".".into(),
        whole: false,
        uneven: false,
        sample: None,
        case: None,
        only_midi: false,
        midi_files: 500_000,
        midi_sample: None,
        midi_case: None,
        only_sheets: false,
        sheets: 500_000,
        sheet_case: None,
        only_ranked: false,
        ranked: 500_000,
        ranked_case: None,
        only_pads: false,
        pads: 500_000,
        pad_case: None,
        only_lookups: false,
        lookups: 1_000_000,
        lookup_case: None,
        only_handles: false,
        handles: 1_000_000,
        handle_case: None,
    };
    let mut words = std::env::args().skip(1);
    while let Some(word) = words.next() {
        let mut value = || words.next().ok_or(format!("{word} wants a value"));
        let number = |text: String| text.parse().map_err(|_| format!("{text} is not a number"));
        match word.as_str() {
            "--seed" => options.seed = number(value()?)?,
            "--calls" => options.calls = number(value()?)?,
            "--home" => options.home = value()?.into(),
            "--whole" => options.whole = true,
            "--uneven" => options.uneven = true,
            "--sample" => options.sample = Some(value()?),
            "--case" => options.case = Some(value()?),
            "--only-midi" => options.only_midi = true,
            "--midi-files" => options.midi_files = number(value()?)?,
            "--midi-sample" => options.midi_sample = Some(value()?),
            "--midi-case" => options.midi_case = Some(value()?),
            "--only-sheets" => options.only_sheets = true,
            "--sheets" => options.sheets = number(value()?)?,
            "--sheet-case" => options.sheet_case = Some(value()?),
            "--only-ranked" => options.only_ranked = true,
            "--ranked" => options.ranked = number(value()?)?,
            "--ranked-case" => options.ranked_case = Some(value()?),
            "--only-pads" => options.only_pads = true,
            "--pads" => options.pads = number(value()?)?,
            "--pad-case" => options.pad_case = Some(value()?),
            "--only-lookups" => options.only_lookups = true,
            "--lookups" => options.lookups = number(value()?)?,
            "--lookup-case" => options.lookup_case = Some(value()?),
            "--only-handles" => options.only_handles = true,
            "--handles" => options.handles = number(value()?)?,
            "--handle-case" => options.handle_case = Some(value()?),
            _ => return Err(format!("unknown option {word}")),
        }
    }
    Ok(options)
}
