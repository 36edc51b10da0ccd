//! A bar on paper: one sheet out of many bars of 16 steps, with 50 sounds and with more.
use crate::calls::{Call, Names};
use crate::compare::{self, Row};
use crate::data::{self, Lists};
use crate::library::Buffers;
use crate::originals::fast;

/// Times of the sheet of one bar out of so many.
pub struct Sheet {
    pub documents: usize,
    pub sounds: usize,
    pub bytes: usize,
    pub lines: usize,
    pub row: Row,
}

/// The sheet of the bar at a place.
fn time_sheet(lists: &Lists, names: &[&'static str], place: usize, count: usize) -> Sheet {
    let documents = lists.ids.len();
    eprintln!("sheet: {documents} documents, {} sounds", names.len());
    let bytes = fast::write(&fast::given(lists));
    let call = Call::BarSheet(Names::new(names), lists.ids[place]);
    let lines = fast::answer(&call, &fast::open(&bytes)).text.len() / 81;
    let row = compare::time_call(&call, &bytes, &mut Buffers::new(0, 0), count);
    Sheet { documents, sounds: names.len(), bytes: bytes.len(), lines, row }
}

/// Each number of documents, with 50 sounds that are hit equally often. The sheets are compared first.
pub fn all(sizes: &[usize], count: usize) -> Vec<Sheet> {
    let names = data::kit_names();
    sizes.iter().map(|documents| time_sheet(&data::kit(*documents, &names), &names, documents / 2, count)).collect()
}

/// Each number of sounds, in the first and the last of so many bars alone; the sheet is the last bar's.
pub fn scattered(documents: usize, sounds: &[usize], count: usize) -> Vec<Sheet> {
    let timed = |many: &usize| {
        let names = data::many_names(*many);
        time_sheet(&data::scattered(documents, &names), &names, documents - 1, count)
    };
    sounds.iter().map(timed).collect()
}
