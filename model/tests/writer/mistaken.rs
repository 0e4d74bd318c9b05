//! A small separate writer, which may make a mistake.

use model::gen::writer_calls::WriterCall;
use model::runfile::{read_setup, read_step};
use model::step_record::Step;

use crate::rule::Rule;

mistakes! {
    // The bytes.
    NoteAfterSetup,
    /// Writes no note.
    NoteDropped,
    /// Distance before count.
    TrailerSwapped,
    /// 16 × count.
    DistanceWithout56,
    /// 48 + 16 × count.
    DistanceWithoutTrailer,
    /// The whole file's length.
    DistanceWithNote,
    TrailerBigEndian,
    /// The length of the records in bytes, as the count.
    CountInBytes,

    // How much is written.
    MostIs3999,
    MostIs4001,
    MostBytes65535,
    MostBytes65537,
    /// Asks only about the length of the records, not the note's.
    NoteNotCounted,
    /// Needs one byte more than the file has.
    RoomPastTheFile,
    ShortByOne,
    RoomNotAsked,
    /// Leaves out what does not make a whole record.
    RestLeftOut,

    // Fields of steps.
    UnusedNotAsked,
    UnusedOfFirstNotAsked,
    UnusedOfLastNotAsked,
    /// Asks only about the first and the last step.
    UnusedBetweenNotAsked,
    /// Writes 0 for an unused field.
    UnusedCleared,
    /// Asks only about the lower half of the value.
    ValueHalfAsked,
    /// Wants every field of an unknown kind to be 0.
    UnknownKindAsked,
    UnknownKindRefused,
    /// Asks nothing of a save or a return, whose kinds were unknown before A7.
    SavedNotAsked,
    /// Wants the name of a save or a return to be 0.
    NameUnused,
    /// Wants the name of a save or a return to exist.
    NameAsked,

    // The setup.
    SetupNotAsked,
    /// Asks about it after all that gives 10.
    SetupAskedLast,
    /// Asks about it after the sizes, as if asking for room first.
    SetupAskedAfterSizes,
    SpareNotAsked,
    /// Lets 29 to 32 objects through, as before A6.
    ObjectsTo32,
    /// Lets a delay of 0 through, which files from before A6 have.
    DelayFrom0,
    /// Asks only about the lower half of the delay.
    DelayHalfAsked,
    DelayBigEndian,
    /// Takes the first 48 bytes of more.
    SetupCut,
    /// Answers 10 for a setup of another length.
    SetupLengthIs10,
    /// Answers 9, as the reader does.
    SetupIs9,
    /// Answers 9 for all that gives 10.
    NotWrittenIs9,
}

use Mistake::*;

impl Rule<Mistake> {
    pub fn file(self, call: &WriterCall) -> Result<Vec<u8>, u8> {
        let setup = if self.right_setup(&call.setup) { Ok(()) } else { Err(self.number(7, SetupIs9, 9)) };
        let not_written = Err(self.number(10, NotWrittenIs9, 9));
        let sizes = if self.fits(call) { Ok(()) } else { not_written };
        let fields = if self.right_fields(&call.records) { Ok(()) } else { not_written };
        let length = if self.has(SetupLengthIs10) && call.setup.len() != 48 { Err(10) } else { Ok(()) };
        let asked = match self.0 {
            Some(SetupAskedLast) => [sizes, fields, setup],
            Some(SetupAskedAfterSizes) => [sizes, setup, fields],
            _ => [length.and(setup), sizes, fields],
        };
        asked.into_iter().collect::<Result<(), u8>>()?;
        Ok(self.bytes(call))
    }

    fn right_setup(self, setup: &[u8]) -> bool {
        let mut setup = setup.to_vec();
        if self.has(SetupCut) {
            setup.truncate(48);
        }
        self.has(SetupNotAsked) || setup.len() == 48 && read_setup(&self.asked_about(setup)).is_ok()
    }

    /// Returns the 48 bytes that are asked about instead of the setup's.
    fn asked_about(self, mut setup: Vec<u8>) -> Vec<u8> {
        let (front, delay) = setup.split_at_mut(44);
        match self.0 {
            Some(SpareNotAsked) => front[3] = 0,
            Some(ObjectsTo32) if front[2] <= 32 => front[2] = front[2].min(28),
            Some(DelayFrom0) if delay == [0; 4] => delay[0] = 1,
            Some(DelayHalfAsked) => delay[2..].fill(0),
            Some(DelayBigEndian) => delay.reverse(),
            _ => (),
        }
        setup
    }

    /// Returns whether steps, file and output fit.
    fn fits(self, call: &WriterCall) -> bool {
        let count = call.records.len() / 16;
        let len = call.note.len() + 56 + 16 * count;
        let most_steps = self.number(self.number(4_000, MostIs3999, 3_999), MostIs4001, 4_001);
        let most = self.number(self.number(65_536, MostBytes65535, 65_535), MostBytes65537, 65_537);
        let counted = self.number(len, NoteNotCounted, len - call.note.len());
        let need = self.number(self.number(len, RoomPastTheFile, len + 1), ShortByOne, len - 1);
        let whole = call.records.len() == 16 * count || self.has(RestLeftOut);
        whole && count <= most_steps && counted <= most && self.number(need, RoomNotAsked, 0) <= call.room
    }

    fn right_fields(self, records: &[u8]) -> bool {
        let steps: Vec<Step> = records.as_chunks().0.iter().map(read_step).collect();
        let last = steps.len().saturating_sub(1);
        let asked = |place: usize| match self.0 {
            Some(UnusedNotAsked | UnusedCleared) => false,
            Some(UnusedOfFirstNotAsked) => place > 0,
            Some(UnusedOfLastNotAsked) => place < last,
            Some(UnusedBetweenNotAsked) => place == 0 || place == last,
            _ => true,
        };
        steps.iter().enumerate().all(|(place, step)| !asked(place) || self.right_step(*step))
    }

    fn right_step(self, mut step: Step) -> bool {
        if !(1..=11).contains(&step.kind) {
            let zero = Step { kind: step.kind, ..Step::default() };
            return !self.has(UnknownKindRefused) && (!self.has(UnknownKindAsked) || step == zero);
        }
        step.value &= self.number(u64::MAX, ValueHalfAsked, 0xffff_ffff);
        let right = step == step.used_fields();
        match self.0 {
            _ if step.kind < 10 => right,
            Some(SavedNotAsked) => true,
            Some(NameUnused) => right && step.place == 0,
            Some(NameAsked) => right && step.place < 4,
            _ => right,
        }
    }

    fn bytes(self, call: &WriterCall) -> Vec<u8> {
        let records = self.records(&call.records);
        let count = (records.len() / 16) as u32;
        let setup = &call.setup[..call.setup.len().min(48)];
        let head = match self.0 {
            Some(NoteAfterSetup) => [setup, &call.note].concat(),
            Some(NoteDropped) => setup.to_vec(),
            _ => [&call.note, setup].concat(),
        };
        [head, records, self.trailer(count, call.note.len() as u32)].concat()
    }

    fn records(self, records: &[u8]) -> Vec<u8> {
        let (whole, _) = records.as_chunks::<16>();
        let written = |record: &[u8; 16]| {
            let step = read_step(record);
            let cleared = model::unchecked_writer::record(&step.used_fields());
            self.number(*record, UnusedCleared, cleared)
        };
        whole.iter().flat_map(written).collect()
    }

    fn trailer(self, count: u32, note: u32) -> Vec<u8> {
        let distance = match self.0 {
            Some(DistanceWithout56) => 16 * count,
            Some(DistanceWithoutTrailer) => 48 + 16 * count,
            Some(DistanceWithNote) => note + 56 + 16 * count,
            _ => 56 + 16 * count,
        };
        let count = self.number(count, CountInBytes, 16 * count);
        let words = self.number([count, distance], TrailerSwapped, [distance, count]);
        let bytes = |word: u32| self.number(word.to_le_bytes(), TrailerBigEndian, word.to_be_bytes());
        words.into_iter().flat_map(bytes).collect()
    }
}
