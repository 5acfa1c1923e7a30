//! The held changes of tables in form.

use text_form::Setting;
use tolbezun::{Instruction, Status, Tables, LIST_ENTRIES, MAX_INSTRUCTIONS};

/// A held change.
#[derive(Clone, Copy)]
pub struct Change<'a> {
    tables: &'a Tables,
    place: usize,
}

/// An entry of a read or a write list, with the value seen or written.
pub struct Access {
    pub setting: Setting,
    pub value: i32,
}

/// The held changes by rising timestamp.
pub fn changes(tables: &Tables) -> impl DoubleEndedIterator<Item = Change<'_>> {
    let places = &tables.order[..usize::from(tables.held[0])];
    places.iter().map(|&place| Change {
        tables,
        place: place.into(),
    })
}

/// The held change with this timestamp.
pub fn change(tables: &Tables, timestamp: u64) -> Option<Change<'_>> {
    changes(tables).find(|change| change.timestamp() == timestamp)
}

impl<'a> Change<'a> {
    pub fn timestamp(self) -> u64 {
        self.tables.timestamps[self.place]
    }

    pub fn is(self, status: Status) -> bool {
        self.tables.status[self.place] == status.number().into()
    }

    pub fn version(self) -> u16 {
        self.tables.version[self.place]
    }

    /// The instruction at this place of its program, counted from 0.
    pub fn instruction(self, place: usize) -> Option<Instruction> {
        let (instructions, _) = self.tables.programs.as_chunks();
        let bytes = instructions[MAX_INSTRUCTIONS * self.place + place];
        let length = usize::from(self.tables.length[self.place]);
        Instruction::from_bytes(bytes, length.checked_sub(place + 1)?).ok()
    }

    /// Its read list.
    pub fn reads(self) -> impl Iterator<Item = Access> + 'a {
        let (counts, settings) = (&self.tables.read_count, &self.tables.read_settings);
        self.list(counts, settings, &self.tables.seen_values)
    }

    /// Its write list.
    pub fn writes(self) -> impl Iterator<Item = Access> + 'a {
        let (counts, settings) = (&self.tables.write_count, &self.tables.write_settings);
        self.list(counts, settings, &self.tables.written_values)
    }

    /// Its list in these tables of counts, settings and values.
    fn list(
        self,
        counts: &[u16],
        settings: &'a [u16],
        values: &'a [i32],
    ) -> impl Iterator<Item = Access> + 'a {
        let slots = LIST_ENTRIES * self.place..;
        let entries = settings[slots.clone()].iter().zip(&values[slots]);
        let entries = entries.take(counts[self.place].into());
        entries.filter_map(|(&setting, &value)| {
            let setting = Setting::new(setting.into())?;
            Some(Access { setting, value })
        })
    }

    /// The value that it wrote to a setting.
    fn written(self, setting: Setting) -> Option<i32> {
        let write = self.writes().find(|write| write.setting == setting);
        write.map(|write| write.value)
    }

    /// The change with the highest timestamp below its own that wrote a setting.
    pub fn previous_writer(self, setting: Setting) -> Option<Self> {
        let earlier = changes(self.tables).rev();
        let mut earlier = earlier.filter(|change| change.timestamp() < self.timestamp());
        earlier.find(|change| change.written(setting).is_some())
    }

    /// The change with the lowest timestamp above its own that wrote a setting.
    pub fn next_writer(self, setting: Setting) -> Option<Self> {
        let later = changes(self.tables);
        let mut later = later.filter(|change| change.timestamp() > self.timestamp());
        later.find(|change| change.written(setting).is_some())
    }

    /// The value of a setting as of its timestamp.
    pub fn value_before(self, setting: Setting) -> i32 {
        let writer = self.previous_writer(setting);
        let written = writer.and_then(|writer| writer.written(setting));
        written.unwrap_or(self.tables.kept[setting.number()])
    }

    /// The value of a setting just after its timestamp.
    pub fn value_after(self, setting: Setting) -> i32 {
        let written = self.written(setting);
        written.unwrap_or_else(|| self.value_before(setting))
    }
}
