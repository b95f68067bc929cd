//! A safe face of include/kangirlo.h: what is lent is a slice, a refusal is an error, and a record is an enum.
//! Slices are never null and do not overlap where one of them is `&mut`, which is all that the header asks.
//! It has both ends and the buttons, and links all three archives: libkangirlo_panel.a for [`Panel`], liblabel.a for [`Label`] and
//! [`Button`], libkangirlo.a for all else.

mod batch;
mod label;
mod panel;

pub use batch::{Batch, BatchAnswer};
pub use label::{button_at, set_shown, Button, Choice, Label, CHOICES_MOST};
pub use panel::Panel;
use std::mem::size_of;

pub const MESSAGE_MOST: usize = 4096;
/// How many contacts a frame may have.
pub const CONTACTS_MOST: usize = 256;
pub const RECORD_BYTES: usize = 21;
/// The most that one message makes a receiver write.
pub const OUTPUT_MOST: usize = 49152;

#[repr(C)]
#[derive(Clone, Copy, Debug, PartialEq, Eq)]
pub struct Milliseconds(pub u32);

#[repr(C)]
#[derive(Clone, Copy, Debug, PartialEq, Eq)]
pub struct Microseconds(pub u64);

/// Why a message, a record or a value is refused: a number of the header's table.
#[derive(Clone, Copy, Debug, PartialEq, Eq)]
pub struct Refusal(u8);

impl Refusal {
    pub const SHORT: Self = Self(1);
    pub const TOO_LONG: Self = Self(2);
    pub const UNEXPECTED: Self = Self(3);
    pub const BAD_LENGTH: Self = Self(4);
    pub const TRUNCATED: Self = Self(5);
    /// Of [`plain_strictly`] alone.
    pub const NOT_SHORTEST: Self = Self(6);
    pub const BAD_COUNT: Self = Self(7);
    pub const BAD_FIELD: Self = Self(8);
    pub const BAD_FLAGS: Self = Self(9);
    pub const BAD_RANGE: Self = Self(10);
    pub const BAD_OFFSET: Self = Self(11);
    pub const TRAILING: Self = Self(12);
    pub const NO_ROOM: Self = Self(13);
    pub const BAD_RECORD: Self = Self(14);
    pub const NOT_READY: Self = Self(15);
    pub const SUSPENDED: Self = Self(16);
    pub const ILLEGAL: Self = Self(17);
    pub const BAD_BATCH: Self = Self(18);

    pub fn number(self) -> u8 {
        self.0
    }
}

fn accepted(refusal: u8) -> Result<(), Refusal> {
    match refusal {
        0 => Ok(()),
        _ => Err(Refusal(refusal)),
    }
}

/// What a client ready says.
#[repr(C)]
#[derive(Clone, Copy, Debug, PartialEq, Eq)]
pub struct Settings {
    pub flags: u32,
    pub version: u32,
    pub most: u16,
}

/// One connection's receiver. Its marks go by value, and its four arrays are lent where they stand.
#[repr(C)]
#[derive(Clone)]
pub struct Receiver {
    marks: c::Marks,
    states: [u8; 256],
    xs: [i32; 256],
    ys: [i32; 256],
    held: [u8; 256],
}

// there are no bytes between the fields, so that `held`, the last, is at 2320
const _: () = assert!(size_of::<Receiver>() == 2576);

#[derive(Clone, Copy, Debug, PartialEq, Eq)]
pub enum State {
    Out,
    Hovering,
    Engaged,
}

fn state_of(number: u8) -> State {
    match number {
        0 => State::Out,
        1 => State::Hovering,
        _ => State::Engaged,
    }
}

/// What became of the frames of a message that was taken.
#[derive(Clone, Copy, Debug, PartialEq, Eq)]
pub struct Taken<'a> {
    pub injected: u8,
    pub ignored: u8,
    pub cancelled: u8,
    pub time: Milliseconds,
    pub records: Records<'a>,
}

impl Default for Receiver {
    fn default() -> Self {
        Self::new()
    }
}

impl Receiver {
    pub fn new() -> Self {
        unsafe { c::kangirlo_fresh() }
    }

    /// What a client ready set, once one was accepted.
    pub fn settings(&self) -> Option<Settings> {
        (self.marks.ready != 0).then_some(self.marks.settings)
    }

    /// Whether frames are ignored until one opens: one of contacts that are all 0x19, or all 0x19 or 0x0A with no id that is held.
    pub fn is_ignoring(&self) -> bool {
        self.marks.ignoring != 0
    }

    /// Whether an id is held. While no frames are ignored none is.
    pub fn is_held(&self, id: u8) -> bool {
        self.held[usize::from(id)] != 0
    }

    /// A contact's state and stored position.
    pub fn contact(&self, id: u8) -> (State, i32, i32) {
        let at = usize::from(id);
        (state_of(self.states[at]), self.xs[at], self.ys[at])
    }

    /// Judges a message and carries it out.
    pub fn receive<'a>(
        &mut self,
        message: &[u8],
        output: &'a mut [u8],
    ) -> Result<Taken<'a>, Refusal> {
        let c::Turn { marks, answer } = unsafe {
            c::kangirlo_receive_parts(
                self.marks,
                message.as_ptr(),
                message.len(),
                output.as_mut_ptr(),
                output.len(),
                &mut self.states,
                &mut self.xs,
                &mut self.ys,
                &mut self.held,
            )
        };
        self.marks = marks;
        accepted(answer.refusal)?;
        Ok(Taken {
            injected: answer.injected,
            ignored: answer.ignored,
            cancelled: answer.cancelled,
            time: answer.time,
            records: Records {
                bytes: &output[..RECORD_BYTES * answer.records],
            },
        })
    }
}

/// What a plain reading found, in the output that it was lent.
fn found(answer: c::PlainAnswer, output: &[u8]) -> Result<(Milliseconds, Records<'_>), Refusal> {
    accepted(answer.refusal)?;
    Ok((
        answer.time,
        Records {
            bytes: &output[..RECORD_BYTES * answer.records],
        },
    ))
}

/// Reads a touch message by itself. Integers may be longer than they need be, and minus zero is zero.
pub fn plain<'a>(
    message: &[u8],
    output: &'a mut [u8],
) -> Result<(Milliseconds, Records<'a>), Refusal> {
    let answer = unsafe {
        c::kangirlo_plain(
            message.as_ptr(),
            message.len(),
            output.as_mut_ptr(),
            output.len(),
        )
    };
    found(answer, output)
}

/// The same where every integer is to be in its shortest form: any other is [`Refusal::NOT_SHORTEST`].
pub fn plain_strictly<'a>(
    message: &[u8],
    output: &'a mut [u8],
) -> Result<(Milliseconds, Records<'a>), Refusal> {
    let answer = unsafe {
        c::kangirlo_plain_strictly(
            message.as_ptr(),
            message.len(),
            output.as_mut_ptr(),
            output.len(),
        )
    };
    found(answer, output)
}

#[derive(Clone, Copy, Debug, PartialEq, Eq)]
pub struct Contact {
    pub flags: u8,
    pub id: u8,
    pub x: i32,
    pub y: i32,
    /// Left, top, right, bottom.
    pub sides: Option<[i16; 4]>,
    pub orientation: Option<u16>,
    pub pressure: Option<u16>,
}

#[derive(Clone, Copy, Debug, PartialEq, Eq)]
pub enum Record {
    Head { count: u16, offset: Microseconds },
    Contact(Contact),
    Cancel(Contact),
    Dismissal(Contact),
}

/// Reads the record at the front of some bytes.
pub fn read_record(bytes: &[u8]) -> Result<Record, Refusal> {
    let read = unsafe { c::kangirlo_read_record(bytes.as_ptr(), bytes.len()) };
    accepted(read.refusal)?;
    let has = |bit: u8| read.present & bit != 0;
    let contact = Contact {
        flags: read.flags,
        id: read.id,
        x: read.x,
        y: read.y,
        sides: has(1).then_some([read.left, read.top, read.right, read.bottom]),
        orientation: has(2).then_some(read.orientation),
        pressure: has(4).then_some(read.pressure),
    };
    Ok(match read.kind {
        0 => Record::Head {
            count: read.count,
            offset: read.offset,
        },
        1 => Record::Contact(contact),
        2 => Record::Cancel(contact),
        _ => Record::Dismissal(contact),
    })
}

/// The records that a call wrote.
#[derive(Clone, Copy, Debug, PartialEq, Eq)]
pub struct Records<'a> {
    bytes: &'a [u8],
}

impl<'a> Records<'a> {
    /// Their bytes, as a record file holds them.
    pub fn bytes(&self) -> &'a [u8] {
        self.bytes
    }
}

impl Iterator for Records<'_> {
    type Item = Record;

    fn next(&mut self) -> Option<Record> {
        let record = read_record(self.bytes).ok()?;
        self.bytes = &self.bytes[RECORD_BYTES..];
        Some(record)
    }
}

fn written(answer: c::Written) -> Result<usize, Refusal> {
    accepted(answer.refusal).map(|()| answer.bytes)
}

pub fn write_server_ready(output: &mut [u8], version: u32) -> Result<usize, Refusal> {
    written(unsafe { c::kangirlo_write_server_ready(output.as_mut_ptr(), output.len(), version) })
}

pub fn write_client_ready(output: &mut [u8], set: Settings) -> Result<usize, Refusal> {
    written(unsafe {
        c::kangirlo_write_client_ready(
            output.as_mut_ptr(),
            output.len(),
            set.flags,
            set.version,
            set.most,
        )
    })
}

/// Writes a touch message of the records (heads and contacts) of its frames.
pub fn write_touch(
    output: &mut [u8],
    time: Milliseconds,
    records: &[u8],
) -> Result<usize, Refusal> {
    written(unsafe {
        c::kangirlo_write_touch(
            output.as_mut_ptr(),
            output.len(),
            time,
            records.as_ptr(),
            records.len(),
        )
    })
}

pub fn write_suspend(output: &mut [u8]) -> Result<usize, Refusal> {
    written(unsafe { c::kangirlo_write_suspend(output.as_mut_ptr(), output.len()) })
}

pub fn write_resume(output: &mut [u8]) -> Result<usize, Refusal> {
    written(unsafe { c::kangirlo_write_resume(output.as_mut_ptr(), output.len()) })
}

pub fn write_dismiss(output: &mut [u8], id: u8) -> Result<usize, Refusal> {
    written(unsafe { c::kangirlo_write_dismiss(output.as_mut_ptr(), output.len(), id) })
}

/// The header, declared again: all but its inline functions, and the calls for a whole receiver or panel, beside which there are cheaper
/// ones for its parts.
mod c {
    use super::{
        size_of, BatchAnswer, Button, Choice, Microseconds, Milliseconds, Panel, Receiver, Settings,
    };

    #[repr(C)]
    #[derive(Clone, Copy)]
    pub struct Marks {
        pub ready: u8,
        pub begun: u8,
        pub ignoring: u8,
        pub settings: Settings,
    }

    #[repr(C)]
    #[derive(Clone, Copy)]
    pub struct PanelMarks {
        pub greeted: u8,
        pub ready: u8,
        pub suspended: u8,
        pub begun: u8,
        pub settings: Settings,
    }

    #[repr(C)]
    pub struct Answer {
        pub refusal: u8,
        pub injected: u8,
        pub ignored: u8,
        pub cancelled: u8,
        pub time: Milliseconds,
        pub records: usize,
    }

    #[repr(C)]
    pub struct Batch {
        pub refusal: u8,
        pub entries: usize,
        pub records: usize,
    }

    #[repr(C)]
    pub struct Turn {
        pub marks: Marks,
        pub answer: Answer,
    }

    #[repr(C)]
    pub struct BatchTurn {
        pub marks: Marks,
        pub batch: Batch,
    }

    #[repr(C)]
    pub struct PlainAnswer {
        pub refusal: u8,
        pub time: Milliseconds,
        pub records: usize,
    }

    #[repr(C)]
    pub struct Written {
        pub refusal: u8,
        pub bytes: usize,
    }

    #[repr(C)]
    pub struct PanelHeard {
        pub marks: PanelMarks,
        pub refusal: u8,
    }

    #[repr(C)]
    pub struct PanelSaid {
        pub marks: PanelMarks,
        pub written: Written,
    }

    #[repr(C)]
    pub struct Record {
        pub refusal: u8,
        pub kind: u8,
        pub count: u16,
        pub flags: u8,
        pub present: u8,
        pub id: u8,
        pub orientation: u16,
        pub pressure: u16,
        pub left: i16,
        pub top: i16,
        pub right: i16,
        pub bottom: i16,
        pub x: i32,
        pub y: i32,
        pub offset: Microseconds,
    }

    #[repr(C)]
    pub struct Picked {
        pub refusal: u8,
        pub count: usize,
    }

    const _: () = assert!(size_of::<Answer>() == 16 && size_of::<PlainAnswer>() == 16);
    const _: () = assert!(size_of::<Batch>() == 24);
    const _: () = assert!(size_of::<Marks>() == 16 && size_of::<PanelMarks>() == 16);
    const _: () = assert!(size_of::<Turn>() == 32 && size_of::<BatchTurn>() == 40);
    const _: () = assert!(size_of::<PanelHeard>() == 20 && size_of::<PanelSaid>() == 32);
    const _: () = assert!(size_of::<Written>() == 16 && size_of::<Record>() == 40);
    const _: () = assert!(size_of::<Picked>() == 16);

    extern "C" {
        pub fn kangirlo_fresh() -> Receiver;
        pub fn kangirlo_receive_parts(
            marks: Marks,
            message: *const u8,
            length: usize,
            output: *mut u8,
            room: usize,
            states: *mut [u8; 256],
            xs: *mut [i32; 256],
            ys: *mut [i32; 256],
            held: *mut [u8; 256],
        ) -> Turn;
        pub fn kangirlo_receive_all_parts(
            marks: Marks,
            buffer: *const u8,
            buffer_length: usize,
            answers: *mut BatchAnswer,
            numbers: usize,
            output: *mut u8,
            output_length: usize,
            states: *mut [u8; 256],
            xs: *mut [i32; 256],
            ys: *mut [i32; 256],
            held: *mut [u8; 256],
        ) -> BatchTurn;
        pub fn kangirlo_plain(
            message: *const u8,
            length: usize,
            output: *mut u8,
            room: usize,
        ) -> PlainAnswer;
        pub fn kangirlo_plain_strictly(
            message: *const u8,
            length: usize,
            output: *mut u8,
            room: usize,
        ) -> PlainAnswer;
        pub fn kangirlo_write_server_ready(output: *mut u8, room: usize, version: u32) -> Written;
        pub fn kangirlo_write_client_ready(
            output: *mut u8,
            room: usize,
            flags: u32,
            version: u32,
            most: u16,
        ) -> Written;
        pub fn kangirlo_write_touch(
            output: *mut u8,
            room: usize,
            time: Milliseconds,
            records: *const u8,
            length: usize,
        ) -> Written;
        pub fn kangirlo_write_suspend(output: *mut u8, room: usize) -> Written;
        pub fn kangirlo_write_resume(output: *mut u8, room: usize) -> Written;
        pub fn kangirlo_write_dismiss(output: *mut u8, room: usize, id: u8) -> Written;
        pub fn kangirlo_read_record(records: *const u8, length: usize) -> Record;
        pub fn kangirlo_panel_fresh() -> Panel;
        pub fn kangirlo_panel_take_parts(
            marks: PanelMarks,
            message: *const u8,
            length: usize,
        ) -> PanelHeard;
        pub fn kangirlo_panel_write_ready_parts(
            marks: PanelMarks,
            output: *mut u8,
            room: usize,
            flags: u32,
            version: u32,
            most: u16,
        ) -> PanelSaid;
        pub fn kangirlo_panel_write_touch_parts(
            marks: PanelMarks,
            output: *mut u8,
            room: usize,
            time: Milliseconds,
            records: *const u8,
            length: usize,
            states: *mut [u8; 256],
            xs: *mut [i32; 256],
            ys: *mut [i32; 256],
        ) -> PanelSaid;
        pub fn kangirlo_panel_write_dismiss_parts(
            marks: PanelMarks,
            output: *mut u8,
            room: usize,
            id: u8,
            states: *mut [u8; 256],
            xs: *mut [i32; 256],
            ys: *mut [i32; 256],
        ) -> PanelSaid;
        pub fn kangirlo_choose_parts(
            states: *mut [u8; 256],
            pressed: *mut [usize; 256],
            buttons: *const Button,
            how_many: usize,
            records: *const u8,
            bytes: usize,
            choices: *mut Choice,
            numbers: usize,
        ) -> Picked;
        pub fn kangirlo_button_at(buttons: *const Button, how_many: usize, x: i32, y: i32)
            -> usize;
        pub fn kangirlo_set_shown(
            buttons: *mut Button,
            how_many: usize,
            place: usize,
            shown: u8,
        ) -> bool;
    }
}
