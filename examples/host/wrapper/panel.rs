//! The panel's end. What a panel writes, a receiver takes: nothing of it is refused, ignored or cancelled.

use super::{accepted, c, state_of, written, Milliseconds, Refusal, Settings, State};
use std::mem::size_of;

/// One connection's panel. Its marks go by value, and its contacts are lent where they stand.
#[repr(C)]
#[derive(Clone)]
pub struct Panel {
    marks: c::PanelMarks,
    states: [u8; 256],
    xs: [i32; 256],
    ys: [i32; 256],
}

const _: () = assert!(size_of::<Panel>() == 2320);

impl Default for Panel {
    fn default() -> Self {
        Self::new()
    }
}

impl Panel {
    pub fn new() -> Self {
        unsafe { c::kangirlo_panel_fresh() }
    }

    /// Whether a server ready was taken, so that client ready may be written.
    pub fn is_greeted(&self) -> bool {
        self.marks.greeted != 0
    }

    /// What its client ready said, once it was written.
    pub fn settings(&self) -> Option<Settings> {
        (self.marks.ready != 0).then_some(self.marks.settings)
    }

    /// Whether no touch is written until a resume is taken.
    pub fn is_suspended(&self) -> bool {
        self.marks.suspended != 0
    }

    /// Whether a frame was sent, so that the next may have an offset.
    pub fn has_begun(&self) -> bool {
        self.marks.begun != 0
    }

    /// A contact's state and stored position.
    pub fn contact(&self, id: u8) -> (State, i32, i32) {
        let at = usize::from(id);
        (state_of(self.states[at]), self.xs[at], self.ys[at])
    }

    /// Takes a message that arrived: server ready at first, then suspend and resume.
    pub fn take(&mut self, message: &[u8]) -> Result<(), Refusal> {
        let heard =
            unsafe { c::kangirlo_panel_take_parts(self.marks, message.as_ptr(), message.len()) };
        self.marks = heard.marks;
        accepted(heard.refusal)
    }

    /// Keeps what a writer made of the marks.
    fn keep(&mut self, said: c::PanelSaid) -> Result<usize, Refusal> {
        self.marks = said.marks;
        written(said.written)
    }

    pub fn write_ready(&mut self, output: &mut [u8], set: Settings) -> Result<usize, Refusal> {
        let said = unsafe {
            c::kangirlo_panel_write_ready_parts(
                self.marks,
                output.as_mut_ptr(),
                output.len(),
                set.flags,
                set.version,
                set.most,
            )
        };
        self.keep(said)
    }

    /// Writes a touch message of the records (heads and contacts) of its frames.
    pub fn write_touch(
        &mut self,
        output: &mut [u8],
        time: Milliseconds,
        records: &[u8],
    ) -> Result<usize, Refusal> {
        let said = unsafe {
            c::kangirlo_panel_write_touch_parts(
                self.marks,
                output.as_mut_ptr(),
                output.len(),
                time,
                records.as_ptr(),
                records.len(),
                &mut self.states,
                &mut self.xs,
                &mut self.ys,
            )
        };
        self.keep(said)
    }

    pub fn write_dismiss(&mut self, output: &mut [u8], id: u8) -> Result<usize, Refusal> {
        let said = unsafe {
            c::kangirlo_panel_write_dismiss_parts(
                self.marks,
                output.as_mut_ptr(),
                output.len(),
                id,
                &mut self.states,
                &mut self.xs,
                &mut self.ys,
            )
        };
        self.keep(said)
    }
}
