//! The label screen's buttons: which of them a touch meant.

use super::{accepted, c, state_of, Receiver, Refusal, State, OUTPUT_MOST, RECORD_BYTES};
use std::mem::size_of;

/// A button of a screen: its left and top edges are inside, right and bottom outside.
#[repr(C)]
#[derive(Clone, Copy, Debug, PartialEq, Eq)]
pub struct Button {
    pub item: u32,
    pub left: i32,
    pub top: i32,
    pub right: i32,
    pub bottom: i32,
    pub shown: bool,
}

/// A contact, and the item of the button that it has chosen.
#[repr(C)]
#[derive(Clone, Copy, Debug, Default, PartialEq, Eq)]
pub struct Choice {
    pub id: u32,
    pub item: u32,
}

const NUMBERS: usize = 2;
const _: () = assert!(size_of::<Button>() == 24);
const _: () = assert!(size_of::<Choice>() == NUMBERS * size_of::<u32>());

/// Places for the choices of any message: more than it has records, so that choices are not counted before they are written.
pub const CHOICES_MOST: usize = OUTPUT_MOST / RECORD_BYTES + 1;

/// The contacts of one receiver, and the button that each has pressed. Both are lent where they stand.
#[derive(Clone)]
pub struct Label {
    states: [u8; 256],
    pressed: [usize; 256],
}

impl Default for Label {
    fn default() -> Self {
        Self::new()
    }
}

impl Label {
    pub fn new() -> Self {
        Label {
            states: [0; 256],
            pressed: [0; 256],
        }
    }

    /// A contact's state.
    pub fn state(&self, id: u8) -> State {
        state_of(self.states[usize::from(id)])
    }

    /// The place of the button that a contact has pressed.
    pub fn pressed(&self, id: u8) -> Option<usize> {
        self.pressed[usize::from(id)].checked_sub(1)
    }

    /// Lets go of all presses: for a new list of buttons.
    pub fn let_go(&mut self) {
        self.pressed = [0; 256];
    }

    /// Takes over the receiver's contacts, with no press: after [`Refusal::BAD_RECORD`].
    pub fn set_right(&mut self, receiver: &Receiver) {
        self.states = receiver.states;
        self.let_go();
    }

    /// Which choices the records of a message are, in their order.
    pub fn choose<'a>(
        &mut self,
        buttons: &[Button],
        records: &[u8],
        choices: &'a mut [Choice],
    ) -> Result<&'a [Choice], Refusal> {
        let picked = unsafe {
            c::kangirlo_choose_parts(
                &mut self.states,
                &mut self.pressed,
                buttons.as_ptr(),
                buttons.len(),
                records.as_ptr(),
                records.len(),
                choices.as_mut_ptr(),
                NUMBERS * choices.len(),
            )
        };
        accepted(picked.refusal)?;
        Ok(&choices[..picked.count])
    }
}

/// The place of the first shown button that holds a point.
pub fn button_at(buttons: &[Button], x: i32, y: i32) -> Option<usize> {
    let place = unsafe { c::kangirlo_button_at(buttons.as_ptr(), buttons.len(), x, y) };
    (place < buttons.len()).then_some(place)
}

/// Shows or hides the button of a place, and answers whether there is one.
pub fn set_shown(buttons: &mut [Button], place: usize, shown: bool) -> bool {
    unsafe { c::kangirlo_set_shown(buttons.as_mut_ptr(), buttons.len(), place, shown.into()) }
}
