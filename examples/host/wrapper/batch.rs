//! Many messages in one call.

use super::{accepted, c, Milliseconds, Receiver, Records, Refusal, Taken, RECORD_BYTES};
use std::mem::size_of;

/// The place of an answer in the list that a batch is lent.
#[repr(C)]
#[derive(Clone, Copy, Debug, Default, PartialEq, Eq)]
pub struct BatchAnswer {
    refusal: u32,
    injected: u32,
    ignored: u32,
    cancelled: u32,
    time: u32,
    records: u32,
}

const NUMBERS: usize = 6;
const _: () = assert!(size_of::<BatchAnswer>() == NUMBERS * size_of::<u32>());

/// What became of a batch: for each of its messages, in order, what [`Receiver::receive`] answers.
#[derive(Clone, Copy, Debug, PartialEq, Eq)]
pub struct Batch<'a> {
    answers: &'a [BatchAnswer],
    records: &'a [u8],
}

impl<'a> Batch<'a> {
    /// The records of all messages that are left, as a record file holds them.
    pub fn bytes(&self) -> &'a [u8] {
        self.records
    }
}

impl<'a> Iterator for Batch<'a> {
    type Item = Result<Taken<'a>, Refusal>;

    fn next(&mut self) -> Option<Self::Item> {
        let (answer, answers) = self.answers.split_first()?;
        let (bytes, records) = self
            .records
            .split_at(RECORD_BYTES * answer.records as usize);
        *self = Batch { answers, records };
        // the numbers are those of an answer's bytes
        Some(accepted(answer.refusal as u8).map(|()| Taken {
            injected: answer.injected as u8,
            ignored: answer.ignored as u8,
            cancelled: answer.cancelled as u8,
            time: Milliseconds(answer.time),
            records: Records { bytes },
        }))
    }
}

impl Receiver {
    /// Feeds all entries of a buffer, each with the output that is left; or refuses them all, before any is fed.
    pub fn receive_all<'a>(
        &mut self,
        buffer: &[u8],
        answers: &'a mut [BatchAnswer],
        output: &'a mut [u8],
    ) -> Result<Batch<'a>, Refusal> {
        let c::BatchTurn { marks, batch } = unsafe {
            c::kangirlo_receive_all_parts(
                self.marks,
                buffer.as_ptr(),
                buffer.len(),
                answers.as_mut_ptr(),
                NUMBERS * answers.len(),
                output.as_mut_ptr(),
                output.len(),
                &mut self.states,
                &mut self.xs,
                &mut self.ys,
                &mut self.held,
            )
        };
        self.marks = marks;
        accepted(batch.refusal)?;
        Ok(Batch {
            answers: &answers[..batch.entries],
            records: &output[..RECORD_BYTES * batch.records],
        })
    }
}
