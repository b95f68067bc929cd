//! A panel and a receiver in one program: document 01's finger goes down and up, and then moves without having come down, which the
//! panel does not send. Prints what becomes of each. What another maker's client might send in its place, with padded integers, is read
//! too: a panel given what was read sends the shortest message.

use kangirlo::{
    plain, plain_strictly, write_server_ready, Milliseconds, Panel, Receiver, Refusal, Settings,
    MESSAGE_MOST, OUTPUT_MOST,
};

const VERSION: u32 = 0x0001_0001;
const DOWN: u8 = 0x19;
const UP: u8 = 0x04;
const MOVE: u8 = 0x1A;

struct Ends {
    panel: Panel,
    receiver: Receiver,
    message: Vec<u8>,
    output: Vec<u8>,
}

impl Ends {
    /// Both, past their ready messages.
    fn meet() -> Result<Self, Refusal> {
        let mut ends = Ends {
            panel: Panel::new(),
            receiver: Receiver::new(),
            message: vec![0; MESSAGE_MOST],
            output: vec![0; OUTPUT_MOST],
        };
        let length = write_server_ready(&mut ends.message, VERSION)?;
        ends.panel.take(&ends.message[..length])?;
        let settings = Settings {
            flags: 0,
            version: VERSION,
            most: 10,
        };
        let length = ends.panel.write_ready(&mut ends.message, settings)?;
        ends.deliver(length)?;
        Ok(ends)
    }

    fn send(&mut self, time: Milliseconds, records: &[u8]) -> Result<(), Refusal> {
        let length = self.panel.write_touch(&mut self.message, time, records)?;
        let strictly = plain_strictly(&self.message[..length], &mut self.output)?;
        assert_eq!((strictly.0, strictly.1.bytes()), (time, records));
        self.deliver(length)
    }

    fn deliver(&mut self, length: usize) -> Result<(), Refusal> {
        let taken = self
            .receiver
            .receive(&self.message[..length], &mut self.output)?;
        assert_eq!((taken.ignored, taken.cancelled), (0, 0));
        println!(
            "{} injected, {} bytes of records",
            taken.injected,
            taken.records.bytes().len()
        );
        Ok(())
    }
}

/// A touch message of contact 1 at 100, 50, to have its records from: x and the flags take a byte more than they need.
fn message(flags: u8) -> [u8; 19] {
    [
        3, 0, 19, 0, 0, 0, 0, 1, 1, 0, 1, 0, 0x80, 0, 0x64, 0x40, 0x32, 0x40, flags,
    ]
}

fn main() -> Result<(), Refusal> {
    let mut ends = Ends::meet()?;
    let mut output = vec![0; OUTPUT_MOST];
    for flags in [DOWN, UP, MOVE] {
        let strictly = plain_strictly(&message(flags), &mut output);
        assert_eq!(strictly, Err(Refusal::NOT_SHORTEST));
        let (time, records) = plain(&message(flags), &mut output)?;
        if let Err(refusal) = ends.send(time, records.bytes()) {
            println!("not sent: {}", refusal.number());
        }
    }
    Ok(())
}
