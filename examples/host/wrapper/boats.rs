//! From a bench file to chosen boats, as examples/label/boats.c: prints each choice. Stops where the label does not follow the receiver.
//!
//!     boats FILE

mod bench_file;

use bench_file::front;
use kangirlo::{button_at, set_shown, Button, Choice, Label, Receiver, CHOICES_MOST, OUTPUT_MOST};

const NAMES: [&str; 3] = ["Ternen", "Havblik", "Solvej"];
const NOTE: u32 = 501;

/// Three boats, one under the other. Each is shown by a call.
fn boats() -> Vec<Button> {
    let mut boats: Vec<Button> = (0..3)
        .map(|row| Button {
            item: NOTE + row as u32,
            left: 20,
            top: 20 + 60 * row,
            right: 220,
            bottom: 80 + 60 * row,
            shown: false,
        })
        .collect();
    assert_eq!(button_at(&boats, 100, 110), None);
    for place in 0..boats.len() {
        assert!(set_shown(&mut boats, place, true));
    }
    assert_eq!(button_at(&boats, 100, 110), Some(1));
    assert!(!set_shown(&mut boats, 3, true));
    boats
}

fn main() -> std::io::Result<()> {
    let name = std::env::args().nth(1).expect("usage: boats FILE");
    let file = std::fs::read(name)?;
    let mut left = &file[..];
    let boats = boats();
    let (mut receiver, mut label) = (Receiver::new(), Label::new());
    let mut output = vec![0; OUTPUT_MOST];
    let mut choices = vec![Choice::default(); CHOICES_MOST];
    let mut number = 0;
    while let Some((message, after)) = front(left) {
        number += 1;
        if let Ok(taken) = receiver.receive(message, &mut output) {
            let chosen = label.choose(&boats, taken.records.bytes(), &mut choices);
            for Choice { id, item } in chosen.expect("the label follows the receiver") {
                let name = NAMES[(item - NOTE) as usize];
                println!("message {number}: finger {id} chooses {name}, landing note {item}");
            }
        }
        left = after;
    }
    Ok(())
}
