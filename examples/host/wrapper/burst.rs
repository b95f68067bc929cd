//! Feeds bench files twice: each by batches, and by single messages with the output that is left. What becomes of a message must be the
//! same. A batch that is cut short, or has a place too few, must be refused with nothing changed.
//!
//!     burst FILE..

mod bench_file;

use bench_file::front;
use kangirlo::{BatchAnswer, Receiver, Refusal, OUTPUT_MOST};

const BURST: usize = 20;
/// Too little for some bursts, so that it runs out.
const ROOM: usize = OUTPUT_MOST / 16;

/// The next messages of a bench file, so many at most.
fn messages(mut file: &[u8]) -> Vec<&[u8]> {
    let mut all = Vec::new();
    while let Some((message, rest)) = front(file).filter(|_| all.len() < BURST) {
        all.push(message);
        file = rest;
    }
    all
}

fn state(receiver: &Receiver) -> Vec<String> {
    let contacts =
        (0..=255).map(|id| format!("{:?} {}", receiver.contact(id), receiver.is_held(id)));
    let modes = format!("{:?} {}", receiver.settings(), receiver.is_ignoring());
    contacts.chain([modes]).collect()
}

fn refuse(receiver: &Receiver, buffer: &[u8], places: usize) {
    let mut after = receiver.clone();
    let mut answers = vec![BatchAnswer::default(); places];
    let mut output = vec![0xA5; ROOM];
    let refused = after.receive_all(buffer, &mut answers, &mut output);
    assert_eq!(refused, Err(Refusal::BAD_BATCH));
    assert_eq!(state(&after), state(receiver));
    assert_eq!(answers, vec![BatchAnswer::default(); places]);
    assert!(output.iter().all(|byte| *byte == 0xA5));
}

/// Feeds a burst both ways, and answers how many of its messages are refused.
fn feed(receiver: &mut Receiver, buffer: &[u8], burst: &[&[u8]]) -> usize {
    let mut singly = receiver.clone();
    let mut answers = vec![BatchAnswer::default(); burst.len()];
    let mut output = vec![0xA5; ROOM];
    let mut rest = vec![0xA5; ROOM];
    let mut left = &mut rest[..];
    let mut refused = 0;
    let mut batch = receiver
        .receive_all(buffer, &mut answers, &mut output)
        .expect("a whole batch with places");
    for message in burst {
        let wanted = singly.receive(message, left);
        assert_eq!(batch.next(), Some(wanted));
        refused += usize::from(wanted.is_err());
        let written = wanted.map_or(0, |taken| taken.records.bytes().len());
        left = &mut left[written..];
    }
    assert_eq!(batch.next(), None);
    assert_eq!(output, rest);
    assert_eq!(state(receiver), state(&singly));
    refused
}

/// Feeds a whole bench file, and answers how many messages it has and how many of them are refused.
fn feed_file(file: &[u8]) -> (usize, usize) {
    let mut receiver = Receiver::new();
    let (mut left, mut fed, mut refused) = (file, 0, 0);
    loop {
        let burst = messages(left);
        if burst.is_empty() {
            return (fed, refused);
        }
        let bytes = burst.iter().map(|message| 2 + message.len()).sum();
        let (buffer, after) = left.split_at(bytes);
        refuse(&receiver, &buffer[..bytes - 1], burst.len());
        refuse(&receiver, buffer, burst.len() - 1);
        refused += feed(&mut receiver, buffer, &burst);
        fed += burst.len();
        left = after;
    }
}

fn main() -> std::io::Result<()> {
    let (mut fed, mut refused) = (0, 0);
    for name in std::env::args().skip(1) {
        let of_file = feed_file(&std::fs::read(name)?);
        fed += of_file.0;
        refused += of_file.1;
    }
    println!("{fed} messages in batches as by themselves, {refused} of them refused");
    Ok(())
}
