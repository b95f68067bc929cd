//! Feeds a bench file to one receiver, and prints what became of each message and its records.
//!
//!     wrapper FILE

mod bench_file;

use bench_file::front;
use kangirlo::{Receiver, OUTPUT_MOST};

fn main() -> std::io::Result<()> {
    let name = std::env::args().nth(1).expect("usage: wrapper FILE");
    let file = std::fs::read(name)?;
    let mut left = &file[..];
    let mut receiver = Receiver::new();
    let mut output = vec![0; OUTPUT_MOST];
    while let Some((message, after)) = front(left) {
        match receiver.receive(message, &mut output) {
            Ok(taken) => {
                println!(
                    "{} injected, {} ignored, {} cancelled",
                    taken.injected, taken.ignored, taken.cancelled
                );
                for record in taken.records {
                    println!("    {record:?}");
                }
            }
            Err(refusal) => println!("refused: {}", refusal.number()),
        }
        left = after;
    }
    Ok(())
}
