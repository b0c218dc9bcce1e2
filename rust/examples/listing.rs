//! What is in a file of transport packets, one right behind the other: c7list's lines.
//!
//!     listing TP_LENGTH STREAM < FILE
use std::env;
use std::error::Error;
use std::io::{self, BufWriter, Read, Write};

use jenugathi::{Find, Receiver, ROOM_MOST, TP_MOST};

/// Fills the buffer, or as much of it as the input has.
fn fill(input: &mut impl Read, buffer: &mut [u8]) -> io::Result<usize> {
    let mut length = 0;
    while length < buffer.len() {
        match input.read(&mut buffer[length..])? {
            0 => break,
            more => length += more,
        }
    }
    Ok(length)
}

fn main() -> Result<(), Box<dyn Error>> {
    let words: Vec<String> = env::args().collect();
    let [_, tp_length, stream] = &words[..] else {
        return Err("usage: listing TP_LENGTH STREAM < FILE".into());
    };
    let tp_length = tp_length.parse()?;
    let (mut tp, mut room) = (vec![0; TP_MOST], vec![0; ROOM_MOST]);
    let mut receiver = Receiver::open(tp_length, stream.parse()?, &room).map_err(|refusal| refusal.to_string())?;
    let (mut input, mut output) = (io::stdin().lock(), BufWriter::new(io::stdout().lock()));
    writeln!(output, "tp what content bytes")?;
    for number in 1u64.. {
        let length = fill(&mut input, &mut tp[..tp_length])?;
        if length == 0 {
            break;
        }
        loop {
            let find = receiver.next(&tp[..length], &mut room).map_err(|refusal| refusal.to_string())?;
            match find {
                Find::Nothing => {}
                Find::Notice { number: notice, .. } => writeln!(output, "{number} notice {notice} 0")?,
                Find::Low(packet) => writeln!(output, "{number} low {} {}", packet.content, packet.data.len())?,
                Find::Ordinary(packet) => {
                    writeln!(output, "{number} ordinary {} {}", packet.content, packet.data.len())?
                }
            }
            if !find.goes_on() {
                break;
            }
        }
    }
    output.flush()?;
    Ok(())
}
