//! Both ends of the IRIG 106 Chapter 7 packet telemetry link, over libjenugathi.a (x86-64).
//!
//! The caller owns all buffers and lends them to each call, those of the opening with the same lengths. Borrowing rules
//! out what the library forbids: lent buffers that overlap, and two threads in one state. A call that refuses gives the
//! number of documents 01 and 02 as an error; [`Refusal`] tells it in words.
#![no_std]

use core::fmt;

mod calls;

pub const TP_MOST: usize = 2051;
pub const QUEUE_MOST: usize = 1_048_576;
pub const ROOM_MOST: usize = 131_072;

/// The number that a refused call gives back.
#[derive(Clone, Copy, Debug, PartialEq, Eq)]
pub struct Refusal(pub u32);

impl fmt::Display for Refusal {
    fn fmt(&self, f: &mut fmt::Formatter) -> fmt::Result {
        f.write_str(match self.0 {
            1 => "a setting or buffer outside its limits or of another length than at opening, or no sound state",
            2 => "a content other than 1 to 6",
            3 => "a packet too long for its sort",
            4 => "no room in the queue",
            5 => "a buffer for a draw that is not as long as a transport packet",
            17 => "no whole Chapter 11 packet, or no room for the result",
            18 => "fill that would be cut is not zero",
            _ => "no refusal of this library",
        })
    }
}

fn done(number: u32) -> Result<(), Refusal> {
    if number == 0 {
        Ok(())
    } else {
        Err(Refusal(number))
    }
}

/// The two queues of a sender.
pub struct Queues<'a> {
    pub low: &'a mut [u8],
    pub ordinary: &'a mut [u8],
}

/// The sending end. Its words may be stored and read back.
#[derive(Clone, Debug, PartialEq, Eq)]
pub struct Sender([u64; calls::SENDER_WORDS]);

impl Sender {
    /// Transport packets of `tp_length` bytes; ordinary packets are cut into pieces of `piece` bytes.
    pub fn open(tp_length: usize, stream: u32, piece: usize, queues: &Queues) -> Result<Sender, Refusal> {
        let mut words = [0; calls::SENDER_WORDS];
        done(calls::sender_open(&mut words, tp_length, stream, piece, queues.low, queues.ordinary))?;
        Ok(Sender(words))
    }

    pub fn offer(&mut self, queues: &mut Queues, content: u32, packet: &[u8]) -> Result<(), Refusal> {
        done(calls::sender_offer(&mut self.0, queues.low, queues.ordinary, content, packet))
    }

    pub fn offer_low(&mut self, queues: &mut Queues, content: u32, packet: &[u8]) -> Result<(), Refusal> {
        done(calls::sender_offer_low(&mut self.0, queues.low, queues.ordinary, content, packet))
    }

    /// Writes the next transport packet, with fill where nothing is queued.
    pub fn draw(&mut self, queues: &Queues, tp: &mut [u8]) -> Result<(), Refusal> {
        done(calls::sender_draw(&mut self.0, queues.low, queues.ordinary, tp))
    }

    pub fn words(&self) -> &[u64] {
        &self.0
    }

    /// A sender of any words: if they are no sound state, every call refuses with 1.
    pub fn of_words(words: [u64; calls::SENDER_WORDS]) -> Sender {
        Sender(words)
    }
}

/// Where a find began: the transport packet, as the receiver counts them from 1, and the payload byte in it, from 0.
#[derive(Clone, Copy, Debug, PartialEq, Eq)]
pub struct Place {
    pub tp: u64,
    pub byte: u64,
}

/// A packet that was handed out.
#[derive(Clone, Copy, Debug, PartialEq, Eq)]
pub struct Packet<'a> {
    pub content: u64,
    pub data: &'a [u8],
    pub repaired: u64,
    pub began: Place,
}

#[derive(Clone, Copy, Debug, PartialEq, Eq)]
pub enum Find<'a> {
    /// The transport packet has no more to give.
    Nothing,
    /// Something was lost or passed over; docs/NOTICES.md says what each number means.
    Notice { number: u64, began: Place },
    /// Low-latency: the data stand in the transport packet.
    Low(Packet<'a>),
    /// Ordinary: the data stand in the room.
    Ordinary(Packet<'a>),
}

impl Find<'_> {
    /// Whether the same transport packet must be lent again.
    pub fn goes_on(&self) -> bool {
        match self {
            Find::Nothing => false,
            Find::Notice { number, .. } => *number > 9,
            Find::Low(_) | Find::Ordinary(_) => true,
        }
    }
}

/// The receiving end. Its words may be stored and read back.
#[derive(Clone, Debug, PartialEq, Eq)]
pub struct Receiver([u64; calls::RECEIVER_WORDS]);

impl Receiver {
    pub fn open(tp_length: usize, stream: u32, room: &[u8]) -> Result<Receiver, Refusal> {
        let mut words = [0; calls::RECEIVER_WORDS];
        done(calls::receiver_open(&mut words, tp_length, stream, room))?;
        Ok(Receiver(words))
    }

    /// The next find in a transport packet: lend the same bytes again while it [goes on](Find::goes_on).
    pub fn next<'a>(&mut self, tp: &'a [u8], room: &'a mut [u8]) -> Result<Find<'a>, Refusal> {
        let mut find = [0; calls::FIND_WORDS];
        let number = calls::receiver_next(&mut self.0, tp, room, &mut find);
        let [sort, what, start, length, repaired, tp_number, byte] = find;
        let began = Place { tp: tp_number, byte };
        let packet =
            |of: &'a [u8]| Packet { content: what, data: &of[start as usize..][..length as usize], repaired, began };
        match sort {
            0 => Ok(Find::Nothing),
            2 => Ok(Find::Notice { number: what, began }),
            3 => Ok(Find::Low(packet(tp))),
            4 => Ok(Find::Ordinary(packet(room))),
            _ => Err(Refusal(number)),
        }
    }

    /// Tells that transport packets are missing here; what was unfinished is dropped.
    pub fn gap(&mut self) -> Result<(), Refusal> {
        done(calls::receiver_gap(&mut self.0))
    }

    pub fn words(&self) -> &[u64] {
        &self.0
    }

    /// A receiver of any words: if they are no sound state, every call refuses with 1.
    pub fn of_words(words: [u64; calls::RECEIVER_WORDS]) -> Receiver {
        Receiver(words)
    }
}

/// The source packet of a Chapter 11 packet, written into `out`.
pub fn compose<'a>(packet: &[u8], out: &'a mut [u8]) -> Result<&'a [u8], Refusal> {
    let mut written = 0;
    done(calls::compose(packet, out, &mut written))?;
    Ok(&out[..written as usize])
}

/// The Chapter 11 packet of a source packet, written into `out`.
pub fn reassemble<'a>(sp: &[u8], out: &'a mut [u8]) -> Result<&'a [u8], Refusal> {
    let mut written = 0;
    done(calls::reassemble(sp, out, &mut written))?;
    Ok(&out[..written as usize])
}
