//! The calls of include/jenugathi.h over slices. Each pointer comes from a reference that lives as long as the call and
//! is passed with its own length, so the calls have all that they ask of a caller.

pub const SENDER_WORDS: usize = 11;
pub const RECEIVER_WORDS: usize = 23;
pub const FIND_WORDS: usize = 7;

type SenderWords = [u64; SENDER_WORDS];
type ReceiverWords = [u64; RECEIVER_WORDS];
type FindWords = [u64; FIND_WORDS];

#[link(name = "jenugathi", kind = "static")]
extern "C" {
    fn c7_sender_open(
        s: *mut SenderWords, tp_length: usize, stream: u32, piece: usize, low: *const u8, low_length: usize,
        ordinary: *const u8, ordinary_length: usize,
    ) -> u32;
    fn c7_sender_offer(
        s: *mut SenderWords, low: *const u8, low_length: usize, ordinary: *mut u8, ordinary_length: usize,
        content: u32, sp: *const u8, sp_length: usize,
    ) -> u32;
    fn c7_sender_offer_low(
        s: *mut SenderWords, low: *mut u8, low_length: usize, ordinary: *const u8, ordinary_length: usize,
        content: u32, sp: *const u8, sp_length: usize,
    ) -> u32;
    fn c7_sender_draw(
        s: *mut SenderWords, low: *const u8, low_length: usize, ordinary: *const u8, ordinary_length: usize,
        tp: *mut u8, tp_length: usize,
    ) -> u32;
    fn c7_receiver_open(
        r: *mut ReceiverWords, tp_length: usize, stream: u32, room: *const u8, room_length: usize,
    ) -> u32;
    fn c7_receiver_next(
        r: *mut ReceiverWords, tp: *const u8, tp_length: usize, room: *mut u8, room_length: usize, find: *mut FindWords,
    ) -> u32;
    fn c7_receiver_gap(r: *mut ReceiverWords) -> u32;
    fn c7_compose(packet: *const u8, packet_length: usize, out: *mut u8, out_length: usize, written: *mut u64) -> u32;
    fn c7_reassemble(sp: *const u8, sp_length: usize, out: *mut u8, out_length: usize, written: *mut u64) -> u32;
}

pub fn sender_open(
    s: &mut SenderWords, tp_length: usize, stream: u32, piece: usize, low: &[u8], ordinary: &[u8],
) -> u32 {
    let (l, o) = (low.len(), ordinary.len());
    unsafe { c7_sender_open(s, tp_length, stream, piece, low.as_ptr(), l, ordinary.as_ptr(), o) }
}

pub fn sender_offer(s: &mut SenderWords, low: &[u8], ordinary: &mut [u8], content: u32, sp: &[u8]) -> u32 {
    let (l, o) = (low.len(), ordinary.len());
    unsafe { c7_sender_offer(s, low.as_ptr(), l, ordinary.as_mut_ptr(), o, content, sp.as_ptr(), sp.len()) }
}

pub fn sender_offer_low(s: &mut SenderWords, low: &mut [u8], ordinary: &[u8], content: u32, sp: &[u8]) -> u32 {
    let (l, o) = (low.len(), ordinary.len());
    unsafe { c7_sender_offer_low(s, low.as_mut_ptr(), l, ordinary.as_ptr(), o, content, sp.as_ptr(), sp.len()) }
}

pub fn sender_draw(s: &mut SenderWords, low: &[u8], ordinary: &[u8], tp: &mut [u8]) -> u32 {
    let (l, o) = (low.len(), ordinary.len());
    unsafe { c7_sender_draw(s, low.as_ptr(), l, ordinary.as_ptr(), o, tp.as_mut_ptr(), tp.len()) }
}

pub fn receiver_open(r: &mut ReceiverWords, tp_length: usize, stream: u32, room: &[u8]) -> u32 {
    unsafe { c7_receiver_open(r, tp_length, stream, room.as_ptr(), room.len()) }
}

pub fn receiver_next(r: &mut ReceiverWords, tp: &[u8], room: &mut [u8], find: &mut FindWords) -> u32 {
    unsafe { c7_receiver_next(r, tp.as_ptr(), tp.len(), room.as_mut_ptr(), room.len(), find) }
}

pub fn receiver_gap(r: &mut ReceiverWords) -> u32 {
    unsafe { c7_receiver_gap(r) }
}

pub fn compose(packet: &[u8], out: &mut [u8], written: &mut u64) -> u32 {
    unsafe { c7_compose(packet.as_ptr(), packet.len(), out.as_mut_ptr(), out.len(), written) }
}

pub fn reassemble(sp: &[u8], out: &mut [u8], written: &mut u64) -> u32 {
    unsafe { c7_reassemble(sp.as_ptr(), sp.len(), out.as_mut_ptr(), out.len(), written) }
}
