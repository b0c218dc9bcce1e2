//! Document 01's example 6 through the crate: two packets, their two transport packets, and back.
use jenugathi::{compose, reassemble, Find, Place, Queues, Receiver, Refusal, Sender};

const FIRST: [u8; 16] =
    [0x00, 0x80, 0x99, 0x58, 0x04, 0x0D, 0x99, 0x00, 0x29, 0x3E, 0x11, 0x22, 0x00, 0x10, 0x07, 0xB4];
const SECOND: [u8; 16] =
    [0x00, 0x00, 0x4A, 0x97, 0x00, 0x18, 0xEB, 0x33, 0x00, 0x00, 0x00, 0x00, 0x29, 0x3E, 0xAA, 0xAA];

#[test]
fn sent_and_received() {
    let (mut low, mut ordinary) = ([0; 64], [0; 64]);
    let mut queues = Queues { low: &mut low, ordinary: &mut ordinary };
    let mut sender = Sender::open(16, 0, 65535, &queues).unwrap();
    sender.offer_low(&mut queues, 1, &[0x11, 0x22]).unwrap();
    sender.offer(&mut queues, 4, &[0x33]).unwrap();
    assert_eq!(sender.offer(&mut queues, 7, &[]), Err(Refusal(2)));
    let mut tp = [0; 16];
    sender.draw(&queues, &mut tp).unwrap();
    assert_eq!(tp, FIRST);
    sender.draw(&queues, &mut tp).unwrap();
    assert_eq!(tp, SECOND);

    let mut room = [0; 100];
    let mut receiver = Receiver::open(16, 0, &room).unwrap();
    let Ok(Find::Low(packet)) = receiver.next(&FIRST, &mut room) else { panic!("no low-latency packet") };
    assert_eq!((packet.content, packet.data, packet.began), (1, &[0x11, 0x22][..], Place { tp: 1, byte: 0 }));
    assert_eq!(receiver.next(&FIRST, &mut room), Ok(Find::Nothing));
    let Ok(Find::Ordinary(packet)) = receiver.next(&SECOND, &mut room) else { panic!("no ordinary packet") };
    assert_eq!((packet.content, packet.data, packet.began), (4, &[0x33][..], Place { tp: 1, byte: 9 }));
    assert_eq!(receiver.next(&SECOND, &mut room), Ok(Find::Nothing));
    receiver.gap().unwrap();
}

#[test]
fn what_is_refused() {
    let mut room = [0; 100];
    assert_eq!(Receiver::open(15, 0, &room), Err(Refusal(1)));
    let mut receiver = Receiver::open(16, 0, &room).unwrap();
    assert_eq!(receiver.next(&FIRST, &mut room[1..]), Err(Refusal(1)));
    assert_eq!(compose(&[0; 23], &mut room), Err(Refusal(17)));
    assert_eq!(reassemble(&[0; 23], &mut []), Err(Refusal(17)));
}
