//! Values go to other threads where their memory does.
use sirmjold::{
    Delivery, GivenNotes, HeldNotes, Line, Load, Payload, Reader, Refusal, Sheet, Stream,
    StreamConfig, StreamEvent, Uplink, Window,
};
use std::sync::mpsc;
use std::thread;

fn sent_and_shared<T: Send + Sync>() {}
fn kept<T: 'static>() {}

#[test]
fn marks() {
    sent_and_shared::<Stream<[u32; 256]>>();
    sent_and_shared::<Stream<Vec<u32>>>();
    sent_and_shared::<Stream<&mut [u32]>>();
    sent_and_shared::<Payload<[u8; 1400]>>();
    sent_and_shared::<Payload<&mut [u8]>>();
    sent_and_shared::<Sheet<Box<[u32]>>>();
    sent_and_shared::<Reader>();
    sent_and_shared::<Window>();
    sent_and_shared::<HeldNotes>();
    sent_and_shared::<GivenNotes>();
    sent_and_shared::<Uplink>();
    sent_and_shared::<Load>();
    sent_and_shared::<Line>();
    sent_and_shared::<StreamConfig>();
    sent_and_shared::<Delivery>();
    sent_and_shared::<StreamEvent>();
    sent_and_shared::<Refusal>();
    kept::<Stream<Vec<u32>>>();
    kept::<Payload<[u8; 1400]>>();
    kept::<Sheet<Vec<u32>>>();
}

#[test]
fn a_stream_moves_to_another_thread() {
    let cfg = StreamConfig::default();
    let mut console = Stream::new(&cfg, 64, 4, vec![0; 256]).unwrap();
    console.send_ump(&cfg, &[0x2090_3C40]).unwrap();
    let (line, arrived) = mpsc::channel();
    let writer = thread::spawn(move || {
        let mut payload = Payload::new(1400, vec![0; 1400]).unwrap();
        console.write_data(&cfg, 0, &mut payload).unwrap();
        line.send(payload).unwrap();
        console
    });
    let payload = arrived.recv().unwrap();
    assert_eq!(payload.bytes(), b"MIDI\xFF\x01\0\0\x20\x90\x3C\x40");
    let console = writer.join().unwrap();
    assert_eq!(console.next_deadline(), Ok(Some(100)));
}
