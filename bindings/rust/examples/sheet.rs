//! The loss sheet of a drawn file: its last figures over the last thousand arrivals, compared with those worked afresh; each block is
//! stored by column and restored.
//!
//! Built and run by tools/run_rust_example.
use sirmjold::{columns, restore, Refusal, Sheet};

const RECORD: usize = 16;

fn main() {
    let mut last = 1u32;
    let mut drawn = |below: u32| {
        last = last.wrapping_mul(1_664_525).wrapping_add(1_013_904_223);
        (last >> 8) % below
    };
    let file: Vec<[u8; RECORD]> = (0..20_000)
        .map(|_| {
            let mut r = [0; RECORD];
            r[10] = drawn(3) as u8;
            r[12..14].copy_from_slice(&(drawn(65_536) as u16).to_be_bytes());
            r
        })
        .collect();
    let mut ring = [0; 1000];
    let mut sheet = Sheet::start(&mut ring).unwrap();
    let mut done = 0;
    let mut figures = [0; RECORD];
    for block in file.chunks(777) {
        let bytes = block.concat();
        let (mut out, mut stored, mut back) =
            (bytes.clone(), vec![0; bytes.len()], vec![0; bytes.len()]);
        sheet.block(&bytes, &mut out).unwrap();
        columns(&bytes, &mut stored).unwrap();
        restore(&stored, &mut back).unwrap();
        assert_eq!(back, bytes);
        done += block.len();
        figures.copy_from_slice(&out[out.len() - RECORD..]);
        let of_last = &file[done.saturating_sub(1000)..done];
        let mut afresh = [0u32; 4];
        for r in of_last {
            afresh[usize::from(r[10])] += 1;
            afresh[3] += u32::from(u16::from_be_bytes([r[12], r[13]]));
        }
        assert_eq!(figures, afresh.map(u32::to_be_bytes).concat()[..]);
    }
    assert_eq!(
        sheet.block(&[0; 15], &mut figures),
        Err(Refusal::InvalidBlock)
    );
    println!("loss sheet: {done} records, last figures {figures:02X?}");
}
