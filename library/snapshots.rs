//! A table of 64 MB, of which a hundred snapshots are taken while it is written: how long one takes beside a plain copy.
mod chorus;

use chorus::{Machine, Why};
use std::time::Instant;

const PAGE: u64 = 4096;
const PAGES: u32 = 16384;
const SNAPSHOTS: u32 = 100;
const WRITES: u32 = 200;
const TABLE: u64 = 0x1000_0000;
const SNAPSHOT: u64 = 0x8000_0000;

fn main() -> Result<(), Why> {
    let mut machine = Machine::open(40000, PAGE as u32, 4096)?;
    let actor = machine.actor()?;
    let table = machine.temp(PAGES)?;
    machine.map(actor, table, 0, PAGES, TABLE, true)?;
    let mut plain: Vec<u32> = (0..PAGES).collect();
    for page in 0..PAGES {
        machine.store(actor, TABLE + PAGE * page as u64, &page.to_ne_bytes())?;
    }
    let mut taken = 0.0;
    let mut drawn = 1u32;
    for n in 0..SNAPSHOTS {
        let begun = Instant::now();
        let snapshot = machine.temp(PAGES)?;
        machine.copy((table, 0), (snapshot, 0), PAGES)?;
        taken += begun.elapsed().as_secs_f64();
        let kept = plain.clone();
        let region = machine.map(actor, snapshot, 0, PAGES, SNAPSHOT, false)?;
        for i in 0..WRITES {
            drawn = drawn.wrapping_mul(1664525).wrapping_add(1013904223);
            let page = drawn >> 18;
            let at = PAGE * page as u64;
            let is = PAGES + n * WRITES + i;
            machine.store(actor, TABLE + at, &is.to_ne_bytes())?;
            plain[page as usize] = is;
            let mut was = [0; 4];
            machine.load(actor, SNAPSHOT + at, &mut was)?;
            assert_eq!(u32::from_ne_bytes(was), kept[page as usize]);
        }
        machine.unmap(region)?;
        machine.destroy(snapshot)?;
    }
    let from = vec![1u8; PAGES as usize * PAGE as usize];
    let mut to = vec![2u8; from.len()];
    let begun = Instant::now();
    to.copy_from_slice(&from);
    let copied = begun.elapsed().as_secs_f64();
    println!("{SNAPSHOTS} snapshots of {PAGES} pages, {WRITES} writes to the table after each: right");
    println!("a snapshot takes {:.3} ms, a plain copy {:.3} ms (byte {})", taken / SNAPSHOTS as f64 * 1e3, copied * 1e3, to[4096]);
    println!("pages copied: {}", machine.stat()?.copies);
    Ok(())
}
