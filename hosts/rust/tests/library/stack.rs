//! The deepest work in threads with the stack that `std::thread` gives, 2 MiB.

use crate::common::{listing_by_parts, table_of, text_of, Blocks};
use peashuttle::{Event, Status, LISTING_ROOM};

/// So many parallels in one term, of which every one has the next as its left side.
const NESTED: usize = 61;
/// Parallels inside one another for which there are cells.
const DEEPEST: usize = 511;

/// The table of N: parallels around a call of N, with STOP as every right side.
fn table() -> String {
    let (parallels, stops) = ("12060000000000000000\n".repeat(NESTED), "1208\n".repeat(NESTED));
    format!("10010100\n1100\n{parallels}120100\n{stops}1f{:04x}\n", 2 * NESTED + 1)
}

/// The addresses that go down into the parallels as deep as there are cells for, and there step a STOP.
fn addresses() -> Vec<Vec<u8>> {
    let mut all: Vec<Vec<u8>> = (0..DEEPEST).step_by(NESTED).map(|depth| vec![1; depth]).collect();
    let mut last = vec![1; DEEPEST];
    last[DEEPEST - 1] = 2;
    all.push(last);
    all
}

fn script() -> String {
    let spelled = |address: &Vec<u8>| address.iter().map(|digit| format!("{digit:02x}")).collect::<String>();
    addresses().iter().map(|address| format!("20{:04x}{}\n", address.len(), spelled(address))).collect()
}

fn in_a_thread(work: impl FnOnce() + Send + 'static) {
    std::thread::spawn(work).join().expect("the thread ends well");
}

#[test]
fn the_deepest_steps() {
    in_a_thread(|| {
        let mut b = Blocks::new();
        b.table = table_of(&table());
        b.run.start();
        for address in addresses() {
            assert_eq!(b.run.step(&b.table, &address), Ok(Event::Tau));
        }
        assert_eq!(b.run.status(&b.table), Ok(Status::Live));
        assert!(b.run.offers(&b.table).unwrap().tau);
    });
}

#[test]
fn the_deepest_listing() {
    in_a_thread(|| {
        let input = table() + &script();
        let mut out = vec![0; LISTING_ROOM];
        let length = peashuttle::list(input.as_bytes(), &mut out);
        assert!(out[..length].starts_with("4000\n".repeat(addresses().len()).as_bytes()));
        assert!(listing_by_parts(input.as_bytes()) == out[..length]);
    });
}

#[test]
fn threads_at_once() {
    let table = std::sync::Arc::new(table_of(&table()));
    let running: Vec<_> = (0..4)
        .map(|_| {
            let table = table.clone();
            std::thread::spawn(move || {
                let mut b = Blocks::new();
                b.run.start();
                for address in addresses() {
                    assert_eq!(b.run.step(&table, &address), Ok(Event::Tau));
                }
                text_of(&mut |slice| b.run.save(&table, &mut b.work, slice))
            })
        })
        .collect();
    let mut saved: Vec<Vec<u8>> =
        running.into_iter().map(|thread| thread.join().expect("the thread ends well")).collect();
    saved.dedup();
    assert_eq!(saved.len(), 1);
}
