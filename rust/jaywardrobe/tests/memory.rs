//! A dropped engine gives its memory back.
use jaywardrobe::{Engine, Errno, MAX_BYTES, MAX_MESSAGES, SockType};
use std::fs;

/// The resident size of this program, in pages.
fn resident_pages() -> u64 {
    let sizes = fs::read_to_string("/proc/self/statm").expect("Linux has it");
    let resident = sizes.split(' ').nth(1).expect("it is the second number");
    resident.parse().expect("it is a number")
}

/// Fills a queue, which takes 4 MiB, and drops the engine.
fn fill_and_drop() -> Result<(), Errno> {
    let mut engine = Engine::new()?;
    let pid = engine.spawn(1000, 16, true)?;
    let (here, _) = engine.pair(pid, SockType::Seqpacket)?;
    let bytes = vec![7; MAX_BYTES];
    for _ in 0..MAX_MESSAGES {
        engine.send(pid, here, &bytes, &[here])?;
    }
    Ok(())
}

#[test]
fn a_dropped_engine_leaves_no_memory() -> Result<(), Errno> {
    fill_and_drop()?;
    let before = resident_pages();
    for _ in 0..50 {
        fill_and_drop()?;
    }
    // 50 engines have 200 MiB, or 51,200 pages.
    let grown = resident_pages().saturating_sub(before);
    assert!(grown < 5_000, "{grown} pages more");
    Ok(())
}
