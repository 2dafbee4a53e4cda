//! README's example of the use from Rust: it runs, and it is the one that stands there.
use quimdoral::{Gap, Key, Octets, Packets, Record, Refusal, Sender};

#[test]
fn the_example_runs() -> Result<(), Refusal> {
    // begin
    let mut sender = Sender::new();
    sender.open(4_200)?; // a stamp: 42 s after the period's start
    let first = sender.data_to_vec(b"Flood warning")?;
    let _lost = sender.data_to_vec(b"River Dove")?;
    let closing = sender.close_to_vec()?;
    let mut record = Record::fresh(Key { bearer: 7, period: 3, stamp: 4_200 }, 512)?;
    record.hear(7, 3, &first)?;
    record.hear(7, 3, &closing)?;
    let gap = record.report()?.gaps[0];
    println!("from packet {}: {} missing, of {} octets", gap.first, gap.count, gap.octets); // from packet 1: 1 missing, of 10 octets
    // end
    assert_eq!(gap, Gap { first: Packets(1), count: Packets(1), octets: Octets(10) });
    Ok(())
}

#[test]
fn the_example_is_readmes() {
    let (_, rest) = include_str!("readme.rs").split_once("// begin\n").expect("where the example begins");
    let (example, _) = rest.split_once("    // end\n").expect("where it ends");
    assert!(include_str!("../../../README.md").contains(example), "README.md has another example:\n{example}");
}
