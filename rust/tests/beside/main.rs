//! The compiled library and the account program beside independent code. It is one program, so that the peers are compiled once.
#[path = "../../peers/account.rs"]
mod account;
#[path = "../../peers/fences.rs"]
mod fences;
#[path = "../../peers/frames.rs"]
mod frames;
#[path = "../../peers/generate.rs"]
mod generate;
#[path = "../../peers/items.rs"]
mod items;
#[path = "../../peers/joining.rs"]
mod joining;
#[path = "../../peers/payloads.rs"]
mod payloads;
#[path = "../../peers/checks.rs"]
mod peers;
#[path = "../../peers/records.rs"]
mod records;
#[path = "../../peers/reports.rs"]
mod reports;
#[path = "../../peers/senders.rs"]
mod senders;
#[path = "../../peers/sequences.rs"]
mod sequences;
#[path = "../../peers/ticks.rs"]
mod ticks;
#[path = "../../peers/writing.rs"]
mod writing;

mod accounts_cut_off;
mod accounts_printed;
mod checks_alike;
mod checks_told;
mod clock_alike;
mod counted;
mod extensions_dropped;
mod frames_read;
mod frames_written;
mod payloads_kept;
mod readme;
mod records_heard;
mod records_joined;
mod records_reported;
mod senders_alike;
mod sent_and_heard;
mod sides_met;
