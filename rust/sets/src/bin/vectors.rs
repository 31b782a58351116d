//! Writes the stored sets and the images with hand-written proofs into a folder.
//!
//! Usage: vectors FOLDER

use sets::examples::{largest, message_passing, two_writes};
use sets::vectors::{bills, formulas, handovers, images, replays, rules, service, store, trims};
use std::io::{Error, Result};
use std::path::Path;

fn main() -> Result<()> {
    let folder = std::env::args().nth(1).ok_or_else(|| Error::other("usage: vectors FOLDER"))?;
    let folder = Path::new(&folder);
    std::fs::create_dir_all(folder)?;
    let formulas = formulas::cases();
    store::write_formulas(folder, "formula-bytes", &formulas)?;
    let sets = [
        ("formulas", formulas::images(&formulas)),
        ("images", images::cases()),
        ("rules", rules::cases()),
    ];
    for (name, cases) in sets {
        store::write_images(folder, name, &cases)?;
        println!("{name}: {} cases", cases.len());
    }
    let (trims, bills) = (trims::cases(), bills::cases());
    store::write(folder, "trim", store::trims(&trims))?;
    store::write(folder, "bills", store::bills(&bills))?;
    println!("trim: {} cases\nbills: {} cases", trims.len(), bills.len());
    let replays = replays::cases();
    store::write(folder, "replay", store::replays(&replays))?;
    println!("replay: {} cases", replays.len());
    let (handovers, crossings) = (handovers::cases(), handovers::crossings());
    store::write(folder, "handover", store::handovers(&handovers))?;
    store::write(folder, "across", store::crossings(&crossings))?;
    println!("handover: {} cases\nacross: {} cases", handovers.len(), crossings.len());
    let turns = service::cases();
    store::write(folder, "service", store::service(&turns))?;
    println!("service: {} cases", turns.len());
    std::fs::write(folder.join("message-passing.image"), message_passing().bytes())?;
    std::fs::write(folder.join("two-writes.image"), two_writes().bytes())?;
    std::fs::write(folder.join("largest.image"), largest())?;
    Ok(())
}
