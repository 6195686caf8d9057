//! Rekeys in a burst: each brings 8 ESP SAs and a Rekey SA whose key comes in 32 copies, each under another key that the member holds.
//!
//! Document 01's table had room for 16 SAs, and SAs that a frame retires count until the next one. So no two such rekeys could follow
//! each other: between them comes one that deletes the 8 ESP SAs, and without a delay these are due when the next rekey arrives. The run
//! stays as it was, so that times can be held against those before document 02's 64 SAs. A second run has as few deletes as the table
//! allows, a third has a full held list.

use crate::group::{announce, Group};
use crate::Input;
use builder::typical::delete;

const ESP_SAS: u32 = 8;
pub const COPIES: u32 = 32;
pub const MOST_HELD: u32 = 128;
const MOST_SAS: u32 = 64;

/// How many rekeys can follow each other: what they leave is their ESP SAs, and beside the last one's stand the new Rekey SA and the old.
const RUN: u32 = (MOST_SAS - 2) / ESP_SAS;

/// The counter wraps within the run.
const FIRST_TICK: u32 = 0xffff_0000;

/// Each rekey with its delete, over so many held keys.
pub fn rekeys(size: usize, keys: u32, count: u32) -> Input {
    let mut group = Group::new(size, keys);
    let mut input = Input::new(&group.lent);
    let mut tick = FIRST_TICK;
    input.frame(tick, &group.registration(), &format!("0 1 {keys}"));
    for turn in 0..count {
        tick = tick.wrapping_add(100);
        let spis = spis(turn);
        input.frame(tick, &rekey(&mut group, &spis), &format!("0 10 {keys}"));
        let spis: Vec<Vec<u8>> = spis.iter().map(|spi| spi.to_be_bytes().to_vec()).collect();
        input.frame(tick, &group.rekey(vec![delete(&spis)]), &format!("0 9 {keys}"));
    }
    input
}

/// Runs of rekeys, and after each run a delete of SPI 0, which names every ESP SA.
pub fn runs(size: usize, count: u32) -> Input {
    let mut group = Group::new(size, COPIES);
    let mut input = Input::new(&group.lent);
    let mut tick = FIRST_TICK;
    input.frame(tick, &group.registration(), "0 1 32");
    for turn in 0..count {
        tick = tick.wrapping_add(100);
        let esp_sas = ESP_SAS * (turn % RUN + 1);
        input.frame(tick, &rekey(&mut group, &spis(turn)), &format!("0 {} 32", esp_sas + 2));
        if esp_sas == ESP_SAS * RUN {
            input.frame(tick, &group.rekey(vec![delete(&[vec![0; 4]])]), &format!("0 {} 32", esp_sas + 1));
        }
    }
    input
}

fn spis(turn: u32) -> Vec<u32> {
    (1..=ESP_SAS).map(|number| scattered(ESP_SAS * turn + number)).collect()
}

/// The old Rekey SA retires; the new one is live from the next frame on.
fn rekey(group: &mut Group, spis: &[u32]) -> builder::Frame {
    let mut under = group.held.clone();
    group.rng.shuffle(&mut under);
    under.truncate(COPIES as usize);
    let (rekey_sa, spi, keying) = group.rekey_sa(&under);
    let mut sas = vec![rekey_sa];
    sas.extend(spis.iter().map(|spi| group.esp_sa(*spi)));
    let frame = group.rekey(announce(sas));
    group.enter(spi, &keying);
    frame
}

/// A different SPI for each number, in no order; 0 for 0 alone.
fn scattered(number: u32) -> u32 {
    number.wrapping_mul(0x9e37_79b1)
}
