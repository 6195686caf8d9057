//! Journals (document 02, T-13) and what the program `journal` prints for them, each line put down by hand.

use crate::parts::*;
use crate::Transcript;
use builder::typical::*;
use builder::Frame;

pub fn all() -> Vec<Transcript> {
    vec![whole(), cut_within(), cut_before(), cut_behind(), stop_at_1(), stop_by_replay(), rekey_with_key(), left()]
}

/// The line of a frame with a lent key, without its newline.
fn handed(lent: &[u8], tick: u32, frame: &Frame) -> String {
    format!("{:02x}{}{tick:08x}{}", lent.len(), text(lent), text(&frame.octets()))
}

fn swept(tick: u32) -> String {
    format!("00{tick:08x}")
}

/// Rekey SA a0 under key 9 and ESP SA 1 under the lent key; ESP SA 2 by a rekey; ESP SA 3 comes, 1 retires for 5 s and goes.
fn steps() -> Vec<String> {
    let first = registration(&[rekey_sa(0xa0, &[(9, key(9))]), esp(1, &lent())], &[entry(9, 9, 0, &lent())]);
    let second = rekey(0xa0, 0, announce(&[esp(2, &default_key(0xa0))]));
    let delay = announce_with_delay(&[esp(3, &default_key(0xa0))], 5);
    let third = rekey(0xa0, 1, [delay, vec![delete(&[spi(1)])]].concat());
    vec![handed(&lent(), 1000, &first), handed(&[], 2000, &second), handed(&[], 3000, &third), swept(7999), swept(8000)]
}

fn lines(steps: &[String]) -> String {
    steps.iter().map(|step| format!("{step}\n")).collect()
}

fn whole() -> Transcript {
    Transcript::of_journal(
        "journal-whole",
        &lines(&steps()),
        "3 1\n",
        "Rekey SA a0 under key 9 and ESP SA 1 are registered; ESP SA 2 comes; ESP SA 3 comes and 1 retires for 5 s; two sweeps, 1 goes",
    )
}

fn cut_within() -> Transcript {
    let steps = steps();
    let cut = format!("{}{}", lines(&steps[..2]), &steps[2][..100]);
    Transcript::of_journal("journal-cut-within", &cut, "3 1\n", "cut within the third line: the member of two")
}

fn cut_before() -> Transcript {
    let steps = steps();
    let cut = format!("{}{}", lines(&steps[..2]), steps[2]);
    Transcript::of_journal("journal-cut-before", &cut, "3 1\n", "cut just before the newline of the third line: the member of two")
}

fn cut_behind() -> Transcript {
    Transcript::of_journal("journal-cut-behind", &lines(&steps()[..3]), "4 1\n", "cut just behind the newline of the third line")
}

fn stop_at_1() -> Transcript {
    let text = lines(&[vec!["FF".to_string()], steps()].concat());
    Transcript::of_journal("journal-stop-at-1", &text, "0 0 1\n", "the first line is in capitals: a new member, whatever follows")
}

fn stop_by_replay() -> Transcript {
    let steps = steps();
    let text = lines(&[steps[..2].to_vec(), vec![steps[1].clone()], steps[2..].to_vec()].concat());
    let about = "the third line is a rekey whose Message ID was taken: 3 by the member";
    Transcript::of_journal("journal-stop-by-replay", &text, "3 1 3\n", about)
}

fn rekey_with_key() -> Transcript {
    let steps = steps();
    let second = rekey(0xa0, 0, announce(&[esp(2, &default_key(0xa0))]));
    let text = lines(&[steps[0].clone(), handed(&lent(), 2000, &second)]);
    Transcript::of_journal("journal-rekey-with-key", &text, "2 1 2\n", "a GSA_REKEY with a key length of 16, which the member would take")
}

fn left() -> Transcript {
    let text = lines(&[steps(), vec!["ff".to_string()], steps()[..1].to_vec()].concat());
    Transcript::of_journal("journal-left", &text, "2 1\n", "leaving, and a registration anew")
}
