//! `sealed RUN NAME`: from RUN.in, a registration and rekeys as the member program reads them, writes inputs of `trace`: NAME-opened.in the
//! same calls, NAME-sealed.in with each GSA_REKEY sealed under the live Rekey SA, NAME-again.in with each twice, opened and then sealed, of
//! which the second is a replay, NAME-forged.in 2,000 sealed frames of 16,384 octets with the right SPIs and another tag, and
//! NAME-outer.in the same frames with another first payload, which are refused before anything is opened.

use reference::member::Member;
use reference::sealing::{seal_frame, Choice};
use reference::text::{default_key, tick_and_frame};

const GSA_REKEY: u8 = 41;
const FORGED: usize = 2_000;
const MOST: usize = 16_384;

fn hex(octets: &[u8]) -> String {
    octets.iter().map(|octet| format!("{octet:02x}")).collect()
}

fn sealed_line(tick: u32, octets: &[u8]) -> String {
    format!("x00004000{tick:08x}{}", hex(octets))
}

fn main() {
    let arguments: Vec<String> = std::env::args().collect();
    let [_, run, name] = arguments.as_slice() else { panic!("sealed RUN NAME") };
    let input = std::fs::read_to_string(format!("{run}.in")).expect("a run");
    let mut lines = input.lines();
    let first = lines.next().expect("a lent key");
    let lent = default_key(first.as_bytes());
    let mut member = Member::new();
    let [mut opened, mut sealed, mut again] = [(); 3].map(|()| vec![first.to_string()]);
    for line in lines {
        let (tick, frame) = tick_and_frame(line.as_bytes()).expect("a frame");
        opened.push(line.to_string());
        let gsk_e = member.live_rekey().map(|sa| sa.encryption_key().to_vec());
        match gsk_e.filter(|_| frame[18] == GSA_REKEY) {
            Some(gsk_e) => {
                let form = sealed_line(tick, &seal_frame(&gsk_e, &frame, &Choice::default()));
                sealed.push(form.clone());
                again.extend([line.to_string(), form]);
            }
            None => [&mut sealed, &mut again].into_iter().for_each(|lines| lines.push(line.to_string())),
        }
        assert_eq!(member.take(&lent, tick, &frame).number, 0);
    }
    let rekey = member.live_rekey().expect("a live Rekey SA");
    let mut frame = [&rekey.spi, &[46, 0x20, GSA_REKEY, 0, 0, 0, 0, 7][..]].concat();
    frame.extend((MOST as u32).to_be_bytes());
    frame.extend([42, 0]);
    frame.extend((MOST as u16 - 28).to_be_bytes());
    frame.resize(MOST, 0x5a);
    let forged = sealed_line(0, &frame);
    frame[16] = 53;
    let outer = sealed_line(0, &frame);
    let after = |line: &String| [opened.clone(), vec![line.clone(); FORGED]].concat();
    let inputs =
        [("forged", after(&forged)), ("outer", after(&outer)), ("opened", opened.clone()), ("sealed", sealed), ("again", again)];
    for (kind, lines) in inputs {
        std::fs::write(format!("{name}-{kind}.in"), lines.join("\n") + "\n").expect("a file");
    }
}
