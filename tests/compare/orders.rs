//! Scripts whose frames all stand in another order (document 02, T-14): both members must print what they print for the script as it is.

use crate::programs::{self, difference, Program};
use crate::rearrange::{self, rearranged, Order, ORDERS};
use crate::script::Script;
use crate::tally::Tally;
use builder::line::line;
use builder::rng::Rng;
use reference::text;
use std::time::Duration;

impl Script {
    /// The script with every frame that is not refused as number 1 in another order.
    fn rearranged(&self, order: Order, rng: &mut Rng, tally: &mut Tally) -> Script {
        let mut lines: Vec<Vec<u8>> = self.input.split(|&octet| octet == b'\n').map(<[u8]>::to_vec).collect();
        let frames = lines.iter_mut().skip(1).zip(&self.answers);
        for (input, number) in frames.filter_map(|(input, answer)| Some((input, answer.filter(|number| *number != 1)?))) {
            let (tick, frame) = text::tick_and_frame(input).expect("a good line");
            let Some(other) = rearranged(&frame, order, rng) else {
                tally.complain(format!("given {number} and not cut to its end: {}", String::from_utf8_lossy(input)));
                continue;
            };
            tally.rearranged(&frame, number, &other);
            *input = line(tick, &other.octets);
        }
        Script { input: lines.join(&b'\n'), labels: self.labels.clone(), answers: self.answers.clone() }
    }
}

/// Runs the script once for each of `ORDERS`: both members must print what they printed for it as it is, the whole member too if the
/// program prints it, line by line to the end. So every frame is handed in to the member that its own order was handed in to.
pub fn all(program: &Program, seed: u64, script: &Script, printed: &[u8], tally: &mut Tally) -> Result<(), String> {
    let mut rng = Rng::new(seed);
    for order in ORDERS {
        let other = script.rearranged(order, &mut rng, tally);
        let compared = program.compared(&other.input)?;
        let (first, second) = (without_journal(printed), without_journal(&compared.printed));
        let differs = compared.difference.or_else(|| difference("in order", &first, "rearranged", &second));
        if let Some(at) = differs {
            return Err(programs::keep(seed, program.kind, &other, at)?);
        }
    }
    Ok(())
}

/// What was printed but for the lines of a journal (document 02, T-13), which hold the frames as they came.
fn without_journal(printed: &[u8]) -> Vec<u8> {
    printed.split_inclusive(|&octet| octet == b'\n').filter(|line| !line.starts_with(b"line ")).flatten().copied().collect()
}

/// How many frames were handed in in another order, what was moved, and which number each exchange was given where something was.
pub fn print(tally: &Tally, taken: Duration) {
    let (all, unmoved) = (tally.rearranged, tally.unmoved);
    println!("compare: {all} frames in another order, {unmoved} with nothing to move, {:.1} s", taken.as_secs_f64());
    let moves: Vec<String> = tally.moves.iter().map(|(what, count)| format!("{what}: {count}")).collect();
    println!("compare: moved {}", moves.join(", "));
    for exchange in rearrange::EXCHANGES {
        let of_exchange = tally.orders.iter().filter(|((name, _), _)| *name == exchange);
        let numbers: Vec<String> = of_exchange.map(|((_, number), count)| format!("{number}: {count}")).collect();
        println!("compare: answers to a {exchange} in another order {}", numbers.join(", "));
    }
}
