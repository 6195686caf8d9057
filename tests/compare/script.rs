//! Scripts by seed: the lines that a program reads, each with a word on how it was made. They follow the member's state by
//! asking the second member.

use crate::case::Case;
use crate::damage::{damaged, hostile_line};
use crate::limits::Sizes;
use crate::lives::share;
use crate::programs::Kind;
use crate::scene::{Scene, Shape};
use crate::tally::Tally;
use crate::violations::{allowed, of_exchange, one_chain, Exchange, Violation};
use crate::{limits, lives};
use builder::line::{hex, line};
use builder::rng::Rng;
use builder::typical::{GSA_AUTH, GSA_REGISTRATION};
use reference::fragments::Collection;
use reference::layout::MOST_FRAME;
use reference::member::Member;
use reference::{layout, text};

pub struct Script {
    /// The whole input.
    pub input: Vec<u8>,
    /// For each line after the first how it was made.
    pub labels: Vec<String>,
    /// For each line after the first the number that the second member gives it, if it has a frame.
    pub answers: Vec<Option<u8>>,
}

/// How much of each a script has; the walks over the violations and their pairs go on from seed to seed.
const SINGLES: usize = 8;
const PAIRS: usize = 24;
const LAYOUT_PAIRS: usize = 12;
const REKEYS: usize = 14;
const INBAND_PERCENT: usize = 30;

/// The keys that the member of a typical run holds.
const TYPICAL_KEYS: u32 = 12;

pub struct Writer<'t> {
    pub scene: Scene,
    /// Whether the script is for `trace`, with other calls between the frames.
    pub tracing: bool,
    pub lines: Vec<Vec<u8>>,
    labels: Vec<String>,
    answers: Vec<Option<u8>>,
    pub tally: &'t mut Tally,
    pub seed: u64,
}

pub fn script(seed: u64, kind: Kind, tally: &mut Tally) -> Script {
    let mut writer = Writer::new(seed, kind, tally);
    writer.scene.lives = share(seed);
    if kind == Kind::Trace && seed % 2 == 1 {
        writer.profile();
    }
    match seed % 16 {
        7 => writer.hostile_first_line(),
        11 => writer.without_rekey_sa(),
        3 | 8 | 13 => writer.member_run(Sizes::LARGE),
        _ => writer.member_run(Sizes::SMALL),
    }
    writer.finish()
}

/// A registration and so many rekeys of all shapes, none refused.
pub fn typical_run(seed: u64, rekeys: usize, tally: &mut Tally) -> Script {
    let mut writer = Writer::new(seed, Kind::Member, tally);
    let first = Shape { rekey: true, keys: 1, further: 0, ..writer.scene.any_shape() };
    let mut registration = writer.scene.registration(first);
    one_chain(&mut registration, TYPICAL_KEYS).expect("a Member bag");
    writer.claim(&registration, 0, "plain registration");
    for _ in 0..rekeys {
        writer.scene.move_clock();
        let shape = writer.scene.any_shape();
        let rekey = writer.scene.rekey(shape).expect("a live Rekey SA and a Message ID");
        writer.claim(&rekey, 0, "plain rekey");
    }
    writer.finish()
}

impl<'t> Writer<'t> {
    fn new(seed: u64, kind: Kind, tally: &'t mut Tally) -> Writer<'t> {
        let mut rng = Rng::new(seed);
        let size = [16, 24, 32][(seed % 3) as usize];
        let lent = rng.octets(size);
        let tick = rng.pick(&[0, 1000, 0x7fff_ff00, u32::MAX - 500]);
        let lines = vec![hex(&lent)];
        let (member, kept, sizes, tree) = (Member::new(), Collection::default(), Sizes::SMALL, Vec::new());
        let scene = Scene { rng, lent, member, kept, tick, sizes, tree, lives: 0 };
        Writer { scene, tracing: kind == Kind::Trace, lines, labels: Vec::new(), answers: Vec::new(), tally, seed }
    }

    /// Refused registrations, one that is taken, then rekeys of all kinds; every second run of `trace` is journaled.
    fn member_run(&mut self, sizes: Sizes) {
        self.scene.sizes = sizes;
        if self.tracing && self.seed % 4 >= 2 {
            self.line(b"j".to_vec(), "journal".to_string());
        }
        self.violations(Exchange::Registration);
        let shape = Shape { rekey: true, ..self.scene.any_shape() };
        self.registers(shape);
        let mut singles = [Exchange::Rekey, Exchange::Inband].map(|exchange| (exchange, self.walk(exchange)));
        singles[0].1.extend(sizes.refused_for_room());
        let leaves_at = self.tracing.then(|| self.scene.rng.below(2 * REKEYS));
        for turn in 0..REKEYS {
            self.scene.move_clock();
            if leaves_at == Some(turn) {
                self.leave();
                self.registers(shape);
            }
            if !self.go_on(shape) {
                return;
            }
            for (exchange, waiting) in &mut singles {
                waiting.retain(|violation| !self.single(violation, *exchange));
                self.pairs(*exchange, turn, REKEYS);
                self.disturbances(*exchange);
            }
            if self.tracing {
                self.fresh_keys();
                self.sealed_breaks();
                self.fragments(turn);
            }
            let exchange = if self.scene.rng.chance(INBAND_PERCENT) { Exchange::Inband } else { Exchange::Rekey };
            let shape = self.scene.any_shape();
            self.taken(exchange, shape);
        }
        self.last_message_id();
    }

    /// Single violations and pairs of them, none of which changes the member.
    pub fn violations(&mut self, exchange: Exchange) {
        if self.tracing && exchange != Exchange::Rekey {
            self.unfit_lent_key(exchange);
        }
        for violation in self.walk(exchange) {
            self.single(violation, exchange);
        }
        self.pairs(exchange, 0, 1);
        self.disturbances(exchange);
    }

    /// A stretch of the table of violations that goes on from seed to seed.
    fn walk(&self, exchange: Exchange) -> Vec<&'static Violation> {
        let table = of_exchange(exchange);
        let start = self.seed as usize * SINGLES;
        (start..start + SINGLES).map(|i| table[i % table.len()]).collect()
    }

    /// Part `turn` of `turns` of the pairs that this seed has to do: some of a broken layout with anything, more of the others.
    fn pairs(&mut self, exchange: Exchange, turn: usize, turns: usize) {
        let table = of_exchange(exchange);
        let (layout, others): (Vec<_>, Vec<_>) = table.iter().partition(|violation| violation.number == 1);
        let all = others.len() * (others.len() - 1) / 2;
        let first = self.seed as usize * PAIRS;
        for number in (first..first + PAIRS).skip(turn).step_by(turns) {
            let (a, b) = pair(number % all);
            self.pair(others[a], others[b], exchange);
        }
        let first = self.seed as usize * LAYOUT_PAIRS;
        for number in (first..first + LAYOUT_PAIRS).skip(turn).step_by(turns) {
            let (a, b) = (number % layout.len(), number / layout.len() % table.len());
            self.pair(layout[a], table[b], exchange);
        }
    }

    fn base(&mut self, exchange: Exchange) -> Option<Case> {
        let shape = self.scene.full_shape();
        self.fit_frame(exchange, shape)
    }

    /// A frame that the member will accept; None if it accepts none any more, which for registrations damage can bring about.
    pub fn fit_frame(&mut self, exchange: Exchange, shape: Shape) -> Option<Case> {
        if self.tracing {
            self.other_calls(exchange);
        }
        match exchange {
            Exchange::Registration if self.scene.member.is_empty(self.scene.tick) => Some(self.scene.registration(shape)),
            Exchange::Registration => None,
            Exchange::Rekey => self.scene.rekey(shape),
            Exchange::Inband => self.scene.inband(shape),
        }
    }

    /// False if the frame has not what the violation takes.
    fn single(&mut self, violation: &'static Violation, exchange: Exchange) -> bool {
        let Some(mut case) = self.base(exchange) else { return false };
        if (violation.make)(&mut case).is_none() || case.frame.octets().len() > MOST_FRAME {
            return false;
        }
        self.claim(&case, violation.number, violation.name);
        self.tally.alone(violation.name);
        true
    }

    /// Both violations in one frame, in one order or the other.
    fn pair(&mut self, a: &'static Violation, b: &'static Violation, exchange: Exchange) {
        let Some(mut case) = self.base(exchange) else { return };
        let (first, second) = if self.scene.rng.chance(50) { (a, b) } else { (b, a) };
        if (first.make)(&mut case).is_none() || (second.make)(&mut case).is_none() {
            return;
        }
        let octets = case.frame.octets();
        if octets.len() <= MOST_FRAME {
            let answer = self.frame(&octets, format!("{} + {}", first.name, second.name));
            self.tally.pair(a, b, answer);
        }
    }

    /// A frame that must be accepted, with up to three oddities; None if the member accepts none any more.
    pub fn taken(&mut self, exchange: Exchange, shape: Shape) -> Option<Case> {
        let mut case = self.fit_frame(exchange, shape)?;
        let table = allowed::of_exchange(exchange);
        let mut chosen: Vec<usize> = (0..self.scene.rng.below(4)).map(|_| self.scene.rng.below(table.len())).collect();
        chosen.sort();
        chosen.dedup();
        let mut label = String::from(exchange.name());
        for index in chosen {
            let mut odd = case.clone();
            if (table[index].make)(&mut odd).is_some() && odd.frame.octets().len() <= MOST_FRAME {
                case = odd;
                label = format!("{label}, {}", table[index].name);
                self.tally.alone(table[index].name);
            }
        }
        self.claim(&case, 0, &label);
        Some(case)
    }

    /// Damaged frames, frames that came before, hostile lines.
    pub fn disturbances(&mut self, exchange: Exchange) {
        if let Some(case) = self.base(exchange) {
            let built = case.frame.build();
            let octets = damaged(&built, &mut self.scene.rng);
            self.frame(&octets, "damaged".to_string());
            let good = line(self.scene.tick, &built.octets);
            if self.scene.rng.chance(40) {
                let line = hostile_line(&good, &mut self.scene.rng);
                self.line(line, "hostile".to_string());
            }
        }
        if self.lines.len() > 1 && self.scene.rng.chance(15) {
            let line = self.scene.rng.pick(&self.lines[1..]);
            // The run goes on with the member and the lent key that it has.
            if !matches!(line.first(), Some(b'l' | b'k' | b'p')) {
                self.line(line, "once more".to_string());
            }
        }
    }

    /// A frame whose answer is known.
    pub fn claim(&mut self, case: &Case, number: u8, label: &str) {
        let before = self.scene.member.clone();
        let answer = self.frame(&case.frame.octets(), label.to_string());
        if answer != number {
            self.tally.complain(format!(
                "seed {}, line {}: \"{label}\" gave {answer}, not {number}",
                self.seed,
                self.lines.len()
            ));
        }
        if answer == 0 {
            limits::met(case, &self.scene.member).for_each(|limit| self.tally.limit(limit));
            lives::met(case, &self.scene.member).for_each(|name| self.tally.life(name));
            if matches!(case.frame.exchange, GSA_AUTH | GSA_REGISTRATION) {
                self.holds_path(case);
                self.scene.tree = case.keys.clone();
            }
        }
        if answer != 0 && before != self.scene.member {
            self.tally.complain(format!("seed {}, line {}: a refusal changed the member", self.seed, self.lines.len()));
        }
    }

    /// A frame of any octets, as many as a good line holds.
    fn frame(&mut self, octets: &[u8], label: String) -> u8 {
        let number = self.other_form(octets, &label);
        number.unwrap_or_else(|| self.line(line(self.scene.tick, octets), label).expect("a good line"))
    }

    /// Adds the line, and takes the member through it; None for a bad one.
    pub fn line(&mut self, line: Vec<u8>, label: String) -> Option<u8> {
        let frame = text::tick_and_frame(&line);
        let broken = frame.as_ref().and_then(|(_, frame)| layout::frame(frame, self.scene.member.profile).err());
        broken.into_iter().for_each(|broken| self.tally.broken(broken));
        let answer = frame.map(|(tick, frame)| self.scene.member.take(&self.scene.lent, tick, &frame).number);
        if answer.is_some() || !self.tracing || !self.other_call(&line) {
            self.tally.answer(answer);
        }
        self.push(line, label, answer);
        answer
    }

    /// Adds the line with the number of its opened frame, if it has one.
    pub fn push(&mut self, line: Vec<u8>, label: String, answer: Option<u8>) {
        self.lines.push(line);
        self.labels.push(label);
        self.answers.push(answer);
    }

    fn finish(mut self) -> Script {
        let mut input = self.lines.join(&b'\n');
        // An empty last line without a newline would be no line.
        if self.lines.last().is_some_and(Vec::is_empty) || self.scene.rng.chance(70) {
            input.push(b'\n');
        }
        Script { input, labels: self.labels, answers: self.answers }
    }
}

/// The pair of that number among (1, 0), (2, 0), (2, 1), (3, 0), ..
fn pair(number: usize) -> (usize, usize) {
    let mut a = 1;
    let mut before = 0;
    while before + a <= number {
        before += a;
        a += 1;
    }
    (a, number - before)
}
