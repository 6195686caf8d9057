//! Runs of their own: the end of Message IDs, a member without a Rekey SA, first lines that may be none.

use crate::damage::first_line;
use crate::scene::Shape;
use crate::script::Writer;
use crate::violations::Exchange;
use reference::text;

impl Writer<'_> {
    /// After the Message ID 4,294,967,295 nothing is acceptable over that Rekey SA any more.
    pub fn last_message_id(&mut self) {
        let shape = Shape { rekey: false, esp: 1, ..self.scene.full_shape() };
        let Some(mut case) = self.scene.rekey(shape) else { return };
        case.frame.message_id = u32::MAX;
        self.claim(&case, 0, "the last Message ID");
        for message_id in [0, 1, u32::MAX] {
            case.frame.message_id = message_id;
            self.claim(&case, 3, "no Message ID acceptable");
        }
        self.inband_after_the_last(&case);
    }

    /// A member with ESP SAs alone: no rekey over a Rekey SA can reach it, and no second registration unless they have run out.
    pub fn without_rekey_sa(&mut self) {
        self.violations(Exchange::Registration);
        let shape = Shape { rekey: false, esp: 2, ..self.scene.any_shape() };
        let registration = self.taken(Exchange::Registration, shape);
        for exchange in [39, 40, 41] {
            self.scene.move_clock();
            let shape = self.scene.full_shape();
            let mut case = self.scene.registration(shape);
            case.frame.exchange = exchange;
            // A member that ran out and registered anew may have a Rekey SA of these SPIs.
            if self.scene.member.live_rekey().is_some_and(|sa| sa.spi == case.frame.spis) {
                case.frame.spis[0] ^= 1;
            }
            let ran_out = exchange != 41 && self.scene.member.is_empty(self.scene.tick);
            self.claim(&case, if ran_out { 0 } else { 2 }, "a frame to a member without a Rekey SA");
        }
        self.inband_to_the_first_rekey_sa();
        if let Some(case) = registration {
            self.try_keys(&case);
        }
        self.disturbances(Exchange::Rekey);
    }

    /// A first line that may be none, then frames as if it were one.
    pub fn hostile_first_line(&mut self) {
        self.lines[0] = first_line(self.seed as usize / 16, &mut self.scene.rng);
        self.scene.lent = text::default_key(&self.lines[0]);
        let shape = self.scene.full_shape();
        let case = self.scene.registration(shape);
        let fits = matches!(self.scene.lent.len(), 16 | 24 | 32);
        self.claim(&case, if fits { 0 } else { 5 }, "registration after an odd first line");
        for _ in 0..20 {
            self.disturbances(if fits { Exchange::Rekey } else { Exchange::Registration });
        }
    }
}
