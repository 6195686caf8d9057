//! Runs of rekeys over the member's own channel (document 02, T-02).

use crate::case::Case;
use crate::scene::Shape;
use crate::script::Writer;
use crate::violations::Exchange;

impl Writer<'_> {
    /// After the last Message ID: a rekey over the own channel is taken and makes none acceptable, unless it brings a new Rekey SA. The
    /// case is one over the live Rekey SA.
    pub fn inband_after_the_last(&mut self, case: &Case) {
        let shape = Shape { rekey: false, esp: 1, ..self.scene.full_shape() };
        let Some(own) = self.fit_frame(Exchange::Inband, shape) else { return };
        self.claim(&own, 0, "over the own channel after the last Message ID");
        // A sweep at another tick may have taken a Rekey SA with a lifetime.
        self.claim(case, if self.scene.takes_rekeys() { 3 } else { 2 }, "no Message ID acceptable still");
        let Some(own) = self.fit_frame(Exchange::Inband, Shape { rekey: true, ..shape }) else { return };
        self.claim(&own, 0, "a new Rekey SA over the own channel");
        let Some(case) = self.fit_frame(Exchange::Rekey, shape) else { return };
        self.claim(&case, 0, "rekey over a Rekey SA that came over the own channel");
    }

    /// To a member with ESP SAs alone: refused ones, then an ESP SA more, the first Rekey SA, and a rekey over that.
    pub fn inband_to_the_first_rekey_sa(&mut self) {
        self.violations(Exchange::Inband);
        for rekey in [false, true] {
            self.scene.move_clock();
            let shape = Shape { rekey, esp: 1, ..self.scene.any_shape() };
            self.taken(Exchange::Inband, shape);
        }
        let shape = self.scene.any_shape();
        self.taken(Exchange::Rekey, shape);
    }
}
