//! The dispatcher above the interrupt controller, which serves its sources in turn.

use crate::Controller;

// The library takes and gives the controller's three words in one number.
// SAFETY: the signatures are those of crates/pec/src/irqc.rt; its contracts ask nothing of the caller but valid
// pointers.
unsafe extern "C" {
    safe fn pec_irqc_dispatch_new() -> u8;
    fn pec_irqc_dispatch(word: u64, last: u8, after: *mut u64, remembered: *mut u8) -> u16;
}

/// A dispatcher above the controller. It remembers the number of the source served last. A turn serves the next enabled
/// pending source after that number, going round from 15 to 0; the remembered source itself comes last.
///
/// A source that stays enabled and pending is served within 16 turns of a dispatcher, however the other sources behave
/// between them. The controller's own output, [`Controller::irq_output`], remains lowest first:
///
/// ```
/// use pec::{Controller, Dispatcher, IrqOutput};
///
/// // Source 9 rises once. Source 0 rises again before each turn, and the controller's output is 0 each time.
/// let mut controller = Controller::new();
/// controller.set_enable_mask(0xFFFF);
/// controller.set_source(9, true);
/// let mut dispatcher = Dispatcher::new();
/// let mut served = Vec::new();
/// for _ in 0..4 {
///     controller.set_source(0, false);
///     controller.set_source(0, true);
///     assert_eq!(controller.irq_output(), IrqOutput { valid: true, number: 0 });
///     served.push(dispatcher.next(&mut controller));
/// }
/// assert_eq!(served, [Some(0), Some(9), Some(0), Some(0)]);
/// ```
#[derive(Clone, Copy, Debug, PartialEq, Eq)]
pub struct Dispatcher {
    last: u8,
}

impl Default for Dispatcher {
    fn default() -> Self {
        Self::new()
    }
}

impl Dispatcher {
    /// A fresh dispatcher, which remembers 15: source 0 is the first after it.
    pub fn new() -> Self {
        Self {
            last: pec_irqc_dispatch_new(),
        }
    }

    /// A dispatcher that remembers this number. One above 15 is read as 15 at the next turn.
    pub fn from_last(last: u8) -> Self {
        Self { last }
    }

    /// The remembered number: that of the source served last or, before any is served, the one that the dispatcher
    /// began with. The first turn reads a number above 15 as 15, and leaves 15 where it serves none.
    pub fn last(&self) -> u8 {
        self.last
    }

    /// One turn: clears the pending bit of the next enabled pending source, changes nothing else of the controller, and
    /// gives the source's number, which is then the remembered one. Where no enabled source is pending, it gives none,
    /// and the controller and the remembered number stay; a remembered number above 15 becomes 15:
    ///
    /// ```
    /// use pec::{Controller, Dispatcher};
    ///
    /// let mut dispatcher = Dispatcher::from_last(255);
    /// assert_eq!(dispatcher.next(&mut Controller::new()), None);
    /// assert_eq!(dispatcher.last(), 15);
    /// ```
    #[must_use = "the source is not pending any more: what is ignored is not served again"]
    pub fn next(&mut self, controller: &mut Controller) -> Option<u8> {
        let (word, last) = (controller.word, self.last);
        // SAFETY: the pointers are those of two numbers that live through the call and do not overlap.
        let served = unsafe { pec_irqc_dispatch(word, last, &mut controller.word, &mut self.last) };
        (served >> 8 != 0).then_some(served as u8)
    }
}
