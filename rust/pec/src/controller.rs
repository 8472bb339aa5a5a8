//! The interrupt controller by itself, with every operation of irqc.rs.

// The library takes and gives the controller's three words in one number.
// SAFETY: the signatures are those of crates/pec/src/irqc.rt; its contracts ask nothing of the caller.
unsafe extern "C" {
    safe fn pec_irqc_new() -> u64;
    safe fn pec_irqc_reset(word: u64) -> u64;
    safe fn pec_irqc_pending(word: u64) -> u16;
    safe fn pec_irqc_enable_mask(word: u64) -> u16;
    safe fn pec_irqc_set_enable_mask(word: u64, mask: u16) -> u64;
    safe fn pec_irqc_set_source(word: u64, number: u8, level: bool) -> u64;
    safe fn pec_irqc_set_source_levels(word: u64, mask: u16, levels: u16) -> u64;
    safe fn pec_irqc_clear_pending(word: u64, mask: u16) -> u64;
    safe fn pec_irqc_output(word: u64) -> u16;
    safe fn pec_irqc_read(word: u64, address: u32) -> u8;
    safe fn pec_irqc_debug_read(word: u64, address: u32) -> u8;
    safe fn pec_irqc_write(word: u64, address: u32, value: u8) -> u64;
    safe fn pec_irqc_size(word: u64) -> u32;
}

/// Whether a source is presented, and which; the number is 0 where none is.
#[derive(Clone, Copy, Debug, PartialEq, Eq)]
pub struct IrqOutput {
    pub valid: bool,
    pub number: u8,
}

/// The interrupt controller: sixteen sources, whose rising edges it latches.
///
/// ```
/// let mut controller = pec::Controller::new();
/// controller.set_source_levels(0xFFFF, 0x0220);
/// controller.set_enable_mask(0x0200);
/// assert_eq!(controller.irq_output(), pec::IrqOutput { valid: true, number: 9 });
/// ```
#[derive(Clone, Copy, Debug, PartialEq, Eq)]
pub struct Controller {
    // Pending from bit 32 on, enable from bit 16 on, levels from bit 0 on.
    pub(crate) word: u64,
}

impl Default for Controller {
    fn default() -> Self {
        Self::new()
    }
}

impl Controller {
    /// Nothing pending, nothing enabled, every level low.
    pub fn new() -> Self {
        Self { word: pec_irqc_new() }
    }

    /// The controller with these three words.
    pub fn from_words(pending: u16, enable: u16, levels: u16) -> Self {
        Self {
            word: u64::from(pending) << 32 | u64::from(enable) << 16 | u64::from(levels),
        }
    }

    /// The levels last set, a bit for each source.
    pub fn levels(&self) -> u16 {
        self.word as u16
    }

    /// Clears all latched and configured state.
    pub fn reset(&mut self) {
        self.word = pec_irqc_reset(self.word);
    }

    /// The requests that are latched.
    pub fn pending(&self) -> u16 {
        pec_irqc_pending(self.word)
    }

    /// The sources that are enabled.
    pub fn enable_mask(&self) -> u16 {
        pec_irqc_enable_mask(self.word)
    }

    /// Sets which sources are enabled.
    pub fn set_enable_mask(&mut self, mask: u16) {
        self.word = pec_irqc_set_enable_mask(self.word, mask);
    }

    /// Sets one source's level. Only a rise latches pending; a number above 15 does nothing.
    pub fn set_source(&mut self, number: u8, level: bool) {
        self.word = pec_irqc_set_source(self.word, number, level);
    }

    /// Sets the level of each source in the mask, as `set_source` does.
    pub fn set_source_levels(&mut self, mask: u16, levels: u16) {
        self.word = pec_irqc_set_source_levels(self.word, mask, levels);
    }

    /// Clears the pending bits that are set in the mask.
    pub fn clear_pending(&mut self, mask: u16) {
        self.word = pec_irqc_clear_pending(self.word, mask);
    }

    /// The lowest source that is pending and enabled.
    pub fn irq_output(&self) -> IrqOutput {
        let output = pec_irqc_output(self.word);
        IrqOutput {
            valid: output >> 8 != 0,
            number: output as u8,
        }
    }

    /// The register byte at an address.
    pub fn read(&mut self, address: u32) -> u8 {
        pec_irqc_read(self.word, address)
    }

    /// The register byte at an address, without effects.
    pub fn debug_read(&self, address: u32) -> u8 {
        pec_irqc_debug_read(self.word, address)
    }

    /// Writes the register byte at an address.
    pub fn write(&mut self, address: u32, value: u8) {
        self.word = pec_irqc_write(self.word, address, value);
    }

    /// The number of addresses that the registers take.
    pub fn size(&self) -> u32 {
        pec_irqc_size(self.word)
    }
}
