//! The fields of `IrqController`, set and read by its public operations.
//!
//! irqc.rs begins with an inner doc comment, so it can only be a module of its own, which takes no child
//! module without a change; and no operation reads the source levels. A rising edge shows them.

use crate::irqc::IrqController;

const ALL: u16 = 0xFFFF;

/// Sets pending and levels; enable stays.
pub fn set(controller: &mut IrqController, pending: u16, levels: u16) {
    controller.set_source_levels(ALL, 0);
    controller.clear_pending(ALL);
    controller.set_source_levels(ALL, pending);
    controller.set_source_levels(ALL, levels);
    controller.clear_pending(!pending);
}

/// The source levels. Raising every source latches those that were low; pending and levels are put back.
pub fn levels(controller: &mut IrqController) -> u16 {
    let pending = controller.pending();
    controller.clear_pending(ALL);
    controller.set_source_levels(ALL, ALL);
    let levels = !controller.pending();
    set(controller, pending, levels);
    levels
}
