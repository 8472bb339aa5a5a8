//! Stand-in for the simulator's bus, as far as timing.rs and irqc.rs name it.

use std::cell::RefCell;
use std::rc::Rc;

/// A memory-mapped device.
pub trait Device {
    fn read(&mut self, addr: u32) -> u8;
    fn write(&mut self, addr: u32, value: u8);
    fn size(&self) -> u32;
    fn debug_read(&mut self, _addr: u32) -> Option<u8> {
        None
    }
}

/// The bus; the board calls its devices itself, so attaching does nothing.
pub struct Bus;

impl Bus {
    /// For the state of any build of timing.rs.
    pub(crate) fn attach_pec_timing<State>(&mut self, _state: Rc<RefCell<State>>) {}

    pub fn add_device(&mut self, _base: u32, _name: &str, _device: Box<dyn Device>) {}
}
