//! The controller alone: every operation of `IrqController`, at any address.

use oracle::bus::Device;
use oracle::controller::{levels, set};
use oracle::generate::Random;
use oracle::irqc::IrqController;

/// Pending, enable and levels.
type State = (u16, u16, u16);

fn controller((pending, enable, levels): State) -> IrqController {
    let mut controller = IrqController::new();
    controller.set_enable_mask(enable);
    set(&mut controller, pending, levels);
    controller
}

fn state(controller: &mut IrqController) -> State {
    (controller.pending(), controller.enable_mask(), levels(controller))
}

fn some_states() -> impl Iterator<Item = (Random, State)> {
    (0..20_000).map(|seed| {
        let mut random = Random::new(seed);
        let state = (random.word() as u16, random.word() as u16, random.word() as u16);
        (random, state)
    })
}

#[test]
fn a_rise_latches_and_nothing_else_does() {
    for (mut random, (pending, enable, levels)) in some_states() {
        let number = random.below(20) as u8;
        let level = random.once_in(2);
        let bit = 1_u16.checked_shl(u32::from(number)).unwrap_or(0);
        let mut found = controller((pending, enable, levels));
        found.set_source(number, level);
        let expected = if level {
            (pending | bit & !levels, enable, levels | bit)
        } else {
            (pending, enable, levels & !bit)
        };
        assert_eq!(state(&mut found), expected, "source {number}");
    }
}

#[test]
fn set_source_levels_equals_set_source_for_each_masked_source() {
    for (mut random, start) in some_states() {
        let (mask, levels) = (random.word() as u16, random.word() as u16);
        let mut together = controller(start);
        together.set_source_levels(mask, levels);
        let mut one_by_one = controller(start);
        for number in (0..16).filter(|number| mask >> number & 1 == 1) {
            one_by_one.set_source(number, levels >> number & 1 == 1);
        }
        assert_eq!(state(&mut together), state(&mut one_by_one));
    }
}

#[test]
fn the_lowest_enabled_pending_source_is_output() {
    for (_, (pending, enable, levels)) in some_states().chain([(Random::new(0), (0, 0xFFFF, 0xFFFF))]) {
        let output = controller((pending, enable, levels)).irq_output();
        let lowest = (0..16).find(|number| pending & enable & 1 << number != 0);
        assert_eq!((output.valid, output.number), (lowest.is_some(), lowest.unwrap_or(0)));
    }
}

#[test]
fn registers_are_read_and_written_at_any_address() {
    for (mut random, start) in some_states() {
        let (pending, enable, levels) = start;
        let any = random.number() as u32;
        let address = random.below(18) as u32;
        let address = random.pick(&[address, address, any]);
        let byte = random.word() as u8;
        let mut found = controller(start);
        let expected = match address {
            0 => pending.to_be_bytes()[0],
            1 => pending.to_be_bytes()[1],
            4 => enable.to_be_bytes()[0],
            5 => enable.to_be_bytes()[1],
            _ => 0,
        };
        assert_eq!(found.read(address), expected, "address {address}");
        assert_eq!(found.debug_read(address), Some(expected));
        assert_eq!(state(&mut found), start);
        found.write(address, byte);
        let expected = match address {
            0 => (pending & !u16::from_be_bytes([byte, 0]), enable, levels),
            1 => (pending & !u16::from(byte), enable, levels),
            4 => (pending, u16::from_be_bytes([byte, enable as u8]), levels),
            5 => (pending, enable & 0xFF00 | u16::from(byte), levels),
            _ => start,
        };
        assert_eq!(state(&mut found), expected, "address {address}");
    }
}

#[test]
fn masks_are_set_and_cleared() {
    for (mut random, (pending, enable, levels)) in some_states() {
        let mask = random.word() as u16;
        let mut found = controller((pending, enable, levels));
        found.clear_pending(mask);
        assert_eq!(state(&mut found), (pending & !mask, enable, levels));
        found.set_enable_mask(mask);
        assert_eq!(state(&mut found), (pending & !mask, mask, levels));
        found.reset();
        assert_eq!(state(&mut found), (0, 0, 0));
    }
    assert_eq!(state(&mut IrqController::default()), (0, 0, 0));
    assert_eq!(IrqController::new().size(), 0x10);
}
