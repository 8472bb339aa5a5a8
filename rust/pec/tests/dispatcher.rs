//! The dispatcher serves the sources in turn, as S-3's sentences say.

use pec::{Controller, Dispatcher, IrqOutput};

/// Levels that no turn may change.
const LEVELS: u16 = 0x1234;

fn words(controller: &Controller) -> [u16; 3] {
    [controller.pending(), controller.enable_mask(), controller.levels()]
}

/// A turn after a remembered number, with every source enabled: the source it serves, and the pending bits and the
/// number that it leaves. The other words stay.
fn turn(last: u8, pending: u16) -> (Option<u8>, u16, u8) {
    let mut dispatcher = Dispatcher::from_last(last);
    let mut controller = Controller::from_words(pending, 0xFFFF, LEVELS);
    let served = dispatcher.next(&mut controller);
    assert_eq!(words(&controller)[1..], [0xFFFF, LEVELS]);
    (served, controller.pending(), dispatcher.last())
}

#[test]
fn a_fresh_dispatcher_remembers_15_and_serves_0_first() {
    let mut dispatcher = Dispatcher::new();
    assert_eq!(dispatcher.last(), 15);
    assert_eq!(dispatcher, Dispatcher::default());
    assert_eq!(dispatcher, Dispatcher::from_last(15));
    let mut controller = Controller::from_words(0xFFFF, 0xFFFF, 0);
    assert_eq!(dispatcher.next(&mut controller), Some(0));
    assert_eq!((controller.pending(), dispatcher.last()), (0xFFFE, 0));
}

#[test]
fn turns_go_round_from_15_to_0() {
    assert_eq!(turn(14, 0x8001), (Some(15), 0x0001, 15));
    assert_eq!(turn(15, 0x8001), (Some(0), 0x8000, 0));
    assert_eq!(turn(9, 0x0201), (Some(0), 0x0200, 0));
}

#[test]
fn the_remembered_source_comes_last() {
    assert_eq!(turn(5, 0x0070), (Some(6), 0x0030, 6));
    assert_eq!(turn(5, 0x0030), (Some(4), 0x0020, 4));
    assert_eq!(turn(5, 0x0020), (Some(5), 0x0000, 5));
    for last in 0..16 {
        assert_eq!(turn(last, 0xFFFF).0, Some((last + 1) % 16));
        assert_eq!(turn(last, 1 << last), (Some(last), 0, last));
    }
}

#[test]
fn a_number_above_15_is_read_as_15() {
    for last in 16..=255 {
        assert_eq!(Dispatcher::from_last(last).last(), last);
        assert_eq!(turn(last, 0xFFFF), (Some(0), 0xFFFE, 0));
        assert_eq!(turn(last, 0x8000), (Some(15), 0x0000, 15));
        assert_eq!(turn(last, 0x0000), (None, 0x0000, 15));
    }
}

#[test]
fn none_leaves_the_controller_and_the_number() {
    // Every source pending and none enabled; none pending and every one enabled; each pending or enabled, but not both.
    for [pending, enable] in [[0xFFFF, 0], [0, 0xFFFF], [0x5A3C, 0xA5C3]] {
        for last in 0..=255 {
            let mut dispatcher = Dispatcher::from_last(last);
            let mut controller = Controller::from_words(pending, enable, LEVELS);
            assert_eq!(dispatcher.next(&mut controller), None);
            // A number above 15 is read as 15, so 255 becomes 15.
            assert_eq!(
                (words(&controller), dispatcher.last()),
                ([pending, enable, LEVELS], last.min(15))
            );
        }
    }
}

#[test]
fn a_turn_clears_one_pending_bit_and_nothing_else() {
    // Pending and enabled: 2, 7 and 12. Pending alone: 3 and 13.
    let mut controller = Controller::from_words(0x308C, 0x1F84, LEVELS);
    let mut dispatcher = Dispatcher::new();
    for (served, pending) in [(Some(2), 0x3088), (Some(7), 0x3008), (Some(12), 0x2008), (None, 0x2008)] {
        assert_eq!(dispatcher.next(&mut controller), served);
        assert_eq!(words(&controller), [pending, 0x1F84, LEVELS]);
    }
    assert_eq!(dispatcher.last(), 12);
    // The level stayed high, so only a fall and a rise make the source pending again.
    controller = Controller::from_words(0x0004, 0xFFFF, 0x0004);
    assert_eq!(dispatcher.next(&mut controller), Some(2));
    controller.set_source(2, true);
    assert_eq!(dispatcher.next(&mut controller), None);
    controller.set_source(2, false);
    controller.set_source(2, true);
    assert_eq!(dispatcher.next(&mut controller), Some(2));
}

#[test]
fn sixteen_turns_serve_every_source_once() {
    for first in 0..16 {
        // After remembered k, all others come before k, which is served at the sixteenth turn.
        let mut dispatcher = Dispatcher::from_last(first);
        let mut controller = Controller::from_words(0, 0xFFFF, 0);
        for later in 1..=16 {
            controller.set_source_levels(0xFFFF, 0);
            controller.set_source_levels(0xFFFF, 0xFFFF);
            let lowest = IrqOutput { valid: true, number: 0 };
            assert_eq!((controller.pending(), controller.irq_output()), (0xFFFF, lowest));
            assert_eq!(dispatcher.next(&mut controller), Some((first + later) % 16));
        }
        assert_eq!(dispatcher, Dispatcher::from_last(first));
    }
}
