//! The timing device and its state as one component of the board, with every field set and read. This text is a child
//! of each build of timing.rs.

use super::*;
use crate::fields::{Channel, Fields, Latch};
use crate::timing::Timing;

/// `PeCTimingDevice` with the `PeCTimingState` that it shares.
pub struct TimingDevice {
    state: Rc<RefCell<PeCTimingState>>,
    device: PeCTimingDevice,
}

impl TimingDevice {
    fn new(state: PeCTimingState) -> Self {
        let state = Rc::new(RefCell::new(state));
        Self {
            state: Rc::clone(&state),
            device: PeCTimingDevice {
                state,
                count_hi_latch: [None; TIMER_CHANNELS],
                rtc_seconds_lo_latch: None,
                rtc_seconds_hi_latch: None,
            },
        }
    }

    /// The fields of the channels.
    fn channels(&self) -> [Channel; TIMER_CHANNELS] {
        self.state.borrow().timers.map(|timer| Channel {
            control: narrow(timer.control),
            counter: timer.counter,
            compare: timer.compare,
            reload: timer.reload,
            prescaler: timer.prescaler,
            phase: narrow(timer.prescaler_phase),
            pending: timer.pending,
            armed: timer.compare_armed,
        })
    }
}

impl Timing for TimingDevice {
    const RATE: u32 = MASTER_CLOCK;

    fn fresh() -> Self {
        Self::new(PeCTimingState::default())
    }

    fn from_fields(fields: &Fields) -> Self {
        let mut timing = Self::new(PeCTimingState {
            timers: fields.channels.map(|channel| HardwareTimer {
                control: u32::from(channel.control),
                counter: channel.counter,
                compare: channel.compare,
                reload: channel.reload,
                prescaler: channel.prescaler,
                prescaler_phase: u64::from(channel.phase),
                pending: channel.pending,
                compare_armed: channel.armed,
            }),
            timer_enable: fields.timer_enable,
            rtc_control: u32::from(fields.clock_control),
            rtc_seconds: fields.seconds,
            rtc_subsecond_cycles: u64::from(fields.subsecond),
            rtc_host_offset_ns: fields.offset_ns(),
            rtc_irq_control: u32::from(fields.alarm_enable),
            rtc_alarm_seconds: fields.alarm,
            rtc_alarm_pending: fields.alarm_pending,
            rtc_alarm_armed: fields.alarm_armed,
            rtc_seconds_shadow: fields.seconds_shadow,
            rtc_seconds_write_mask: fields.seconds_mask,
            rtc_host_alarm_poll_cycles: u64::from(fields.poll),
            rtc_alarm_shadow: fields.alarm_shadow,
            rtc_alarm_write_mask: fields.alarm_mask,
        });
        timing.device.count_hi_latch = fields.count_latches.map(Latch::word);
        timing.device.rtc_seconds_lo_latch = fields.clock_low_latch.word();
        timing.device.rtc_seconds_hi_latch = fields.clock_high_latch.word();
        timing
    }

    fn store(&self, fields: &mut Fields) {
        let state = self.state.borrow();
        let offset = state.rtc_host_offset_ns;
        let magnitude = offset.unsigned_abs();
        let nanoseconds = NANOS_PER_SECOND as u128;
        fields.rate = MASTER_CLOCK;
        fields.channels = self.channels();
        fields.timer_enable = state.timer_enable;
        fields.clock_control = narrow(state.rtc_control);
        fields.seconds = state.rtc_seconds;
        fields.subsecond = narrow(state.rtc_subsecond_cycles);
        fields.offset_negative = offset < 0;
        fields.offset_seconds = narrow(magnitude / nanoseconds);
        fields.offset_nanoseconds = narrow(magnitude % nanoseconds);
        fields.alarm_enable = narrow(state.rtc_irq_control);
        fields.alarm = state.rtc_alarm_seconds;
        fields.alarm_pending = state.rtc_alarm_pending;
        fields.alarm_armed = state.rtc_alarm_armed;
        fields.seconds_shadow = state.rtc_seconds_shadow;
        fields.seconds_mask = state.rtc_seconds_write_mask;
        fields.poll = narrow(state.rtc_host_alarm_poll_cycles);
        fields.alarm_shadow = state.rtc_alarm_shadow;
        fields.alarm_mask = state.rtc_alarm_write_mask;
        fields.count_latches = self.device.count_hi_latch.map(Latch::from_word);
        fields.clock_low_latch = Latch::from_word(self.device.rtc_seconds_lo_latch);
        fields.clock_high_latch = Latch::from_word(self.device.rtc_seconds_hi_latch);
    }

    fn read(&mut self, address: u16) -> u8 {
        self.device.read(u32::from(address))
    }

    fn write(&mut self, address: u16, byte: u8) {
        self.device.write(u32::from(address), byte);
    }

    fn advance(&mut self, cycles: u64) {
        self.state.borrow_mut().advance_system_cycles(cycles);
    }

    fn line_after(&self, cycles: u64) -> bool {
        let mut copy = copy_of(&self.state.borrow());
        copy.advance_system_cycles(cycles);
        copy.irq_asserted()
    }

    fn irq_asserted(&self) -> bool {
        self.state.borrow().irq_asserted()
    }

    fn cycles_until_irq(&self) -> Option<u64> {
        self.state.borrow().cycles_until_irq()
    }
}

/// A copy of a state: the Rust has no copy of its own.
fn copy_of(state: &PeCTimingState) -> PeCTimingState {
    PeCTimingState {
        timers: state.timers,
        timer_enable: state.timer_enable,
        rtc_control: state.rtc_control,
        rtc_seconds: state.rtc_seconds,
        rtc_subsecond_cycles: state.rtc_subsecond_cycles,
        rtc_host_offset_ns: state.rtc_host_offset_ns,
        rtc_irq_control: state.rtc_irq_control,
        rtc_alarm_seconds: state.rtc_alarm_seconds,
        rtc_alarm_pending: state.rtc_alarm_pending,
        rtc_alarm_armed: state.rtc_alarm_armed,
        rtc_seconds_shadow: state.rtc_seconds_shadow,
        rtc_seconds_write_mask: state.rtc_seconds_write_mask,
        rtc_host_alarm_poll_cycles: state.rtc_host_alarm_poll_cycles,
        rtc_alarm_shadow: state.rtc_alarm_shadow,
        rtc_alarm_write_mask: state.rtc_alarm_write_mask,
    }
}

fn narrow<Wide, Narrow: TryFrom<Wide>>(value: Wide) -> Narrow {
    match Narrow::try_from(value) {
        Ok(value) => value,
        Err(_) => panic!("a value is too wide for its field"),
    }
}
