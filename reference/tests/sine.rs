//! The library's sine, as its transmitter gives it, against the rule.

use crate::common::{compare, sines, Call, BANDS};
use reference::library;
use reference::transmitter::State;

/// The first sample of an idle is S at the phase of the state.
#[test]
fn every_phase_in_each_band() {
    for band in BANDS {
        for phase in 0..1_920 {
            let outcome = compare(Call::Idle, State { band, phase }, 96);
            let expected = sines().s(usize::from(phase));
            assert_eq!(outcome.samples()[0], expected, "band {band}, S({phase})");
        }
    }
}

/// The one link that nothing proves: the rule's number is the whole number
/// nearest to the sine. No value lies closer than 0.0002 to a tie, so floating
/// point tells.
#[test]
fn nearest_to_the_sine() {
    for phase in 0..1_920 {
        let exact = 6_000.0 * (phase as f64 * std::f64::consts::PI / 960.0).sin();
        assert!((exact.fract().abs() - 0.5).abs() > 0.0002, "tie at {phase}");
        let nearest = exact.round() as i16;
        assert_eq!(library::sine(phase), nearest, "library, S({phase})");
        assert_eq!(sines().s(phase), nearest, "reference, S({phase})");
    }
}
