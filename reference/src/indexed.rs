//! The receiver's block call that also tells with which sample each event came.

use crate::receiver::{places_needed, refused, tested, Answer, Lists, State};
use crate::sine::Sines;

/// The same as [`crate::receiver::block`]. The index in the block of the sample that
/// brought an event, counted from 0, goes to the event's place of `indices`.
pub fn block(
    sines: &Sines,
    state: State,
    samples: &[i16],
    lists: Lists,
    indices: &mut [u16],
) -> Answer {
    let shortest = lists.places().min(indices.len());
    let has_places = shortest >= places_needed(samples.len());
    match tested(state.is_in_range(), samples, has_places) {
        0 => read(sines, state, samples, lists, indices),
        number => refused(number, state),
    }
}

fn read(
    sines: &Sines,
    mut state: State,
    samples: &[i16],
    mut lists: Lists,
    indices: &mut [u16],
) -> Answer {
    let tones = state.tones(sines);
    for (index, &sample) in (0..).zip(samples) {
        let event = state.take(&tones, sample);
        if event.is_some() {
            indices[lists.count] = index;
        }
        lists.put(event);
    }
    Answer {
        number: 0,
        count: lists.count,
        state,
    }
}
