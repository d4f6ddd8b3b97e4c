//! The programs of the specification: from the bytes of standard input to those of
//! standard output.

use crate::receiver::{
    self, places_needed, Lists, BREAK, CARRIER_LOST, DOUBT, MOST_SAMPLES, NO_STOP_BIT,
};
use crate::sheet::{self, MOST_BYTES};
use crate::sine::Sines;
use crate::transmitter::{self, Answer, CHARACTER_SAMPLES, MOST_CHARACTERS};

/// From a band digit and the characters behind it to the sheet of leader,
/// characters and trailer.
pub fn modulate(sines: &Sines, input: &[u8]) -> Vec<u8> {
    printed(sheet_of(sines, input))
}

/// From a sheet to a line for each event.
pub fn demodulate(sines: &Sines, input: &[u8]) -> Vec<u8> {
    printed(events_of(sines, input).map(|events| listed(&events)))
}

/// The output, or the lines of the first refusal.
fn printed(outcome: Result<Vec<u8>, u8>) -> Vec<u8> {
    outcome.unwrap_or_else(|number| format!("refused\n{number}\n").into_bytes())
}

fn accepted(number: u8) -> Result<(), u8> {
    if number == 0 {
        Ok(())
    } else {
        Err(number)
    }
}

fn sheet_of(sines: &Sines, input: &[u8]) -> Result<Vec<u8>, u8> {
    let (&first, message) = input.split_first().ok_or(1)?;
    let band = sheet::digit(first).ok_or(1)?;
    let samples = samples_of(sines, band, message)?;
    let mut text = vec![0; MOST_BYTES];
    let answer = sheet::write(band, &samples, &mut text);
    accepted(answer.number)?;
    text.truncate(answer.count);
    Ok(text)
}

/// Leader, one call for all the characters, and trailer.
fn samples_of(sines: &Sines, band: u8, message: &[u8]) -> Result<Vec<i16>, u8> {
    let (number, fresh) = transmitter::open(band);
    accepted(number)?;
    let mut places = [0; CHARACTER_SAMPLES * MOST_CHARACTERS];
    let mut samples = Vec::new();
    let mut append = |answer: Answer, places: &[i16]| {
        samples.extend_from_slice(&places[..answer.count]);
        accepted(answer.number).map(|()| answer.state)
    };
    let leader = transmitter::idle(sines, fresh, &mut places);
    let state = append(leader, &places)?;
    let characters = transmitter::characters(sines, state, message, &mut places);
    let state = append(characters, &places)?;
    let trailer = transmitter::idle(sines, state, &mut places);
    append(trailer, &places)?;
    Ok(samples)
}

/// One block of all the samples, from the fresh receiver of the sheet's band.
fn events_of(sines: &Sines, input: &[u8]) -> Result<Vec<u16>, u8> {
    let mut samples = vec![0; MOST_SAMPLES];
    let sheet = sheet::read(input, &mut samples);
    accepted(sheet.number)?;
    samples.truncate(sheet.count);
    let (number, fresh) = receiver::open(sheet.band);
    accepted(number)?;
    let mut events = vec![0; places_needed(samples.len())];
    let mut differences = vec![0; events.len()];
    let lists = Lists::new(&mut events, &mut differences);
    let answer = receiver::block(sines, fresh, &samples, lists);
    accepted(answer.number)?;
    events.truncate(answer.count);
    Ok(events)
}

/// The names line and the lines of the events.
fn listed(events: &[u16]) -> Vec<u8> {
    let mut lines = "number kind value\n".to_string();
    for (place, &event) in events.iter().enumerate() {
        lines += &format!("{place} {}\n", named(event));
    }
    lines.into_bytes()
}

/// The kind and the value.
fn named(event: u16) -> String {
    match event {
        0..=255 => format!("char {event:02x}"),
        NO_STOP_BIT => "nostop --".to_string(),
        CARRIER_LOST => "lost --".to_string(),
        BREAK => "break --".to_string(),
        DOUBT => "doubt --".to_string(),
        _ => unreachable!("the receiver has no event {event}"),
    }
}
