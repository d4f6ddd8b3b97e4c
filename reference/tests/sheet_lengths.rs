//! Which messages fit a sheet, computed for all messages and not only for some:
//! those of up to 37 characters, and none of 38 to 50.

use crate::common::lengths::{longest, shortest, Text};
use crate::common::recording::sending;
use crate::common::sheets::{refused, sheet, MOST_BYTES};
use crate::common::{sines, BANDS};
use reference::programs::modulate;
use reference::random::Random;

/// The most characters of which the samples fit a sheet, whatever their lines.
const MOST_CHARACTERS: usize = 50;

fn bytes(texts: &[Text]) -> Vec<usize> {
    texts.iter().map(|text| text.bytes).collect()
}

#[test]
fn all_messages_of_37_characters_fit_and_none_of_38() {
    for band in BANDS {
        let longest = bytes(&longest(band, MOST_CHARACTERS));
        let shortest = bytes(&shortest(band, MOST_CHARACTERS));
        assert!(longest[..=37].iter().all(|&bytes| bytes <= MOST_BYTES));
        assert!(shortest[38..].iter().all(|&bytes| bytes > MOST_BYTES));
        println!(
            "band {band}: 37 characters take {} to {} bytes, 38 take {} to {}",
            shortest[37], longest[37], shortest[38], longest[38]
        );
    }
}

#[test]
fn the_figures() {
    for (band, of_37, of_38) in [
        (1, (64_443, 65_092), (66_156, 66_823)),
        (2, (64_237, 64_957), (65_944, 66_688)),
        (3, (64_094, 65_199), (65_798, 66_933)),
        (4, (64_196, 64_661), (65_903, 66_381)),
    ] {
        let longest = bytes(&longest(band, 38));
        let shortest = bytes(&shortest(band, 38));
        let found = |count: usize| (shortest[count], longest[count]);
        assert_eq!((found(37), found(38)), (of_37, of_38), "band {band}");
    }
}

/// The sheet of each message that was found has so many bytes, and is printed
/// or refused.
#[test]
fn the_messages_that_were_found() {
    for band in BANDS {
        let both = [shortest, longest].map(|best| best(band, MOST_CHARACTERS));
        for text in both.iter().flatten() {
            let expected = sheet(band, &sending(band, &text.message));
            assert_eq!(expected.len(), text.bytes, "{text:?}");
            let input = [&[b'0' + band], &text.message[..]].concat();
            let found = modulate(sines(), &input);
            if text.message.len() <= 37 {
                assert!(found == expected, "{text:?}");
            } else {
                assert_eq!(found, refused(6), "{text:?}");
            }
        }
    }
}

/// All messages of one character, and many longer ones, are between the
/// shortest and the longest.
#[test]
fn no_message_is_shorter_or_longer() {
    let mut random = Random::new(61);
    for band in BANDS {
        let longest = bytes(&longest(band, MOST_CHARACTERS));
        let shortest = bytes(&shortest(band, MOST_CHARACTERS));
        let length = |message: &[u8]| sheet(band, &sending(band, message)).len();
        let single: Vec<usize> = (0..=255).map(|byte| length(&[byte])).collect();
        assert_eq!(single.iter().min(), Some(&shortest[1]));
        assert_eq!(single.iter().max(), Some(&longest[1]));
        for count in (0..=MOST_CHARACTERS).cycle().take(500) {
            let length = length(&random.bytes(count));
            let range = shortest[count]..=longest[count];
            assert!(range.contains(&length), "{length}, {count} characters");
        }
    }
}
