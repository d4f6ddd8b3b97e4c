/* The modem's calls. `./run lib` makes target/lib/libmodem.a and target/lib/libmodem.so, and puts this file beside them.
 *
 * Each answer has a number, 0 if the call was accepted and otherwise why it was refused, and a count of the places that were
 * filled at the front of the list; those behind them are untouched. A refused call gives the state back exactly as it was handed
 * in, count 0, and writes nothing.
 *
 * A state goes in by value, and the answer has the next one. A list is a pointer and a length, and the lists of one call must
 * not overlap. The calls keep nothing between them and allocate nothing.
 */
#ifndef MODEM_H
#define MODEM_H

#include <stddef.h>
#include <stdint.h>

#ifdef __cplusplus
extern "C" {
#endif

/* The numbers of the refusals; docs/SPECIFICATION.md has the order in which each call looks for them. */
#define MODEM_ACCEPTED 0
#define MODEM_NO_BAND 1       /* a band is not 1 to 4 */
#define MODEM_BAD_STATE 2     /* a field of the state is out of its range, or the bands of a tap are no pair */
#define MODEM_TOO_MANY 3      /* too many characters or samples, or a block size of 0 or over MODEM_MOST_SAMPLES */
#define MODEM_TOO_SHORT 4     /* a list has too few places, or too few numbers to add */
#define MODEM_OUT_OF_RANGE 5  /* a sample or a disturbance is out of its range */
#define MODEM_SHEET_TOO_LONG 6
#define MODEM_NO_SHEET 7      /* the text has not the form of a sheet */
#define MODEM_NO_PAIR 8       /* the bands of a tap are not 1 and 2, or 3 and 4, in this order */

/* The bands 1 and 2 have the tones of Bell 103, originate and answer; 3 and 4 have those of V.21. */

#define MODEM_BIT_SAMPLES 32
#define MODEM_IDLE_SAMPLES (3 * MODEM_BIT_SAMPLES)
#define MODEM_CHARACTER_SAMPLES (10 * MODEM_BIT_SAMPLES)
#define MODEM_MOST_CHARACTERS 100   /* in one call */
#define MODEM_MOST_SAMPLES 16384    /* in one block or sheet */
#define MODEM_MOST_SHEET_BYTES 65536
#define MODEM_LARGEST_SAMPLE 8191   /* either way */
#define MODEM_DISTURBANCE 100       /* the most that a line may add to a sample, either way */

/* The samples of a message of n characters, and the places that a block of n samples needs for its events, and as many for their
 * differences: from a receiver, and from a tap. */
#define MODEM_MESSAGE_SAMPLES(n) (2 * MODEM_IDLE_SAMPLES + MODEM_CHARACTER_SAMPLES * (n))
#define MODEM_EVENT_PLACES(n) ((n) / 48 + 1)
#define MODEM_TAP_PLACES(n) (2 * MODEM_EVENT_PLACES(n))

/* An event below 256 is a character. */
#define MODEM_NO_STOP 256
#define MODEM_CARRIER_LOST 257
#define MODEM_BREAK 258
#define MODEM_DOUBT 259

/* A tap gives an event as 1,000 times its band plus the event. These are the two parts. */
#define MODEM_TAP_BAND(number) ((number) / 1000)
#define MODEM_TAP_EVENT(number) ((number) % 1000)

typedef struct {
    uint8_t number;
    size_t count;
} modem_answer;

/* The transmitter: `phase` is that of the next sample, in 1,920ths of a cycle. */
typedef struct {
    uint8_t band;
    uint16_t phase;
} modem_transmitter;

typedef struct {
    uint8_t number;
    modem_transmitter transmitter;
} modem_transmitter_opened;

typedef struct {
    modem_transmitter transmitter;
    uint8_t number;
    size_t count; /* of samples */
} modem_sent;

/* A fresh transmitter; that of band 1 if the band is refused. */
modem_transmitter_opened modem_transmitter_open(uint8_t band);

/* Sends three mark bits, the leader or the trailer of a message. */
modem_sent modem_transmitter_idle(modem_transmitter transmitter, int16_t *out, size_t places);

/* Sends each byte as a start bit, eight data bits and a stop bit. */
modem_sent modem_transmitter_characters(modem_transmitter transmitter, const uint8_t *bytes, size_t n,
                                        int16_t *out, size_t places);

/* The stages of a receiver. There is no other. */
#define MODEM_SEARCHING 0 /* for a start bit */
#define MODEM_WAITING 1   /* `wait` samples for the bit `slot` (0 start, 1 to 8 data, 9 stop); `byte` has the data bits so far */
#define MODEM_HELD 2      /* a break, until mark is back */

/* The receiver: the last 32 samples, oldest first; for how many samples in a row the level has been good, at most 32; the stage;
 * and the smallest difference so far between the energies of the two tones, over the data bits of the present character. Where it
 * does not wait, a call gives 0 for wait, slot and byte. `measured` is 1 while it waits for one of the slots 2 to 9, and otherwise
 * 0; a call then gives 0 for `smallest`. A call does not look at what it gives as 0 in these two cases. */
typedef struct {
    uint8_t band;
    int16_t window[32];
    uint8_t run;
    uint8_t stage;
    uint8_t wait;
    uint8_t slot;
    uint8_t byte;
    uint8_t measured;
    int64_t smallest; /* never negative */
} modem_receiver;

typedef struct {
    uint8_t number;
    modem_receiver receiver;
} modem_receiver_opened;

typedef struct {
    modem_receiver receiver;
    uint8_t number;
    size_t count; /* of events */
} modem_block;

/* A fresh receiver; that of band 1 if the band is refused. */
modem_receiver_opened modem_receiver_open(uint8_t band);

/* Reads the next samples of a recording. Where it is cut into blocks changes neither the events nor their differences.
 *
 * The difference of an event goes to the place of `differences` that the event has in `events`: how far apart the energies of the
 * two tones were, larger minus smaller, at that data or stop bit of its character where they were closest, up to and with the bit
 * that brought the event. Each list needs MODEM_EVENT_PLACES(n). */
modem_block modem_receiver_block(modem_receiver receiver, const int16_t *samples, size_t n,
                                 uint16_t *events, size_t places, int64_t *differences, size_t difference_places);

/* The same, and with which sample of the block each event came: its index, counted from 0, goes to the place of `indices` that
 * the event has in `events`. Each of the three lists needs MODEM_EVENT_PLACES(n). */
modem_block modem_receiver_block_indexed(modem_receiver receiver, const int16_t *samples, size_t n,
                                         uint16_t *events, size_t places, int64_t *differences, size_t difference_places,
                                         uint16_t *indices, size_t index_places);

/* The tap, for a line that carries two bands, 1 and 2 or 3 and 4: a receiver of either band, each with a state of its own. */
typedef struct {
    modem_receiver first;  /* of the lower band */
    modem_receiver second; /* of the higher */
} modem_tap;

typedef struct {
    uint8_t number;
    modem_tap tap;
} modem_tap_opened;

typedef struct {
    modem_tap tap;
    uint8_t number;
    size_t count; /* of events */
} modem_tap_reading;

/* The fresh receivers of a pair of bands; those of bands 1 and 2 if the pair is refused. */
modem_tap_opened modem_tap_open(uint8_t first, uint8_t second);

/* Both receivers read the same samples, each as it would by itself. The events come in the order of the samples; if one sample
 * brings two, that of the lower band comes first. The difference of each stands beside it. Each list needs MODEM_TAP_PLACES(n). */
modem_tap_reading modem_tap_block(modem_tap tap, const int16_t *samples, size_t n,
                                  uint16_t *events, size_t places, int64_t *differences, size_t difference_places);

/* Sends a whole message from a fresh transmitter: leader, characters and trailer. The count is of samples. */
modem_answer modem_message_send(uint8_t band, const uint8_t *bytes, size_t n, int16_t *out, size_t places);

/* Sends a message, adds to each sample the number at its place of `disturbance`, and reads the result in blocks of `block`
 * samples. The samples as they were read, the events, which are the bytes of the message, and their differences go to the three
 * lists; those of events and of differences need a place for each byte. The count is of events. */
modem_answer modem_loopback(uint8_t band, const uint8_t *bytes, size_t n,
                            const int16_t *disturbance, size_t numbers, size_t block,
                            int16_t *samples, size_t sample_places, uint16_t *events, size_t event_places,
                            int64_t *differences, size_t difference_places);

typedef struct {
    uint8_t number;
    uint8_t band; /* 0 if the sheet is refused */
    size_t count; /* of samples */
} modem_sheet;

/* Reads a sheet, a recording as text. */
modem_sheet modem_sheet_read(const uint8_t *text, size_t bytes, int16_t *samples, size_t places);

/* Writes the sheet of a band and samples. The count is of bytes; no NUL is put behind them. */
modem_answer modem_sheet_write(uint8_t band, const int16_t *samples, size_t n, uint8_t *text, size_t places);

#ifdef __cplusplus
}
#endif

#endif
