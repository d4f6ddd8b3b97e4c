/* Reads a whole recording with spandsp's FSK receiver, for the benchmark. */

#include <stddef.h>
#include <stdint.h>
#include <stdlib.h>

#include <spandsp.h>

/* The recording's samples a second; spandsp takes SAMPLE_RATE for granted. */
enum { RECORDED_RATE = 9600 };

/* The caller's buffer, and how much of it is filled. */
struct characters {
    uint8_t *places;
    size_t room;
    size_t count;
};

/* Negative numbers are no characters: they tell that a carrier came or went. */
static void put_character(void *user_data, int character)
{
    struct characters *characters = user_data;

    if (character >= 0 && characters->count < characters->room)
        characters->places[characters->count++] = (uint8_t) character;
}

/* The rate, in hertz or in 1/100 bit/s, that spandsp finds in the recording for
   this rate, to the nearest whole number. */
static int scaled(int rate)
{
    return (rate * SAMPLE_RATE + RECORDED_RATE / 2) / RECORDED_RATE;
}

/* spandsp's preset for the band, whose channel 2 is the originate band. */
static fsk_spec_t spec_of(uint8_t band)
{
    fsk_spec_t spec = preset_fsk_specs[band == 1 ? FSK_BELL103CH2 : FSK_BELL103CH1];

    spec.freq_zero = scaled(spec.freq_zero);
    spec.freq_one = scaled(spec.freq_one);
    spec.baud_rate = scaled(spec.baud_rate);
    return spec;
}

/* Reads the samples in blocks and puts the characters, of 8 bits without parity
   and with one stop bit, into the places. Returns how many there are. spandsp
   can also frame them within fsk_rx; that reads the benchmark's recordings as
   well, and no faster. */
size_t spandsp_read(uint8_t band, const int16_t *samples, size_t length, size_t block,
                    uint8_t *places, size_t room)
{
    const fsk_spec_t spec = spec_of(band);
    struct characters characters = {places, room, 0};
    async_rx_state_t *framing = async_rx_init(NULL, 8, ASYNC_PARITY_NONE, 1, 0, put_character, &characters);
    fsk_rx_state_t *tones = fsk_rx_init(NULL, &spec, FSK_FRAME_MODE_ASYNC, async_rx_put_bit, framing);

    if (framing == NULL || tones == NULL)
        abort();
    for (size_t start = 0; start < length; start += block) {
        size_t left = length - start;

        fsk_rx(tones, samples + start, (int) (left < block ? left : block));
    }
    fsk_rx_free(tones);
    async_rx_free(framing);
    return characters.count;
}
