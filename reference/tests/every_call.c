/* Makes every call of the header with lists on the heap of exactly the lengths that are told, so that a tool that watches memory
 * sees a place too many. Prints what each call answers, and a sum over each list afterwards. */
#include <stdio.h>
#include <stdlib.h>
#include <string.h>

#include "modem.h"

#define BYTES 5

static void *places(size_t count, size_t size)
{
    void *list = malloc(count * size + (count == 0));
    if (list == NULL)
        exit(3);
    memset(list, 0x77, count * size);
    return list;
}

static unsigned long plus(unsigned long sum, long number)
{
    return (sum * 31 + (unsigned long)(number + 40000)) % 1000003;
}

static void put_samples(const int16_t *list, size_t count)
{
    unsigned long sum = 0;
    for (size_t i = 0; i < count; i++)
        sum = plus(sum, list[i]);
    printf("  samples %lu\n", sum);
}

static void put_events(const uint16_t *list, size_t count)
{
    unsigned long sum = 0;
    for (size_t i = 0; i < count; i++)
        sum = plus(sum, list[i]);
    printf("  events %lu\n", sum);
}

static void put_differences(const int64_t *list, size_t count)
{
    unsigned long sum = 0;
    for (size_t i = 0; i < count; i++)
        sum = plus(sum, list[i]);
    printf("  differences %lu\n", sum);
}

static void put_answer(const char *call, unsigned number, size_t count)
{
    printf("%s: %u %zu\n", call, number, count);
}

static void put_receiver(modem_receiver r)
{
    printf("  receiver %d %d %d %d %d %d", r.band, r.run, r.stage, r.wait, r.slot, r.byte);
    printf(" %d %lld\n", r.measured, (long long)r.smallest);
    put_samples(r.window, 32);
}

static void put_sent(const char *call, modem_sent sent, int16_t *out, size_t count)
{
    put_answer(call, sent.number, sent.count);
    printf("  transmitter %d %d\n", sent.transmitter.band, sent.transmitter.phase);
    put_samples(out, count);
    free(out);
}

static void transmitter_calls(uint8_t band, const uint8_t *bytes, size_t fewer)
{
    modem_transmitter_opened opened = modem_transmitter_open(band);
    size_t idle = MODEM_IDLE_SAMPLES - fewer, all = MODEM_CHARACTER_SAMPLES * BYTES - fewer;
    int16_t *out = places(idle, sizeof *out);
    modem_sent sent;
    put_answer("open", opened.number, 0);
    sent = modem_transmitter_idle(opened.transmitter, out, idle);
    put_sent("idle", sent, out, idle);
    out = places(all, sizeof *out);
    sent = modem_transmitter_characters(sent.transmitter, bytes, BYTES, out, all);
    put_sent("characters", sent, out, all);
}

/* A block, and the same again from the state that it gave. At first the list of events is shorter, and then that of differences. */
static void receiver_calls(uint8_t band, const int16_t *samples, size_t count, size_t fewer)
{
    modem_receiver_opened opened = modem_receiver_open(band);
    modem_receiver receiver = opened.receiver;
    put_answer("receiver", opened.number, 0);
    put_receiver(receiver);
    for (size_t i = 0; i < 2; i++) {
        size_t all = MODEM_EVENT_PLACES(count) - (1 - i) * fewer, difference_places = MODEM_EVENT_PLACES(count) - i * fewer;
        uint16_t *events = places(all, sizeof *events);
        int64_t *differences = places(difference_places, sizeof *differences);
        modem_block block = modem_receiver_block(receiver, samples, count, events, all, differences, difference_places);
        put_answer("block", block.number, block.count);
        put_receiver(block.receiver);
        put_events(events, all);
        put_differences(differences, difference_places);
        free(events);
        free(differences);
        receiver = block.receiver;
    }
}

/* Four times the same block: lists of exactly the places needed, and each list one place shorter. */
static void indexed_calls(uint8_t band, const int16_t *samples, size_t count)
{
    modem_receiver receiver = modem_receiver_open(band).receiver;
    for (size_t i = 0; i < 4; i++) {
        size_t exact = MODEM_EVENT_PLACES(count);
        size_t all = exact - (i == 1), difference_places = exact - (i == 2), index_places = exact - (i == 3);
        uint16_t *events = places(all, sizeof *events), *indices = places(index_places, sizeof *indices);
        int64_t *differences = places(difference_places, sizeof *differences);
        modem_block block = modem_receiver_block_indexed(receiver, samples, count, events, all, differences, difference_places,
                                                         indices, index_places);
        put_answer("indexed", block.number, block.count);
        put_receiver(block.receiver);
        put_events(events, all);
        put_differences(differences, difference_places);
        put_events(indices, index_places);
        free(events);
        free(differences);
        free(indices);
    }
}

static void put_tap(modem_tap tap)
{
    put_receiver(tap.first);
    put_receiver(tap.second);
}

static modem_tap open_tap(uint8_t first, uint8_t second)
{
    modem_tap_opened opened = modem_tap_open(first, second);
    put_answer("tap opened", opened.number, 0);
    put_tap(opened.tap);
    return opened.tap;
}

/* Both bands on one line, read twice. */
static void tap_calls(uint8_t first, uint8_t second, const uint8_t *bytes, size_t fewer)
{
    size_t count = MODEM_MESSAGE_SAMPLES(BYTES);
    int16_t *line = places(count, sizeof *line), *other = places(count, sizeof *other);
    modem_tap tap = open_tap(first, second);
    modem_message_send(first, bytes, BYTES, line, count);
    modem_message_send(second, bytes, BYTES, other, count);
    for (size_t i = 0; i < count; i++)
        line[i] = (int16_t)((line[i] + other[i]) * 2 / 3);
    for (size_t i = 0; i < 2; i++) {
        size_t all = MODEM_TAP_PLACES(count) - (1 - i) * fewer, difference_places = MODEM_TAP_PLACES(count) - i * fewer;
        uint16_t *events = places(all, sizeof *events);
        int64_t *differences = places(difference_places, sizeof *differences);
        modem_tap_reading reading = modem_tap_block(tap, line, count, events, all, differences, difference_places);
        put_answer("tap", reading.number, reading.count);
        put_tap(reading.tap);
        put_events(events, all);
        put_differences(differences, difference_places);
        if (reading.count > 0)
            printf("  band %d event %d\n", MODEM_TAP_BAND(events[0]), MODEM_TAP_EVENT(events[0]));
        free(events);
        free(differences);
        tap = reading.tap;
    }
    free(line);
    free(other);
}

static void sheet_calls(uint8_t band, const int16_t *samples, size_t count, size_t fewer)
{
    uint8_t *text = places(MODEM_MOST_SHEET_BYTES, 1);
    modem_answer written = modem_sheet_write(band, samples, count, text, MODEM_MOST_SHEET_BYTES);
    size_t all = count - fewer;
    int16_t *out = places(all, sizeof *out);
    uint8_t *exact = places(written.count, 1);
    modem_sheet sheet;
    put_answer("write", written.number, written.count);
    memcpy(exact, text, written.count);
    sheet = modem_sheet_read(exact, written.count, out, all);
    put_answer("read", sheet.number, sheet.count);
    printf("  band %d\n", sheet.band);
    put_samples(out, all);
    free(text);
    free(out);
    free(exact);
}

static void whole_calls(uint8_t band, const uint8_t *bytes, size_t fewer)
{
    size_t count = MODEM_MESSAGE_SAMPLES(BYTES), all = count - fewer;
    int16_t *added = places(count, sizeof *added), *samples = places(all, sizeof *samples);
    uint16_t *events = places(BYTES, sizeof *events);
    int64_t *differences = places(BYTES, sizeof *differences);
    modem_answer answer = modem_message_send(band, bytes, BYTES, samples, all);
    put_answer("message", answer.number, answer.count);
    put_samples(samples, all);
    receiver_calls(band, samples, all, fewer);
    indexed_calls(band, samples, all);
    sheet_calls(band, samples, all, fewer);
    for (size_t i = 0; i < count; i++)
        added[i] = i % 3 == 0 ? MODEM_DISTURBANCE : -MODEM_DISTURBANCE;
    answer = modem_loopback(band, bytes, BYTES, added, count, 100, samples, all, events, BYTES, differences, BYTES);
    put_answer("loopback", answer.number, answer.count);
    put_samples(samples, all);
    put_events(events, BYTES);
    put_differences(differences, BYTES);
    free(added);
    free(samples);
    free(events);
    free(differences);
}

int main(void)
{
    const uint8_t text[BYTES] = {0x00, 0x41, 0xff, 0x55, 0x0a};
    uint8_t *bytes = places(BYTES, 1);
    memcpy(bytes, text, BYTES);
    for (uint8_t band = 0; band <= 5; band++)
        for (size_t fewer = 0; fewer <= 1; fewer++) {
            transmitter_calls(band, bytes, fewer);
            whole_calls(band, bytes, fewer);
        }
    for (uint8_t first = 0; first <= 5; first++)
        for (uint8_t second = 0; second <= 5; second++)
            open_tap(first, second);
    for (size_t fewer = 0; fewer <= 1; fewer++) {
        tap_calls(1, 2, bytes, fewer);
        tap_calls(3, 4, bytes, fewer);
    }
    free(bytes);
    return 0;
}
