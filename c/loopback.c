/* Sends its argument in band 1 and prints the events read back, a line for each; or the number of a refusal, with
 * status 1. From the repository's root, after `./run lib`, with the static library or with the shared one:
 *
 *     cc -std=c99 -Itarget/lib -o loopback c/loopback.c target/lib/libmodem.a && ./loopback HELLO
 *     cc -std=c99 -Itarget/lib -o loopback c/loopback.c -Ltarget/lib -lmodem && LD_LIBRARY_PATH=target/lib ./loopback HELLO
 */
#include <stdio.h>
#include <string.h>

#include "modem.h"

/* Leader, characters and trailer, each from the state that the call before it gave. Stores how many samples they are, and
 * returns 0 or the number of the first refusal. */
static uint8_t transmit(const char *text, int16_t *samples, size_t places, size_t *length)
{
    modem_transmitter_opened opened = modem_transmitter_open(1);
    modem_sent sent;
    *length = 0;
    if (opened.number != MODEM_ACCEPTED)
        return opened.number;
    sent = modem_transmitter_idle(opened.transmitter, samples, places);
    *length += sent.count;
    if (sent.number != MODEM_ACCEPTED)
        return sent.number;
    sent = modem_transmitter_characters(sent.transmitter, (const uint8_t *)text, strlen(text), samples + *length, places - *length);
    *length += sent.count;
    if (sent.number != MODEM_ACCEPTED)
        return sent.number;
    sent = modem_transmitter_idle(sent.transmitter, samples + *length, places - *length);
    *length += sent.count;
    return sent.number;
}

/* Reads the samples in blocks as large as a call takes, and prints the events. */
static uint8_t receive(const int16_t *samples, size_t length)
{
    uint16_t events[MODEM_EVENT_PLACES(MODEM_MOST_SAMPLES)];
    int64_t differences[MODEM_EVENT_PLACES(MODEM_MOST_SAMPLES)];
    modem_receiver_opened opened = modem_receiver_open(1);
    modem_receiver receiver = opened.receiver;
    uint8_t number = opened.number;
    for (size_t at = 0; number == MODEM_ACCEPTED && at < length;) {
        size_t rest = length - at;
        size_t n = rest < MODEM_MOST_SAMPLES ? rest : MODEM_MOST_SAMPLES;
        modem_block block = modem_receiver_block(receiver, samples + at, n, events, sizeof events / sizeof *events,
                                                 differences, sizeof differences / sizeof *differences);
        for (size_t i = 0; i < block.count; i++)
            printf("%u\n", (unsigned)events[i]);
        receiver = block.receiver;
        number = block.number;
        at += n;
    }
    return number;
}

int main(int argc, char **argv)
{
    static int16_t samples[MODEM_MESSAGE_SAMPLES(MODEM_MOST_CHARACTERS)];
    size_t length;
    uint8_t number;
    if (argc != 2) {
        fprintf(stderr, "usage: %s MESSAGE\n", argc > 0 ? argv[0] : "loopback");
        return 2;
    }
    number = transmit(argv[1], samples, sizeof samples / sizeof *samples, &length);
    if (number == MODEM_ACCEPTED)
        number = receive(samples, length);
    if (number != MODEM_ACCEPTED)
        printf("refused %u\n", (unsigned)number);
    return number != MODEM_ACCEPTED;
}
