/* Prints the characters of the sheet on standard input, and on standard error a line for each fault, each break and each doubtful
 * bit. Ends with status 1 and the number on standard error if the sheet is refused, and with status 2 if reading or writing
 * failed. From the repository's root, after `./run lib` and `./run demo`, which builds the program that writes a sheet:
 *
 *     cc -std=c99 -Itarget/lib -o sheet c/sheet.c target/lib/libmodem.a
 *     printf '1HELLO' | target/bin/modulate | ./sheet
 */
#include <stdio.h>

#include "modem.h"

/* A character as it is. Any other event has none. */
static void put_event(uint16_t event)
{
    if (event < MODEM_NO_STOP)
        putchar(event);
    else if (event == MODEM_NO_STOP)
        fputs("no stop bit\n", stderr);
    else if (event == MODEM_CARRIER_LOST)
        fputs("carrier lost\n", stderr);
    else if (event == MODEM_BREAK)
        fputs("break\n", stderr);
    else
        fputs("doubtful bit\n", stderr);
}

/* The whole recording is one block, since a sheet has no more samples than a block may have. */
static uint8_t read_recording(uint8_t band, const int16_t *samples, size_t n)
{
    static uint16_t events[MODEM_EVENT_PLACES(MODEM_MOST_SAMPLES)];
    static int64_t differences[MODEM_EVENT_PLACES(MODEM_MOST_SAMPLES)];
    modem_receiver_opened opened = modem_receiver_open(band);
    modem_block block;
    if (opened.number != MODEM_ACCEPTED)
        return opened.number;
    block = modem_receiver_block(opened.receiver, samples, n, events, sizeof events / sizeof *events,
                                 differences, sizeof differences / sizeof *differences);
    for (size_t i = 0; i < block.count; i++)
        put_event(events[i]);
    return block.number;
}

int main(void)
{
    /* One byte more than a sheet may have, so that a longer text is refused and not cut off. */
    static uint8_t text[MODEM_MOST_SHEET_BYTES + 1];
    static int16_t samples[MODEM_MOST_SAMPLES];
    size_t bytes = fread(text, 1, sizeof text, stdin);
    modem_sheet sheet;
    uint8_t number;
    if (ferror(stdin)) {
        perror("standard input");
        return 2;
    }
    sheet = modem_sheet_read(text, bytes, samples, sizeof samples / sizeof *samples);
    number = sheet.number;
    if (number == MODEM_ACCEPTED)
        number = read_recording(sheet.band, samples, sheet.count);
    if (number != MODEM_ACCEPTED) {
        fprintf(stderr, "refused %u\n", (unsigned)number);
        return 1;
    }
    if (fflush(stdout) != 0 || ferror(stdout)) {
        perror("standard output");
        return 2;
    }
    return 0;
}
