/* Prints how much stack each call of the modem needs: the bytes that it touches below the function that makes it. From the repository's
 * root, after `./run lib`:
 *
 *     cc -std=c99 -O2 -Itarget/lib -o target/stack c/stack.c target/lib/libmodem.a -pthread && target/stack
 *
 * A call is made in a thread whose stack was filled with one byte, and the deepest byte that has changed afterwards is looked for. What starting
 * the thread itself touches is in the line `no call`: a call that needs less shows no more than that.
 */
#define _XOPEN_SOURCE 600
#include <pthread.h>
#include <stdio.h>
#include <string.h>

#include "modem.h"

#define FILLING 0xa5
#define CHARACTERS 100
#define SAMPLES (2 * 96 + 320 * CHARACTERS)
#define BLOCK 16384

static unsigned char stack[1 << 20] __attribute__((aligned(4096)));
static uint8_t message[CHARACTERS], text[1 << 16];
static int16_t samples[SAMPLES], disturbance[SAMPLES], read_samples[1 << 16];
static uint16_t events[MODEM_TAP_PLACES(SAMPLES)], indices[MODEM_EVENT_PLACES(SAMPLES)];
static int64_t differences[MODEM_TAP_PLACES(SAMPLES)];
static size_t text_bytes;
static uint8_t refusals;

static void no_call(void)
{
}

static void open_transmitter(void)
{
    refusals |= modem_transmitter_open(1).number;
}

static void idle(void)
{
    refusals |= modem_transmitter_idle(modem_transmitter_open(1).transmitter, samples, SAMPLES).number;
}

static void characters(void)
{
    refusals |= modem_transmitter_characters(modem_transmitter_open(1).transmitter, message, CHARACTERS, samples, SAMPLES).number;
}

static void send_message(void)
{
    refusals |= modem_message_send(1, message, CHARACTERS, samples, SAMPLES).number;
}

static void open_receiver(void)
{
    refusals |= modem_receiver_open(1).number;
}

static void block(void)
{
    refusals |= modem_receiver_block(modem_receiver_open(1).receiver, samples, BLOCK, events, sizeof events / sizeof *events,
                                     differences, sizeof differences / sizeof *differences).number;
}

static void block_indexed(void)
{
    refusals |= modem_receiver_block_indexed(modem_receiver_open(1).receiver, samples, BLOCK, events, sizeof events / sizeof *events,
                                             differences, sizeof differences / sizeof *differences,
                                             indices, sizeof indices / sizeof *indices).number;
}

static void open_tap(void)
{
    refusals |= modem_tap_open(1, 2).number;
}

static void tap_block(void)
{
    refusals |= modem_tap_block(modem_tap_open(1, 2).tap, samples, BLOCK, events, sizeof events / sizeof *events,
                                differences, sizeof differences / sizeof *differences).number;
}

static void loopback(void)
{
    refusals |= modem_loopback(1, message, CHARACTERS, disturbance, SAMPLES, BLOCK, samples, SAMPLES,
                               events, sizeof events / sizeof *events,
                               differences, sizeof differences / sizeof *differences).number;
}

/* A sheet holds 37 characters at most. */
static void write_sheet(void)
{
    modem_answer answer = modem_sheet_write(1, samples, 2 * 96 + 320 * 37, text, sizeof text);
    text_bytes = answer.count;
    refusals |= answer.number;
}

static void read_sheet(void)
{
    refusals |= modem_sheet_read(text, text_bytes, read_samples, sizeof read_samples / sizeof *read_samples).number;
}

static void (*made)(void);
static size_t depth;

static void *run(void *unused)
{
    unsigned char here;
    size_t place = 0;

    (void)unused;
    made();
    while (stack[place] == FILLING)
        place++;
    depth = (size_t)(&here - &stack[place]);
    return NULL;
}

static int measure(const char *name, void (*call)(void))
{
    pthread_attr_t attributes;
    pthread_t thread;

    made = call;
    memset(stack, FILLING, sizeof stack);
    if (pthread_attr_init(&attributes) || pthread_attr_setstack(&attributes, stack, sizeof stack)
        || pthread_create(&thread, &attributes, run, NULL) || pthread_join(thread, NULL))
        return 1;
    printf("%-28s %6zu\n", name, depth);
    return 0;
}

int main(void)
{
    static const struct {
        const char *name;
        void (*call)(void);
    } calls[] = {
        {"no call", no_call},
        {"modem_transmitter_open", open_transmitter},
        {"modem_transmitter_idle", idle},
        {"modem_transmitter_characters", characters},
        {"modem_message_send", send_message},
        {"modem_receiver_open", open_receiver},
        {"modem_receiver_block", block},
        {"modem_receiver_block_indexed", block_indexed},
        {"modem_tap_open", open_tap},
        {"modem_tap_block", tap_block},
        {"modem_sheet_write", write_sheet},
        {"modem_sheet_read", read_sheet},
        {"modem_loopback", loopback},
    };
    size_t i;

    memset(message, 'U', sizeof message);
    for (i = 0; i < sizeof calls / sizeof *calls; i++)
        if (measure(calls[i].name, calls[i].call) != 0)
            return 2;
    if (refusals != 0)
        puts("a call was refused");
    return refusals != 0;
}
