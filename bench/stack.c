/* How much stack each call of naupelys.h uses: the call runs on a stack of its own that was painted before, and the deepest byte
 * that lost its paint tells. Counted are the arguments on the stack, the return address and what the call needs itself. */
#define _XOPEN_SOURCE 700
#include "naupelys.h"

#include <stdio.h>
#include <string.h>
#include <ucontext.h>

enum { STACK = 1 << 14 };

static uint8_t stack[STACK];
static ucontext_t here, there;

static uint8_t state[NAUPELYS_STATE], picture[NAUPELYS_PICTURE], font[NAUPELYS_FONT], list[NAUPELYS_LIST];
static uint8_t reply[NAUPELYS_REPLY], faults[NAUPELYS_REGISTER], said[NAUPELYS_SAID];
static uint8_t piece[NAUPELYS_PIECE_MOST];
static size_t piece_size;
static uint8_t key, pin, glyph;
static bool flag;

static void power_on(void)
{
    naupelys_power_on(state, sizeof state, picture, sizeof picture, font, sizeof font, said);
}

static void line(void)
{
    naupelys_line(state, sizeof state, piece, piece_size, picture, sizeof picture, font, sizeof font, list, sizeof list, reply,
                  sizeof reply, faults, sizeof faults, said);
}

static void press(void)
{
    naupelys_key(state, sizeof state, key, flag, reply, sizeof reply, said);
}

static void move(void)
{
    naupelys_pin(state, sizeof state, pin, flag, said);
}

static void ask(void)
{
    naupelys_symbol_cells(state, sizeof state, glyph, list, sizeof list, said);
}

/* What stands on the stack where nothing is called. */
static void no_call(void)
{
    said[0] = 0;
}

/* Runs the call on the other stack. */
static void run(void (*call)(void))
{
    getcontext(&there);
    there.uc_stack.ss_sp = stack;
    there.uc_stack.ss_size = STACK;
    there.uc_link = &here;
    makecontext(&there, call, 0);
    swapcontext(&here, &there);
}

/* How many bytes at the stack's top lost this paint, the deepest and all above it. */
static size_t painted_over(void (*call)(void), uint8_t paint)
{
    size_t deep = 0;
    memset(stack, paint, STACK);
    run(call);
    while (deep < STACK && stack[deep] == paint) {
        deep++;
    }
    return STACK - deep;
}

/* The same by two paints, since a byte may be written with what it has; both times from the same state and register. */
static size_t depth(void (*call)(void))
{
    static uint8_t kept_state[NAUPELYS_STATE], kept_faults[NAUPELYS_REGISTER];
    memcpy(kept_state, state, sizeof state);
    memcpy(kept_faults, faults, sizeof faults);
    size_t one = painted_over(call, 0xA5);
    memcpy(state, kept_state, sizeof state);
    memcpy(faults, kept_faults, sizeof faults);
    size_t other = painted_over(call, 0x5A);
    return one > other ? one : other;
}

static size_t base;

static void measure(size_t *most, void (*call)(void))
{
    size_t used = depth(call) - base;
    if (used > *most) {
        *most = used;
    }
}

static void add(uint8_t type, const uint8_t *data, uint8_t length)
{
    uint8_t *packet = piece + piece_size;
    uint16_t sum = 65535;
    packet[0] = type;
    packet[1] = length;
    memcpy(packet + 2, data, length);
    for (int i = 0; i < length + 2; i++) {
        sum ^= packet[i];
        for (int bit = 0; bit < 8; bit++) {
            sum = sum & 1 ? sum >> 1 ^ 0x8408 : sum >> 1;
        }
    }
    sum = (uint16_t)~sum;
    packet[length + 2] = sum & 255;
    packet[length + 3] = sum >> 8;
    piece_size += length + 4u;
}

/* A packet whose data begins with the bytes and goes on with the last of them. */
static void line_of(size_t *most, uint8_t type, uint8_t length, const uint8_t *front, size_t size)
{
    uint8_t data[22];
    for (size_t i = 0; i < sizeof data; i++) {
        data[i] = front[i < size ? i : size - 1];
    }
    piece_size = 0;
    add(type, data, length);
    measure(most, line);
}

int main(void)
{
    static const uint8_t fronts[][3] = {{0, 0, 1}, {1, 3, 0}, {8, 18, 99}, {12, 3, 5}, {255, 255, 255}, {64, 1, 7}};
    size_t power = 0, listen = 0, keys = 0, pins = 0, cells = 0;
    base = depth(no_call);
    for (int i = 0; i < NAUPELYS_FONT; i++) {
        font[i] = (uint8_t)(i / 8 * 37 + i % 8 * 11);
    }
    measure(&power, power_on);
    power_on();

    /* Every type and length, with data of several kinds; each call from what the one before it left. */
    for (int type = 0; type < 256; type++) {
        for (uint8_t length = 0; length <= 22; length++) {
            for (size_t f = 0; f < sizeof fronts / sizeof fronts[0]; f++) {
                line_of(&listen, (uint8_t)type, length, fronts[f], 3);
            }
        }
    }
    /* A long piece without a packet, once from an empty hold and once from a full one. */
    piece_size = NAUPELYS_PIECE_MOST;
    memset(piece, 0x16, piece_size);
    measure(&listen, line);
    line();
    measure(&listen, line);

    for (key = 0; key < 8; key++) {
        for (int i = 0; i < 4; i++) {
            flag = i % 2 == 0;
            measure(&keys, press);
        }
    }
    for (pin = 0; pin < 8; pin++) {
        for (int i = 0; i < 4; i++) {
            flag = i % 2 == 0;
            measure(&pins, move);
        }
    }
    for (glyph = 0; glyph < 9; glyph++) {
        measure(&cells, ask);
    }
    printf("power-on %zu line %zu key %zu pin %zu cells %zu\n", power, listen, keys, pins, cells);
    return 0;
}
