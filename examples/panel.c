/* A session with the panel: power-on, a ping, a text write, a contrast that is out of range, a key, a pin and a symbol.
 *
 * Beside each call stands what the papers say of it; panel.expected holds those lines, worked out by hand. */
#include "naupelys.h"

#include <stdio.h>

static uint8_t state[NAUPELYS_STATE];
static uint8_t picture[NAUPELYS_PICTURE];
static uint8_t font[NAUPELYS_FONT];
static uint8_t list[NAUPELYS_LIST];
static uint8_t reply[NAUPELYS_REPLY];
static uint8_t faults[NAUPELYS_REGISTER];
static uint8_t said[NAUPELYS_SAID];

/* Two bytes, and four, with their little end first. */
static unsigned two(const uint8_t *bytes)
{
    return bytes[0] + 256u * bytes[1];
}

static unsigned long four(const uint8_t *bytes)
{
    return two(bytes) + 65536ul * two(bytes + 2);
}

/* The number returned, the command, reason and place, the bytes taken, dropped and run through the checksum, the reply's
 * length and its bytes, and how many cells were listed and which. */
static void show(const char *name, uint8_t number)
{
    printf("%s: %u command %u reason %u place %u taken %u dropped %u checked %lu reply", name, number,
           said[NAUPELYS_SAID_COMMAND], said[NAUPELYS_SAID_REASON], said[NAUPELYS_SAID_PLACE],
           two(said + NAUPELYS_SAID_TAKEN), two(said + NAUPELYS_SAID_DROPPED), four(said + NAUPELYS_SAID_CHECKED));
    for (int i = 0; i < said[NAUPELYS_SAID_REPLY]; i++) {
        printf(" %02X", reply[i]);
    }
    printf(" cells");
    for (int i = 0; i < said[NAUPELYS_SAID_CELLS]; i++) {
        printf(" %u", list[i]);
    }
    printf("\n");
}

/* A packet as the host sends it, whole in one piece. */
static void send(const char *name, const uint8_t *packet, size_t size)
{
    uint8_t number = naupelys_line(state, sizeof state, packet, size, picture, sizeof picture, font, sizeof font,
                                   list, sizeof list, reply, sizeof reply, faults, sizeof faults, said);
    show(name, number);
}

/* The top line of the first row of cells: byte 8 x cell for each of 20 cells. */
static void show_top_line(void)
{
    printf("top line of row 0:");
    for (int cell = 0; cell < 20; cell++) {
        printf(" %u", picture[8 * cell]);
    }
    printf("\n");
}

int main(void)
{
    /* The line program's font: the eight rows of code c all equal c mod 64. */
    for (int i = 0; i < NAUPELYS_FONT; i++) {
        font[i] = (uint8_t)(i / 8 % 64);
    }

    /* An accepted power-on answers 3 and draws 80 spaces, code 32: each byte of the picture is 32. */
    show("power-on", naupelys_power_on(state, sizeof state, picture, sizeof picture, font, sizeof font, said));
    show_top_line();

    /* P1: a ping replies with type 64 and the same data, here none. Type and length ran through the checksum: 2 bytes. */
    static const uint8_t ping[] = {0x00, 0x00, 0x47, 0x0F};
    send("ping", ping, sizeof ping);

    /* Command 31 writes "Hi" at column 2, row 0: done, a reply of type 95 without data, and cells 2 and 3 change, since H is
     * 72, drawn as 72 mod 64 = 8, and i is 105, drawn as 41. Six bytes ran through the checksum. */
    static const uint8_t text[] = {0x1F, 0x04, 0x02, 0x00, 'H', 'i', 0xB1, 0xEA};
    send("text", text, sizeof text);
    show_top_line();

    /* P8: contrast 255 is refused for reason 3 at place 2. The error reply has type 192 + 13 = 205. */
    static const uint8_t contrast[] = {0x0D, 0x01, 0xFF, 0x13, 0x2F};
    send("contrast 255", contrast, sizeof contrast);

    /* The refusal stands in the first record: command 13, reason 3, place 2, a count of 1. The contrast is still the factory's. */
    printf("first record: command %u reason %u place %u count %lu\n", faults[NAUPELYS_RECORD_COMMAND],
           faults[NAUPELYS_RECORD_REASON], faults[NAUPELYS_RECORD_PLACE], four(faults + NAUPELYS_RECORD_COUNT));
    printf("contrast: %u\n", state[NAUPELYS_STATE_LIVE + NAUPELYS_SETTINGS_CONTRAST]);

    /* Enter is key 1. All keys are reported at power-on, so a report of type 128 and length 1 is due: 5 for enter pressed. */
    show("enter", naupelys_key(state, sizeof state, 1, true, reply, sizeof reply, said));

    /* Told again that it is down: 18, and nothing changes. */
    show("enter again", naupelys_key(state, sizeof state, 1, true, reply, sizeof reply, said));

    /* There are keys 0 to 5: 256 is none of them. */
    show("key 256", naupelys_key(state, sizeof state, 256, true, reply, sizeof reply, said));

    /* Enter's bit is 1, so that down and pressed are 2 and released is 0. */
    printf("keys: down %u pressed %u released %u\n", state[NAUPELYS_STATE_KEYS_DOWN], state[NAUPELYS_STATE_KEYS_PRESSED],
           state[NAUPELYS_STATE_KEYS_RELEASED]);

    /* Pin 3 was low at power-on and is high now: its bit, 8, is in the last levels and in those that rose. */
    show("pin 3", naupelys_pin(state, sizeof state, 3, true, said));
    printf("pins: last %u fell %u rose %u\n", state[NAUPELYS_STATE_PINS_LAST], state[NAUPELYS_STATE_PINS_FELL],
           state[NAUPELYS_STATE_PINS_ROSE]);

    /* Codes 1 and 9 at column 5, row 1 both draw glyph 1, whose rows are 0 yet: cells 25 and 26 change. */
    static const uint8_t symbols[] = {0x1F, 0x04, 0x05, 0x01, 0x01, 0x09, 0x34, 0x15};
    send("symbols", symbols, sizeof symbols);

    /* Before glyph 1 is redefined: the cells that it is on. There is no glyph 8. */
    show("glyph 1", naupelys_symbol_cells(state, sizeof state, 1, list, sizeof list, said));
    show("glyph 8", naupelys_symbol_cells(state, sizeof state, 8, list, sizeof list, said));

    /* Command 9 redefines it, eight rows of 1: those cells are the ones that change. */
    static const uint8_t glyph[] = {0x09, 0x09, 0x01, 0x01, 0x01, 0x01, 0x01, 0x01, 0x01, 0x01, 0x01, 0x2F, 0xB1};
    send("glyph 1 redefined", glyph, sizeof glyph);
    return 0;
}
