/* Naupelys: the module software of a front panel with four rows of twenty characters, six keys and status lights, behind the
 * CFA635 packet protocol, as document 01 and orders 2 and 4 of document 02 narrow it.
 *
 * Five calls over buffers that the caller lends. Nothing is allocated and nothing is kept between calls: all that the panel
 * knows stands in the state. Every call returns, whatever the bytes, numbers and sizes, and no caller has to check first: a bad
 * argument is refused by its number, and then the state and every buffer are as they came (power-on apart, below); `said` is
 * written by every call. A pointer must point to as many bytes as its length says (and `said` to 16); a pointer whose length
 * is 0 is not followed. No two lent buffers may overlap, but for those that are `const`.
 *
 * From a power-on that returns 3 on, with the same font and the state and the picture lent back as the last call left them, the
 * picture is after every call the one that the state draws.
 *
 * The number that a call returns (also in said[0]); the lowest that applies is given, but that 27 comes before 14:
 *
 *    1  waiting, the piece is used up        line
 *    2  a stray packet: not a command        line
 *    3  done                                 all
 *    4  a packet refused                     line
 *   10  state out of its ranges              all   (also: not 470 bytes)
 *   11  piece above 4,096 bytes              line
 *   12  picture not 640 bytes                line, power-on
 *   13  font not 2,048 bytes                 line, power-on
 *   14  list not 80 bytes                    line, symbol cells
 *   15  reply buffer not 26 bytes            line, key
 *   16  register not 448 bytes               line
 *   17  key above 5, or pin above 4          key, pin
 *   18  key already up or down as told       key
 *   27  glyph above 7                        symbol cells
 *
 * What the call says, in 16 bytes; numbers of more than one byte have their little end first:
 *
 *    0      the number above
 *    1      command: the packet's low six type bits (numbers 2, 3 and 4 of a line call), else 0
 *    2, 3   reason and place of a refused packet, else 0
 *    4-5    bytes taken from the piece
 *    6-7    bytes dropped from the line
 *    8-11   bytes run through the checksum
 *   12      length of the reply (or key report) at the front of the reply buffer, 0 if none was written
 *   13      how many cells stand at the front of the list
 *   14-15   0
 *
 * The state, 470 bytes, the line's part first. Any 470 bytes are a state. It is in its ranges if the commands and events can set
 * each of its values, and the sets are those of the live text:
 *
 *      0        how many bytes of the line are held, 0 to 25
 *      1-25     the held bytes, oldest first; those behind the count mean nothing (power-on and an accepted line call leave zeros)
 *     26-29     refusals that no record of the register holds, little end first
 *     30-198    the live settings
 *    199-367    the boot state
 *    368-370    keys down, pressed and released since the last poll: bit 0 up, 1 enter, 2 cancel, 3 left, 4 right, 5 down; 0 to 63
 *    371-373    pins: last level, fell and rose since last read; bit number = pin number, pins 0 to 4; 0 to 31
 *    374-389    user flash
 *    390-469    the sets of cells that draw each special glyph, a byte for each cell: 1 + the number of the glyph whose set the cell
 *               is in (its code in the live text is that number or 8 more), 0 where it is in none
 *
 * Settings, 169 bytes:
 *
 *      0-79     the codes shown, 20 x row + column
 *     80-143    the special glyphs, eight rows each, top row first, bit 5 left
 *    144, 145   cursor column and row
 *    146-148    cursor style, contrast, backlight
 *    149, 150   masks of key presses and releases that are reported
 *    151-163    levels of pins 0 to 12
 *    164-168    configs of pins 0 to 4
 *
 * The picture, 640 bytes: cell 20 x row + column has bytes 8 x cell to 8 x cell + 7, top line first, bit 5 left. Code c from 0 to
 * 15 draws special glyph c mod 8, so that a host whose strings end at 0 writes 8 for glyph 0; the state keeps the code that was
 * written. Any other code c draws font bytes 8c to 8c + 7, their low six bits: the font's first 128 bytes are never drawn.
 *
 * The register of faults, 64 records of 7 bytes, zeros when empty:
 *
 *      0-2      command, reason and place
 *      3-6      count, little end first; 0 makes the record free
 */
#ifndef NAUPELYS_H
#define NAUPELYS_H

#include <stdbool.h>
#include <stddef.h>
#include <stdint.h>

#ifdef __cplusplus
extern "C" {
#endif

/* The number of the layouts above: another one where a byte of them has another place or meaning. */
enum { NAUPELYS_LAYOUT = 3 };

/* Sizes. */
enum {
    NAUPELYS_STATE = 470,
    NAUPELYS_PIECE_MOST = 4096,
    NAUPELYS_PICTURE = 640,
    NAUPELYS_FONT = 2048,
    NAUPELYS_LIST = 80,
    NAUPELYS_REPLY = 26,
    NAUPELYS_REGISTER = 448,
    NAUPELYS_SAID = 16
};

/* Places in the state. */
enum {
    NAUPELYS_STATE_HELD_COUNT = 0,
    NAUPELYS_STATE_HELD = 1,
    NAUPELYS_STATE_UNFILED = 26,
    NAUPELYS_STATE_LIVE = 30,
    NAUPELYS_STATE_BOOT = 199,
    NAUPELYS_STATE_KEYS_DOWN = 368,
    NAUPELYS_STATE_KEYS_PRESSED = 369,
    NAUPELYS_STATE_KEYS_RELEASED = 370,
    NAUPELYS_STATE_PINS_LAST = 371,
    NAUPELYS_STATE_PINS_FELL = 372,
    NAUPELYS_STATE_PINS_ROSE = 373,
    NAUPELYS_STATE_FLASH = 374,
    NAUPELYS_STATE_SETS = 390
};

/* Places in settings, to be added to that of the live settings or of the boot state, and their size. */
enum {
    NAUPELYS_SETTINGS_TEXT = 0,
    NAUPELYS_SETTINGS_GLYPHS = 80,
    NAUPELYS_SETTINGS_COLUMN = 144,
    NAUPELYS_SETTINGS_ROW = 145,
    NAUPELYS_SETTINGS_STYLE = 146,
    NAUPELYS_SETTINGS_CONTRAST = 147,
    NAUPELYS_SETTINGS_BACKLIGHT = 148,
    NAUPELYS_SETTINGS_PRESS_MASK = 149,
    NAUPELYS_SETTINGS_RELEASE_MASK = 150,
    NAUPELYS_SETTINGS_LEVELS = 151,
    NAUPELYS_SETTINGS_CONFIGS = 164,
    NAUPELYS_SETTINGS = 169
};

/* Places in a record of the register, its size, and how many there are. */
enum {
    NAUPELYS_RECORD_COMMAND = 0,
    NAUPELYS_RECORD_REASON = 1,
    NAUPELYS_RECORD_PLACE = 2,
    NAUPELYS_RECORD_COUNT = 3,
    NAUPELYS_RECORD = 7,
    NAUPELYS_RECORDS = 64
};

/* Places in what a call says. */
enum {
    NAUPELYS_SAID_NUMBER = 0,
    NAUPELYS_SAID_COMMAND = 1,
    NAUPELYS_SAID_REASON = 2,
    NAUPELYS_SAID_PLACE = 3,
    NAUPELYS_SAID_TAKEN = 4,
    NAUPELYS_SAID_DROPPED = 6,
    NAUPELYS_SAID_CHECKED = 8,
    NAUPELYS_SAID_REPLY = 12,
    NAUPELYS_SAID_CELLS = 13
};

/* The number that a call returns. */
enum {
    NAUPELYS_WAITING = 1,
    NAUPELYS_STRAY = 2,
    NAUPELYS_DONE = 3,
    NAUPELYS_REFUSED = 4,
    NAUPELYS_BAD_STATE = 10,
    NAUPELYS_BAD_PIECE = 11,
    NAUPELYS_BAD_PICTURE = 12,
    NAUPELYS_BAD_FONT = 13,
    NAUPELYS_BAD_LIST = 14,
    NAUPELYS_BAD_REPLY = 15,
    NAUPELYS_BAD_REGISTER = 16,
    NAUPELYS_BAD_NUMBER = 17,
    NAUPELYS_KEY_AS_TOLD = 18,
    NAUPELYS_BAD_GLYPH = 27
};

/* The panel at power-on: writes the state, and draws all of the picture. With a picture or font of a wrong size the state is
 * written all the same and the picture is left alone; with a state of a wrong size nothing is written. */
uint8_t naupelys_power_on(uint8_t *state, size_t state_size,
                          uint8_t *picture, size_t picture_size,
                          const uint8_t *font, size_t font_size,
                          uint8_t *said);

/* A piece of what the host sent. The call ends at the first packet, or when the piece is used up: call again with the rest of
 * the piece until the number is 1 (an empty piece may still bring a packet from the held bytes). A packet's reply stands in
 * the reply buffer, the cells whose drawing changed in the list, rising, and their eight bytes each in the picture. A refused
 * packet is filed in the register. */
uint8_t naupelys_line(uint8_t *state, size_t state_size,
                      const uint8_t *piece, size_t piece_size,
                      uint8_t *picture, size_t picture_size,
                      const uint8_t *font, size_t font_size,
                      uint8_t *list, size_t list_size,
                      uint8_t *reply, size_t reply_size,
                      uint8_t *faults, size_t faults_size,
                      uint8_t *said);

/* A key goes down or up: 0 up, 1 enter, 2 cancel, 3 left, 4 right, 5 down. A report that is due stands in the reply buffer. */
uint8_t naupelys_key(uint8_t *state, size_t state_size,
                     uint32_t key, bool down,
                     uint8_t *reply, size_t reply_size,
                     uint8_t *said);

/* The level at a pin, 0 to 4. */
uint8_t naupelys_pin(uint8_t *state, size_t state_size,
                     uint32_t pin, bool high,
                     uint8_t *said);

/* The cells that a special glyph is on, before it is redefined: glyph 0 to 7, and each cell of the live text whose code draws it
 * (the glyph's number or 8 more), rising, one byte a cell at the front of the list. said[13] is how many there are. The state is
 * only read. Checked are 10, 27 and 14, in this order. */
uint8_t naupelys_symbol_cells(const uint8_t *state, size_t state_size,
                              uint32_t glyph,
                              uint8_t *list, size_t list_size,
                              uint8_t *said);

#ifdef __cplusplus
}
#endif
#endif
