/* Naupelys, the host's side: packets composed for a panel, what a panel writes read back into values, and recordings of a line.
 *
 * The composers refuse exactly what the panel would refuse, with the panel's own reason and place: they ask the same verdict. The
 * reader accepts exactly what a panel can write. Nothing is allocated and nothing is kept between calls. Every call returns,
 * whatever the bytes, numbers and sizes, and no caller has to check first. A pointer must point to as many bytes as its length
 * says (`said` to 16, `reading` to 26; `place`, `type`, `start` and `length` to one number each); a pointer whose length is 0 is not
 * followed. No two lent buffers may overlap, but for those that are `const`.
 *
 * The number that a call returns (a composer's also in said[0]):
 *
 *    1  no more packets in the recording                (naupelys_recording_next)
 *    3  done: the packet stands at the front of its buffer, the bytes were read, or a packet was found
 *    4  refused: the panel would refuse this packet     (composers)
 *   21  the packet's buffer is not 26 bytes             (composers; before anything else is looked at)
 *   22  the recording is above 65,535 bytes             (naupelys_recording_next, as all up to 26; the first of them that applies)
 *   23  its mark is wrong or missing
 *   24  its version is unknown or missing
 *   25  an entry has a bad direction                    (25 and 26: of the first entry that has a fault, and 25 before 26)
 *   26  an entry is cut short
 *   29  not exactly one reply, error reply or report that a panel can write   (naupelys_read_reply)
 *
 * With 4 and 21 the buffer is as it came; with 3 the bytes behind the packet are. The reasons and places of 4:
 *
 *    1, place 0             unknown command: a code that no command has, all above 63 among them
 *    2, place 1             length not allowed: too few or too many data bytes, more than 22 for every command among them
 *    3, place 2 + index     a data byte out of its range, the first such
 *    4, place 24 - column   text that passes column 19
 *    5, place 2             three bytes of command 5 that are not 8, 18, 99
 *
 * What a composer says, in 16 bytes, placed as in what the panel's calls say (naupelys.h):
 *
 *    0      the number above
 *    1      command: the code's low six bits (0 with 21)
 *    2, 3   reason and place with 4, else 0
 *    4-11   0
 *   12      length of the packet with 3, else 0
 *   13-15   0
 *
 * A reading, 26 bytes:
 *
 *    0      kind: 1 a reply, 2 an error reply, 3 a report, 0 with 29
 *    1      command (0 for a report, and with 29)
 *    2      how many values
 *    3-     the values: of a reply its data bytes; of a report the key's number (0 up, 1 enter, 2 cancel, 3 left, 4 right,
 *           5 down) and then 1 for down or 0 for up; of an error reply none
 *           zeros behind
 */
#ifndef NAUPELYS_HOST_H
#define NAUPELYS_HOST_H

#include <stddef.h>
#include <stdint.h>

#ifdef __cplusplus
extern "C" {
#endif

/* Sizes. */
enum {
    NAUPELYS_HOST_PACKET = 26,
    NAUPELYS_HOST_SAID = 16,
    NAUPELYS_HOST_READING = 26,
    NAUPELYS_HOST_DATA_MOST = 22,
    NAUPELYS_HOST_RECORDING_MOST = 65535
};

/* The number that a call returns. */
enum {
    NAUPELYS_HOST_NO_MORE = 1,
    NAUPELYS_HOST_DONE = 3,
    NAUPELYS_HOST_REFUSED = 4,
    NAUPELYS_HOST_BAD_BUFFER = 21,
    NAUPELYS_HOST_TOO_LONG = 22,
    NAUPELYS_HOST_NO_MARK = 23,
    NAUPELYS_HOST_NO_VERSION = 24,
    NAUPELYS_HOST_BAD_DIRECTION = 25,
    NAUPELYS_HOST_CUT_SHORT = 26,
    NAUPELYS_HOST_UNREADABLE = 29
};

/* Places in what a composer says. */
enum {
    NAUPELYS_HOST_SAID_NUMBER = 0,
    NAUPELYS_HOST_SAID_COMMAND = 1,
    NAUPELYS_HOST_SAID_REASON = 2,
    NAUPELYS_HOST_SAID_PLACE = 3,
    NAUPELYS_HOST_SAID_LENGTH = 12
};

/* Places in a reading. */
enum {
    NAUPELYS_HOST_READING_KIND = 0,
    NAUPELYS_HOST_READING_COMMAND = 1,
    NAUPELYS_HOST_READING_COUNT = 2,
    NAUPELYS_HOST_READING_VALUES = 3
};

/* The kinds of a reading. */
enum {
    NAUPELYS_HOST_NONE = 0,
    NAUPELYS_HOST_REPLY = 1,
    NAUPELYS_HOST_ERROR = 2,
    NAUPELYS_HOST_REPORT = 3
};

/* The packet of a command's code and its data bytes. The commands without values are composed so, with no data: version 1, read
 * flash 3, store boot state 4, clear 6, poll the keys 24. */
uint8_t naupelys_compose(uint32_t code, const uint8_t *data, size_t data_size,
                         uint8_t *packet, size_t packet_size, uint8_t *said);

/* What the bytes mean, if they are exactly one reply, error reply or report that a panel in its ranges can write: nothing before it,
 * nothing behind it, all of it there. */
uint8_t naupelys_read_reply(const uint8_t *bytes, size_t size, uint8_t *reading);

/* The commands that have values. Each composes as naupelys_compose does with the command's code and its values as data, and says
 * the same. */

/* 0: a ping with 0 to 22 bytes, which come back. */
uint8_t naupelys_compose_ping(const uint8_t *data, size_t data_size,
                              uint8_t *packet, size_t packet_size, uint8_t *said);

/* 2: the sixteen bytes of user flash. */
uint8_t naupelys_compose_flash(const uint8_t *flash, size_t flash_size,
                               uint8_t *packet, size_t packet_size, uint8_t *said);

/* 5: a reboot, with the three bytes that it asks for. */
uint8_t naupelys_compose_reboot(uint8_t *packet, size_t packet_size, uint8_t *said);

/* 9: the eight rows, 0 to 63 each, of special glyph 0 to 7, which codes index and index + 8 show. */
uint8_t naupelys_compose_glyph(uint8_t index, const uint8_t *rows, size_t rows_size,
                               uint8_t *packet, size_t packet_size, uint8_t *said);

/* 10: reads eight bytes at an address, 64 to 120 in the glyphs, or 128 + 32 x row + column, column 0 to 12, in the text. */
uint8_t naupelys_compose_memory(uint8_t address,
                                uint8_t *packet, size_t packet_size, uint8_t *said);

/* 11: the cursor at column 0 to 19 of row 0 to 3. */
uint8_t naupelys_compose_cursor(uint8_t column, uint8_t row,
                                uint8_t *packet, size_t packet_size, uint8_t *said);

/* 12: cursor style 0 to 4. */
uint8_t naupelys_compose_style(uint8_t style,
                               uint8_t *packet, size_t packet_size, uint8_t *said);

/* 13: contrast 0 to 254. */
uint8_t naupelys_compose_contrast(uint8_t contrast,
                                  uint8_t *packet, size_t packet_size, uint8_t *said);

/* 14: backlight 0 to 100. */
uint8_t naupelys_compose_backlight(uint8_t backlight,
                                   uint8_t *packet, size_t packet_size, uint8_t *said);

/* 23: which key presses and releases are reported, 0 to 63 each. */
uint8_t naupelys_compose_masks(uint8_t press, uint8_t release,
                               uint8_t *packet, size_t packet_size, uint8_t *said);

/* 31: text of 1 to 20 characters from column 0 to 19 of row 0 to 3 on, not past column 19. Characters 0 to 7 show the special
 * glyphs, and so do 8 to 15, for hosts whose strings end at 0. */
uint8_t naupelys_compose_text(uint8_t column, uint8_t row, const uint8_t *text, size_t text_size,
                              uint8_t *packet, size_t packet_size, uint8_t *said);

/* 34: the level, 0 to 100, of pin 0 to 12; its config stays. */
uint8_t naupelys_compose_pin(uint8_t pin, uint8_t level,
                             uint8_t *packet, size_t packet_size, uint8_t *said);

/* 34: the level and the config, 0 to 15 with its low three bits not 6, of pin 0 to 4. */
uint8_t naupelys_compose_pin_config(uint8_t pin, uint8_t level, uint8_t config,
                                    uint8_t *packet, size_t packet_size, uint8_t *said);

/* 35: reads pin 0 to 12. */
uint8_t naupelys_compose_read_pin(uint8_t pin,
                                  uint8_t *packet, size_t packet_size, uint8_t *said);

/* Recordings of a line.
 *
 * A recording is a file, whole in memory, of at most 65,535 bytes: the mark P, L, R; a version of two bytes, low byte first, now 1; and
 * entries. An entry is a direction byte, 0 for what the host sent and 1 for what the panel sent; a length of two bytes, low byte
 * first; and that many bytes. A recording without entries is fine, and so is an entry without bytes.
 *
 * Packets are looked for in each host entry by itself, and found there as by a panel that holds nothing: a byte with which no packet
 * begins is dropped, and what is still held at the entry's end is forgotten, so that a packet cut over two entries is not found. A
 * packet of any type is one. What the panel sent is passed over.
 */

/* The next host packet of a recording from *place on. Begin with 0; each packet that is found leaves *place at the byte behind it, from
 * where the next is asked for.
 *
 * With 3, *type is the packet's type, its *length data bytes are recording[*start] and those behind it, and its type and length stand
 * in the two bytes before them. With 1 and with 22 to 26 the four numbers are as they came.
 *
 * Any other place is taken too: one before an entry's bytes, inside its header or further ahead, means the entry's first byte; from one
 * inside its bytes the look begins there, with nothing held; from one behind the recording on there is no more. Each call checks the
 * whole recording before it looks, some steps for each entry, and hands back nothing of one that is refused.
 *
 *     size_t place = 0, start, length;
 *     uint8_t type;
 *     while (naupelys_recording_next(file, size, &place, &type, &start, &length) == NAUPELYS_HOST_DONE)
 *         host_sent(type, file + start, length);
 */
uint8_t naupelys_recording_next(const uint8_t *recording, size_t recording_size,
                                size_t *place, uint8_t *type, size_t *start, size_t *length);

#ifdef __cplusplus
}
#endif
#endif
