/* The commands' codes and their words, for ask and heard alike. */
#ifndef WORDS_H
#define WORDS_H

#include <stdint.h>

enum {
    PING = 0, VERSION = 1, FLASH = 2, READ_FLASH = 3, STORE = 4, REBOOT = 5, CLEAR = 6, GLYPH = 9, MEMORY = 10, CURSOR = 11,
    STYLE = 12, CONTRAST = 13, BACKLIGHT = 14, MASKS = 23, POLL = 24, TEXT = 31, PIN = 34, READ_PIN = 35,
    CODES = UINT8_MAX + 1
};

/* The word of each code, NULL where no command has it. Every byte is a place in the table. */
static const char *const words[CODES] = {
    [PING] = "ping",            [VERSION] = "version", [FLASH] = "flash",   [READ_FLASH] = "readflash",
    [STORE] = "store",          [REBOOT] = "reboot",   [CLEAR] = "clear",   [GLYPH] = "glyph",
    [MEMORY] = "memory",        [CURSOR] = "cursor",   [STYLE] = "style",   [CONTRAST] = "contrast",
    [BACKLIGHT] = "backlight",  [MASKS] = "masks",     [POLL] = "poll",     [TEXT] = "text",
    [PIN] = "pin",              [READ_PIN] = "readpin",
};

#endif
