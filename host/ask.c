/* A shell as the panel's host: each line of words on standard input becomes one packet on standard output.
 *
 *    ping [TEXT]           version       flash V1 .. V16           readflash         store
 *    reboot                clear         glyph INDEX R1 .. R8      memory ADDRESS    cursor COLUMN ROW
 *    style N               contrast N    backlight N               poll              masks PRESS RELEASE
 *    text COLUMN ROW TEXT                pin PIN LEVEL [CONFIG]    readpin PIN       command CODE [V1 V2 ..]
 *
 * Values are decimal, 0 to 255, with blanks between. TEXT is all that stands behind one blank, blanks too. Empty lines and those
 * that start with # are passed over. A line that gives no packet is told on standard error, the later ones go on, and the exit
 * status is 1 at the end. Which packets there are is the library's to say: this program knows only the words. */
#include "naupelys_host.h"
#include "words.h"

#include <stdbool.h>
#include <stdio.h>
#include <string.h>

/* The room for a line. The longest that can be done, 22 values, needs about half of it. */
enum { LINE_MOST = 200 };

/* Some characters of a line. */
struct part {
    const uint8_t *from;
    size_t size;
};

struct line {
    unsigned long number;
    uint8_t room[LINE_MOST];
    size_t size;      /* of all of it, also where it is longer than its room */
    struct part rest; /* from which no word was taken yet */
    uint8_t values[LINE_MOST];
    size_t count;
    uint8_t packet[NAUPELYS_HOST_PACKET];
    uint8_t said[NAUPELYS_HOST_SAID];
};

/* The next line, without its newline; false where there is none. What a read error cut short is none. */
static bool read_line(struct line *line)
{
    int c;

    line->number++;
    line->size = 0;
    while ((c = getchar()) != EOF && c != '\n') {
        if (line->size < LINE_MOST) {
            line->room[line->size] = (uint8_t)c;
        }
        line->size++;
    }
    line->rest.from = line->room;
    line->rest.size = line->size < LINE_MOST ? line->size : LINE_MOST;
    return c == '\n' || (line->size > 0 && !ferror(stdin));
}

static struct part behind(struct part part, size_t size)
{
    struct part rest = {part.from + size, part.size - size};
    return rest;
}

/* Takes the next word from a line. A word of no characters: there is none. */
static struct part next_word(struct line *line)
{
    struct part word = line->rest;

    while (word.size > 0 && word.from[0] == ' ') {
        word = behind(word, 1);
    }
    line->rest = word;
    while (line->rest.size > 0 && line->rest.from[0] != ' ') {
        line->rest = behind(line->rest, 1);
    }
    word.size -= line->rest.size;
    return word;
}

/* All that stands behind the one blank after the last word. */
static struct part text_of(const struct line *line)
{
    return behind(line->rest, line->rest.size > 0 ? 1 : 0);
}

/* Begins what is told of a line that gives no packet. */
static void tell(const struct line *line)
{
    fprintf(stderr, "ask: line %lu: ", line->number);
    fwrite(line->room, 1, line->size, stderr);
    fputs(": ", stderr);
}

/* Tells what is wrong with a word; there is no packet then. */
static bool tell_word(const struct line *line, struct part word, const char *why)
{
    tell(line);
    fwrite(word.from, 1, word.size, stderr);
    fprintf(stderr, " %s\n", why);
    return false;
}

/* Takes the values from a line, to its end or until there are `most`. */
static bool take_values(struct line *line, size_t most)
{
    struct part word;

    line->count = 0;
    while (line->count < most && (word = next_word(line)).size > 0) {
        unsigned value = 0;
        for (size_t i = 0; i < word.size && value <= UINT8_MAX; i++) {
            bool digit = word.from[i] >= '0' && word.from[i] <= '9';
            value = digit ? 10 * value + (word.from[i] - '0') : UINT8_MAX + 1;
        }
        if (value > UINT8_MAX) {
            return tell_word(line, word, "is not a number from 0 to 255");
        }
        line->values[line->count++] = (uint8_t)value;
    }
    return true;
}

/* Composes a command by its own function where the line has as many values as that takes; else by the general one, so that the
 * library refuses what the panel would. */
static void compose(struct line *line, uint8_t code)
{
    const uint8_t *v = line->values;
    size_t count = line->count;
    struct part text = text_of(line);
    uint8_t *packet = line->packet, *said = line->said;
    size_t size = sizeof line->packet;

    if (code == PING) {
        naupelys_compose_ping(text.from, text.size, packet, size, said);
    } else if (code == TEXT && count == 2) {
        naupelys_compose_text(v[0], v[1], text.from, text.size, packet, size, said);
    } else if (code == FLASH) {
        naupelys_compose_flash(v, count, packet, size, said);
    } else if (code == GLYPH && count > 0) {
        naupelys_compose_glyph(v[0], v + 1, count - 1, packet, size, said);
    } else if (code == REBOOT && count == 0) {
        naupelys_compose_reboot(packet, size, said);
    } else if (code == MEMORY && count == 1) {
        naupelys_compose_memory(v[0], packet, size, said);
    } else if (code == CURSOR && count == 2) {
        naupelys_compose_cursor(v[0], v[1], packet, size, said);
    } else if (code == STYLE && count == 1) {
        naupelys_compose_style(v[0], packet, size, said);
    } else if (code == CONTRAST && count == 1) {
        naupelys_compose_contrast(v[0], packet, size, said);
    } else if (code == BACKLIGHT && count == 1) {
        naupelys_compose_backlight(v[0], packet, size, said);
    } else if (code == MASKS && count == 2) {
        naupelys_compose_masks(v[0], v[1], packet, size, said);
    } else if (code == PIN && count == 2) {
        naupelys_compose_pin(v[0], v[1], packet, size, said);
    } else if (code == PIN && count == 3) {
        naupelys_compose_pin_config(v[0], v[1], v[2], packet, size, said);
    } else if (code == READ_PIN && count == 1) {
        naupelys_compose_read_pin(v[0], packet, size, said);
    } else {
        naupelys_compose(code, v, count, packet, size, said);
    }
}

static bool is(struct part word, const char *name)
{
    return word.size == strlen(name) && memcmp(word.from, name, word.size) == 0;
}

/* Has the library judge the packet that a line asks for; false for a line that asks for none. */
static bool judge(struct line *line, struct part word)
{
    int code = 0;

    if (is(word, "command")) {
        if (!take_values(line, LINE_MOST)) {
            return false;
        }
        if (line->count == 0) {
            return tell_word(line, word, "has no code");
        }
        naupelys_compose(line->values[0], line->values + 1, line->count - 1, line->packet, sizeof line->packet, line->said);
        return true;
    }
    while (code < CODES && (words[code] == NULL || !is(word, words[code]))) {
        code++;
    }
    if (code == CODES) {
        return tell_word(line, word, "is none of the words");
    }
    if (!take_values(line, code == PING ? 0 : code == TEXT ? 2 : LINE_MOST)) {
        return false;
    }
    compose(line, (uint8_t)code);
    return true;
}

static const char *const reasons[] = {
    [1] = "no command has this code",
    [2] = "the length is not allowed",
    [3] = "a data byte is out of its range",
    [4] = "the text passes column 19",
    [5] = "the three bytes are not 8, 18, 99",
};

/* The place of a refusal counts the packet's bytes: the type, the length, then the data. */
static void tell_refusal(const struct line *line)
{
    unsigned reason = line->said[NAUPELYS_HOST_SAID_REASON];
    unsigned place = line->said[NAUPELYS_HOST_SAID_PLACE];

    tell(line);
    fprintf(stderr, "refused, reason %u: %s; place %u: ", reason, reasons[reason], place);
    if (place < 2) {
        fprintf(stderr, "%s\n", place == 0 ? "the type" : "the length");
    } else {
        fprintf(stderr, "data byte %u\n", place - 1);
    }
}

/* Writes the packet of a line, at once; or tells why there is none. A line to be passed over is all right. */
static bool ask(struct line *line)
{
    struct part word = next_word(line);

    if ((word.size == 0 && line->size <= LINE_MOST) || (word.size > 0 && word.from[0] == '#')) {
        return true;
    }
    if (line->size > LINE_MOST) {
        fprintf(stderr, "ask: line %lu: longer than %d characters\n", line->number, LINE_MOST);
        return false;
    }
    if (!judge(line, word)) {
        return false;
    }
    if (line->said[NAUPELYS_HOST_SAID_NUMBER] != NAUPELYS_HOST_DONE) {
        tell_refusal(line);
        return false;
    }
    fwrite(line->packet, 1, line->said[NAUPELYS_HOST_SAID_LENGTH], stdout);
    return fflush(stdout) == 0;
}

int main(void)
{
    struct line line = {0};
    bool all = true;

    while (!ferror(stdout) && read_line(&line)) {
        all = ask(&line) && all;
    }
    if (ferror(stdout)) {
        fputs("ask: standard output cannot be written\n", stderr);
    } else if (ferror(stdin)) {
        fputs("ask: standard input cannot be read\n", stderr);
        all = false;
    }
    return all ? 0 : 1;
}
