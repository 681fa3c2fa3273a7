/* What a panel writes, in words: standard input holds its bytes, and each reply, error reply and report becomes a line on standard
 * output. Bytes that are none of these are told too, and then the exit status is 1.
 *
 * Which bytes are a reply is the library's to say. It is asked about the oldest byte with those behind it, as many as a packet can
 * have; where it reads nothing, the oldest byte is none. */
#include "naupelys_host.h"
#include "words.h"

#include <stdbool.h>
#include <stdio.h>
#include <string.h>

/* The bytes that are not told yet, oldest first; whether a line of bytes that are none is open, and whether there ever was one. */
struct window {
    uint8_t bytes[NAUPELYS_HOST_PACKET];
    size_t count;
    bool open, any;
};

/* How many of the oldest bytes are exactly one reply, error reply or report; 0 where no number is. */
static size_t read_oldest(const struct window *window, uint8_t *reading)
{
    for (size_t size = 1; size <= window->count; size++) {
        if (naupelys_read_reply(window->bytes, size, reading) == NAUPELYS_HOST_DONE) {
            return size;
        }
    }
    return 0;
}

static void print_each(const char *form, const uint8_t *values, size_t count)
{
    for (size_t i = 0; i < count; i++) {
        printf(form, values[i]);
    }
}

/* The values of a reply. An acknowledgement has none. */
static void print_values(uint8_t code, const uint8_t *values, size_t count)
{
    if (code == VERSION) {
        printf(": ");
        print_each("%c", values, count);
    } else if (code == MEMORY) {
        printf(": address %u,", values[0]);
        print_each(" %u", values + 1, count - 1);
    } else if (code == POLL) {
        printf(": down %u, pressed %u, released %u", values[0], values[1], values[2]);
    } else if (code == READ_PIN) {
        printf(": pin %u, edges %u, level %u, config %u", values[0], values[1], values[2], values[3]);
    } else if (count > 0) {
        printf(":");
        print_each(" %02X", values, count);
    }
}

/* A line for what was read. A command is told by ask's word for it, or by its code where it has none. */
static void print_reading(const uint8_t *reading)
{
    static const char *const keys[] = {"up", "enter", "cancel", "left", "right", "down"};
    uint8_t kind = reading[NAUPELYS_HOST_READING_KIND];
    uint8_t code = reading[NAUPELYS_HOST_READING_COMMAND];
    const uint8_t *values = reading + NAUPELYS_HOST_READING_VALUES;

    if (kind == NAUPELYS_HOST_REPORT) {
        printf("key %s %s\n", keys[values[0]], values[1] == 1 ? "down" : "up");
        return;
    }
    printf(kind == NAUPELYS_HOST_ERROR ? "error reply to " : "reply to ");
    if (words[code] == NULL) {
        printf("command %u", code);
    } else {
        printf("%s", words[code]);
    }
    if (kind == NAUPELYS_HOST_REPLY) {
        print_values(code, values, reading[NAUPELYS_HOST_READING_COUNT]);
    }
    printf("\n");
}

/* Bytes that are none share a line until something else comes. */
static void print_none(struct window *window)
{
    printf(window->open ? " %02X" : "none: %02X", window->bytes[0]);
    window->open = window->any = true;
}

static void end_none(struct window *window)
{
    if (window->open) {
        printf("\n");
    }
    window->open = false;
}

/* Tells all that can be told. Fewer bytes than a packet can have may still become one, unless the input has ended. */
static void tell(struct window *window, bool ended)
{
    uint8_t reading[NAUPELYS_HOST_READING];

    while (window->count > 0) {
        size_t size = read_oldest(window, reading);
        if (size > 0) {
            end_none(window);
            print_reading(reading);
            fflush(stdout);
        } else if (ended || window->count == sizeof window->bytes) {
            print_none(window);
            size = 1;
        } else {
            break;
        }
        window->count -= size;
        memmove(window->bytes, window->bytes + size, window->count);
    }
}

int main(void)
{
    struct window window = {{0}, 0, false, false};
    int c;

    while (!ferror(stdout) && (c = getchar()) != EOF) {
        window.bytes[window.count++] = (uint8_t)c;
        tell(&window, false);
    }
    tell(&window, true);
    end_none(&window);
    fflush(stdout);
    if (ferror(stdout)) {
        fputs("heard: standard output cannot be written\n", stderr);
    } else if (ferror(stdin)) {
        fputs("heard: standard input cannot be read\n", stderr);
    }
    return window.any || ferror(stdin) || ferror(stdout) ? 1 : 0;
}
