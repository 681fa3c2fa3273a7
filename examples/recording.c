/* Lists the host's packets in a recording on standard input. The recording stands in memory whole, and nothing of it is copied: the call
 * says where a packet's data bytes are.
 *
 *     cc -Iinclude examples/recording.c target/staticlib/libnaupelys.a -o target/recording
 *     target/recording < samples/field.plr
 */
#include <stdio.h>

#include "naupelys_host.h"

/* One byte more than a recording has, so that one that is too long is refused and not cut. */
static uint8_t file[NAUPELYS_HOST_RECORDING_MOST + 1];

int main(void)
{
    size_t size = fread(file, 1, sizeof file, stdin);
    size_t place = 0, start, length, i;
    uint8_t type, number;

    while ((number = naupelys_recording_next(file, size, &place, &type, &start, &length)) == NAUPELYS_HOST_DONE) {
        printf("type %d at byte %zu:", type, start - 2);
        for (i = 0; i < length; i++)
            printf(" %02X", file[start + i]);
        printf("\n");
    }
    if (number == NAUPELYS_HOST_NO_MORE)
        printf("no more\n");
    else
        printf("refused: %d\n", number);
    return number != NAUPELYS_HOST_NO_MORE;
}
