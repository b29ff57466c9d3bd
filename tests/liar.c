/*
 * A board that breaks its word: it says that it lends one byte more than it has, of flash to a start (`liar read`) or of a reply buffer
 * to an upload (`liar write`). AddressSanitizer must report that the library reads or writes that byte; if it does not, a clean run
 * under it says nothing.
 */
#include <stdlib.h>
#include <string.h>
#include "mullirim.h"

enum { FLASH = 2 * MULLIRIM_BLOCK };

int main(int words, char **word)
{
    static const uint8_t upload[8] = {0xA1, 2, 0, 0, 0, 0, 0, 4};
    static uint8_t flash[FLASH], none[1];
    uint8_t *short_flash = malloc(FLASH - 1), *short_reply = malloc(MULLIRIM_REPLY_ROOM - 1);

    if (words != 2 || !short_flash || !short_reply)
        return 2;
    memset(short_flash, 0x5A, FLASH - 1);
    if (strcmp(word[1], "read") == 0)
        return (int)mullirim_start(short_flash, FLASH, 1, 2, 0, 0).code;
    struct mullirim_started s = mullirim_start(flash, FLASH, 1, 2, 0, 0);
    return (int)mullirim_request(&s.session, flash, FLASH, upload, 8, none, 0, short_reply, MULLIRIM_REPLY_ROOM).code;
}
