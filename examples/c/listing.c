/* The listing of a chain file from C: the specification's example, and bytes that are no file. Ends with status 1 if a text is another than expected. */
#include "spoutbasket.h"

#include <stdio.h>
#include <string.h>

/* Whether the listing of some bytes is just a text. */
static int lists(const uint8_t *bytes, size_t bytes_len, const char *expected)
{
    uint8_t text[SPOUTBASKET_LONGEST_LISTING];
    uint64_t answer[8];
    size_t length;
    spoutbasket_list(bytes, bytes_len, text, answer);
    length = (size_t)answer[0];
    fwrite(text, 1, length, stdout);
    return length == strlen(expected) && memcmp(text, expected, length) == 0;
}

int main(void)
{
    static const uint8_t file[7] = {0x11, 0x00, 0x00, 0x34, 0x5B, 0x86, 0x80};
    return lists(file, 7, "2 1 3\n1 3 2\n") && lists(file, 6, "refused 6\n") ? 0 : 1;
}
