/* edges.c: the table check as the bench computer would call it.
 *
 *   edges          the 86-byte image of R1.12 (docs/RULES.md), then each single-byte change of it (86 x 255), a line each
 *   edges FILE ..  the image in each file, a line each
 *
 * A line is what was checked, then "accepted" or "refused at PLACE".
 */
#include "soad.h"
#include "system.h"

static const uint8_t whole[86] = {
    0x00, 0x01, 0x00, 0x04,
    0x00, 0x01, 0x00, 0x01, 0x00, 0x00, 0x00, 0x24, 0x00, 0x02, 0x00, 0x01, 0x00, 0x00, 0x00, 0x26,
    0x00, 0x03, 0x00, 0x01, 0x00, 0x00, 0x00, 0x36, 0x00, 0x04, 0x00, 0x01, 0x00, 0x00, 0x00, 0x46,
    0x01, 0x00,
    0x00, 0x01, 0x00, 0x00, 0x00, 0x00, 0x00, 0x00, 0x05, 0xC0, 0x00, 0x00, 0x00, 0x00, 0x00, 0x01,
    0x00, 0x00, 0x00, 0x02, 0x00, 0x00, 0x01, 0x01, 0x00, 0x07, 0x00, 0x00, 0x00, 0x00, 0x00, 0x01,
    0x00, 0x01, 0x00, 0x02, 0x00, 0x00, 0x02, 0x02, 0x00, 0x09, 0x00, 0x00, 0x00, 0x00, 0x00, 0x00,
};

/* Prints the rest of a line: what the check says of an image. An accepted image leaves the place as it was. */
static void tell(const uint8_t *image, size_t length)
{
    const size_t before = 123456789;
    size_t place = before;
    switch (soad_table_check(image, length, &place)) {
    case SOAD_DONE:
        printf(place == before ? "accepted\n" : "accepted, but the place was written\n");
        break;
    case SOAD_TABLE_REFUSED:
        printf("refused at %zu\n", place);
        break;
    default:
        printf("an answer that the table check does not have\n");
    }
}

static void all_changes(void)
{
    uint8_t image[sizeof whole];
    memcpy(image, whole, sizeof whole);
    printf("whole: ");
    tell(image, sizeof image);
    for (size_t at = 0; at < sizeof whole; at++) {
        for (unsigned value = 0; value < 256; value++) {
            if (value == whole[at])
                continue;
            image[at] = (uint8_t)value;
            printf("byte %zu is %u: ", at, value);
            tell(image, sizeof image);
        }
        image[at] = whole[at];
    }
}

static void one_file(const char *path)
{
    static uint8_t image[1 << 16];
    size_t length = 0;
    int file = open(path, READ_ONLY);
    if (file < 0)
        die("edges: cannot open a file");
    for (long n = 1; n > 0; length += (size_t)n)
        if ((n = read(file, image + length, sizeof image - length)) < 0)
            die("edges: cannot read a file");
    close(file);
    printf("%s: ", path);
    tell(image, length);
}

int main(int count, char **words)
{
    if (count < 2)
        all_changes();
    for (int i = 1; i < count; i++)
        one_file(words[i]);
    return 0;
}
