/* The C half of stored.rs and messages.rs: what include/deletion_machine.c makes of many stored states, and its texts.
 *
 *     stored states IMAGE <STATES  for each stored state, before which its length stands in 4 bytes, the lowest first: the number that
 *                                  dm_state_from_bytes answers. It stops where a refused one touched anything, or a good one is not
 *                                  written back as it was
 *     stored messages              every number up to 4,095 that has a text, and the text; then those of dm_stored_message
 *     stored digests               the digests of the first 0 to 300 of the bytes 0, 1, 2, .. */
#include <stdio.h>
#include <stdlib.h>
#include <string.h>

#include "deletion_machine.h"

static uint8_t image[DM_IMAGE];
static uint8_t again[DM_STATE_BYTES];
static uint8_t digest[32];
static dm_state state, before;

static int stop(const char *why)
{
    fprintf(stderr, "stored: %s\n", why);
    return 1;
}

static int messages(void)
{
    const char *unknown = dm_message(UINT32_MAX);
    uint32_t number;

    for (number = 0; number < 4096; number++)
        if (strcmp(dm_message(number), unknown) != 0)
            printf("%u %s\n", (unsigned)number, dm_message(number));
    printf("- %s\n", unknown);
    for (number = 0; number < 8; number++)
        printf("%u %s\n", (unsigned)number, dm_stored_message((enum dm_stored)number));
    return 0;
}

static int digests(void)
{
    size_t length, i;

    for (i = 0; i < 300; i++)
        image[i] = (uint8_t)i;
    for (length = 0; length <= 300; length++) {
        dm_image_digest(image, length, digest);
        for (i = 0; i < 32; i++)
            printf("%02x", (unsigned)digest[i]);
        putchar('\n');
    }
    return 0;
}

static int states(const char *image_file)
{
    uint8_t head[4], *bytes;
    enum dm_stored stored;
    size_t length;
    FILE *f;

    if ((f = fopen(image_file, "rb")) == NULL)
        return stop("no image");
    length = fread(image, 1, sizeof image, f);
    fclose(f);
    dm_image_digest(image, length, digest);
    memset(&before, 0xa5, sizeof before);
    while (fread(head, 1, 4, stdin) == 4) {
        length = head[0] | (size_t)head[1] << 8 | (size_t)head[2] << 16 | (size_t)head[3] << 24;
        bytes = malloc(length == 0 ? 1 : length); /* no longer than it is, so that a sanitizer sees what is read beyond */
        if (bytes == NULL || fread(bytes, 1, length, stdin) != length)
            return stop("a state is missing");
        memcpy(&state, &before, sizeof state);
        stored = dm_state_from_bytes(digest, bytes, length, &state);
        if (stored == DM_STORED_GOOD) {
            dm_state_to_bytes(digest, &state, again);
            if (length != DM_STATE_BYTES || memcmp(again, bytes, length) != 0)
                return stop("a good state is not written back as it was");
        } else if (memcmp(&state, &before, sizeof state) != 0) {
            return stop("a refused state was touched");
        }
        free(bytes);
        printf("%d\n", (int)stored);
    }
    return 0;
}

int main(int argc, char **argv)
{
    if (argc == 3 && strcmp(argv[1], "states") == 0)
        return states(argv[2]);
    if (argc == 2 && strcmp(argv[1], "messages") == 0)
        return messages();
    if (argc == 2 && strcmp(argv[1], "digests") == 0)
        return digests();
    return stop("states IMAGE, messages, or digests");
}
