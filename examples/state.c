/* A host of the deletion machine that puts a paused machine away and goes on with it later, in another process.
 *
 *     tools/staticlib x86_64
 *     cc -I include -o state examples/state.c include/deletion_machine.c target/staticlib/libmachine.a
 *     ./state put rule.image 100 paused     runs at most 100 instructions, and writes the machine's state to a file
 *     ./state go rule.image paused          reads it back, and runs to the end
 *
 * A file that is damaged, or of another rule, is refused. What a machine returned is printed as it stands in its registers: kind and
 * word, of a function its entry. Of a failed one the status is 1, of one that could not be run 2. */
#include <inttypes.h>
#include <stdio.h>
#include <stdlib.h>
#include <string.h>

#include "deletion_machine.h"

static uint8_t image[DM_IMAGE + 1];       /* each a byte more, so that a longer file is seen to be */
static uint8_t bytes[DM_STATE_BYTES + 1];
static uint8_t digest[32];
static dm_storage storage;
static dm_state state;
static uint32_t answer[DM_ANSWER];

static int refused(const char *file, const char *why)
{
    fprintf(stderr, "%s: %s\n", file, why);
    return 2;
}

/* Reads a file of at most `most` bytes; 0 where it can't be. */
static int read_file(const char *name, uint8_t *to, size_t most, size_t *length)
{
    FILE *f = fopen(name, "rb");
    int bad;

    if (f == NULL)
        return 0;
    *length = fread(to, 1, most, f);
    bad = ferror(f);
    return fclose(f) == 0 && !bad;
}

static int write_file(const char *name, const uint8_t *from, size_t length)
{
    FILE *f = fopen(name, "wb");
    size_t wrote;

    if (f == NULL)
        return 0;
    wrote = fwrite(from, 1, length, f);
    return fclose(f) == 0 && wrote == length;
}

/* Prints how the machine stands, and what it returned. */
static int stands(void)
{
    uint32_t i;

    dm_returned(DM_STORAGE(&storage), DM_STATE(&state), answer, DM_ANSWER);
    printf("prototype %" PRIu32 ", instruction %" PRIu32 ": %s\n", answer[2], answer[3], dm_message(answer[0]));
    for (i = 0; i < answer[5]; i++)
        printf("%d %016" PRIx64 "\n", state.kinds[answer[4] + i], state.words[answer[4] + i]);
    if (fflush(stdout) != 0 || ferror(stdout))
        return refused("standard output", "can't be written");
    return answer[0] == DM_DONE || answer[0] == DM_BUDGET ? 0 : 1;
}

static int put(const char *image_file, const char *instructions, const char *file)
{
    static const uint8_t no_kinds[1] = {0};
    static const uint64_t no_words[1] = {0};
    char *end;
    unsigned long budget = strtoul(instructions, &end, 10);

    if (*end != '\0' || budget > UINT32_MAX)
        return refused(instructions, "no number of instructions");
    if (dm_start(DM_STORAGE(&storage), DM_STATE(&state), no_kinds, 0, no_words, 0, answer, DM_ANSWER) != DM_DONE)
        return refused(image_file, dm_message(answer[0]));
    dm_run(DM_STORAGE(&storage), DM_STATE(&state), (uint32_t)budget, answer, DM_ANSWER);
    dm_state_to_bytes(digest, &state, bytes);
    if (!write_file(file, bytes, DM_STATE_BYTES)) /* what was written of it is refused when it is read */
        return refused(file, "can't be written");
    return stands();
}

static int go(const char *file)
{
    enum dm_stored stored;
    size_t length;

    if (!read_file(file, bytes, sizeof bytes, &length))
        return refused(file, "can't be read");
    stored = dm_state_from_bytes(digest, bytes, length, &state);
    if (stored != DM_STORED_GOOD)
        return refused(file, dm_stored_message(stored));
    do {
        dm_run(DM_STORAGE(&storage), DM_STATE(&state), 1000, answer, DM_ANSWER);
    } while (answer[0] == DM_BUDGET);
    return stands();
}

int main(int argc, char **argv)
{
    int puts_away = argc == 5 && strcmp(argv[1], "put") == 0;
    size_t length;

    if (dm_version() != DM_VERSION)
        return refused("the library", "is of another version than the header");
    if (!puts_away && !(argc == 4 && strcmp(argv[1], "go") == 0)) {
        fprintf(stderr, "usage: state put IMAGE INSTRUCTIONS FILE\n       state go IMAGE FILE\n");
        return 2;
    }
    if (!read_file(argv[2], image, sizeof image, &length))
        return refused(argv[2], "can't be read");
    if (dm_read(image, length, DM_STORAGE(&storage), answer, DM_ANSWER) != DM_DONE)
        return refused(argv[2], dm_message(answer[0]));
    dm_image_digest(image, length, digest);
    return puts_away ? put(argv[2], argv[3], argv[4]) : go(argv[3]);
}
