/* A small host of the deletion machine: reads an image from a file, checks it, starts it with arguments and runs it in parts until
 * it ends; then prints the answer and the returned values.
 *
 *     tools/staticlib x86_64
 *     cc -I include -o host examples/host.c include/deletion_machine.c target/staticlib/libmachine.a
 *     ./host rule.image [instructions in a part [argument...]]
 *
 * An argument is nil, true, false, an integer or a number: ./host rule.image 1000 20407 true 2.5 */
#include <errno.h>
#include <inttypes.h>
#include <stdio.h>
#include <stdlib.h>
#include <string.h>

#include "deletion_machine.h"

static uint8_t image[DM_IMAGE + 1]; /* a byte more, so that a longer image is seen to be; of the arguments one more, likewise */
static dm_storage storage;
static dm_state state;
static uint32_t answer[DM_ANSWER];
static uint8_t arg_kinds[DM_ARGUMENTS + 1];
static uint64_t arg_words[DM_ARGUMENTS + 1];

static int ended(const char *what)
{
    printf("%s: %" PRIu32 ", %s, at prototype %" PRIu32 ", instruction or line %" PRIu32, what, answer[0], dm_message(answer[0]),
           answer[2], answer[3]);
    if (answer[6] != DM_OPERAND_NONE) /* of two operands 1 is the left one; of a loop 1 index, 2 limit, 3 step */
        printf(", operand %" PRIu32, answer[6]);
    putchar('\n');
    return answer[0] == DM_DONE ? 0 : 1;
}

/* Takes an argument's text for the value that it names; 0 where it names none. */
static int take_argument(const char *text, uint8_t *kind, uint64_t *word)
{
    int64_t integer;
    double number;
    char *end;

    *word = 0;
    if (strcmp(text, "nil") == 0) {
        *kind = DM_NIL;
        return 1;
    }
    if (strcmp(text, "true") == 0 || strcmp(text, "false") == 0) {
        *kind = DM_BOOLEAN;
        *word = text[0] == 't';
        return 1;
    }
    errno = 0;
    integer = strtoll(text, &end, 10);
    if (end != text && *end == '\0') {
        *kind = DM_INTEGER;
        memcpy(word, &integer, sizeof integer);
        return errno == 0;
    }
    number = strtod(text, &end);
    *kind = DM_NUMBER;
    memcpy(word, &number, sizeof number);
    return end != text && *end == '\0';
}

static void print_string(uint64_t word)
{
    uint32_t i, said[DM_ANSWER];

    if (dm_text(DM_STORAGE(&storage), word, said, DM_ANSWER) != DM_DONE)
        return;
    putchar('"');
    for (i = 0; i < said[5]; i++) {
        uint8_t b = storage.texts[said[4] + i];
        if (b >= 32 && b < 127 && b != '"' && b != '\\')
            putchar(b);
        else
            printf("\\x%02x", b);
    }
    puts("\"");
}

static void print_value(uint8_t kind, uint64_t word)
{
    int64_t integer;
    double number;

    switch (kind) {
    case DM_BOOLEAN:
        puts(word ? "true" : "false");
        break;
    case DM_INTEGER:
        memcpy(&integer, &word, sizeof integer);
        printf("%" PRId64 "\n", integer);
        break;
    case DM_NUMBER:
        memcpy(&number, &word, sizeof number);
        printf("%.17g\n", number);
        break;
    case DM_STRING:
        print_string(word);
        break;
    case DM_FUNCTION:
        printf("function %" PRIu64 "\n", DM_FUNCTION_PROTOTYPE(state.frames, word));
        break;
    default:
        puts("nil");
    }
}

static int usage(void)
{
    fprintf(stderr, "usage: host IMAGE [INSTRUCTIONS IN A PART [ARGUMENT...]]\n"
                    "an argument is nil, true, false, an integer or a number\n");
    return 2;
}

int main(int argc, char **argv)
{
    unsigned long part = 1000;
    size_t n, given = argc > 3 ? (size_t)argc - 3 : 0;
    uint64_t count = 0;
    uint32_t i;
    char *end;
    FILE *f;

    if (dm_version() != DM_VERSION) {
        fprintf(stderr, "the library's version is %" PRIu32 ", the header's %d\n", dm_version(), DM_VERSION);
        return 2;
    }
    if (argc < 2)
        return usage();
    if (argc > 2) {
        part = strtoul(argv[2], &end, 10);
        if (*end != '\0' || part == 0 || part > UINT32_MAX)
            return usage();
    }
    if (given > DM_ARGUMENTS + 1) /* too many either way */
        given = DM_ARGUMENTS + 1;
    for (i = 0; i < given; i++)
        if (!take_argument(argv[3 + i], &arg_kinds[i], &arg_words[i]))
            return usage();
    if ((f = fopen(argv[1], "rb")) == NULL) {
        perror(argv[1]);
        return 2;
    }
    n = fread(image, 1, sizeof image, f);
    fclose(f);

    if (dm_read(image, n, DM_STORAGE(&storage), answer, DM_ANSWER) != DM_DONE)
        return ended("not read");
    if (dm_check(DM_STORAGE(&storage), answer, DM_ANSWER) != DM_DONE)
        return ended("not accepted");
    if (dm_start(DM_STORAGE(&storage), DM_STATE(&state), arg_kinds, given, arg_words, given, answer, DM_ANSWER) != DM_DONE)
        return ended("not started");
    if (given > DM_PARAMETERS(storage.table)) { /* the machine drops what the rule doesn't take; this host doesn't */
        printf("not started: arguments given: %d, parameters of the rule: %" PRIu64 "\n", argc - 3, DM_PARAMETERS(storage.table));
        return 1;
    }
    do { /* a host would do its own work between two parts */
        dm_run(DM_STORAGE(&storage), DM_STATE(&state), (uint32_t)part, answer, DM_ANSWER);
        count += answer[1];
    } while (answer[0] == DM_BUDGET);

    printf("%" PRIu64 " instructions\n", count);
    if (answer[0] != DM_DONE)
        return ended("failed");
    dm_returned(DM_STORAGE(&storage), DM_STATE(&state), answer, DM_ANSWER);
    for (i = 0; i < answer[5]; i++)
        print_value(state.kinds[answer[4] + i], state.words[answer[4] + i]);
    if (fflush(stdout) != 0 || ferror(stdout)) { /* a list that is cut off would be a wrong one */
        fprintf(stderr, "what it returned can't be written\n");
        return 2;
    }
    return 0;
}
