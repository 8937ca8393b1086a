/* The deletion machine: reads an image, checks it, and runs it in parts.
 *
 *     tools/staticlib x86_64      proves and makes target/staticlib/libmachine.a, for x86-64 Linux
 *     cc host.c libmachine.a      links it; no other library is needed
 *
 * Stored states and texts, the last section, are C: deletion_machine.c, beside this file, is compiled with host.c.
 *
 * What is lent. A slice is a pointer and a length in elements. All memory is the host's: nothing is allocated, nothing is
 * kept between two calls, and no call waits. STORAGE is where an image is read to, STATE is a machine; both are plain data,
 * may be copied and stored, and hold no pointers. A slice may be longer than its size below; what lies beyond what a function
 * writes is unchanged. Slices that one call writes must not overlap another slice of that call, and every pointer must
 * be good for its length (and not null, also where the length is 0).
 *
 * What is answered. Every function returns a number (enum dm_number) and writes to `answer`, which has at least DM_ANSWER
 * elements:
 *
 *     answer[0]  the number again
 *     answer[1]  the instructions carried out by this call; 0 outside runs
 *     answer[2]  the prototype  } of the instruction that returned, raised, faulted, was refused or comes next;
 *     answer[3]  the instruction} for dm_read the line; 0 where nothing of the kind is at fault
 *     answer[4], answer[5]      as the function says; else unchanged
 *     answer[6]  the operand that an operator error names (enum dm_operand); 0 where nothing is named
 *
 * answer[7] and all beyond stay as they are. Where `answer` is shorter than DM_ANSWER the number is 5, of dm_run and
 * dm_returned 60, and nothing at all is touched. Where 5 or 6 is answered, everything lent but `answer` is untouched.
 *
 * What a host leaves alone. The thread that calls dm_run has the floating-point environment that a C program starts with:
 * rounding to nearest, no flush-to-zero, no denormals-are-zero. Under another one every call still ends and keeps to what is
 * said here of memory, but numbers may come out otherwise.
 *
 * Contents don't matter for safety: whatever bytes the slices hold, each call ends with one of the numbers. What each
 * function answers and leaves, for any input, is proved; crates/machine/specs/Face.antt has the definitions. (Not of the last
 * section, which is tested.) */
#ifndef DELETION_MACHINE_H
#define DELETION_MACHINE_H

#include <stddef.h>
#include <stdint.h>

#ifdef __cplusplus
extern "C" {
#endif

/* ---- the version ---- */

/* 10000 * major + 100 * minor + patch: 300 is 0.3.0. This header's, and the linked library's: a host compares the two, once, before
 * anything else, and stops where they differ. */
#define DM_VERSION 300
uint32_t dm_version(void);

/* ---- sizes, in elements: how long the slices have to be ---- */

#define DM_TABLE 421       /* uint64_t table       STORAGE: the prototypes */
#define DM_CODE 5041       /* uint64_t code                 the instructions */
#define DM_CONSTANTS 8448  /* uint8_t  const_kinds, uint64_t const_words: the constants */
#define DM_TEXTS 32768     /* uint8_t  texts                the strings' bytes */
#define DM_FRAMES 754      /* uint64_t frames      STATE:   the mark, the activations, the functions and their cells */
#define DM_REGISTERS 2436  /* uint8_t  kinds, uint64_t words: the registers, and the values of closed cells */
#define DM_ANSWER 8        /* uint32_t answer */
#define DM_IMAGE 65536     /* the longest image, in bytes; also an output that any image fits */
#define DM_ARGUMENTS 8     /* the most arguments */

/* ---- a value: a kind and a word ---- */

enum dm_kind {
    DM_NIL = 0,      /* word 0 */
    DM_BOOLEAN = 1,  /* word 0 or 1 */
    DM_INTEGER = 2,  /* the 64 bits of a signed integer */
    DM_NUMBER = 3,   /* the 64 bits of a double */
    DM_STRING = 4,   /* the number of its constant in the whole image: see dm_text */
    DM_FUNCTION = 5  /* its closure entry, 0 to 63, in the frames of the same state: see DM_FUNCTION_PROTOTYPE */
};

/* ---- the numbers ---- */

enum dm_number {
    DM_DONE = 0,                /* the machine has finished; outside runs: nothing refused */

    DM_BAD_LINE = 1,            /* reading: a line is empty, not paired lowercase hexadecimal, or lacks LF */
    DM_BAD_FRAME = 2,           /* reading: unknown kind, wrong length, tag, order or field; e0's count is wrong */
    DM_TOO_MANY = 3,            /* reading: too many bytes, prototypes, descriptors, constants or instructions */
    DM_BAD_END = 4,             /* reading: no e0 at the end, or a byte after it */
    DM_TOO_SHORT = 5,           /* storage, state, output or answer is too short */
    DM_NO_IMAGE = 6,            /* no image reads to this storage */

    DM_BAD_OPERATION = 10,      /* checker: operation not carried, or a count of 255 */
    DM_BAD_BYTE = 11,           /* checker: an unused byte or flag is not 0, a yes/no byte is above 1 */
    DM_BAD_REGISTER = 12,       /* checker; also the register from which a Jump closes */
    DM_BAD_CONSTANT = 13,       /* checker */
    DM_BAD_TARGET = 14,         /* checker */
    DM_BAD_PROTOTYPE = 15,      /* checker: a Closure's prototype is not there, or there is none at all */
    DM_BAD_UPVALUE = 16,        /* checker: an upvalue, or a descriptor of a Closure's prototype, out of range; prototype 0 has
                                   descriptors, at instruction 0 */

    DM_BAD_ARGUMENT = 20,       /* start: more than 8, or one not nil, boolean, integer or number; dm_text: no string */

    DM_ERROR_ADD = 30,          /* Lua errors: an operand is unfit, and answer[6] names it; for 30 to 42 a string that reads as
                                   a figure is not. A loop's controls give 31 at its beginning, 30 later */
    DM_ERROR_SUBTRACT = 31,
    DM_ERROR_MULTIPLY = 32,
    DM_ERROR_FLOAT_DIVIDE = 33,
    DM_ERROR_FLOOR_DIVIDE = 34,
    DM_ERROR_MODULO = 35,
    DM_ERROR_NEGATE = 36,
    DM_ERROR_BIT_AND = 37,
    DM_ERROR_BIT_OR = 38,
    DM_ERROR_BIT_XOR = 39,
    DM_ERROR_BIT_NOT = 40,
    DM_ERROR_SHIFT_LEFT = 41,
    DM_ERROR_SHIFT_RIGHT = 42,
    DM_ERROR_LESS = 43,
    DM_ERROR_LESS_EQUAL = 44,
    DM_ERROR_FLOOR_DIVIDE_BY_ZERO = 45, /* an integer is divided by an integer zero, which answer[6] names: 2. */
    DM_ERROR_MODULO_BY_ZERO = 46,       /* 34 and 35 remain for unfit operands, which come first */
    DM_ERROR_NO_FUNCTION = 50,  /* Call of a value that is no function */
    DM_ERROR_CALLS = 51,        /* Call with 16 live activations */
    DM_ERROR_REGISTERS = 52,    /* Call that would pass 2,048 registers */
    DM_ERROR_FUNCTIONS = 53,    /* Closure with no closure entry free: the run has made 64 functions */
    DM_ERROR_CELLS = 54,        /* Closure that needs more cells than are free, of 128 */

    DM_FAULT = 60,              /* an unfit state, or an instruction that breaks a rule; not after a start that was not refused */
    DM_BUDGET = 70              /* the budget is used, and the machine still runs */
};

/* whether a number is a Lua error's: `is_lua_error` of the definitions */
#define DM_IS_LUA_ERROR(number) \
    (((number) >= DM_ERROR_ADD && (number) <= DM_ERROR_MODULO_BY_ZERO) || \
     ((number) >= DM_ERROR_NO_FUNCTION && (number) <= DM_ERROR_CELLS))

/* ---- the operand that an operator error, 30 to 46, names in answer[6] ---- */

/* The first unfit one. Of a comparison of two kinds that don't go together it is the right one where the left is an integer,
 * number or string, else the left one. 45 and 46 name the right one. Left and right are the instruction's: in Lua's code a > b
 * is b < a. The instruction also tells whether 30 or 31 is a loop's. */
enum dm_operand {
    DM_OPERAND_NONE = 0,   /* nothing is named: all other answers */
    DM_OPERAND_LEFT = 1,   /* the left operand, or the only one */
    DM_OPERAND_RIGHT = 2,
    DM_OPERAND_INDEX = 1,  /* a loop's controls; its beginning looks at index and step alone */
    DM_OPERAND_LIMIT = 2,
    DM_OPERAND_STEP = 3
};

/* ---- what to lend, for a host that has nothing against static sizes ---- */

typedef struct dm_storage {
    uint64_t table[DM_TABLE];
    uint64_t code[DM_CODE];
    uint8_t const_kinds[DM_CONSTANTS];
    uint64_t const_words[DM_CONSTANTS];
    uint8_t texts[DM_TEXTS];
} dm_storage;

/* What the frames hold:
 *
 *     [0]               the mark: 70 while the machine runs, 0 when it has finished, else its Lua error's number + 256 * the operand
 *                       that it names
 *     [1]               how many activations are alive, 1 to 16
 *     [2 + 2 * i]       activation i, the outermost is 0: its prototype
 *     [3 + 2 * i]       its instruction
 *     [34 + i]          the function that was called for it: 0 none, of the outermost; else its entry + 1
 *     [50 + 9 * e]      closure entry e, 0 to 63, a function: 0 free, else its prototype + 1
 *     [51 + 9 * e + j]  its upvalue j, 0 to 7: 0 none, else the cell + 1
 *     [626 + c]         cell c, 0 to 127, a variable that functions share: 0 free, 1 closed, 2 + r open on register r
 *
 * An open cell's value is its register's; a closed one's is kinds[2308 + c], words[2308 + c]. */
typedef struct dm_state {
    uint64_t frames[DM_FRAMES];
    uint8_t kinds[DM_REGISTERS];
    uint64_t words[DM_REGISTERS];
} dm_state;

/* the arguments for them: dm_check(DM_STORAGE(&storage), answer, DM_ANSWER) */
#define DM_STORAGE(s) \
    (s)->table, DM_TABLE, (s)->code, DM_CODE, (s)->const_kinds, DM_CONSTANTS, (s)->const_words, DM_CONSTANTS, (s)->texts, DM_TEXTS
#define DM_STATE(s) (s)->frames, DM_FRAMES, (s)->kinds, DM_REGISTERS, (s)->words, DM_REGISTERS

/* How many parameters the rule has that was read to `table`: those of prototype 0; 0 where there is none. table[0] is the number of
 * prototypes; then come, for each, its registers, its parameters, its first constant and its first instruction. From table[133] on
 * each has 9: how many descriptors it has, then these (below 256 a register of the parent, else an upvalue of the parent's + 256). */
#define DM_PARAMETERS(table) ((table)[0] == 0 ? 0 : (table)[2])

/* The prototype of a function: `word` is a register's word where its kind is DM_FUNCTION, and `frames` are those of the same state. It
 * is for values that dm_returned tells of: a word from elsewhere may be no entry's (64 or more), or a free one's, which has none.
 * Each Closure that is carried out makes an entry, and a function is its entry: two values in one state are the same function where
 * their words are equal, and two functions of one prototype may differ. */
#define DM_FUNCTION_PROTOTYPE(frames, word) ((frames)[50 + 9 * (word)] - 1)

/* ---- an image ---- */

/* Reads an image into STORAGE. 0; 5; 3 for the image's length; 1 to 4 at a line. A refusal leaves STORAGE untouched. */
uint32_t dm_read(const uint8_t *image, size_t image_length,
                 uint64_t *table, size_t table_length, uint64_t *code, size_t code_length,
                 uint8_t *const_kinds, size_t const_kinds_length, uint64_t *const_words, size_t const_words_length,
                 uint8_t *texts, size_t texts_length,
                 uint32_t *answer, size_t answer_length);

/* Writes STORAGE's image to the front of `out`. answer[4]: how many bytes, 0 where refused. 0; 5 for STORAGE; 6; 5 where
 * `out` is shorter than the image. A refusal leaves `out` untouched. */
uint32_t dm_write(const uint64_t *table, size_t table_length, const uint64_t *code, size_t code_length,
                  const uint8_t *const_kinds, size_t const_kinds_length, const uint64_t *const_words, size_t const_words_length,
                  const uint8_t *texts, size_t texts_length,
                  uint8_t *out, size_t out_length,
                  uint32_t *answer, size_t answer_length);

/* Whether the machine carries the image out without a fault: 0; 5; 6; 10 to 16 at the first bad instruction. */
uint32_t dm_check(const uint64_t *table, size_t table_length, const uint64_t *code, size_t code_length,
                  const uint8_t *const_kinds, size_t const_kinds_length, const uint64_t *const_words, size_t const_words_length,
                  const uint8_t *texts, size_t texts_length,
                  uint32_t *answer, size_t answer_length);

/* ---- a machine ---- */

/* Starts a machine on prototype 0, with the arguments arg_kinds[i], arg_words[i]; where one of the two is missing it is no
 * value. Parameters without an argument are nil, and arguments without a parameter (DM_PARAMETERS) are dropped, without a word. It
 * checks the image itself. 0; 5; 6; 10 to 16; 20. Written are the window of prototype 0 and its activation, and all entries and cells,
 * the values of closed ones too, which become 0; nothing else is, and a refusal leaves STATE untouched. */
uint32_t dm_start(const uint64_t *table, size_t table_length, const uint64_t *code, size_t code_length,
                  const uint8_t *const_kinds, size_t const_kinds_length, const uint64_t *const_words, size_t const_words_length,
                  const uint8_t *texts, size_t texts_length,
                  uint64_t *frames, size_t frames_length, uint8_t *kinds, size_t kinds_length, uint64_t *words, size_t words_length,
                  const uint8_t *arg_kinds, size_t arg_kinds_length, const uint64_t *arg_words, size_t arg_words_length,
                  uint32_t *answer, size_t answer_length);

/* Carries out at most `budget` instructions. 70: call it again to go on. 0: finished, dm_returned tells where the values are. A
 * Lua error's number (DM_IS_LUA_ERROR), and the operand that it names. 60: the state is not fit to run (then it is untouched), or
 * the next instruction breaks a rule. A finished or failed machine gives its answer again.
 *
 * The mark keeps number and operand, so a failed machine answers both again, as they are kept. A mark is unfit where its number
 * (frames[0] % 256) is neither 70 nor 0 nor a Lua error's, or what it keeps as operand (frames[0] / 256) is above 3. A running or
 * finished machine names nothing, whatever is kept; a running one leaves it alone until it finishes or fails.
 *
 * Of an image that dm_check accepts, runs of a, then b, are one run of a + b. Of another image too, but for two cases, which
 * leave the same state and answer otherwise: after a Call into a prototype without instructions the second run finds the state
 * unfit, 60 at 0, 0, where one run answers 60 at the callee's instruction 0; and after a fault a run on no budget answers 70,
 * where one run answers 60. */
uint32_t dm_run(const uint64_t *table, size_t table_length, const uint64_t *code, size_t code_length,
                const uint8_t *const_kinds, size_t const_kinds_length, const uint64_t *const_words, size_t const_words_length,
                const uint8_t *texts, size_t texts_length,
                uint64_t *frames, size_t frames_length, uint8_t *kinds, size_t kinds_length, uint64_t *words, size_t words_length,
                uint32_t budget,
                uint32_t *answer, size_t answer_length);

/* ---- results ---- */

/* What dm_run on no budget answers; it changes nothing but `answer`. Of a finished machine (0) answer[4] is the first
 * register and answer[5] how many values it returned: kinds[answer[4] + i], words[answer[4] + i]. Of any other both are 0. */
uint32_t dm_returned(const uint64_t *table, size_t table_length, const uint64_t *code, size_t code_length,
                     const uint8_t *const_kinds, size_t const_kinds_length, const uint64_t *const_words, size_t const_words_length,
                     const uint8_t *texts, size_t texts_length,
                     const uint64_t *frames, size_t frames_length, const uint8_t *kinds, size_t kinds_length,
                     const uint64_t *words, size_t words_length,
                     uint32_t *answer, size_t answer_length);

/* The bytes of a string; `word` is a register's word where its kind is DM_STRING. They begin at texts[answer[4]] and are
 * answer[5] many, inside `texts`; both are 0 where refused. 0; 5; 6; 20 where `word` names no string of this image. */
uint32_t dm_text(const uint64_t *table, size_t table_length, const uint64_t *code, size_t code_length,
                 const uint8_t *const_kinds, size_t const_kinds_length, const uint64_t *const_words, size_t const_words_length,
                 const uint8_t *texts, size_t texts_length,
                 uint64_t word,
                 uint32_t *answer, size_t answer_length);

/* ---- stored states, and texts: compile deletion_machine.c beside the host; tested, not proved ---- */

/* A state that is put away belongs to its rule. dm_run goes on with any state that is fit for the image, also with another rule's or
 * with one that was damaged, and gives a wrong list; what is stored as here is known by its image's digest and by a checksum. The
 * Rust package (State::to_bytes) writes and reads the same bytes. Numbers have their lowest byte first:
 *
 *     0 to 7      "DMSTATE" and LF
 *     8 to 11     the version of this layout: 2. 0.2.0 wrote version 1, of a state without entries and cells, which is refused
 *     12 to 15    how many bytes there are in all: DM_STATE_BYTES
 *     16 to 47    the SHA-256 of the image's bytes
 *     48 to 59    DM_FRAMES, DM_REGISTERS and DM_REGISTERS, 4 bytes each: how many frames, kinds and words follow
 *     60 to 63    0
 *     64 to ..    the frames, 8 bytes each; the kinds, a byte each; the words, 8 bytes each
 *     the last 32 the SHA-256 of all bytes before them
 *
 * The checksum tells damage, not intent: who can write the file can write another state. */
#define DM_STATE_BYTES (64 + 8 * DM_FRAMES + 9 * DM_REGISTERS + 32)

/* The digest of an image's bytes, as sha256sum prints it for the image's file; of those that dm_read took, or that dm_write wrote. */
void dm_image_digest(const uint8_t *image, size_t image_length, uint8_t digest[32]);

/* The state in bytes, of a machine on the image with this digest. */
void dm_state_to_bytes(const uint8_t digest[32], const dm_state *state, uint8_t bytes[DM_STATE_BYTES]);

/* What dm_state_from_bytes answers: the first of these that holds. */
enum dm_stored {
    DM_STORED_GOOD = 0,        /* `state` is the one that was put away, on this image */
    DM_STORED_NOT_A_STATE = 1, /* other bytes stand at the beginning */
    DM_STORED_VERSION = 2,     /* another version of the layout, as 0.2.0 wrote */
    DM_STORED_LENGTH = 3,      /* cut off, or longer than it says */
    DM_STORED_DAMAGED = 4,     /* the checksum is not that of the bytes, or their lengths don't add up */
    DM_STORED_OTHER_RULE = 5,  /* of a machine on another image */
    DM_STORED_SIZES = 6        /* of other sizes than a machine's */
};

/* The state in the bytes, which are `length` many, for the image with this digest. A refusal leaves `state` untouched. A state that is
 * taken is whole and of this rule; dm_run goes on with it. */
enum dm_stored dm_state_from_bytes(const uint8_t digest[32], const uint8_t *bytes, size_t length, dm_state *state);

/* What a number (enum dm_number) says, in words; of any other, that it isn't known. Of 20 it is what dm_start refuses. The texts are
 * in deletion_messages.h, a line each; they name no place and no operand, which are in `answer`. */
const char *dm_message(uint32_t number);
const char *dm_stored_message(enum dm_stored stored);

#ifdef __cplusplus
}
#endif

#endif
