/* What the header has for hosts in C besides the machine: stored states and texts. A host compiles it with its own files. C99,
 * also C++; nothing is allocated or kept. It is tested, against the Rust package and sha256sum, and not proved. */
#include <string.h>

#include "deletion_machine.h"

/* ---- SHA-256 (FIPS 180-4) ---- */

static const uint32_t rounds[64] = {
    0x428a2f98, 0x71374491, 0xb5c0fbcf, 0xe9b5dba5, 0x3956c25b, 0x59f111f1, 0x923f82a4, 0xab1c5ed5,
    0xd807aa98, 0x12835b01, 0x243185be, 0x550c7dc3, 0x72be5d74, 0x80deb1fe, 0x9bdc06a7, 0xc19bf174,
    0xe49b69c1, 0xefbe4786, 0x0fc19dc6, 0x240ca1cc, 0x2de92c6f, 0x4a7484aa, 0x5cb0a9dc, 0x76f988da,
    0x983e5152, 0xa831c66d, 0xb00327c8, 0xbf597fc7, 0xc6e00bf3, 0xd5a79147, 0x06ca6351, 0x14292967,
    0x27b70a85, 0x2e1b2138, 0x4d2c6dfc, 0x53380d13, 0x650a7354, 0x766a0abb, 0x81c2c92e, 0x92722c85,
    0xa2bfe8a1, 0xa81a664b, 0xc24b8b70, 0xc76c51a3, 0xd192e819, 0xd6990624, 0xf40e3585, 0x106aa070,
    0x19a4c116, 0x1e376c08, 0x2748774c, 0x34b0bcb5, 0x391c0cb3, 0x4ed8aa4a, 0x5b9cca4f, 0x682e6ff3,
    0x748f82ee, 0x78a5636f, 0x84c87814, 0x8cc70208, 0x90befffa, 0xa4506ceb, 0xbef9a3f7, 0xc67178f2
};

static uint32_t turned(uint32_t word, int by)
{
    return word >> by | word << (32 - by);
}

/* takes a block of 64 bytes into the sum */
static void take(uint32_t sum[8], const uint8_t *block)
{
    uint32_t w[64], a, b, c, d, e, f, g, h, first, second;
    int i;

    for (i = 0; i < 16; i++)
        w[i] = (uint32_t)block[4 * i] << 24 | (uint32_t)block[4 * i + 1] << 16 | (uint32_t)block[4 * i + 2] << 8 | block[4 * i + 3];
    for (; i < 64; i++)
        w[i] = w[i - 16] + (turned(w[i - 15], 7) ^ turned(w[i - 15], 18) ^ w[i - 15] >> 3) + w[i - 7] +
               (turned(w[i - 2], 17) ^ turned(w[i - 2], 19) ^ w[i - 2] >> 10);
    a = sum[0], b = sum[1], c = sum[2], d = sum[3], e = sum[4], f = sum[5], g = sum[6], h = sum[7];
    for (i = 0; i < 64; i++) {
        first = h + (turned(e, 6) ^ turned(e, 11) ^ turned(e, 25)) + ((e & f) ^ (~e & g)) + rounds[i] + w[i];
        second = (turned(a, 2) ^ turned(a, 13) ^ turned(a, 22)) + ((a & b) ^ (a & c) ^ (b & c));
        h = g, g = f, f = e, e = d + first, d = c, c = b, b = a, a = first + second;
    }
    sum[0] += a, sum[1] += b, sum[2] += c, sum[3] += d, sum[4] += e, sum[5] += f, sum[6] += g, sum[7] += h;
}

static void sha256(const uint8_t *bytes, size_t length, uint8_t digest[32])
{
    uint32_t sum[8] = {0x6a09e667, 0xbb67ae85, 0x3c6ef372, 0xa54ff53a, 0x510e527f, 0x9b05688c, 0x1f83d9ab, 0x5be0cd19};
    uint64_t bits = (uint64_t)length * 8;
    uint8_t end[128] = {0}; /* what is left, a one bit, zeros, and the length in bits at the end of a block */
    size_t left = length % 64, size = left < 56 ? 64 : 128, i;

    for (i = 0; i + 64 <= length; i += 64)
        take(sum, bytes + i);
    if (left != 0)
        memcpy(end, bytes + i, left);
    end[left] = 0x80;
    for (i = 0; i < 8; i++)
        end[size - 1 - i] = (uint8_t)(bits >> 8 * i);
    for (i = 0; i < size; i += 64)
        take(sum, end + i);
    for (i = 0; i < 32; i++)
        digest[i] = (uint8_t)(sum[i / 4] >> (24 - 8 * (i % 4)));
}

/* ---- a stored state ---- */

#define MAGIC "DMSTATE\n"
#define VERSION 2u
#define LENGTH_AT 12
#define DIGEST_AT 16
#define SIZES_AT 48
#define HEAD 64
#define CHECKSUM 32

/* a number of `size` bytes, the lowest first, and how to write it */
static uint64_t number_at(const uint8_t *bytes, int size)
{
    uint64_t number = 0;

    while (size-- > 0)
        number = number << 8 | bytes[size];
    return number;
}

static void put_number(uint8_t *bytes, int size, uint64_t number)
{
    int i;

    for (i = 0; i < size; i++)
        bytes[i] = (uint8_t)(number >> 8 * i);
}

void dm_image_digest(const uint8_t *image, size_t image_length, uint8_t digest[32])
{
    sha256(image, image_length, digest);
}

void dm_state_to_bytes(const uint8_t digest[32], const dm_state *state, uint8_t bytes[DM_STATE_BYTES])
{
    uint8_t *place = bytes + HEAD;
    int i;

    memcpy(bytes, MAGIC, 8);
    put_number(bytes + 8, 4, VERSION);
    put_number(bytes + LENGTH_AT, 4, DM_STATE_BYTES);
    memcpy(bytes + DIGEST_AT, digest, 32);
    put_number(bytes + SIZES_AT, 4, DM_FRAMES);
    put_number(bytes + SIZES_AT + 4, 4, DM_REGISTERS);
    put_number(bytes + SIZES_AT + 8, 4, DM_REGISTERS);
    put_number(bytes + SIZES_AT + 12, 4, 0);
    for (i = 0; i < DM_FRAMES; i++, place += 8)
        put_number(place, 8, state->frames[i]);
    memcpy(place, state->kinds, DM_REGISTERS);
    place += DM_REGISTERS;
    for (i = 0; i < DM_REGISTERS; i++, place += 8)
        put_number(place, 8, state->words[i]);
    sha256(bytes, DM_STATE_BYTES - CHECKSUM, place);
}

enum dm_stored dm_state_from_bytes(const uint8_t digest[32], const uint8_t *bytes, size_t length, dm_state *state)
{
    uint64_t frames, kinds, words;
    uint8_t checksum[CHECKSUM];
    const uint8_t *place;
    int i;

    if (length < 8 || memcmp(bytes, MAGIC, 8) != 0)
        return DM_STORED_NOT_A_STATE;
    if (length >= 12 && number_at(bytes + 8, 4) != VERSION)
        return DM_STORED_VERSION;
    if (length < 16 || number_at(bytes + LENGTH_AT, 4) != length)
        return DM_STORED_LENGTH;
    if (length < HEAD + CHECKSUM)
        return DM_STORED_DAMAGED;
    frames = number_at(bytes + SIZES_AT, 4);
    kinds = number_at(bytes + SIZES_AT + 4, 4);
    words = number_at(bytes + SIZES_AT + 8, 4);
    sha256(bytes, length - CHECKSUM, checksum);
    if (memcmp(checksum, bytes + length - CHECKSUM, CHECKSUM) != 0 || number_at(bytes + SIZES_AT + 12, 4) != 0 ||
        HEAD + 8 * frames + kinds + 8 * words + CHECKSUM != length)
        return DM_STORED_DAMAGED;
    if (memcmp(bytes + DIGEST_AT, digest, 32) != 0)
        return DM_STORED_OTHER_RULE;
    if (frames != DM_FRAMES || kinds != DM_REGISTERS || words != DM_REGISTERS)
        return DM_STORED_SIZES;

    place = bytes + HEAD;
    for (i = 0; i < DM_FRAMES; i++, place += 8)
        state->frames[i] = number_at(place, 8);
    memcpy(state->kinds, place, DM_REGISTERS);
    place += DM_REGISTERS;
    for (i = 0; i < DM_REGISTERS; i++, place += 8)
        state->words[i] = number_at(place, 8);
    return DM_STORED_GOOD;
}

/* ---- texts ---- */

const char *dm_message(uint32_t number)
{
    switch (number) {
#define DM_MESSAGE(number, text) \
    case number:                 \
        return text;
#include "deletion_messages.h"
#undef DM_MESSAGE
    default:
        return "a number that this version doesn't have";
    }
}

const char *dm_stored_message(enum dm_stored stored)
{
    switch (stored) {
    case DM_STORED_GOOD:
        return "a stored state of this rule";
    case DM_STORED_NOT_A_STATE:
        return "no stored state: it doesn't begin with DMSTATE";
    case DM_STORED_VERSION:
        return "a stored state of another version than 2, which is the one that is read here; 0.2.0 wrote version 1";
    case DM_STORED_LENGTH:
        return "a stored state that is cut off, or longer than it says";
    case DM_STORED_DAMAGED:
        return "a stored state that is damaged: its checksum is not that of its bytes";
    case DM_STORED_OTHER_RULE:
        return "a stored state of another rule";
    case DM_STORED_SIZES:
        return "a stored state of other sizes than a machine's";
    }
    return "a number that this version doesn't have";
}
