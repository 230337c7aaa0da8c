/* The painter: makes the proved calls that it reads, one after another, until its input ends.
 *
 * A request is six little-endian words: which call, two numbers for it, and the lengths of three
 * buffers, whose bytes follow. A length of KEPT stands for the buffer as it came last. A reply is
 * three words: the answer, a count and a length, and so many bytes.
 *
 *   call     numbers            buffers                  count          bytes
 *   FRAME    frame, output      image, tables, pictures                 the frame
 *   MEND                        image                    changed words  the image, and the list
 *   NEW      bits
 *   LOAD     selection          bytes                    bytes put
 *   WRITE    register, value
 *   START
 *   SHOW     output             -, -, pictures           error word     the frame
 *
 * NEW to SHOW keep one display; `output` is how many bytes are lent. */
#include <stdio.h>
#include <stdlib.h>
#include <string.h>

#include "spoonwing.h"

enum call { FRAME, MEND, NEW, LOAD, WRITE, START, SHOW };
enum { BUFFERS = 3, NUMBERS = 3 + BUFFERS, CHOICES_AT = 436, NO_FLOATS = 2 };
#define KEPT 0xFFFFFFFFu

struct buffer {
    uint8_t *bytes;
    size_t length, room;
};

struct request {
    uint32_t call, number, value;
    struct buffer buffers[BUFFERS];
};

struct reply {
    uint32_t answer, count;
    struct buffer bytes;
};

/* The display that NEW made, and its tables. */
static uint8_t state[SPOONWING_STATE_LEN];
static uint8_t tables[SPOONWING_SOFT_TABLES_LENGTH];
static size_t tables_length = SPOONWING_TABLES_LENGTH;

/* ---- words and buffers */

static uint32_t word_at(const uint8_t *from)
{
    return from[0] | (uint32_t)from[1] << 8 | (uint32_t)from[2] << 16 | (uint32_t)from[3] << 24;
}

static void put_word(uint8_t *to, uint32_t word)
{
    for (int i = 0; i < 4; i++)
        to[i] = (uint8_t)(word >> 8 * i);
}

static void resize(struct buffer *b, size_t length)
{
    if (length > b->room) {
        b->bytes = realloc(b->bytes, length);
        b->room = length;
        if (!b->bytes) {
            fprintf(stderr, "painter: no memory for %zu bytes\n", length);
            exit(1);
        }
    }
    b->length = length;
}

static int read_request(struct request *r)
{
    uint8_t head[4 * NUMBERS];
    if (fread(head, 1, sizeof head, stdin) != sizeof head)
        return 0;
    r->call = word_at(head);
    r->number = word_at(head + 4);
    r->value = word_at(head + 8);
    for (int i = 0; i < BUFFERS; i++) {
        uint32_t length = word_at(head + 12 + 4 * i);
        struct buffer *b = &r->buffers[i];
        if (length == KEPT)
            continue;
        resize(b, length);
        if (length > 0 && fread(b->bytes, 1, length, stdin) != length)
            return 0;
    }
    return 1;
}

static int write_reply(const struct reply *r)
{
    uint8_t head[12];
    put_word(head, r->answer);
    put_word(head + 4, r->count);
    put_word(head + 8, (uint32_t)r->bytes.length);
    fwrite(head, 1, sizeof head, stdout);
    if (r->bytes.length > 0)
        fwrite(r->bytes.bytes, 1, r->bytes.length, stdout);
    return fflush(stdout) == 0;
}

/* ---- calls */

static void frame(const struct request *r, struct reply *to)
{
    const struct buffer *b = r->buffers;
    resize(&to->bytes, r->value);
    to->answer = spoonwing_frame(b[0].bytes, b[0].length, r->number, b[1].bytes, b[1].length,
                                 b[2].bytes, b[2].length, to->bytes.bytes, to->bytes.length);
}

static void mend(const struct request *r, struct reply *to)
{
    uint32_t list[SPOONWING_CHANGES_LENGTH];
    size_t count, length = r->buffers[0].length;
    resize(&to->bytes, length + 4 * SPOONWING_CHANGES_LENGTH);
    if (length > 0)
        memcpy(to->bytes.bytes, r->buffers[0].bytes, length);
    to->answer = spoonwing_mend(to->bytes.bytes, length, list, &count);
    to->count = (uint32_t)count;
    for (size_t i = 0; i < 3 * count; i++)
        put_word(to->bytes.bytes + length + 4 * i, list[i]);
    resize(&to->bytes, length + 12 * count);
}

/* Float layers are kept out, as a sheet has it: this program lends no floats. */
static uint32_t new_display(uint32_t bits)
{
    uint32_t answer = spoonwing_display_new(state, sizeof state, bits);
    memset(tables, 0, sizeof tables);
    tables_length = bits == 2 ? SPOONWING_SOFT_TABLES_LENGTH : SPOONWING_TABLES_LENGTH;
    state[CHOICES_AT] |= NO_FLOATS;
    return answer;
}

static void load(const struct request *r, struct reply *to)
{
    size_t done = 0;
    to->answer = spoonwing_display_select(state, sizeof state, r->number);
    if (to->answer == SPOONWING_DONE)
        to->answer = spoonwing_display_put_run(state, sizeof state, tables, tables_length,
                                               r->buffers[0].bytes, r->buffers[0].length, &done);
    to->count = (uint32_t)done;
}

static void show(const struct request *r, struct reply *to)
{
    resize(&to->bytes, r->number);
    to->answer = spoonwing_display_frame(state, sizeof state, tables, tables_length,
                                         r->buffers[2].bytes, r->buffers[2].length, NULL, 0,
                                         to->bytes.bytes, to->bytes.length);
    to->count = spoonwing_display_error_word(state, sizeof state);
}

static void make(const struct request *r, struct reply *to)
{
    switch (r->call) {
    case FRAME: frame(r, to); break;
    case MEND: mend(r, to); break;
    case NEW: to->answer = new_display(r->number); break;
    case LOAD: load(r, to); break;
    case WRITE:
        to->answer = spoonwing_display_write(state, sizeof state, r->number, r->value);
        break;
    case START: to->answer = spoonwing_display_start(state, sizeof state); break;
    case SHOW: show(r, to); break;
    default: fprintf(stderr, "painter: no call %u\n", (unsigned)r->call); exit(1);
    }
}

int main(void)
{
    struct request request = {0};
    struct reply reply = {0};
    while (read_request(&request)) {
        reply.count = 0;
        reply.bytes.length = 0;
        make(&request, &reply);
        if (reply.answer != SPOONWING_DONE)
            reply.bytes.length = 0;
        if (!write_reply(&reply))
            return 1;
    }
    return 0;
}
