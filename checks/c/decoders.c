/* Decoders, which read streams in pieces, against ristulva_judge, which gets them whole:
 *
 *     decoders FILE..
 *
 * The stream of each file, and changed forms of it, are cut at each place, octet by octet, and at random: the outcomes have to be the same, with
 * the same octets, and nothing may be written after them. Each allocation fails in turn, on STACK octets of stack. It prints how many calls it
 * made, and ends with 1 at the first answer that the header doesn't allow. */
#include "ristulva.h"
#include "trial.h"
#include "trial_chance.h"
#include "trial_stack.h"
#include <string.h>

#ifndef STACK
#define STACK (32 * 1024)
#endif

static unsigned long calls;

/* ---- a stream, and what ristulva_judge reports of it ---- */

#define SIZE (1u << 18)
#define MESSAGES 4096u

static uint8_t stream[SIZE];
static size_t size;
static ristulva_context context;

/* A message of the stream: its offset, and the number of octets consumed up to its end. */
static struct told {
    ristulva_verdict verdict;
    size_t at, taken;
} told[MESSAGES];

static size_t messages;
static int is_reset;

static void judge_whole(void)
{
    static uint8_t data[RISTULVA_DATA];
    size_t at = 0;
    messages = 0;
    is_reset = 0;
    while (!is_reset && messages < MESSAGES) {
        struct told *it = &told[messages];
        memset(it, 0, sizeof *it);
        if (ristulva_judge(&context, stream + at, size - at, data, sizeof data, &it->verdict) == RISTULVA_INCOMPLETE)
            break;
        it->at = at;
        at += it->verdict.kind == 0 ? 19 : it->verdict.len;
        it->taken = at;
        is_reset = it->verdict.verdict == RISTULVA_RESET;
        messages++;
    }
    WANT(messages < MESSAGES);
}

/* ---- the same in pieces ---- */

static ristulva_decoder decoder;

/* What a pull reports of a message is what ristulva_judge reports. */
static void check_message(const struct told *want, const ristulva_verdict *verdict, const uint8_t *message, const uint8_t *data)
{
    static uint8_t wanted[RISTULVA_DATA];
    ristulva_verdict again;
    size_t i;
    WANT(memcmp(verdict, &want->verdict, sizeof *verdict) == 0);
    WANT(memcmp(message, stream + want->at, want->taken - want->at) == 0);
    WANT(ristulva_judge(&context, stream + want->at, size - want->at, wanted, sizeof wanted, &again) == RISTULVA_OK);
    WANT(memcmp(data, wanted, verdict->data_len) == 0);
    for (i = want->taken - want->at; i <= RISTULVA_MESSAGE; i++)
        WANT(message[i] == 0x5a);
    for (i = verdict->data_len; i <= RISTULVA_DATA; i++)
        WANT(data[i] == 0x5a);
}

/* Passes a piece, which is in memory of its own, until nothing of it remains or a reset was reported. Answers the number of messages reported so far. */
static size_t pull_all(size_t at, size_t len, size_t count)
{
    static uint8_t message[RISTULVA_MESSAGE + 1], data[RISTULVA_DATA + 1];
    uint8_t *piece = malloc(len == 0 ? 1 : len);
    size_t done = 0;
    memcpy(piece, stream + at, len);
    memset(message, 0x5a, sizeof message);
    memset(data, 0x5a, sizeof data);
    for (;;) {
        ristulva_verdict verdict;
        size_t taken = 77777;
        ristulva_status status;
        memset(&verdict, 0, sizeof verdict);
        status = ristulva_decoder_pull(&decoder, piece + done, len - done, message, RISTULVA_MESSAGE, data, RISTULVA_DATA, &taken, &verdict);
        calls++;
        if (status != RISTULVA_OK) {
            WANT(verdict.verdict == 0 && verdict.len == 0 && message[0] == 0x5a && data[0] == 0x5a);
            WANT(status == (is_reset && count == messages ? RISTULVA_STATE : RISTULVA_INCOMPLETE));
            WANT(taken == (status == RISTULVA_STATE ? 77777 : len - done));
            free(piece);
            return count;
        }
        WANT(count < messages && taken <= len - done);
        done += taken;
        WANT(at + done == told[count].taken);
        check_message(&told[count], &verdict, message, data);
        memset(message, 0x5a, verdict.kind == 0 ? 19 : verdict.len);
        memset(data, 0x5a, verdict.data_len);
        count++;
    }
}

/* The stream in pieces of the lengths listed: the outcomes are those of the whole. */
static void try_pieces(size_t first, uint32_t most)
{
    size_t at = 0, count = 0, held = 77;
    long before;
    WANT(ristulva_decoder_new(&context, &decoder) == RISTULVA_OK && live == 1);
    before = allocations;
    while (at < size) {
        size_t len = at == 0 && first > 0 ? first : most == 0 ? size - at : 1 + below(most);
        if (len > size - at)
            len = size - at;
        count = pull_all(at, len, count);
        at += len;
        WANT(ristulva_decoder_held(&decoder, &held) == RISTULVA_OK);
        if (is_reset && count == messages)
            WANT(held == 0);
        else
            WANT(held == at - (count == 0 ? 0 : told[count - 1].taken));
    }
    WANT(count == messages && allocations == before);
    WANT(ristulva_decoder_free(&decoder) == RISTULVA_OK && decoder.body == NULL && live == 0);
}

/* The stream whole, cut once at each offset (where it is long, at some), octet by octet, and at random. */
static void try_cuts(void)
{
    size_t cut, step = 1 + size / 1500;
    judge_whole();
    try_pieces(0, 0);
    for (cut = 1; cut < size; cut += step)
        try_pieces(cut, 0);
    try_pieces(0, 1);
    try_pieces(0, 2 + below(60));
    try_pieces(0, 5000);
}

/* ---- arguments ---- */

/* Nothing changes by any of these, and no octet is consumed. */
static void try_rooms(void)
{
    static uint8_t message[RISTULVA_MESSAGE], data[RISTULVA_DATA];
    static const uint8_t octets[] = {255};
    ristulva_verdict verdict = {0, 0, 0, 0, 0, 0, {{0, 0}, {0, 0}, {0, 0}}};
    size_t taken = 77, held = 77;
    memset(message, 0x5a, sizeof message);
    WANT(ristulva_decoder_pull(&decoder, octets, 1, message, RISTULVA_MESSAGE - 1, data, sizeof data, &taken, &verdict) == RISTULVA_ROOM);
    WANT(ristulva_decoder_pull(&decoder, octets, 1, message, sizeof message, data, RISTULVA_DATA - 1, &taken, &verdict) == RISTULVA_ROOM);
    WANT(ristulva_decoder_held(&decoder, &held) == RISTULVA_OK && held == 0 && taken == 77 && verdict.verdict == 0 && message[0] == 0x5a);
    WANT(ristulva_decoder_pull(&decoder, octets, 0, message, sizeof message, data, sizeof data, &taken, &verdict) == RISTULVA_INCOMPLETE);
    WANT(taken == 0 && ristulva_decoder_held(&decoder, &held) == RISTULVA_OK && held == 0);
}

static void try_handles(void)
{
    static uint8_t message[RISTULVA_MESSAGE], data[RISTULVA_DATA];
    static const uint8_t octets[] = {255};
    struct ristulva_decoder_body *body;
    ristulva_verdict verdict;
    size_t taken = 77;
    decoder.body = NULL;
    WANT(ristulva_decoder_free(&decoder) == RISTULVA_NO_DECODER && decoder.body == NULL);
    WANT(ristulva_decoder_held(&decoder, &taken) == RISTULVA_NO_DECODER && taken == 77);
    WANT(ristulva_decoder_pull(&decoder, octets, 1, message, sizeof message, data, sizeof data - 1, &taken, &verdict) == RISTULVA_ROOM);
    WANT(ristulva_decoder_pull(&decoder, octets, 1, message, sizeof message, data, sizeof data, &taken, &verdict) == RISTULVA_NO_DECODER && taken == 77);
    for (refused = 1, allocations = 0; ristulva_decoder_new(&context, &decoder) == RISTULVA_MEMORY; refused++, allocations = 0)
        WANT(decoder.body == NULL && live == 0);
    WANT(refused == 2 && live == 1);
    refused = 0;
    body = decoder.body;
    WANT(body != NULL && ristulva_decoder_new(&context, &decoder) == RISTULVA_IN_USE && live == 1);
    try_rooms();
    WANT(ristulva_decoder_free(&decoder) == RISTULVA_OK && decoder.body == NULL && live == 0);
    WANT(ristulva_decoder_free(&decoder) == RISTULVA_NO_DECODER);
}

/* ---- streams ---- */

static char **names;
static int files;

static void load(const char *name)
{
    FILE *file = fopen(name, "rb");
    WANT(file != NULL);
    size = fread(stream, 1, sizeof stream, file);
    fclose(file);
}

/* Some octets changed, or one left out: mostly of a header. */
static void change(void)
{
    size_t at = below((uint32_t)size), end = at < 400 ? 0 : at - 400;
    while (at > end && memcmp(stream + at, "\377\377\377\377\377\377\377\377", at + 8 < size ? 8 : 0) != 0)
        at--;
    at += below(24);
    if (at >= size)
        return;
    if (below(3) != 0)
        stream[at] = (uint8_t)below(256);
    else
        memmove(stream + at, stream + at + 1, --size - at);
}

static void *work(void *unused)
{
    int i, round;
    try_handles();
    for (i = 0; i < files; i++) {
        load(names[i]);
        for (round = 0; round < 5 && size > 0; round++) {
            context.internal = (uint8_t)below(2);
            context.as4 = (uint8_t)(below(2) * 7);
            context.ip4 = (uint8_t)(below(4) != 0);
            context.ip6 = (uint8_t)below(2);
            try_cuts();
            change();
        }
    }
    return unused;
}

int main(int argc, char **argv)
{
    WANT(ristulva_version() == RISTULVA_VERSION);
    names = argv + 1;
    files = argc - 1;
    run_on_stack(work, STACK);
    printf("%lu calls\n", calls);
    return 0;
}
