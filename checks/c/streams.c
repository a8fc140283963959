/* Streams by terms, which are read in pieces, against ristulva_judge_in, which gets them whole:
 *
 *     streams FILE..
 *
 * The stream of each file, with a ROUTE-REFRESH between some of its messages, and changed forms of it, are cut at each place, octet by octet, and at
 * random, by terms that accept none, requests, or marks too: the outcomes have to be the same, with the same octets, and nothing may be written after
 * them. All but those of a ROUTE-REFRESH are what ristulva_judge reports in the context. First, by hand, each status of each call, with what is
 * written and what is unchanged. Each allocation fails in turn, on STACK octets of stack. It prints how many calls it made, and ends with 1 at the first
 * answer that the header doesn't allow. */
#include "ristulva.h"
#include "trial.h"
#include "trial_chance.h"
#include "trial_message.h"
#include "trial_stack.h"

#ifndef STACK
#define STACK (32 * 1024)
#endif

static unsigned long calls;

/* ---- a stream, and what ristulva_judge_in reports of it ---- */

#define SIZE (1u << 19)
#define MESSAGES 16384u

static uint8_t stream[SIZE];
static size_t size;
static ristulva_terms terms;

/* A message of the stream: its offset, and the number of octets consumed up to its end. */
static struct told {
    ristulva_verdict verdict;
    size_t at, taken;
} told[MESSAGES];

static size_t messages;
static int is_reset;

/* The outcomes of a ROUTE-REFRESH that were compared: accepted, and refused with 1/2 and with 7/1. */
static unsigned long accepted, short_bodies, bad_marks;

static void count_refresh(const ristulva_verdict *verdict)
{
    accepted += verdict->verdict == RISTULVA_REFRESH;
    short_bodies += verdict->verdict == RISTULVA_RESET && verdict->code == 1;
    bad_marks += verdict->verdict == RISTULVA_RESET && verdict->code == 7;
}

static void judge_whole(void)
{
    static uint8_t data[RISTULVA_DATA];
    size_t at = 0;
    messages = 0;
    is_reset = 0;
    while (!is_reset && messages < MESSAGES) {
        struct told *it = &told[messages];
        ristulva_verdict plain;
        memset(it, 0, sizeof *it);
        memset(&plain, 0, sizeof plain);
        if (ristulva_judge_in(&terms, stream + at, size - at, data, sizeof data, &it->verdict) == RISTULVA_INCOMPLETE)
            break;
        if (it->verdict.kind == 5)
            count_refresh(&it->verdict);
        else
            WANT(ristulva_judge(&terms.context, stream + at, size - at, data, sizeof data, &plain) == RISTULVA_OK
                 && memcmp(&plain, &it->verdict, sizeof plain) == 0);
        it->at = at;
        at += it->verdict.kind == 0 ? 19 : it->verdict.len;
        it->taken = at;
        is_reset = it->verdict.verdict == RISTULVA_RESET;
        messages++;
        calls += 2;
    }
    WANT(messages < MESSAGES);
}

/* ---- the same in pieces ---- */

static ristulva_stream handle;

/* What a pull reports of a message is what ristulva_judge_in reports. */
static void check_message(const struct told *want, const ristulva_verdict *verdict, const uint8_t *octets, const uint8_t *data)
{
    static uint8_t wanted[RISTULVA_DATA];
    ristulva_verdict again;
    size_t i;
    WANT(memcmp(verdict, &want->verdict, sizeof *verdict) == 0);
    WANT(memcmp(octets, stream + want->at, want->taken - want->at) == 0);
    WANT(ristulva_judge_in(&terms, stream + want->at, size - want->at, wanted, sizeof wanted, &again) == RISTULVA_OK);
    WANT(memcmp(data, wanted, verdict->data_len) == 0);
    for (i = want->taken - want->at; i <= RISTULVA_MESSAGE; i++)
        WANT(octets[i] == 0x5a);
    for (i = verdict->data_len; i <= RISTULVA_DATA; i++)
        WANT(data[i] == 0x5a);
}

/* Passes a piece, which is in memory of its own, until nothing of it remains or a reset was reported. Answers the number of messages reported so far. */
static size_t pull_all(size_t at, size_t len, size_t count)
{
    static uint8_t octets[RISTULVA_MESSAGE + 1], data[RISTULVA_DATA + 1];
    uint8_t *piece = malloc(len == 0 ? 1 : len);
    size_t done = 0;
    WANT(piece != NULL);
    memcpy(piece, stream + at, len);
    memset(octets, 0x5a, sizeof octets);
    memset(data, 0x5a, sizeof data);
    for (;;) {
        ristulva_verdict verdict;
        size_t taken = 77777;
        ristulva_status status;
        memset(&verdict, 0, sizeof verdict);
        status = ristulva_stream_pull(&handle, piece + done, len - done, octets, RISTULVA_MESSAGE, data, RISTULVA_DATA, &taken, &verdict);
        calls++;
        if (status != RISTULVA_OK) {
            WANT(verdict.verdict == 0 && verdict.len == 0 && octets[0] == 0x5a && data[0] == 0x5a);
            WANT(status == (is_reset && count == messages ? RISTULVA_STATE : RISTULVA_INCOMPLETE));
            WANT(taken == (status == RISTULVA_STATE ? 77777 : len - done));
            free(piece);
            return count;
        }
        WANT(count < messages && taken <= len - done);
        done += taken;
        WANT(at + done == told[count].taken);
        check_message(&told[count], &verdict, octets, data);
        memset(octets, 0x5a, verdict.kind == 0 ? 19 : verdict.len);
        memset(data, 0x5a, verdict.data_len);
        count++;
    }
}

/* The stream in pieces of the lengths listed: the outcomes are those of the whole. */
static void try_pieces(size_t first, uint32_t most)
{
    size_t at = 0, count = 0, held = 77;
    long before;
    WANT(ristulva_stream_new(&terms, &handle) == RISTULVA_OK && live == 1);
    before = allocations;
    while (at < size) {
        size_t len = at == 0 && first > 0 ? first : most == 0 ? size - at : 1 + below(most);
        if (len > size - at)
            len = size - at;
        count = pull_all(at, len, count);
        at += len;
        WANT(ristulva_stream_held(&handle, &held) == RISTULVA_OK);
        if (is_reset && count == messages)
            WANT(held == 0);
        else
            WANT(held == at - (count == 0 ? 0 : told[count - 1].taken));
    }
    WANT(count == messages && allocations == before);
    WANT(ristulva_stream_free(&handle) == RISTULVA_OK && handle.body == NULL && live == 0);
    calls += 3;
}

/* The stream whole, cut once at each offset (where it is long, at some), octet by octet, and at random. */
static void try_cuts(void)
{
    size_t cut, step = 1 + size / 1500;
    judge_whole();
    try_pieces(0, 0);
    for (cut = 1; cut < size; cut += step)
        try_pieces(cut, 0);
    try_pieces(0, 1);
    try_pieces(0, 2 + below(60));
    try_pieces(0, 5000);
}

/* ---- by hand ---- */

static const ristulva_context all = {0, 1, 1, 1};

static ristulva_terms terms_by(uint8_t refresh)
{
    ristulva_terms them = {all, refresh, 0, 0, 0, 0, 0};
    return them;
}

/* Room for what a pull writes, which is unwritten, and the arguments of a pull with that room. */
static uint8_t room_of_message[RISTULVA_MESSAGE], room_of_data[RISTULVA_DATA];
static ristulva_verdict outcome;
static size_t consumed;

static ristulva_status pull(const uint8_t *octets, size_t len, size_t message_room, size_t data_room)
{
    memset(room_of_message, 0x5a, sizeof room_of_message);
    memset(room_of_data, 0x5a, sizeof room_of_data);
    memset(&outcome, 0x5a, sizeof outcome);
    consumed = 77;
    calls++;
    return ristulva_stream_pull(&handle, octets, len, room_of_message, message_room, room_of_data, data_room, &consumed, &outcome);
}

static int is_unwritten(const void *at, size_t len)
{
    const uint8_t *octets = at;
    while (len > 0 && octets[len - 1] == 0x5a)
        len--;
    return len == 0;
}

static int nothing_written(void)
{
    return is_unwritten(room_of_message, sizeof room_of_message) && is_unwritten(room_of_data, sizeof room_of_data)
           && is_unwritten(&outcome, sizeof outcome);
}

/* Terms out of their range make no stream, also where no allocation would succeed. */
static void by_hand_ranges(void)
{
    unsigned number;
    refused = 1;
    for (number = 1; number < 256; number++) {
        ristulva_terms them = terms_by((uint8_t)number);
        allocations = 0;
        if (number > RISTULVA_REFRESH_ENHANCED)
            WANT(ristulva_stream_new(&them, &handle) == RISTULVA_RANGE && handle.body == NULL && allocations == 0);
        them = terms_by(RISTULVA_REFRESH_PLAIN);
        them.paths4 = (uint8_t)number;
        WANT(ristulva_stream_new(&them, &handle) == RISTULVA_RANGE && handle.body == NULL && allocations == 0);
        them.paths4 = 0;
        them.paths6 = (uint8_t)number;
        WANT(ristulva_stream_new(&them, &handle) == RISTULVA_RANGE && handle.body == NULL && allocations == 0);
        calls += 2;
    }
    refused = 0;
    /* Each other flag may be any number. */
    terms = terms_by(RISTULVA_REFRESH_ENHANCED);
    terms.long_messages = terms.long_back = terms.hop6 = terms.context.as4 = 255;
    WANT(ristulva_stream_new(&terms, &handle) == RISTULVA_OK && ristulva_stream_free(&handle) == RISTULVA_OK && live == 0);
    calls += 2;
}

/* Nothing changes by any of these, and no octet is consumed. */
static void by_hand_rooms(void)
{
    static const uint8_t octets[] = {255};
    size_t held = 77;
    WANT(pull(octets, 1, RISTULVA_MESSAGE - 1, RISTULVA_DATA) == RISTULVA_ROOM && consumed == 77 && nothing_written());
    WANT(pull(octets, 1, RISTULVA_MESSAGE, RISTULVA_DATA - 1) == RISTULVA_ROOM && consumed == 77 && nothing_written());
    WANT(ristulva_stream_pull(&handle, octets, 1, NULL, 0, NULL, 0, &consumed, &outcome) == RISTULVA_ROOM && consumed == 77 && nothing_written());
    WANT(ristulva_stream_held(&handle, &held) == RISTULVA_OK && held == 0);
    WANT(pull(NULL, 0, RISTULVA_MESSAGE, RISTULVA_DATA) == RISTULVA_INCOMPLETE && consumed == 0 && nothing_written());
    WANT(ristulva_stream_held(&handle, &held) == RISTULVA_OK && held == 0);
    calls += 3;
}

static void by_hand_handles(void)
{
    static const uint8_t octets[] = {255};
    struct ristulva_stream_body *body;
    ristulva_terms bad = terms_by(RISTULVA_REFRESH_ENHANCED + 1);
    size_t held = 77;
    handle.body = NULL;
    WANT(ristulva_stream_free(&handle) == RISTULVA_NO_STREAM && handle.body == NULL);
    WANT(ristulva_stream_held(&handle, &held) == RISTULVA_NO_STREAM && held == 77);
    WANT(pull(octets, 1, RISTULVA_MESSAGE, RISTULVA_DATA - 1) == RISTULVA_ROOM && consumed == 77 && nothing_written());
    WANT(pull(octets, 1, RISTULVA_MESSAGE, RISTULVA_DATA) == RISTULVA_NO_STREAM && consumed == 77 && nothing_written());
    WANT(pull(NULL, 0, RISTULVA_MESSAGE, RISTULVA_DATA) == RISTULVA_NO_STREAM && consumed == 77 && handle.body == NULL);
    by_hand_ranges();
    terms = terms_by(RISTULVA_REFRESH_PLAIN);
    for (refused = 1, allocations = 0; ristulva_stream_new(&terms, &handle) == RISTULVA_MEMORY; refused++, allocations = 0)
        WANT(handle.body == NULL && live == 0);
    WANT(refused == 2 && live == 1);
    refused = 0;
    body = handle.body;
    WANT(body != NULL && ristulva_stream_new(&terms, &handle) == RISTULVA_IN_USE && live == 1 && handle.body == body);
    WANT(ristulva_stream_new(&bad, &handle) == RISTULVA_IN_USE && live == 1 && handle.body == body);
    by_hand_rooms();
    WANT(ristulva_stream_free(&handle) == RISTULVA_OK && handle.body == NULL && live == 0);
    WANT(ristulva_stream_free(&handle) == RISTULVA_NO_STREAM && handle.body == NULL);
    WANT(pull(octets, 1, RISTULVA_MESSAGE, RISTULVA_DATA) == RISTULVA_NO_STREAM && consumed == 77);
    calls += 7;
}

/* A stream is given these octets in two pieces, and then whole: each time it accepts a ROUTE-REFRESH, and holds nothing after it. */
static void accepts(uint8_t refreshes, const uint8_t *octets, size_t len, size_t cut)
{
    size_t held = 77;
    terms = terms_by(refreshes);
    WANT(ristulva_stream_new(&terms, &handle) == RISTULVA_OK);
    /* The stream has its own terms. */
    terms.refresh = RISTULVA_REFRESH_NONE;
    WANT(pull(octets, cut, RISTULVA_MESSAGE, RISTULVA_DATA) == RISTULVA_INCOMPLETE && consumed == cut && nothing_written());
    WANT(ristulva_stream_held(&handle, &held) == RISTULVA_OK && held == cut);
    WANT(pull(octets + cut, len - cut, RISTULVA_MESSAGE, RISTULVA_DATA) == RISTULVA_OK && consumed == len - cut);
    WANT(outcome.verdict == RISTULVA_REFRESH && outcome.kind == 5 && outcome.code == 0 && outcome.subcode == 0 && outcome.len == len);
    WANT(outcome.data_len == 0 && outcome.parts.withdrawn.len == 0 && outcome.parts.attributes.len == 0 && outcome.parts.nlri.len == 0);
    WANT(memcmp(room_of_message, octets, len) == 0 && is_unwritten(room_of_message + len, sizeof room_of_message - len));
    WANT(is_unwritten(room_of_data, sizeof room_of_data) && ristulva_stream_held(&handle, &held) == RISTULVA_OK && held == 0);
    /* Once more, whole, and without a copy that is held. */
    WANT(pull(octets, len, RISTULVA_MESSAGE, RISTULVA_DATA) == RISTULVA_OK && consumed == len && outcome.verdict == RISTULVA_REFRESH);
    WANT(ristulva_stream_free(&handle) == RISTULVA_OK && live == 0);
    calls += 4;
}

/* A stream is given these octets in two pieces: it reports a reset with this code, subcode and data, and stops. */
static void stops(uint8_t refreshes, const uint8_t *octets, size_t len, size_t cut, unsigned answer, const uint8_t *data, size_t data_len)
{
    uint8_t keepalive[19];
    size_t held = 77, size_of = message(4, "", keepalive);
    int is_header = answer == 0x103;
    terms = terms_by(refreshes);
    WANT(ristulva_stream_new(&terms, &handle) == RISTULVA_OK);
    WANT(pull(octets, cut, RISTULVA_MESSAGE, RISTULVA_DATA) == RISTULVA_INCOMPLETE && consumed == cut);
    WANT(pull(octets + cut, len - cut, RISTULVA_MESSAGE, RISTULVA_DATA) == RISTULVA_OK && consumed == len - cut);
    WANT(outcome.verdict == RISTULVA_RESET && outcome.kind == (is_header ? 0 : 5) && outcome.len == (is_header ? 0 : len));
    WANT(outcome.code == answer >> 8 && outcome.subcode == (answer & 255) && outcome.data_len == data_len);
    WANT(memcmp(room_of_data, data, data_len) == 0 && is_unwritten(room_of_data + data_len, sizeof room_of_data - data_len));
    WANT(memcmp(room_of_message, octets, len) == 0 && is_unwritten(room_of_message + len, sizeof room_of_message - len));
    WANT(ristulva_stream_held(&handle, &held) == RISTULVA_OK && held == 0);
    WANT(pull(keepalive, size_of, RISTULVA_MESSAGE, RISTULVA_DATA) == RISTULVA_STATE && consumed == 77 && nothing_written());
    WANT(pull(NULL, 0, RISTULVA_MESSAGE, RISTULVA_DATA) == RISTULVA_STATE && consumed == 77 && nothing_written());
    WANT(pull(keepalive, size_of, RISTULVA_MESSAGE, RISTULVA_DATA - 1) == RISTULVA_ROOM && consumed == 77 && nothing_written());
    WANT(ristulva_stream_held(&handle, &held) == RISTULVA_OK && held == 0);
    WANT(ristulva_stream_new(&terms, &handle) == RISTULVA_IN_USE);
    WANT(ristulva_stream_free(&handle) == RISTULVA_OK && handle.body == NULL && live == 0);
    WANT(ristulva_stream_free(&handle) == RISTULVA_NO_STREAM);
    calls += 6;
}

static void by_hand_outcomes(void)
{
    static uint8_t octets[RISTULVA_MESSAGE];
    size_t cut, len = message(5, "0001 00 01", octets);
    for (cut = 0; cut < len; cut++) {
        accepts(RISTULVA_REFRESH_PLAIN, octets, len, cut);
        accepts(RISTULVA_REFRESH_ENHANCED, octets, len, cut);
    }
    for (cut = 0; cut < 19; cut++)
        stops(RISTULVA_REFRESH_NONE, octets, 19, cut, 0x103, (const uint8_t *)"\5", 1);
    len = message(5, "0001 01 01 00", octets);
    for (cut = 0; cut < len; cut++) {
        accepts(RISTULVA_REFRESH_PLAIN, octets, len, cut);
        stops(RISTULVA_REFRESH_ENHANCED, octets, len, cut, 0x701, octets, len);
    }
    len = message(5, "0001 02", octets);
    for (cut = 0; cut < len; cut++) {
        stops(RISTULVA_REFRESH_PLAIN, octets, len, cut, 0x102, (const uint8_t *)"\0\26", 2);
        stops(RISTULVA_REFRESH_ENHANCED, octets, len, cut, 0x701, octets, len);
    }
    /* The longest. */
    (void)message(5, "0001 01 01", octets);
    octets[16] = 16;
    octets[17] = 0;
    for (cut = 18; cut < RISTULVA_MESSAGE; cut += 1 + below(500)) {
        accepts(RISTULVA_REFRESH_PLAIN, octets, RISTULVA_MESSAGE, cut);
        stops(RISTULVA_REFRESH_ENHANCED, octets, RISTULVA_MESSAGE, cut, 0x701, octets, RISTULVA_DATA);
    }
}

/* ---- streams ---- */

static char **names;
static int files;

/* A ROUTE-REFRESH at the end of the stream: mostly one that is accepted, if only by some terms. */
static void add_refresh(void)
{
    static const char *const good[] = {"0001 00 01", "0002 01 01", "0001 02 80", "ffff ff ff", "0001 00 01 40 03 010203", "0001 03 01 00"};
    static const char *const bad[] = {"0001 01 01 00", "0001 02", "0001 00", ""};
    size += below(12) != 0 ? message(5, good[below(6)], stream + size) : message(5, bad[below(4)], stream + size);
}

/* The stream of a file, with some ROUTE-REFRESH messages between its messages. */
static void load(const char *name)
{
    static uint8_t octets[SIZE / 2];
    FILE *file = fopen(name, "rb");
    size_t len, at = 0;
    WANT(file != NULL);
    len = fread(octets, 1, sizeof octets, file);
    fclose(file);
    size = 0;
    for (;;) {
        ristulva_found found;
        while (below(3) == 0 && size < SIZE / 2)
            add_refresh();
        WANT(ristulva_front(octets + at, len - at, &found) == RISTULVA_OK);
        if (found.what != RISTULVA_FOUND || size > SIZE / 2 - RISTULVA_MESSAGE)
            break;
        memcpy(stream + size, octets + at, found.len);
        size += found.len;
        at += found.len;
    }
    if (len - at > 4096)
        len = at + 4096;
    memcpy(stream + size, octets + at, len - at);
    size += len - at;
}

/* Some octets changed, or one left out: mostly of a header, or of the body of a ROUTE-REFRESH. */
static void change(void)
{
    size_t at = below((uint32_t)size), end = at < 400 ? 0 : at - 400;
    while (at > end && memcmp(stream + at, "\377\377\377\377\377\377\377\377", at + 8 < size ? 8 : 0) != 0)
        at--;
    at += below(24);
    if (at >= size)
        return;
    if (below(3) != 0)
        stream[at] = (uint8_t)below(256);
    else
        memmove(stream + at, stream + at + 1, --size - at);
}

static void *work(void *unused)
{
    int i, round;
    by_hand_handles();
    by_hand_outcomes();
    for (i = 0; i < files; i++) {
        load(names[i]);
        for (round = 0; round < 6 && size > 0; round++) {
            terms = terms_by((uint8_t)((round + i) % 3));
            terms.context.internal = (uint8_t)below(2);
            terms.context.as4 = (uint8_t)(below(2) * 7);
            terms.context.ip4 = (uint8_t)(below(4) != 0);
            terms.context.ip6 = (uint8_t)below(2);
            terms.long_messages = (uint8_t)below(256);
            terms.long_back = (uint8_t)below(2);
            terms.hop6 = (uint8_t)below(2);
            try_cuts();
            if (round > 2)
                change();
        }
    }
    WANT(files < 20 || (accepted > 100 && short_bodies > 0 && bad_marks > 0));
    return unused;
}

int main(int argc, char **argv)
{
    WANT(ristulva_version() == RISTULVA_VERSION);
    names = argv + 1;
    files = argc - 1;
    run_on_stack(work, STACK);
    printf("%lu calls\n", calls);
    return 0;
}
