/* What the fragments of docs/C.md leave to the host that they are a part of, so that each can be compiled. */
#include <ristulva.h>
#include <string.h>

#define BUFFER 65536

static ristulva_context context;
static ristulva_verdict verdict;
static ristulva_terms terms;
static ristulva_decoder decoder;
static ristulva_refresh refresh;
static ristulva_route_cursor routes;
static ristulva_route route;
static ristulva_cleaned cleaned;
static ristulva_actions actions;
static ristulva_heard heard;
static ristulva_guard guard;
static ristulva_asks asks;
static ristulva_came came;
static uint8_t octets[BUFFER], data[BUFFER], message[RISTULVA_MESSAGE], side;
static const uint8_t *piece, *ours, *theirs;
static size_t held, len, taken, ours_len, theirs_len, count, i;
static uint16_t hold;

void *answer(uint8_t code, uint8_t subcode, const uint8_t *data, size_t len);
void *refuse(void);
void *end(const ristulva_cleaned *cleaned);
void take(const uint8_t *octets, const ristulva_verdict *verdict);
void print(const uint8_t *message, const ristulva_verdict *verdict);
void announce(const uint8_t *addr, uint8_t len);
void announce_all(uint16_t afi, uint8_t safi);
void take_route(uint32_t path, const ristulva_route *route);
void hand_on(const uint8_t *parts, size_t len);
void carry_out(const ristulva_actions *actions, const uint8_t *message, size_t len);
size_t send_some(uint8_t side, const uint8_t *message, size_t len);
void close_side(uint8_t side);
