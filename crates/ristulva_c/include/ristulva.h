/* Ristulva for C: BGP-4 messages, read and judged as RFC 4271 and RFC 7606 say.
 *
 * Each function is proved to do what its contract says, for every input; the comments below say the same in words.
 *
 * The caller owns every octet. No call keeps a pointer, returns one, calls back, reads outside of what it is given, or writes elsewhere than
 * through the pointers that it is given. A call only allocates where its comment says so, and frees that before it returns. There is no state but
 * what the caller holds: calls are thread safe, unless two of them write the same memory or are given the same handle. Only decoders, streams,
 * sessions and guards (below) are memory of the library's, behind a handle of the caller's.
 *
 * Of every call:
 *  - Pointers aren't null, but where the length beside one is 0 (see the end of this header).
 *  - What a call writes (`out`, `cursor`, a buffer, a length) overlaps nothing else that it is given.
 *  - Octets are `const uint8_t *octets, size_t len`. A message has at most 4096 of them (RFC 4271, section 4.1).
 *  - It answers a status. Where that isn't RISTULVA_OK, what this header says of each status holds.
 *  - 32 KB of stack are enough, and 56 KB for ristulva_session_send, ristulva_clean, ristulva_judge_paths, ristulva_guard_new and
 *    ristulva_guard_hear.
 *
 * Positions are offsets into the caller's buffer: a message is viewed there, and nothing is copied.
 */
#ifndef RISTULVA_H
#define RISTULVA_H

#include <stddef.h>
#include <stdint.h>

#ifdef __cplusplus
extern "C" {
#endif

/* ---- version ---- */

/* The version of this header, as ristulva_version() answers it: 1000000 times the first number, 1000 times the second, and the third. */
#define RISTULVA_VERSION 4000u

/* The version of the library that is linked. */
uint32_t ristulva_version(void);

/* ---- statuses ---- */

typedef uint32_t ristulva_status;

#define RISTULVA_OK 0u         /* the call did what it says */
#define RISTULVA_NO_SESSION 1u /* the handle has no session: nothing has changed */
#define RISTULVA_NO_DECODER 1u /* the handle has no decoder: nothing has changed */
#define RISTULVA_NO_GUARD 1u   /* the handle has no guard: nothing has changed */
#define RISTULVA_NO_STREAM 1u  /* the handle has no stream: nothing has changed */
#define RISTULVA_MEMORY 2u     /* an allocation failed: nothing has changed, and the call can be made again */
#define RISTULVA_RANGE 3u      /* a number, a span or a length is out of its range: nothing has changed */
#define RISTULVA_INCOMPLETE 4u /* the octets are an incomplete message: nothing has changed */
#define RISTULVA_ROOM 5u       /* a buffer has too little room */
#define RISTULVA_END 6u        /* nothing remains: nothing has changed */
#define RISTULVA_REFUSED 7u    /* no accepted UPDATE (whole, where it is to be written), or no accepted OPEN: nothing has changed */
#define RISTULVA_UNWRITABLE 8u /* an UPDATE that can't be written: nothing has changed */
#define RISTULVA_STATE 9u      /* the session or the guard isn't in a state for this, or the decoder or the stream has stopped: nothing has changed */
#define RISTULVA_CONFIG 10u    /* the configuration isn't one that is allowed: nothing has changed */
#define RISTULVA_IN_USE 11u    /* the handle has a session, a decoder, a stream or a guard already: nothing has changed */
#define RISTULVA_MIXED 12u     /* an UPDATE with routes of several kinds, which no session sends: nothing has changed */

/* ---- octets ---- */

/* `len` octets from the offset `at` on. */
typedef struct {
    uint32_t at;
    uint32_t len;
} ristulva_span;

/* ---- numbers and their names (the registries of IANA) ---- */

/* Types of path attributes. */
#define RISTULVA_ATTRIBUTE_ORIGIN 1u
#define RISTULVA_ATTRIBUTE_AS_PATH 2u
#define RISTULVA_ATTRIBUTE_NEXT_HOP 3u
#define RISTULVA_ATTRIBUTE_MULTI_EXIT_DISC 4u
#define RISTULVA_ATTRIBUTE_LOCAL_PREF 5u
#define RISTULVA_ATTRIBUTE_ATOMIC_AGGREGATE 6u
#define RISTULVA_ATTRIBUTE_AGGREGATOR 7u
#define RISTULVA_ATTRIBUTE_COMMUNITIES 8u
#define RISTULVA_ATTRIBUTE_ORIGINATOR_ID 9u
#define RISTULVA_ATTRIBUTE_CLUSTER_LIST 10u
#define RISTULVA_ATTRIBUTE_MP_REACH_NLRI 14u
#define RISTULVA_ATTRIBUTE_MP_UNREACH_NLRI 15u
#define RISTULVA_ATTRIBUTE_EXTENDED_COMMUNITIES 16u
#define RISTULVA_ATTRIBUTE_AS4_PATH 17u
#define RISTULVA_ATTRIBUTE_AS4_AGGREGATOR 18u
#define RISTULVA_ATTRIBUTE_PMSI_TUNNEL 22u
#define RISTULVA_ATTRIBUTE_TUNNEL_ENCAPSULATION 23u
#define RISTULVA_ATTRIBUTE_IP6_EXTENDED_COMMUNITIES 25u
#define RISTULVA_ATTRIBUTE_AIGP 26u
#define RISTULVA_ATTRIBUTE_BGP_LS 29u
#define RISTULVA_ATTRIBUTE_LARGE_COMMUNITY 32u
#define RISTULVA_ATTRIBUTE_BGPSEC_PATH 33u
#define RISTULVA_ATTRIBUTE_ONLY_TO_CUSTOMER 35u
#define RISTULVA_ATTRIBUTE_D_PATH 36u
#define RISTULVA_ATTRIBUTE_PREFIX_SID 40u
#define RISTULVA_ATTRIBUTE_ATTR_SET 128u

/* Codes of capabilities. */
#define RISTULVA_CAPABILITY_MULTIPROTOCOL 1u
#define RISTULVA_CAPABILITY_ROUTE_REFRESH 2u
#define RISTULVA_CAPABILITY_OUTBOUND_ROUTE_FILTERING 3u
#define RISTULVA_CAPABILITY_EXTENDED_NEXT_HOP 5u
#define RISTULVA_CAPABILITY_EXTENDED_MESSAGE 6u
#define RISTULVA_CAPABILITY_BGPSEC 7u
#define RISTULVA_CAPABILITY_MULTIPLE_LABELS 8u
#define RISTULVA_CAPABILITY_ROLE 9u
#define RISTULVA_CAPABILITY_GRACEFUL_RESTART 64u
#define RISTULVA_CAPABILITY_AS4 65u
#define RISTULVA_CAPABILITY_DYNAMIC_CAPABILITY 67u
#define RISTULVA_CAPABILITY_MULTISESSION 68u
#define RISTULVA_CAPABILITY_ADD_PATH 69u
#define RISTULVA_CAPABILITY_ENHANCED_ROUTE_REFRESH 70u
#define RISTULVA_CAPABILITY_LONG_LIVED_GRACEFUL_RESTART 71u
#define RISTULVA_CAPABILITY_ROUTING_POLICY_DISTRIBUTION 72u
#define RISTULVA_CAPABILITY_FQDN 73u
#define RISTULVA_CAPABILITY_SOFTWARE_VERSION 75u
#define RISTULVA_CAPABILITY_PATHS_LIMIT 76u
#define RISTULVA_CAPABILITY_PRESTANDARD_ROUTE_REFRESH 128u

/* Codes of NOTIFICATIONs. */
#define RISTULVA_ERROR_HEADER 1u
#define RISTULVA_ERROR_OPEN 2u
#define RISTULVA_ERROR_UPDATE 3u
#define RISTULVA_ERROR_HOLD_TIMER 4u
#define RISTULVA_ERROR_STATE_MACHINE 5u
#define RISTULVA_ERROR_CEASE 6u
#define RISTULVA_ERROR_ROUTE_REFRESH 7u
#define RISTULVA_ERROR_SEND_HOLD_TIMER 8u

/* Their subcodes; 0 is unspecific (RFC 4271, section 6). */
#define RISTULVA_ERROR_HEADER_NOT_SYNCHRONIZED 1u
#define RISTULVA_ERROR_HEADER_BAD_LENGTH 2u
#define RISTULVA_ERROR_HEADER_BAD_TYPE 3u

#define RISTULVA_ERROR_OPEN_UNSUPPORTED_VERSION 1u
#define RISTULVA_ERROR_OPEN_BAD_PEER_AS 2u
#define RISTULVA_ERROR_OPEN_BAD_IDENTIFIER 3u
#define RISTULVA_ERROR_OPEN_UNSUPPORTED_PARAMETER 4u
#define RISTULVA_ERROR_OPEN_UNACCEPTABLE_HOLD_TIME 6u
#define RISTULVA_ERROR_OPEN_UNSUPPORTED_CAPABILITY 7u
#define RISTULVA_ERROR_OPEN_ROLE_MISMATCH 11u

#define RISTULVA_ERROR_UPDATE_MALFORMED_ATTRIBUTE_LIST 1u
#define RISTULVA_ERROR_UPDATE_UNRECOGNIZED_WELL_KNOWN 2u
#define RISTULVA_ERROR_UPDATE_MISSING_WELL_KNOWN 3u
#define RISTULVA_ERROR_UPDATE_ATTRIBUTE_FLAGS 4u
#define RISTULVA_ERROR_UPDATE_ATTRIBUTE_LENGTH 5u
#define RISTULVA_ERROR_UPDATE_INVALID_ORIGIN 6u
#define RISTULVA_ERROR_UPDATE_INVALID_NEXT_HOP 8u
#define RISTULVA_ERROR_UPDATE_OPTIONAL_ATTRIBUTE 9u
#define RISTULVA_ERROR_UPDATE_INVALID_NETWORK_FIELD 10u
#define RISTULVA_ERROR_UPDATE_MALFORMED_AS_PATH 11u

#define RISTULVA_ERROR_STATE_IN_OPEN_SENT 1u
#define RISTULVA_ERROR_STATE_IN_OPEN_CONFIRM 2u
#define RISTULVA_ERROR_STATE_IN_ESTABLISHED 3u

#define RISTULVA_ERROR_CEASE_MAXIMUM_PREFIXES 1u
#define RISTULVA_ERROR_CEASE_ADMINISTRATIVE_SHUTDOWN 2u
#define RISTULVA_ERROR_CEASE_PEER_DE_CONFIGURED 3u
#define RISTULVA_ERROR_CEASE_ADMINISTRATIVE_RESET 4u
#define RISTULVA_ERROR_CEASE_CONNECTION_REJECTED 5u
#define RISTULVA_ERROR_CEASE_OTHER_CONFIGURATION_CHANGE 6u
#define RISTULVA_ERROR_CEASE_CONNECTION_COLLISION 7u
#define RISTULVA_ERROR_CEASE_OUT_OF_RESOURCES 8u
#define RISTULVA_ERROR_CEASE_HARD_RESET 9u
#define RISTULVA_ERROR_CEASE_BFD_DOWN 10u

#define RISTULVA_ERROR_REFRESH_INVALID_LENGTH 1u

/* The kinds of numbers that ristulva_name has names for. */
#define RISTULVA_NAME_STATUS 1u     /* a status of a call */
#define RISTULVA_NAME_WHY 2u        /* a reason of a note, RISTULVA_WHY_FLAGS to RISTULVA_WHY_AS_ZERO, as `bgp show` prints it */
#define RISTULVA_NAME_ATTRIBUTE 3u  /* a type of path attribute */
#define RISTULVA_NAME_CAPABILITY 4u /* a code of a capability */
#define RISTULVA_NAME_ERROR 5u      /* a code of a NOTIFICATION */
#define RISTULVA_NAME_SUBCODE 6u    /* a subcode of one */

/* Enough room for each name. */
#define RISTULVA_NAME 64u

/* Writes the name of a number of this kind to the beginning of `text`, which has room for `room` octets; it isn't terminated by NUL, and the rest
 * of the buffer is unchanged. `subcode` counts only for RISTULVA_NAME_SUBCODE, where `number` is the code. `written` is the length of the name: 0
 * where the number has none here. It allocates nothing.
 *
 * RISTULVA_RANGE: `kind` is none of those above; nothing is written. RISTULVA_ROOM: `written` is, with the room that is needed. */
ristulva_status ristulva_name(uint8_t kind, uint8_t number, uint8_t subcode, char *text, size_t room, size_t *written);

/* ---- the first message of a stream (RFC 4271, sections 4.1 and 6.1) ---- */

#define RISTULVA_MORE 0u  /* an incomplete message */
#define RISTULVA_FOUND 1u /* a complete message */
#define RISTULVA_FAULT 2u /* a header that doesn't begin a message: nothing after it can be read */

typedef struct {
    uint8_t what; /* RISTULVA_MORE, RISTULVA_FOUND or RISTULVA_FAULT */
    /* RISTULVA_FOUND: the type, 1 OPEN, 2 UPDATE, 3 NOTIFICATION, 4 KEEPALIVE, and 5 ROUTE-REFRESH by ristulva_terms. Else 0. */
    uint8_t kind;
    /* RISTULVA_FAULT: code and subcode of the NOTIFICATION that answers it, 1 and 1 to 3. Else 0. */
    uint8_t code;
    uint8_t subcode;
    /* RISTULVA_FOUND: the message's length, header included. RISTULVA_MORE: the least length that the message will have: 19 until its header is
     * complete, then what that says. RISTULVA_FAULT: 0. */
    uint32_t len;
    /* RISTULVA_FAULT: the data of that NOTIFICATION, which is the faulty field: `len` is 0 for a Marker, 2 for a Length, 1 for a type. Else empty. */
    ristulva_span data;
} ristulva_found;

/* Classifies the first message of a stream; octets after it are ignored. Always RISTULVA_OK. */
ristulva_status ristulva_front(const uint8_t *octets, size_t len, ristulva_found *out);

/* ---- the outcome of a message (RFC 4271, section 6; RFC 7606) ---- */

/* What both speakers of the session agreed on. Each is 0 for no, and any other number for yes. */
typedef struct {
    uint8_t internal; /* both have the same AS number */
    uint8_t as4;      /* both offer 4-octet AS numbers (RFC 6793) */
    uint8_t ip4;      /* both offer IPv4 unicast (RFC 4760, section 8) */
    uint8_t ip6;      /* both offer IPv6 unicast */
} ristulva_context;

#define RISTULVA_OPEN 1u         /* an OPEN is accepted */
#define RISTULVA_UPDATE 2u       /* an UPDATE is accepted */
#define RISTULVA_NOTIFICATION 3u /* a NOTIFICATION was received: the peer has ended the session */
#define RISTULVA_KEEPALIVE 4u    /* a KEEPALIVE is accepted */
#define RISTULVA_WITHDRAW 5u     /* an UPDATE is treated as a withdrawal of all its routes (RFC 7606, section 2) */
#define RISTULVA_RESET 6u        /* the session ends, by a NOTIFICATION to the peer */
#define RISTULVA_REFRESH 7u      /* a ROUTE-REFRESH is accepted: only by ristulva_terms, below */

/* The parts of an UPDATE (RFC 4271, section 4.3). */
typedef struct {
    ristulva_span withdrawn;  /* Withdrawn Routes */
    ristulva_span attributes; /* Path Attributes */
    ristulva_span nlri;       /* Network Layer Reachability Information */
} ristulva_parts;

typedef struct {
    uint8_t verdict; /* RISTULVA_OPEN to RISTULVA_REFRESH */
    uint8_t kind;    /* the message's type, 1 to 4, or 5 by ristulva_terms; 0 where its header has a fault */
    /* RISTULVA_NOTIFICATION and RISTULVA_RESET: code and subcode of the NOTIFICATION that was received, or is to be sent (RFC 4271, section 4.5).
     * Else 0. */
    uint8_t code;
    uint8_t subcode;
    uint32_t len; /* the message's length; 0 where its header has a fault */
    /* The length of that NOTIFICATION's Data field: at most RISTULVA_DATA. */
    uint32_t data_len;
    /* Of an UPDATE, where its lengths leave room for each other; else empty, at 0. */
    ristulva_parts parts;
} ristulva_verdict;

/* The greatest length of a NOTIFICATION's Data field. */
#define RISTULVA_DATA 4075u

/* Judges the first message of the octets, in the context of its session; octets after it are ignored. No verdict depends on other messages, nor on
 * memory.
 *
 * The Data field of the NOTIFICATION that was received or that is to be sent is copied to the beginning of `data`, which has room for `room`
 * octets; the rest of the buffer is unchanged. RISTULVA_DATA octets of room are always enough.
 *
 * RISTULVA_INCOMPLETE: nothing is written. RISTULVA_ROOM: `out` is written, with the `data_len` that is needed; `data` isn't. */
ristulva_status ristulva_judge(const ristulva_context *context, const uint8_t *octets, size_t len, uint8_t *data, size_t room,
                               ristulva_verdict *out);

/* ---- notes (RFC 7606, section 6) ---- */

/* What is wrong with an attribute. */
#define RISTULVA_WHY_FLAGS 1u         /* the Optional or the Transitive bit isn't that of the type */
#define RISTULVA_WHY_LENGTH 2u        /* the value isn't as long as its type asks */
#define RISTULVA_WHY_VALUE 3u         /* the value has no meaning */
#define RISTULVA_WHY_SEGMENT_TYPE 4u  /* a segment of a path has an unknown type */
#define RISTULVA_WHY_SEGMENT_COUNT 5u /* a segment of a path has no numbers */
#define RISTULVA_WHY_SEGMENT_END 6u   /* a segment of a path goes past the end of the value */
#define RISTULVA_WHY_REPEATED 7u      /* an attribute of the type stands before it */
#define RISTULVA_WHY_EXTERNAL 8u      /* LOCAL_PREF on an external session */
#define RISTULVA_WHY_FOUR_OCTET 9u    /* AS4_PATH or AS4_AGGREGATOR on a session with AS numbers of four octets */
#define RISTULVA_WHY_FAMILY 10u       /* routes of an address family that isn't in use */
#define RISTULVA_WHY_UNNEEDED 11u     /* NEXT_HOP without NLRI that it could serve */
#define RISTULVA_WHY_EMPTIED 12u      /* an AS4_PATH of which nothing is left */
#define RISTULVA_WHY_CUT 13u          /* the attribute goes past the end of the attributes */
#define RISTULVA_WHY_MISSING 14u      /* no attribute of the type is there */
#define RISTULVA_WHY_AS_ZERO 15u      /* an AS number 0 (RFC 7607) */

typedef struct {
    uint32_t at;  /* the offset of the attribute's flags in the message; 0 for one that is missing */
    uint8_t kind; /* its type; 0 for one that is cut off before its type */
    uint8_t why;  /* RISTULVA_WHY_FLAGS to RISTULVA_WHY_AS_ZERO */
} ristulva_note_found;

/* The most notes of a message. */
#define RISTULVA_NOTES 1361u

/* Lists the notes on the first message of the octets: each attribute that is discarded, or for which the UPDATE is treated as a withdrawal, in the
 * order of their offsets, the one that is cut off, and then what is missing. They are written to the beginning of `notes`, a list with room for
 * `room` of them, whose rest is unchanged. `count` is their number: at most RISTULVA_NOTES, and 0 but for UPDATEs that are accepted or treated as a
 * withdrawal. The message is judged once, however many notes it has.
 *
 * RISTULVA_INCOMPLETE: nothing is written. RISTULVA_ROOM: `count` is written, and the first `room` notes. */
ristulva_status ristulva_notes(const ristulva_context *context, const uint8_t *octets, size_t len, ristulva_note_found *notes, size_t room,
                               size_t *count);

/* ---- the fields of a message ---- */

/* What a field is. A prefix's kind says its family and its field. */
#define RISTULVA_FIELD_MARKER 1u             /* the Marker: sixteen octets (RFC 4271, section 4.1) */
#define RISTULVA_FIELD_MESSAGE_LENGTH 2u     /* the Length of the message: two octets */
#define RISTULVA_FIELD_MESSAGE_TYPE 3u       /* the Type of the message: one octet */
#define RISTULVA_FIELD_VERSION 4u            /* an OPEN's Version: one octet (RFC 4271, section 4.2) */
#define RISTULVA_FIELD_MY_AS 5u              /* an OPEN's My Autonomous System: two octets */
#define RISTULVA_FIELD_HOLD_TIME 6u          /* an OPEN's Hold Time in seconds: two octets */
#define RISTULVA_FIELD_IDENTIFIER 7u         /* an OPEN's BGP Identifier: four octets */
#define RISTULVA_FIELD_PARAMETERS_LENGTH 8u  /* an OPEN's Opt Parm Len: one octet */
#define RISTULVA_FIELD_PARAMETER_TYPE 9u     /* the type of an optional parameter: one octet */
#define RISTULVA_FIELD_PARAMETER_LENGTH 10u  /* the length of an optional parameter: one octet */
#define RISTULVA_FIELD_CAPABILITY_CODE 11u   /* the code of a capability: one octet (RFC 5492, section 4) */
#define RISTULVA_FIELD_CAPABILITY_LENGTH 12u /* the length of a capability: one octet */
#define RISTULVA_FIELD_CAPABILITY_VALUE 13u  /* the value of a capability that isn't recognised */
#define RISTULVA_FIELD_AFI 14u               /* an Address Family Identifier: two octets (RFC 4760, sections 3, 4 and 8) */
#define RISTULVA_FIELD_SAFI 15u              /* a Subsequent Address Family Identifier: one octet */
#define RISTULVA_FIELD_RESERVED 16u          /* a reserved octet, of a capability or of MP_REACH_NLRI */
#define RISTULVA_FIELD_AS_NUMBER 17u         /* an AS number, of a capability, a path or an aggregator: two octets or four (RFC 6793) */
#define RISTULVA_FIELD_WITHDRAWN_LENGTH 18u  /* an UPDATE's Withdrawn Routes Length: two octets (RFC 4271, section 4.3) */
#define RISTULVA_FIELD_ATTRIBUTES_LENGTH 19u /* an UPDATE's Total Path Attribute Length: two octets */
#define RISTULVA_FIELD_ATTRIBUTE_FLAGS 20u   /* the flags of a path attribute: one octet */
#define RISTULVA_FIELD_ATTRIBUTE_TYPE 21u    /* the type of a path attribute: one octet */
#define RISTULVA_FIELD_ATTRIBUTE_LENGTH 22u  /* the length of a path attribute: one octet, or two where the Extended Length bit is set */
#define RISTULVA_FIELD_ORIGIN 23u            /* the value of ORIGIN: one octet */
#define RISTULVA_FIELD_SEGMENT_TYPE 24u      /* the type of a path's segment: one octet */
#define RISTULVA_FIELD_SEGMENT_COUNT 25u     /* the number of AS numbers in a path's segment: one octet */
#define RISTULVA_FIELD_ADDRESS 26u           /* an IPv4 address, of NEXT_HOP or an aggregator: four octets */
#define RISTULVA_FIELD_MED 27u               /* the value of MULTI_EXIT_DISC: four octets */
#define RISTULVA_FIELD_LOCAL_PREF 28u        /* the value of LOCAL_PREF: four octets */
#define RISTULVA_FIELD_COMMUNITY 29u         /* a community: four octets (RFC 1997) */
#define RISTULVA_FIELD_LARGE_COMMUNITY 30u   /* a large community: twelve octets (RFC 8092, section 3) */
#define RISTULVA_FIELD_NEXT_HOP_LENGTH 31u   /* the length of MP_REACH_NLRI's next hop: one octet (RFC 4760, section 3) */
#define RISTULVA_FIELD_NEXT_HOP 32u          /* the next hop of MP_REACH_NLRI: 4 octets or 16 */
#define RISTULVA_FIELD_LINK_LOCAL 33u        /* the link-local next hop of MP_REACH_NLRI: 16 octets (RFC 2545, section 3) */
#define RISTULVA_FIELD_ATTRIBUTE_VALUE 34u   /* the value of an attribute that isn't recognised */
#define RISTULVA_FIELD_WITHDRAWN_PREFIX 35u  /* an IPv4 prefix of Withdrawn Routes, with its length octet: 1 to 5 octets */
#define RISTULVA_FIELD_UNREACH_PREFIX4 36u   /* an IPv4 prefix of MP_UNREACH_NLRI: 1 to 5 octets */
#define RISTULVA_FIELD_UNREACH_PREFIX6 37u   /* an IPv6 prefix of MP_UNREACH_NLRI: 1 to 17 octets */
#define RISTULVA_FIELD_REACH_PREFIX4 38u     /* an IPv4 prefix of MP_REACH_NLRI: 1 to 5 octets */
#define RISTULVA_FIELD_REACH_PREFIX6 39u     /* an IPv6 prefix of MP_REACH_NLRI: 1 to 17 octets */
#define RISTULVA_FIELD_NLRI_PREFIX 40u       /* an IPv4 prefix of Network Layer Reachability Information: 1 to 5 octets */
#define RISTULVA_FIELD_ERROR_CODE 41u        /* a NOTIFICATION's error code: one octet (RFC 4271, section 4.5) */
#define RISTULVA_FIELD_ERROR_SUBCODE 42u     /* a NOTIFICATION's error subcode: one octet */
#define RISTULVA_FIELD_DATA 43u              /* a NOTIFICATION's data */
#define RISTULVA_FIELD_UNREAD 44u            /* octets that can't be read as what should be there, up to the end of what encloses them */
#define RISTULVA_FIELD_SUBTYPE 45u           /* a ROUTE-REFRESH's Message Subtype: one octet (RFC 7313, section 3.2); ristulva_fields has none */
#define RISTULVA_FIELD_PATH_IDENTIFIER 46u   /* the path identifier before a prefix: four octets (RFC 7911, section 3); ristulva_fields has none */

/* A field: octets of a message with one meaning. Each octet is in exactly one of them, whatever the message is. */
typedef struct {
    uint16_t at;    /* its offset in the message */
    uint16_t len;   /* its length: at least one */
    uint16_t group; /* the offset of the attribute, optional parameter or capability that it belongs to; 0 for none */
    uint8_t kind;   /* RISTULVA_FIELD_MARKER to RISTULVA_FIELD_UNREAD */
    uint8_t type;   /* the type or code of that; 0 for none, and for an attribute that ends before its type */
} ristulva_field;

/* The most fields of a message. */
#define RISTULVA_FIELDS 4096u

/* Lists all fields of the first message of the octets, in their order: concatenated they are the message. Of a header with a fault they are its 19
 * octets. They are written to the beginning of `fields`, a list with room for `room` of them, whose rest is unchanged; `written` is their number.
 * Room for as many fields as the message has octets is always enough. Where the message is accepted without a note no field is
 * RISTULVA_FIELD_UNREAD.
 *
 * RISTULVA_INCOMPLETE; RISTULVA_ROOM, there are more than `room`: nothing is written. */
ristulva_status ristulva_fields(const ristulva_context *context, const uint8_t *octets, size_t len, ristulva_field *fields, size_t room,
                                size_t *written);

/* Reports the octets for which the first message is RISTULVA_RESET: an octet of the Marker, or a field of the header; an OPEN's field, parameter or
 * capability; an UPDATE's attribute, the first bad prefix of a field, or the length that leaves no room. Of octets that aren't RISTULVA_RESET,
 * `out->len` is 0.
 *
 * RISTULVA_INCOMPLETE: nothing is written. */
ristulva_status ristulva_fault(const ristulva_context *context, const uint8_t *octets, size_t len, ristulva_span *out);

/* Reports which octets of the first message a note of ristulva_notes on it is about: the attribute, which extends to the end of the attributes
 * where it is cut off. For one that is missing, `out->len` is 0.
 *
 * RISTULVA_INCOMPLETE: nothing is written. */
ristulva_status ristulva_note_span(const uint8_t *octets, size_t len, const ristulva_note_found *note, ristulva_span *out);

/* Writes the section of an RFC by which the first message is RISTULVA_RESET, as `bgp explain` prints it ("RFC 7606, section 7.11"; "own rule" where
 * no RFC has the rule), to the beginning of `text`, which has room for `room` octets: at most RISTULVA_SECTION. It isn't terminated by NUL; the
 * rest of the buffer is unchanged. `written` is its length: 0 where the message isn't RISTULVA_RESET.
 *
 * RISTULVA_INCOMPLETE: nothing is written. RISTULVA_ROOM: `written` is, with the room that is needed. */
ristulva_status ristulva_fault_section(const ristulva_context *context, const uint8_t *octets, size_t len, char *text, size_t room,
                                       size_t *written);

/* Writes the section of an RFC that requires a note of ristulva_notes, in the same way.
 *
 * RISTULVA_RANGE, the note has none of the reasons above: nothing is written. RISTULVA_ROOM: `written` is, with the room that is needed. */
ristulva_status ristulva_note_section(const ristulva_note_found *note, char *text, size_t room, size_t *written);

/* The greatest length of such a section. */
#define RISTULVA_SECTION 27u

/* Writes the name of a kind of field, as `bgp explain` prints it, to the beginning of `name`, which has room for `room` octets: at most
 * RISTULVA_FIELD_NAME. It isn't terminated by NUL; the rest of the buffer is unchanged. `written` is its length.
 *
 * RISTULVA_RANGE, `kind` is none of the numbers above: nothing is written. RISTULVA_ROOM: `written` is, with the room that is needed. */
ristulva_status ristulva_field_name(uint32_t kind, char *name, size_t room, size_t *written);

/* The greatest length of such a name. */
#define RISTULVA_FIELD_NAME 38u

/* ---- the facts of an UPDATE (RFC 4271, section 5) ----
 *
 * Common attributes of an UPDATE, only of those that are kept: neither what is discarded nor what is in an UPDATE that is treated as a withdrawal.
 * Each flag (`has_` ..) is 1 where it is so, else 0; a value whose flag is 0 is 0.
 */

/* The values of ORIGIN. */
#define RISTULVA_ORIGIN_IGP 0u
#define RISTULVA_ORIGIN_EGP 1u
#define RISTULVA_ORIGIN_INCOMPLETE 2u

typedef struct {
    uint8_t next_hop[4];     /* NEXT_HOP, an IPv4 address */
    uint8_t mp_next_hop[16]; /* the next hop of MP_REACH_NLRI: an IPv4 address with zeros after it, or a global IPv6 address */
    uint8_t link_local[16];  /* the link-local address after that one (RFC 2545, section 3) */
    uint16_t mp_afi;         /* the family of MP_REACH_NLRI: 1 for IPv4, 2 for IPv6; 0 where there is no MP_REACH_NLRI */
    uint8_t has_next_hop;
    uint8_t has_link_local;
} ristulva_next_hops;

typedef struct {
    /* The spans of values in the octets, for the cursors below: empty, at 0, where the attribute is missing or discarded. */
    ristulva_span as_path;           /* AS_PATH: ristulva_next_segment, `wide` as the context's `as4` */
    ristulva_span as4_path;          /* AS4_PATH: ristulva_next_segment, `wide` and `confederations` 1 */
    ristulva_span communities;       /* COMMUNITIES: ristulva_next_number, of four octets */
    ristulva_span large_communities; /* LARGE_COMMUNITY: ristulva_next_large_community */
    /* The origin AS of the route: the last number of the path that AS_PATH and AS4_PATH give together, as ristulva_reconcile writes it (RFC 6793,
     * section 4.2.3). 0, and no flag, where that path is empty or ends in a set (RFC 6811, section 2). */
    uint32_t origin_as;
    uint8_t has_as_path;
    uint8_t has_as4_path;
    uint8_t has_communities;
    uint8_t has_large_communities;
    uint8_t has_origin_as;
} ristulva_update_paths;

typedef struct {
    ristulva_next_hops hops;
    ristulva_update_paths paths;
    uint32_t med;                  /* MULTI_EXIT_DISC */
    uint32_t local_pref;           /* LOCAL_PREF */
    uint32_t aggregator_as;        /* the aggregator that AGGREGATOR and AS4_AGGREGATOR give together (RFC 6793, section 4.2.3) */
    uint8_t aggregator_address[4];
    uint32_t unrecognised;         /* the number of attributes of types that aren't recognised */
    uint8_t origin;                /* ORIGIN: RISTULVA_ORIGIN_IGP to RISTULVA_ORIGIN_INCOMPLETE */
    uint8_t has_origin;
    uint8_t has_med;
    uint8_t has_local_pref;
    uint8_t has_aggregator;
    uint8_t atomic_aggregate;      /* whether there is an ATOMIC_AGGREGATE */
} ristulva_update_facts;

/* Reports the facts of the first message of the octets, an UPDATE, in the context of its session; octets after it are ignored. It allocates
 * nothing.
 *
 * RISTULVA_OK exactly where ristulva_judge reports RISTULVA_UPDATE. RISTULVA_INCOMPLETE; RISTULVA_REFUSED, a header with a fault, another message,
 * or an UPDATE that isn't accepted: nothing is written. */
ristulva_status ristulva_facts(const ristulva_context *context, const uint8_t *octets, size_t len, ristulva_update_facts *out);

/* ---- text ---- */

/* Writes the lines that `bgp show` prints of the first message of the octets, or of a header with a fault, to the beginning of `text`, which has
 * room for `room` octets. They aren't terminated by NUL; the rest of the buffer is unchanged. `place` is the offset in the stream that the first
 * line prints. `written` is the length of the lines. It allocates.
 *
 * RISTULVA_INCOMPLETE; RISTULVA_MEMORY, never for an incomplete message: nothing is written. RISTULVA_ROOM: `written` is, with the room that is
 * needed. */
ristulva_status ristulva_text(const ristulva_context *context, uint64_t place, const uint8_t *octets, size_t len, char *text, size_t room,
                              size_t *written);

/* ---- sending (RFC 4271, section 4.3) ---- */

/* The greatest length of a message, and of its body. */
#define RISTULVA_MESSAGE 4096u
#define RISTULVA_BODY 4077u

/* The greatest length of the messages that ristulva_clean writes for one: three of them. */
#define RISTULVA_PARTS 12288u

/* Writes the message of an UPDATE in its one written form to the beginning of `message`, which has room for `room` octets; the rest of the buffer
 * is unchanged. `body` is the body of that UPDATE in any valid form, without the header: its attributes may be in any order, with lengths of one
 * octet or of two. It is judged as if it had been received in this context. `written` is the length of the message: never more than
 * RISTULVA_MESSAGE. It allocates.
 *
 * RISTULVA_RANGE, the body has more than RISTULVA_BODY octets; RISTULVA_REFUSED, it isn't accepted, or some of it is discarded; RISTULVA_MEMORY,
 * only where it is accepted whole: nothing is written. RISTULVA_ROOM: `written` is. What is accepted whole is always written. */
ristulva_status ristulva_encode(const ristulva_context *context, const uint8_t *body, size_t len, uint8_t *message, size_t room,
                                size_t *written);

/* The same for a speaker with 2-octet AS numbers (RFC 6793, section 4.2.2): 23456 replaces each number that needs four octets, and AS4_PATH and
 * AS4_AGGREGATOR are added to AS_PATH and AGGREGATOR where one does. `body` has 4-octet AS numbers, whatever `as4` of the context says.
 * RISTULVA_UNWRITABLE, and nothing is written: with these the message would have more than RISTULVA_MESSAGE octets. */
ristulva_status ristulva_narrow(const ristulva_context *context, const uint8_t *body, size_t len, uint8_t *message, size_t room,
                                size_t *written);

/* The reverse (RFC 6793, section 4.2.3): the UPDATE of a session with 2-octet AS numbers as 4-octet speakers see it. The path and the aggregator
 * that AS4_PATH and AS4_AGGREGATOR give replace all four attributes. `body` has 2-octet AS numbers, whatever `as4` of the context says, and the
 * message has 4-octet ones. RISTULVA_UNWRITABLE, and nothing is written: the message can't be written, or would have more than RISTULVA_MESSAGE
 * octets. */
ristulva_status ristulva_reconcile(const ristulva_context *context, const uint8_t *body, size_t len, uint8_t *message, size_t room,
                                   size_t *written);

/* ---- cleaning (RFC 7606) ---- */

#define RISTULVA_HANDED_ON 0u      /* the message is passed on, or its replacement is */
#define RISTULVA_ENDS_RESET 1u     /* the cleaned stream ends before it: the session ends, by a NOTIFICATION to the peer */
#define RISTULVA_ENDS_LATE_OPEN 2u /* it ends before an OPEN that isn't the first message of its stream */
#define RISTULVA_ENDS_NO_FAMILY 3u /* it ends before an OPEN that offers families, and neither IPv4 nor IPv6 unicast */

typedef struct {
    uint8_t ends;    /* RISTULVA_HANDED_ON to RISTULVA_ENDS_NO_FAMILY */
    uint8_t verdict; /* the outcome of the received message, as by ristulva_judge: RISTULVA_OPEN to RISTULVA_RESET */
    /* RISTULVA_ENDS_RESET: code and subcode of that NOTIFICATION (RFC 4271, section 4.5). Else 0. */
    uint8_t code;
    uint8_t subcode;
    uint32_t len; /* the length of the received message; 0 where its header has a fault */
    /* What was left out of a message that is passed on. Each is 0 where the stream ends. */
    size_t discarded;    /* of an UPDATE that is accepted, attributes that are discarded: as many as ristulva_notes lists */
    size_t left_out;     /* of an UPDATE that is accepted, other attributes, of unrecognised types that are in `types` */
    size_t capabilities; /* of an OPEN, capabilities */
} ristulva_cleaned;

/* Writes what is passed on of the first message of the octets to the beginning of `message`, which has room for `room` octets; the rest of the
 * buffer is unchanged, and octets after the message are ignored. It is one whole message in its one written form, or up to three of an UPDATE:
 * withdrawn routes, those of NLRI, those of MP_REACH_NLRI (RFC 7606, section 5.1). In the same context each is accepted without a note, and
 * unchanged where it is cleaned again, and none is longer than the received message. `written` is their total length, RISTULVA_PARTS at most; where
 * the stream ends, 0, and nothing of any later message is to be passed on. `types` are attribute types, `count` of them in any order: attributes of
 * unrecognised types that are among them are left out. `first` is whether the message is the first one of its stream: 0 for no, any other number
 * for yes.
 *
 * An OPEN is passed on with the first capability of each kind for IPv4 unicast, IPv6 unicast and 4-octet AS numbers, and no others. An UPDATE that
 * is accepted is passed on without what is discarded or left out, IPv4 routes in Withdrawn Routes, NLRI and NEXT_HOP wherever they were (RFC 4271,
 * section 4.3); one that is treated as a withdrawal as an UPDATE that withdraws its routes. Where an UPDATE has no routes, a KEEPALIVE is passed
 * on, unless it is an End-of-RIB (RFC 4724, section 2), which is passed on as the one of its family.
 *
 * RISTULVA_INCOMPLETE: nothing is written. RISTULVA_ROOM: `written` is, with the room that is needed, and so is `out`; `message` isn't. */
ristulva_status ristulva_clean(const ristulva_context *context, const uint8_t *types, size_t count, uint8_t first, const uint8_t *octets,
                               size_t len, uint8_t *message, size_t room, size_t *written, ristulva_cleaned *out);

/* ---- cursors ----
 *
 * A cursor is a few numbers that a call moves over octets. To begin, set `at` and `end` to a span's first and last offset, and pass the octets that
 * the span lies in, the same at each call. The call gives what is at the cursor, and moves the cursor after it. A cursor that points anywhere else
 * gives other answers, RISTULVA_RANGE where it leaves the octets, and never a read outside of them.
 */

typedef struct {
    uint32_t at;
    uint32_t end;
} ristulva_attributes;

/* A path attribute as it lies in octets (RFC 4271, section 4.3). */
typedef struct {
    uint32_t at;   /* the offset of its flags */
    uint8_t flags; /* 128 optional, 64 transitive, 32 partial, 16 extended length */
    uint8_t kind;  /* the type */
    ristulva_span value;
} ristulva_attribute;

/* Gives the attributes of a field in sequence, discarded or not, up to the end or to one that is cut off: begin at the span `attributes` of a
 * verdict. RISTULVA_END: no whole attribute remains. RISTULVA_RANGE: `at` is above `end`, or `end` above `len`. */
ristulva_status ristulva_next_attribute(const uint8_t *octets, size_t len, ristulva_attributes *cursor, ristulva_attribute *out);

typedef struct {
    uint32_t at;
    uint32_t end;
    uint16_t afi; /* 1 for IPv4, 2 for IPv6 */
} ristulva_prefixes;

typedef struct {
    uint16_t afi;
    uint8_t len;      /* the length in bits: at most 32 for IPv4, and 128 for IPv6 */
    uint8_t addr[16]; /* the address, highest octet first: four octets for IPv4, and zeros after them. Bits after the length are 0 */
} ristulva_prefix;

/* Gives the prefixes of a field in sequence, up to the end or to the first fault: begin at the span `withdrawn` or `nlri` of a verdict with the
 * family 1. RISTULVA_END: no whole prefix remains. RISTULVA_RANGE: `at` is above `end`, `end` above `len`, or `afi` neither 1 nor 2. */
ristulva_status ristulva_next_prefix(const uint8_t *octets, size_t len, ristulva_prefixes *cursor, ristulva_prefix *out);

/* Counts the remaining prefixes; the cursor isn't moved. RISTULVA_RANGE, and nothing is written: as for ristulva_next_prefix. */
ristulva_status ristulva_count_prefixes(const uint8_t *octets, size_t len, const ristulva_prefixes *cursor, size_t *count);

/* Begins a cursor at the prefixes of MP_REACH_NLRI (type 14; RFC 4760, section 3), of which `value` is the value, and reports the span of the next
 * hop: 4 octets for IPv4; 16 for IPv6, or 32 where a link-local address follows the global one (RFC 2545).
 *
 * RISTULVA_RANGE, and nothing is written: the value isn't within the octets, has no room for what precedes the prefixes, or isn't of IPv4 or IPv6
 * unicast. Whether the family is in use, and the next hop of an allowed length, isn't tested here: both hold where the UPDATE is accepted without a
 * note on this attribute. */
ristulva_status ristulva_reached(const uint8_t *octets, size_t len, const ristulva_span *value, ristulva_span *next_hop,
                                 ristulva_prefixes *cursor);

/* The same for MP_UNREACH_NLRI (type 15; RFC 4760, section 4), which has no next hop. */
ristulva_status ristulva_unreached(const uint8_t *octets, size_t len, const ristulva_span *value, ristulva_prefixes *cursor);

/* The remaining routes of an UPDATE: four cursors, each with its family. */
typedef struct {
    ristulva_prefixes withdrawn; /* Withdrawn Routes */
    ristulva_prefixes unreached; /* MP_UNREACH_NLRI */
    ristulva_prefixes reached;   /* MP_REACH_NLRI */
    ristulva_prefixes nlri;      /* Network Layer Reachability Information */
    uint8_t announces;           /* 1 where those of the last two are announced; 0 where they are withdrawn too */
    uint8_t loses_ip6;           /* 1 where the UPDATE has MP_REACH_NLRI or MP_UNREACH_NLRI of IPv6 unicast, and the context has no `ip6`: its routes
                                  * aren't given, if it has any (an End-of-RIB has none: RFC 4724, section 2). Else 0 */
} ristulva_route_cursor;

typedef struct {
    uint8_t announced; /* 1 where it is announced, 0 where it is withdrawn */
    ristulva_prefix prefix;
} ristulva_route;

/* Begins a cursor at the first route of the first message of the octets, by RFC 7606: those that an UPDATE withdraws, then those that it announces;
 * of one that is treated as a withdrawal all are withdrawn (section 2). They are in the order of the four cursors. Of other messages, and of a
 * header with a fault, there are none. The message is judged once. RISTULVA_INCOMPLETE: nothing is written. */
ristulva_status ristulva_begin_routes(const ristulva_context *context, const uint8_t *octets, size_t len, ristulva_route_cursor *cursor);

/* Gives the routes in sequence. RISTULVA_END: none remains. RISTULVA_RANGE: one of the four cursors isn't one of these octets, as for
 * ristulva_next_prefix. */
ristulva_status ristulva_next_route(const uint8_t *octets, size_t len, ristulva_route_cursor *cursor, ristulva_route *out);

typedef struct {
    uint32_t at;
    uint32_t end;
    uint8_t wide;           /* whether AS numbers have four octets: 0 for no. For AS_PATH it is the context's `as4`, for AS4_PATH 1 */
    uint8_t confederations; /* whether segments of confederations are read: 0 for no, as for AS_PATH; 1 for AS4_PATH (RFC 6793) */
} ristulva_segments;

/* A segment of a path (RFC 4271, section 4.3). */
typedef struct {
    uint8_t kind;          /* 1 AS_SET, 2 AS_SEQUENCE; of a confederation 3 and 4, which AS4_PATH drops */
    ristulva_span numbers; /* its AS numbers, one at least */
} ristulva_segment;

/* Gives the segments of a path in sequence, the nearest first: begin at the value of AS_PATH (type 2) or AS4_PATH (type 17). RISTULVA_END: no whole
 * segment remains. RISTULVA_RANGE: `at` is above `end`, or `end` above `len`. */
ristulva_status ristulva_next_segment(const uint8_t *octets, size_t len, ristulva_segments *cursor, ristulva_segment *out);

typedef struct {
    uint32_t at;
    uint32_t end;
    uint8_t width; /* the length of each number: 2 or 4 */
} ristulva_numbers;

/* Gives the numbers of a field in sequence, highest octet first: begin at the numbers of a segment, with the width that its path has; or, with the
 * width 4, at the value of COMMUNITIES (type 8; RFC 1997). RISTULVA_END: no whole number remains. RISTULVA_RANGE: `at` is above `end`, `end` above
 * `len`, or `width` neither 2 nor 4. */
ristulva_status ristulva_next_number(const uint8_t *octets, size_t len, ristulva_numbers *cursor, uint32_t *out);

typedef struct {
    uint32_t first; /* the offset of the first community: the value of the attribute */
    uint32_t at;    /* the offset of the next one */
    uint32_t end;   /* the end of the value */
} ristulva_large_communities;

/* A large community (RFC 8092, section 3): its Global Administrator, and the two parts of its Local Data. */
typedef struct {
    uint32_t numbers[3];
} ristulva_large_community;

/* Gives the large communities of LARGE_COMMUNITY (type 32; RFC 8092) in sequence, each only where it occurs first, as `bgp show` prints them: a
 * repeated one is skipped (section 3), for which a call looks back over all from `first` on. Begin at the attribute's value, with `first` and `at`
 * the same. RISTULVA_END: none remains that is whole and new. RISTULVA_RANGE: `first` is above `at`, `at` above `end`, `end` above `len`, or `at`
 * not a multiple of twelve octets after `first`. */
ristulva_status ristulva_next_large_community(const uint8_t *octets, size_t len, ristulva_large_communities *cursor, ristulva_large_community *out);

/* ---- batches: messages in sequence, in rows ----
 *
 * Each of these calls processes messages from the first octet on, as many whole ones as fit in `rows`, which holds `room` rows: each is judged
 * once, in the context of its session, and its rows are written after those of the previous messages. `written` is the number of rows, and `taken`
 * the total length of the messages: the caller continues from there. Messages without rows, as a KEEPALIVE, are processed too. The rest of `rows`
 * is unchanged. They allocate nothing.
 *
 * RISTULVA_OK: all octets are processed; or `taken` is below `len`, and the next message has more rows than there is room for. RISTULVA_INCOMPLETE:
 * an incomplete message is at `taken`. RISTULVA_REFUSED: a message, or a header with a fault, that ends the session is at `taken` (ristulva_judge
 * reports why). In these cases too what was processed is written. RISTULVA_ROOM: `room` is below RISTULVA_BATCH, and nothing is written, `written`
 * and `taken` neither.
 */

/* The least room of these calls: no message has more rows. */
#define RISTULVA_BATCH 4073u

/* A span in a message: `len` octets from the offset `at` on. */
typedef struct {
    uint16_t at;
    uint16_t len;
} ristulva_place;

typedef struct {
    uint64_t message;                 /* the offset of its message in the octets given */
    uint32_t origin_as;               /* its origin AS, as by ristulva_facts; 0 without `has_origin_as` */
    ristulva_place as_path;           /* the values of attributes that are kept, in its message; empty, at 0, where there is none */
    ristulva_place as4_path;
    ristulva_place communities;
    ristulva_place large_communities;
    ristulva_prefix prefix;           /* the four octets of an IPv4 address have zeros after them */
    uint8_t announced;                /* 1 where it is announced; 0 where it is withdrawn, and nothing is reported of attributes */
    uint8_t verdict;                  /* of its message: RISTULVA_UPDATE or RISTULVA_WITHDRAW */
    uint8_t has_origin_as;            /* 1 where there is an `origin_as`, else 0 */
    uint8_t reserved[5];              /* zeros */
} ristulva_route_row;

/* The routes that ristulva_begin_routes and ristulva_next_route give of each message, a row for each. */
ristulva_status ristulva_routes(const ristulva_context *context, const uint8_t *octets, size_t len, ristulva_route_row *rows, size_t room,
                                size_t *written, size_t *taken);

typedef struct {
    uint64_t message; /* the offset of its message */
    uint32_t number;  /* an AS number */
    uint16_t segment; /* the index of its segment in the path: 0 for the first */
    uint8_t set;      /* 1 of an AS_SET, 0 of an AS_SEQUENCE */
    uint8_t reserved; /* 0 */
} ristulva_number_row;

/* The numbers of the path that AS_PATH and AS4_PATH give together, as ristulva_reconcile writes it, the nearest first: of each UPDATE that is
 * accepted. */
ristulva_status ristulva_path_numbers(const ristulva_context *context, const uint8_t *octets, size_t len, ristulva_number_row *rows, size_t room,
                                      size_t *written, size_t *taken);

typedef struct {
    uint64_t message;  /* the offset of its message */
    uint32_t value;    /* a community (RFC 1997) */
    uint32_t reserved; /* 0 */
} ristulva_community_row;

/* The communities of each UPDATE that is accepted, of the attribute that is kept, in order. */
ristulva_status ristulva_communities_of(const ristulva_context *context, const uint8_t *octets, size_t len, ristulva_community_row *rows,
                                        size_t room, size_t *written, size_t *taken);

typedef struct {
    uint64_t message;  /* the offset of its message */
    uint32_t global;   /* the Global Administrator (RFC 8092, section 3) */
    uint32_t local1;   /* the two parts of Local Data */
    uint32_t local2;
    uint32_t reserved; /* 0 */
} ristulva_large_community_row;

/* The large communities of each UPDATE that is accepted, of the attribute that is kept, in order, each once. */
ristulva_status ristulva_large_communities_of(const ristulva_context *context, const uint8_t *octets, size_t len,
                                              ristulva_large_community_row *rows, size_t room, size_t *written, size_t *taken);

/* ---- what an OPEN says (RFC 4271, section 4.2; RFC 5492) ---- */

/* A cursor over capabilities, which are in parameters, none, one or many in each. ristulva_open gives one to begin with. */
typedef struct {
    uint32_t at;   /* the offset of the next one, in the parameter that was begun */
    uint32_t stop; /* the end of that parameter, where the next one begins */
    uint32_t end;  /* the end of the parameters */
} ristulva_capabilities;

typedef struct {
    /* The AS number of its speaker: that of the first capability for 4-octet AS numbers (code 65), else `as_field` (RFC 6793, section 4.1). */
    uint32_t as_number;
    uint16_t as_field; /* My Autonomous System: 23456 for an AS number that needs four octets */
    uint16_t hold;     /* Hold Time in seconds: 0 for none, and never 1 or 2 */
    uint8_t id[4];     /* BGP Identifier, highest octet first: never zero (RFC 6286, section 2.1) */
    uint8_t as4;       /* whether it offers 4-octet AS numbers (RFC 6793): 1 or 0 */
    uint8_t ip4;       /* whether it offers IPv4 unicast (RFC 4760, section 8): 1 or 0 */
    uint8_t ip6;       /* whether it offers IPv6 unicast: 1 or 0 */
    ristulva_capabilities capabilities; /* a cursor at the first of its capabilities, over the octets given */
} ristulva_open_fields;

/* Reports what the first message of the octets, an OPEN, says; octets after it are ignored. It allocates nothing.
 *
 * RISTULVA_OK exactly where ristulva_judge reports RISTULVA_OPEN, in any context. RISTULVA_INCOMPLETE; RISTULVA_REFUSED, a header with a fault,
 * another message, or an OPEN with a fault, as one in the extended form of RFC 9072: nothing is written. */
ristulva_status ristulva_open(const uint8_t *octets, size_t len, ristulva_open_fields *out);

/* A capability as it lies in octets (RFC 5492, section 4). */
typedef struct {
    uint8_t code;
    ristulva_span value; /* at most 255 octets; of the codes 1 (RFC 4760, section 8) and 65 (RFC 6793, section 3) four */
} ristulva_capability;

/* Gives capabilities in sequence, however they are grouped into parameters. The code and the length of each are the two octets before its value.
 * RISTULVA_END: none remains. RISTULVA_RANGE: `at` is above `stop`, `stop` above `end`, or `end` above `len`. */
ristulva_status ristulva_next_capability(const uint8_t *octets, size_t len, ristulva_capabilities *cursor, ristulva_capability *out);

/* Reports what two speakers agree on, given the octets of their OPENs; octets after the OPENs are ignored. That is the context of their session,
 * and its Hold Time in seconds, 0 for none, as each speaker finds them from its own OPEN and the other's, and as `bgp show --opens` does. Neither
 * OPEN is refused for what it says: where both agree on path identifiers for a direction (capability 69; RFC 7911), its messages are read by
 * ristulva_terms_of, and ristulva_without_paths before each other call. It allocates nothing. Each field of the context is 0 or 1.
 *
 * RISTULVA_INCOMPLETE, RISTULVA_REFUSED: as by ristulva_open, for the first of the two that isn't accepted. Nothing is written. */
ristulva_status ristulva_agree(const uint8_t *ours, size_t ours_len, const uint8_t *theirs, size_t theirs_len, ristulva_context *context,
                               uint16_t *hold);

/* ---- terms: what two OPENs agree on beyond a context (RFC 2918; RFC 7313) ----
 *
 * Terms are of one direction of a session, from a sender to a reader: the sender's messages are read by them. A ROUTE-REFRESH is a message where its
 * reader offers that; by a context alone its type, 5, is a bad message type. All other messages are read in `context`, which the other calls of this
 * header take. A message has at most RISTULVA_MESSAGE octets, whatever is agreed on.
 *
 * A call that takes terms answers RISTULVA_RANGE, and writes nothing, where `refresh` is none of the numbers below; and where routes have path
 * identifiers, but for ristulva_judge_paths, ristulva_without_paths and ristulva_paths.
 */

/* Which ROUTE-REFRESH the reader accepts. */
#define RISTULVA_REFRESH_NONE 0u     /* none: it doesn't offer it (capability 2) */
#define RISTULVA_REFRESH_PLAIN 1u    /* requests (RFC 2918) */
#define RISTULVA_REFRESH_ENHANCED 2u /* and the marks where a refresh begins and ends, which both offer (capability 70; RFC 7313) */

/* Each flag is 0 for no, and any other number for yes. */
typedef struct {
    ristulva_context context;
    uint8_t refresh;       /* RISTULVA_REFRESH_NONE to RISTULVA_REFRESH_ENHANCED */
    uint8_t long_messages; /* the reader accepts messages of up to 65535 octets (capability 6; RFC 8654) */
    uint8_t long_back;     /* the sender does: NOTIFICATIONs to it may be that long */
    uint8_t paths4;        /* IPv4 unicast routes have path identifiers (capability 69; RFC 7911) */
    uint8_t paths6;        /* IPv6 unicast routes have path identifiers */
    uint8_t hop6;          /* IPv4 unicast routes may have an IPv6 next hop (capability 5; RFC 8950) */
} ristulva_terms;

/* Reports the terms for what a reader receives from a sender, given the octets of the OPENs of both; octets after the OPENs are ignored. Neither OPEN
 * is refused for what it says, and each end finds the same terms for one direction. `hold` is the Hold Time in seconds, 0 for none. It allocates
 * nothing. Each flag is 0 or 1.
 *
 * RISTULVA_INCOMPLETE, RISTULVA_REFUSED: as by ristulva_open, for the first of the two that isn't accepted. Nothing is written. */
ristulva_status ristulva_terms_of(const uint8_t *reader, size_t reader_len, const uint8_t *sender, size_t sender_len, ristulva_terms *terms,
                                  uint16_t *hold);

/* Classifies the first message of a stream, as ristulva_front does, by these terms. RISTULVA_RANGE. */
ristulva_status ristulva_front_in(const ristulva_terms *terms, const uint8_t *octets, size_t len, ristulva_found *out);

/* Judges the first message of the octets by these terms: as ristulva_judge does in their context, but for a ROUTE-REFRESH. That is RISTULVA_REFRESH,
 * or RISTULVA_RESET: 1/2 for a body of fewer than four octets, and 7/1, with the message as data, for a mark of another length than four octets
 * (RFC 7313, section 5).
 *
 * RISTULVA_RANGE; RISTULVA_INCOMPLETE, RISTULVA_ROOM: as by ristulva_judge. */
ristulva_status ristulva_judge_in(const ristulva_terms *terms, const uint8_t *octets, size_t len, uint8_t *data, size_t room,
                                  ristulva_verdict *out);

/* Writes the lines that `bgp show` prints of the first message of the octets, as ristulva_text does, by these terms. It allocates.
 *
 * RISTULVA_RANGE; RISTULVA_INCOMPLETE, RISTULVA_MEMORY, RISTULVA_ROOM: as by ristulva_text. */
ristulva_status ristulva_text_in(const ristulva_terms *terms, uint64_t place, const uint8_t *octets, size_t len, char *text, size_t room,
                                 size_t *written);

/* The subtypes of a ROUTE-REFRESH. Each other one has no effect (RFC 7313, section 5). */
#define RISTULVA_SUBTYPE_REQUEST 0u /* the routes of the family are asked for (RFC 2918, section 3) */
#define RISTULVA_SUBTYPE_BEGIN 1u   /* a refresh begins (BoRR; RFC 7313, section 3.2) */
#define RISTULVA_SUBTYPE_END 2u     /* a refresh ends (EoRR) */

typedef struct {
    uint16_t afi;       /* the address family */
    uint8_t safi;       /* the subsequent address family */
    uint8_t subtype;    /* RISTULVA_SUBTYPE_REQUEST by RISTULVA_REFRESH_PLAIN, whatever the octet is: it is reserved there, and ignored */
    ristulva_span rest; /* what follows the four octets, without effect: entries of route filters (RFC 5291, section 4) */
} ristulva_refresh;

/* Reports what a ROUTE-REFRESH that the octets begin with says, by these terms.
 *
 * RISTULVA_RANGE; RISTULVA_INCOMPLETE; RISTULVA_REFUSED, the first message is another, or isn't accepted: nothing is written. */
ristulva_status ristulva_refresh_in(const ristulva_terms *terms, const uint8_t *octets, size_t len, ristulva_refresh *out);

/* Writes a ROUTE-REFRESH for a family to the beginning of `message`, which has room for `room` octets; the rest of the buffer is unchanged. `written`
 * is its length: RISTULVA_REFRESH_MESSAGE. It allocates nothing.
 *
 * RISTULVA_ROOM: `written` is, with the room that is needed; `message` isn't. */
ristulva_status ristulva_encode_refresh(uint16_t afi, uint8_t safi, uint8_t subtype, uint8_t *message, size_t room, size_t *written);

/* The length of a ROUTE-REFRESH that is written. */
#define RISTULVA_REFRESH_MESSAGE 23u

/* ---- path identifiers (ADD-PATH; RFC 7911) ----
 *
 * Where both speakers agree on it, each IPv4 or IPv6 unicast route of a direction is preceded by a path identifier of four octets, by which a speaker
 * announces more than one path to a prefix. Such a message is judged by ristulva_judge_paths. ristulva_without_paths writes it without the identifiers,
 * for each call that takes a context, or terms without `paths4` and `paths6`; and ristulva_paths lists them, beside the routes that those calls report.
 */

/* Judges the first message of the octets by these terms: an UPDATE without the path identifiers of its routes, each other message as ristulva_judge_in
 * does. `len` and the parts are those of the octets as they are, and an attribute that is data of the NOTIFICATION is the one that was received
 * (RFC 7606, section 5.3). The calls on attributes and routes take what ristulva_without_paths writes, not these octets.
 *
 * RISTULVA_RANGE; RISTULVA_INCOMPLETE, RISTULVA_ROOM: as by ristulva_judge. */
ristulva_status ristulva_judge_paths(const ristulva_terms *terms, const uint8_t *octets, size_t len, uint8_t *data, size_t room,
                                     ristulva_verdict *out);

/* Writes the first message of the octets to the beginning of `message`, which has room for `room` octets: RISTULVA_MESSAGE are enough, and it is no
 * longer than it was. The rest of the buffer is unchanged. `written` is its length. An UPDATE is written without the path identifiers of the families
 * that have them by these terms: those of IPv4 in Withdrawn Routes, MP_UNREACH_NLRI, MP_REACH_NLRI and NLRI, those of IPv6 in the two attributes. Its
 * lengths are those of what is left, and all else is as it was. Octets after the last whole route of a field become one octet, 255: with it no
 * prefix begins, and the outcome is that of the fault (RFC 7606, section 5.3), but an attribute that is data of a NOTIFICATION is that without
 * identifiers: ristulva_judge_paths has it as it was received. Where the lengths of an UPDATE leave no room for each other, it is as it was; so is each
 * other message. The UPDATE isn't judged, and the context of the terms has no effect. It allocates nothing.
 *
 * RISTULVA_RANGE, RISTULVA_INCOMPLETE; RISTULVA_REFUSED, the header has a fault: nothing is written. RISTULVA_ROOM: `written` is, with the room that
 * is needed; `message` isn't. */
ristulva_status ristulva_without_paths(const ristulva_terms *terms, const uint8_t *octets, size_t len, uint8_t *message, size_t room,
                                       size_t *written);

/* The most routes of a message. */
#define RISTULVA_PATHS 4073u

/* Lists the path identifiers of the routes of the first message of the octets, at the beginning of `paths`, which has room for `room` of them:
 * RISTULVA_PATHS are enough. The rest of the list is unchanged. `written` is their number: one for each route that ristulva_next_route and
 * ristulva_routes give of the message that ristulva_without_paths writes, in the context of the terms, in the same order; 0 for a route whose family
 * has none (an identifier may be 0 too). Another message than an UPDATE has no routes. It allocates nothing.
 *
 * RISTULVA_RANGE, RISTULVA_INCOMPLETE; RISTULVA_REFUSED, the header has a fault, or the UPDATE is RISTULVA_RESET without path identifiers: nothing is
 * written. RISTULVA_ROOM: `written` is, with the room that is needed; `paths` isn't. */
ristulva_status ristulva_paths(const ristulva_terms *terms, const uint8_t *octets, size_t len, uint32_t *paths, size_t room, size_t *written);

/* ---- a stream in pieces (RFC 4271, section 4.1) ----
 *
 * A decoder is for a host that keeps no buffer of what it has read: it consumes the octets of a stream, however TCP cuts it, and holds those of an
 * incomplete message. The outcomes don't depend on where the stream is cut: they are what ristulva_judge reports of one message after another.
 * After a RISTULVA_RESET it reads nothing.
 *
 * A handle is the caller's. It begins as {NULL}, gets a decoder by ristulva_decoder_new, and loses it by ristulva_decoder_free; the decoder is
 * memory of the library's, some 4.2 KB. A handle isn't copied, and its pointer isn't changed. It may move between threads, but no two calls are
 * given the same handle at one time; different decoders share nothing.
 */

struct ristulva_decoder_body;

typedef struct {
    struct ristulva_decoder_body *body; /* NULL where there is no decoder */
} ristulva_decoder;

/* Makes a decoder at the beginning of a stream, in the context of its session. It allocates what the decoder keeps.
 *
 * RISTULVA_IN_USE, the handle has a decoder; RISTULVA_MEMORY, only where it has none: nothing has changed. */
ristulva_status ristulva_decoder_new(const ristulva_context *context, ristulva_decoder *decoder);

/* Frees a decoder, and what it holds: the handle has none then. RISTULVA_NO_DECODER. */
ristulva_status ristulva_decoder_free(ristulva_decoder *decoder);

/* Consumes octets of a piece until a message is whole, after those that the decoder holds, and reports its outcome, as ristulva_judge does. `taken`
 * is how many of the `len` octets were consumed: pass the octets after them again, as the next piece or a part of it, until RISTULVA_INCOMPLETE.
 *
 * RISTULVA_OK: the octets of the message, `out->len` of them, are written to the beginning of `message`, which has room for `message_room` octets,
 * RISTULVA_MESSAGE at least; the rest of the buffer is unchanged. Offsets, notes and cursors are those of these octets. For a header with a fault
 * its 19 octets are written, and `out->len` is 0. The Data field of the NOTIFICATION that was received or that is to be sent is written to the
 * beginning of `data`, which has room for `room` octets, RISTULVA_DATA at least. It doesn't allocate.
 *
 * RISTULVA_INCOMPLETE: all octets of the piece were consumed, and the message needs more; `taken` is written, and nothing else. RISTULVA_ROOM,
 * `message_room` is below RISTULVA_MESSAGE or `room` below RISTULVA_DATA; RISTULVA_NO_DECODER; RISTULVA_STATE, a RISTULVA_RESET was reported:
 * nothing has changed, and nothing is consumed or written. */
ristulva_status ristulva_decoder_pull(ristulva_decoder *decoder, const uint8_t *octets, size_t len, uint8_t *message, size_t message_room,
                                      uint8_t *data, size_t room, size_t *taken, ristulva_verdict *out);

/* Reports the length of the incomplete message that the decoder holds, at most RISTULVA_MESSAGE. Where a stream ends, 0 means that it ends after a
 * message, or after a RISTULVA_RESET. RISTULVA_NO_DECODER. */
ristulva_status ristulva_decoder_held(ristulva_decoder *decoder, size_t *held);

/* ---- a stream in pieces, by terms (RFC 2918; RFC 7313) ----
 *
 * The same as a decoder by ristulva_terms instead of a context: the outcomes are what ristulva_judge_in reports of one message after another. A
 * handle is used, and may move between threads, as one of a decoder.
 */

struct ristulva_stream_body;

typedef struct {
    struct ristulva_stream_body *body; /* NULL where there is no stream */
} ristulva_stream;

/* Makes a stream at its beginning, by the terms of its direction. It allocates what the stream keeps: some 4.5 KB.
 *
 * RISTULVA_IN_USE, the handle has a stream; RISTULVA_RANGE, of the terms; RISTULVA_MEMORY, only where neither holds: nothing has changed. */
ristulva_status ristulva_stream_new(const ristulva_terms *terms, ristulva_stream *stream);

/* Frees a stream, and what it holds: the handle has none then. RISTULVA_NO_STREAM. */
ristulva_status ristulva_stream_free(ristulva_stream *stream);

/* Consumes octets of a piece until a message is whole, as ristulva_decoder_pull does, and reports its outcome, as ristulva_judge_in does. It doesn't
 * allocate.
 *
 * RISTULVA_INCOMPLETE, RISTULVA_ROOM, RISTULVA_STATE: as by ristulva_decoder_pull; RISTULVA_NO_STREAM: nothing has changed. */
ristulva_status ristulva_stream_pull(ristulva_stream *stream, const uint8_t *octets, size_t len, uint8_t *message, size_t message_room,
                                     uint8_t *data, size_t room, size_t *taken, ristulva_verdict *out);

/* Reports the length of the incomplete message that the stream holds, at most RISTULVA_MESSAGE. RISTULVA_NO_STREAM. */
ristulva_status ristulva_stream_held(ristulva_stream *stream, size_t *held);

/* ---- sessions (RFC 4271, section 8) ----
 *
 * A session is one speaker's end of one connection. It does no IO and knows no time: its host opens and closes the connection, keeps the timers,
 * passes events and received octets to the session, and does what it answers.
 *
 * A handle is the caller's. It begins as {NULL}, gets a session by ristulva_session_new, and loses it by ristulva_session_free; the session is
 * memory of the library's, some 4.5 KB. A handle isn't copied, and its pointer isn't changed. It may move between threads, but no two calls are
 * given the same handle at one time; different sessions share nothing.
 *
 * Each call answers RISTULVA_NO_SESSION where the handle has none; RISTULVA_ROOM (a buffer below RISTULVA_MESSAGE) and RISTULVA_RANGE (the number
 * of an event) are checked before that. A status other than RISTULVA_OK means that nothing has changed, and, but where noted below, that nothing
 * was written.
 */

struct ristulva_session_body;

typedef struct {
    struct ristulva_session_body *body; /* NULL where there is no session */
} ristulva_session;

/* The settings of a speaker. */
typedef struct {
    uint32_t local_as; /* its own AS number: not 0; above 65535 only with `as4` (RFC 7607; RFC 6793, section 4.1) */
    uint32_t peer_as;  /* the AS number that the peer has to have: not 0 */
    uint8_t id[4];     /* its BGP Identifier, highest octet first: not 0.0.0.0 (RFC 6286, section 2.1) */
    uint16_t hold;     /* the Hold Time that it proposes, in seconds: 0 for none, else 3 at least (RFC 4271, section 4.2) */
    uint8_t as4;       /* whether it offers 4-octet AS numbers (RFC 6793): 0 for no, and any other number for yes */
    uint8_t ip4;       /* IPv4 unicast (RFC 4760, section 8) */
    uint8_t ip6;       /* IPv6 unicast */
} ristulva_config;

/* Makes a session in Idle. It allocates what the session keeps.
 *
 * RISTULVA_IN_USE, the handle has a session; else RISTULVA_CONFIG, the configuration isn't one that is allowed above; RISTULVA_MEMORY, only
 * where neither applies. */
ristulva_status ristulva_session_new(const ristulva_config *config, ristulva_session *session);

/* Frees a session: the handle has none then. Nothing is sent and nothing closed by that: RISTULVA_EVENT_STOP comes before it. */
ristulva_status ristulva_session_free(ristulva_session *session);

/* The states, as RFC 4273 numbers them. */
#define RISTULVA_IDLE 1u
#define RISTULVA_CONNECT 2u
#define RISTULVA_ACTIVE 3u
#define RISTULVA_OPEN_SENT 4u
#define RISTULVA_OPEN_CONFIRM 5u
#define RISTULVA_ESTABLISHED 6u

/* Reports the state of a session: RISTULVA_IDLE to RISTULVA_ESTABLISHED. */
ristulva_status ristulva_session_state(ristulva_session *session, uint8_t *state);

/* The timers (RFC 4271, section 10), which are the host's. */
#define RISTULVA_TIMER_RETRY 1u
#define RISTULVA_TIMER_HOLD 2u
#define RISTULVA_TIMER_KEEPALIVE 3u

/* What is to be done. */
#define RISTULVA_DO_NOTHING 0u           /* after the last action */
#define RISTULVA_DO_SEEK 1u              /* seek a connection to the peer: RISTULVA_EVENT_CONNECTED or _FAILED reports the result */
#define RISTULVA_DO_CLOSE 2u             /* close the connection, or abandon the attempt */
#define RISTULVA_DO_SEND_OPEN 3u         /* send the octets of `message`: the session's own OPEN */
#define RISTULVA_DO_SEND_KEEPALIVE 4u    /* send the octets of `message` */
#define RISTULVA_DO_SEND_NOTIFICATION 5u /* send the octets of `message`: `code` and `subcode` are its */
#define RISTULVA_DO_ARM 6u               /* start or restart `timer`, with `seconds` */
#define RISTULVA_DO_DISARM 7u            /* stop `timer` */
#define RISTULVA_DO_ANNOUNCE 8u          /* the received UPDATE announces and withdraws routes */
#define RISTULVA_DO_WITHDRAW 9u          /* treat-as-withdraw: all routes of the received UPDATE (RFC 7606, section 2) */
#define RISTULVA_DO_FLUSH 10u            /* the session has ended, and all routes of the peer with it */

typedef struct {
    uint8_t kind;     /* RISTULVA_DO_NOTHING to RISTULVA_DO_FLUSH */
    uint8_t timer;    /* RISTULVA_DO_ARM, RISTULVA_DO_DISARM: the timer. Else 0 */
    uint16_t seconds; /* RISTULVA_DO_ARM: how long it runs. Else 0 */
    uint8_t code;     /* RISTULVA_DO_SEND_NOTIFICATION: its code and subcode (RFC 4271, section 4.5). Else 0 */
    uint8_t subcode;
} ristulva_action;

/* The most actions at a time. */
#define RISTULVA_ACTIONS 5u

/* What is to be done, in this order. */
typedef struct {
    size_t count;
    ristulva_action list[RISTULVA_ACTIONS];
} ristulva_actions;

/* What happens to a session, by the numbers of RFC 4271, section 8.1. */
#define RISTULVA_EVENT_START 1u              /* the operator wants the session */
#define RISTULVA_EVENT_STOP 2u               /* the operator ends it */
#define RISTULVA_EVENT_RETRY_EXPIRED 9u      /* RISTULVA_TIMER_RETRY has expired; likewise the two others */
#define RISTULVA_EVENT_HOLD_EXPIRED 10u
#define RISTULVA_EVENT_KEEPALIVE_EXPIRED 11u
#define RISTULVA_EVENT_CONNECTED 16u         /* the connection is up */
#define RISTULVA_EVENT_FAILED 18u            /* the connection, or the attempt at one, failed */

/* Passes an event to a session, and reports what is to be done. What doesn't belong in its state does nothing, nor does a timer that the session
 * hasn't started: then `actions->count` is 0.
 *
 * Where a message is to be sent, it is written to the beginning of `message`, which has room for `room` octets, RISTULVA_MESSAGE at least; the rest
 * of the buffer is unchanged. `written` is its length: 0 where none is to be sent.
 *
 * RISTULVA_ROOM: `room` is below RISTULVA_MESSAGE. RISTULVA_RANGE: `event` is none of the numbers above. */
ristulva_status ristulva_session_event(ristulva_session *session, uint32_t event, ristulva_actions *actions, uint8_t *message, size_t room,
                                       size_t *written);

/* What a session received. */
typedef struct {
    uint8_t heard;        /* RISTULVA_OPEN to RISTULVA_RESET */
    uint8_t code;         /* RISTULVA_NOTIFICATION, RISTULVA_RESET: code and subcode of the NOTIFICATION that was received, or is to be sent. Else 0 */
    uint8_t subcode;
    uint32_t len;         /* the number of octets consumed: the message's, or 19 of a header with a fault */
    ristulva_parts parts; /* RISTULVA_UPDATE, RISTULVA_WITHDRAW: the parts of the UPDATE in the octets. Else empty, at 0 */
} ristulva_heard;

/* Passes the first message of the received octets, or a header with a fault, to a session, and reports what is to be done, as
 * ristulva_session_event does; octets after it are ignored. The host drops the first `heard->len` octets of what it has received, and calls again,
 * until less than a message remains.
 *
 * An UPDATE is as received: its routes are walked by the cursors above, in the context of ristulva_session_context, and ristulva_notes has its
 * notes. It doesn't allocate.
 *
 * RISTULVA_ROOM: `room` is below RISTULVA_MESSAGE. RISTULVA_STATE: the connection isn't up, so that octets have no meaning (Idle, Connect, Active).
 * RISTULVA_INCOMPLETE: the octets are an incomplete message. */
ristulva_status ristulva_session_hear(ristulva_session *session, const uint8_t *octets, size_t len, ristulva_heard *heard,
                                      ristulva_actions *actions, uint8_t *message, size_t room, size_t *written);

/* Reports what both speakers agreed on, and the Hold Time in seconds, 0 for none. Each field of the context is 0 or 1.
 *
 * RISTULVA_STATE: no OPEN of the peer is accepted yet, or the session has ended: in all states but OpenConfirm and Established. */
ristulva_status ristulva_session_context(ristulva_session *session, ristulva_context *context, uint16_t *hold);

/* The parameters of a peer's OPEN (RFC 4271, section 4.2; RFC 5492). */
typedef struct {
    uint32_t as_number; /* that of its capability for 4-octet AS numbers, else My Autonomous System (RFC 6793, section 4.1) */
    uint8_t id[4];      /* its BGP Identifier, highest octet first */
    uint16_t hold;      /* the Hold Time that it proposes, in seconds: 0 for none */
    uint8_t as4;        /* whether it offers 4-octet AS numbers: 0 or 1 */
    uint8_t ip4;        /* IPv4 unicast */
    uint8_t ip6;        /* IPv6 unicast */
} ristulva_peer;

/* Reports the parameters of the peer's OPEN. RISTULVA_STATE: as for ristulva_session_context. */
ristulva_status ristulva_session_peer(ristulva_session *session, ristulva_peer *peer);

/* Writes the codes of all capabilities that the peer offers, whatever their values, to the beginning of `codes`, which has room for `room` octets:
 * each once, in ascending order, at most 256. `written` is their number (RFC 5492, section 4).
 *
 * RISTULVA_STATE: as for ristulva_session_context. RISTULVA_ROOM: `written` is written, with the room that is needed. */
ristulva_status ristulva_session_codes(ristulva_session *session, uint8_t *codes, size_t room, size_t *written);

/* Writes the message of the session's own OPEN to the beginning of `message`, which has room for `room` octets: at most 49. `written` is its
 * length.
 *
 * RISTULVA_ROOM: `written` is written, with the room that is needed. */
ristulva_status ristulva_session_open(ristulva_session *session, uint8_t *message, size_t room, size_t *written);

/* Writes the message of an UPDATE as a session sends it now to the beginning of `message`, as ristulva_encode does, and reports what is to be done
 * when it is sent: the Keepalive Timer is restarted, where there is one. `body` has 4-octet AS numbers, whatever the session has, and one kind of
 * routes: withdrawn, announced, or those of one of the multiprotocol attributes (RFC 7606, section 5.1). For a peer with 2-octet AS numbers it is
 * written as by ristulva_narrow. The session is unchanged. It allocates.
 *
 * RISTULVA_ROOM: `room` is below RISTULVA_MESSAGE. RISTULVA_STATE: the session isn't Established, whatever the body is. RISTULVA_RANGE: the body
 * has more than RISTULVA_BODY octets. RISTULVA_REFUSED: it isn't accepted whole. RISTULVA_MIXED: it is, and has routes of several kinds.
 * RISTULVA_UNWRITABLE: it has routes of one kind, and the message would have more than RISTULVA_MESSAGE octets. RISTULVA_MEMORY: only where it is
 * accepted whole. */
ristulva_status ristulva_session_send(ristulva_session *session, const uint8_t *body, size_t len, ristulva_actions *actions, uint8_t *message,
                                      size_t room, size_t *written);

/* ---- a guard between two speakers (RFC 7606; RFC 4271) ----
 *
 * A guard is in one session between an outer peer and an inner speaker. What a side sends is passed on to the other cleaned, as by ristulva_clean,
 * in the context that both OPENs agree on. A message that can't be ends the session of both: its sender gets the NOTIFICATION that answers it, and
 * the other side Cease, Administrative Reset (6/4); where an OPEN offers neither IPv4 nor IPv6 unicast, both get 6/5. A NOTIFICATION is passed on,
 * and ends it too. Then nothing more is read, and each side is to be closed once it was sent what is queued. OPENs keep ROUTE-REFRESH (RFC 2918): one
 * is passed on to a side that offers it, for a family that both offer; to another side its type is unknown (1/3).
 *
 * The guard does no IO and knows no time: its host has both connections and a clock. In its loop it asks for each side what is to be done
 * (ristulva_guard_asks), reads and passes what arrived (ristulva_guard_hear), sends what is queued (ristulva_guard_way, ristulva_guard_sent), and
 * closes. It reports when a side is connected or closed (ristulva_guard_event), and each second (ristulva_guard_tick).
 *
 * A handle is the caller's. It begins as {NULL}, gets a guard by ristulva_guard_new, and loses it by ristulva_guard_free; the guard is memory of
 * the library's, some 145 KB: 68 KB queued for each side, and an incomplete message of each. No other call allocates. A handle isn't copied, and
 * its pointer isn't changed. It may move between threads, but no two calls are given the same handle at one time; different guards share nothing.
 *
 * Each call answers RISTULVA_NO_GUARD where the handle has none; RISTULVA_RANGE, the number of a side or of an event, is checked before that. A
 * status other than RISTULVA_OK means that nothing has changed, and that nothing was written.
 */

struct ristulva_guard_body;

typedef struct {
    struct ristulva_guard_body *body; /* NULL where there is no guard */
} ristulva_guard;

/* The sides. */
#define RISTULVA_OUTER 0u /* the peer that is guarded against */
#define RISTULVA_INNER 1u /* the speaker that is guarded */

/* Makes a guard of which neither side is connected. Unrecognised attributes are left out but for those of the types in `pass`, `count` of them in
 * any order. Where `one_way` isn't 0, the inner speaker's routes stay inside: none of its UPDATEs is passed on. It allocates all that the guard
 * ever uses.
 *
 * RISTULVA_IN_USE, the handle has a guard; RISTULVA_MEMORY, only where it has none. */
ristulva_status ristulva_guard_new(const uint8_t *pass, size_t count, uint8_t one_way, ristulva_guard *guard);

/* Frees a guard: the handle has none then. Nothing is sent. */
ristulva_status ristulva_guard_free(ristulva_guard *guard);

/* Events of a side, but for octets. */
#define RISTULVA_SIDE_STOOD 1u       /* its connection is up */
#define RISTULVA_SIDE_UNREACHABLE 2u /* it isn't up, and can't be reached: the other side is sent 6/5, and the guard ends */
#define RISTULVA_SIDE_CLOSED 3u      /* it was up, and was closed or lost: the guard ends, and the other side still gets what is queued for it */
#define RISTULVA_SIDE_STALLED 4u     /* it reads nothing for too long (ristulva_guard_stall): what is queued for it is dropped, the other side is
                                      * sent 4/0, and the guard ends */

/* Passes an event of a side to a guard. What doesn't belong in the state of the side does nothing. RISTULVA_RANGE: `side` or `event` is none of the
 * numbers above. */
ristulva_status ristulva_guard_event(ristulva_guard *guard, uint32_t side, uint32_t event);

/* Reports to a guard that a second has passed. Each side has 240 of them for its OPEN, from when the first side was connected; then the guard ends
 * (4/0 to a side without an OPEN, else 6/4). Once the guard has ended, queued octets may be sent for 10 seconds. */
ristulva_status ristulva_guard_tick(ristulva_guard *guard);

/* Ends the session: each side that is connected is sent 6/2 after what is queued, and the guard ends. Where it has ended nothing happens. */
ristulva_status ristulva_guard_stop(ristulva_guard *guard);

/* Reports for how many seconds what is queued for a side may stay unsent before the side has stalled (RISTULVA_SIDE_STALLED): the Hold Time that
 * both OPENs agree on, 240 where that is 0 or an OPEN is missing. */
ristulva_status ristulva_guard_stall(ristulva_guard *guard, uint16_t *seconds);

/* What a guard requires of its host for a side. */
typedef struct {
    uint8_t listens; /* 1: octets of the side are read. 0: it isn't connected, too much is queued for the other side, or the guard has ended */
    uint8_t closes;  /* 1: the side is to be closed, or no longer sought. Else 0 */
    uint8_t ended;   /* 1: the guard has ended, and nothing more is read of either side. Else 0 */
    size_t way;      /* the number of octets queued for the side: 69632 at most */
} ristulva_asks;

/* Reports what a guard requires of its host for a side. */
ristulva_status ristulva_guard_asks(ristulva_guard *guard, uint32_t side, ristulva_asks *asks);

/* The result of octets. */
#define RISTULVA_CAME_NOTHING 0u   /* no message is complete yet, or the side isn't read */
#define RISTULVA_CAME_HANDED_ON 1u /* a message was passed on; a NOTIFICATION ends the guard */
#define RISTULVA_CAME_ANSWERED 2u  /* the side was answered by a NOTIFICATION, and the guard has ended */
#define RISTULVA_CAME_DROPPED 3u   /* nothing was passed on of an UPDATE: it has no routes, or they stay inside; or of a ROUTE-REFRESH: its family isn't
                                    * agreed on */

typedef struct {
    uint8_t what; /* RISTULVA_CAME_NOTHING to RISTULVA_CAME_DROPPED */
    uint8_t kind; /* RISTULVA_CAME_HANDED_ON, RISTULVA_CAME_DROPPED: the type of the received message, 1 to 5. Else 0 */
    uint8_t same; /* RISTULVA_CAME_HANDED_ON: 1 where what was passed on has the same octets. Else 0 */
    uint8_t code; /* RISTULVA_CAME_ANSWERED: code and subcode of that NOTIFICATION (RFC 4271, section 4.5). Else 0 */
    uint8_t subcode;
} ristulva_came;

/* Consumes octets of a side up to the end of a message, after those of an incomplete message that it holds, and passes the message on, or answers
 * it. `taken` is how many of the `len` octets it consumed: where it listens to the side, at least one if there are any, and else none. The host
 * passes the rest again, until all is consumed; while the guard doesn't listen, it keeps the rest. */
ristulva_status ristulva_guard_hear(ristulva_guard *guard, uint32_t side, const uint8_t *octets, size_t len, size_t *taken, ristulva_came *came);

/* Copies the first octets queued for a side to the beginning of `octets`, as many as there are, and `room` at most: `written` of them; the rest of
 * the buffer is unchanged. They stay queued until ristulva_guard_sent. */
ristulva_status ristulva_guard_way(ristulva_guard *guard, uint32_t side, uint8_t *octets, size_t room, size_t *written);

/* Reports to a guard that the first `count` octets queued for a side are sent: all of them where there are fewer. */
ristulva_status ristulva_guard_sent(ristulva_guard *guard, uint32_t side, size_t count);

/* Reports the parameters of a side's OPEN, as it was passed on. RISTULVA_STATE: none was yet. */
ristulva_status ristulva_guard_peer(ristulva_guard *guard, uint32_t side, ristulva_peer *peer);

/* ---- a null pointer beside a length 0 ----
 *
 * Each call with a pointer and a length is inline here too, under its own name: where the length is 0, it passes another pointer instead of the
 * caller's, which can be null. This holds with GCC and Clang; a call by a pointer to a function bypasses it.
 */
#ifdef __GNUC__

#define ristulva_inline_ extern __inline__ __attribute__((__always_inline__, __gnu_inline__))
#define ristulva_given_(octets, len) ((len) != 0 ? (octets) : (const uint8_t *)"")
#define ristulva_place_(type, at, room) ((room) != 0 ? (at) : (type *)(void *)&nothing)

extern __typeof__(ristulva_name) ristulva_linked_name __asm__("ristulva_name");
ristulva_inline_ ristulva_status ristulva_name(uint8_t kind, uint8_t number, uint8_t subcode, char *text, size_t room, size_t *written)
{
    uint64_t nothing = 0;
    return ristulva_linked_name(kind, number, subcode, ristulva_place_(char, text, room), room, written);
}

extern __typeof__(ristulva_front) ristulva_linked_front __asm__("ristulva_front");
ristulva_inline_ ristulva_status ristulva_front(const uint8_t *octets, size_t len, ristulva_found *out)
{
    return ristulva_linked_front(ristulva_given_(octets, len), len, out);
}

extern __typeof__(ristulva_judge) ristulva_linked_judge __asm__("ristulva_judge");
ristulva_inline_ ristulva_status ristulva_judge(const ristulva_context *context, const uint8_t *octets, size_t len, uint8_t *data, size_t room,
                                                ristulva_verdict *out)
{
    uint64_t nothing = 0;
    return ristulva_linked_judge(context, ristulva_given_(octets, len), len, ristulva_place_(uint8_t, data, room), room, out);
}

extern __typeof__(ristulva_notes) ristulva_linked_notes __asm__("ristulva_notes");
ristulva_inline_ ristulva_status ristulva_notes(const ristulva_context *context, const uint8_t *octets, size_t len, ristulva_note_found *notes,
                                                size_t room, size_t *count)
{
    uint64_t nothing = 0;
    return ristulva_linked_notes(context, ristulva_given_(octets, len), len, ristulva_place_(ristulva_note_found, notes, room), room, count);
}

extern __typeof__(ristulva_fields) ristulva_linked_fields __asm__("ristulva_fields");
ristulva_inline_ ristulva_status ristulva_fields(const ristulva_context *context, const uint8_t *octets, size_t len, ristulva_field *fields,
                                                 size_t room, size_t *written)
{
    uint64_t nothing = 0;
    return ristulva_linked_fields(context, ristulva_given_(octets, len), len, ristulva_place_(ristulva_field, fields, room), room, written);
}

extern __typeof__(ristulva_fault) ristulva_linked_fault __asm__("ristulva_fault");
ristulva_inline_ ristulva_status ristulva_fault(const ristulva_context *context, const uint8_t *octets, size_t len, ristulva_span *out)
{
    return ristulva_linked_fault(context, ristulva_given_(octets, len), len, out);
}

extern __typeof__(ristulva_note_span) ristulva_linked_note_span __asm__("ristulva_note_span");
ristulva_inline_ ristulva_status ristulva_note_span(const uint8_t *octets, size_t len, const ristulva_note_found *note, ristulva_span *out)
{
    return ristulva_linked_note_span(ristulva_given_(octets, len), len, note, out);
}

extern __typeof__(ristulva_fault_section) ristulva_linked_fault_section __asm__("ristulva_fault_section");
ristulva_inline_ ristulva_status ristulva_fault_section(const ristulva_context *context, const uint8_t *octets, size_t len, char *text, size_t room,
                                                        size_t *written)
{
    uint64_t nothing = 0;
    return ristulva_linked_fault_section(context, ristulva_given_(octets, len), len, ristulva_place_(char, text, room), room, written);
}

extern __typeof__(ristulva_note_section) ristulva_linked_note_section __asm__("ristulva_note_section");
ristulva_inline_ ristulva_status ristulva_note_section(const ristulva_note_found *note, char *text, size_t room, size_t *written)
{
    uint64_t nothing = 0;
    return ristulva_linked_note_section(note, ristulva_place_(char, text, room), room, written);
}

extern __typeof__(ristulva_field_name) ristulva_linked_field_name __asm__("ristulva_field_name");
ristulva_inline_ ristulva_status ristulva_field_name(uint32_t kind, char *name, size_t room, size_t *written)
{
    uint64_t nothing = 0;
    return ristulva_linked_field_name(kind, ristulva_place_(char, name, room), room, written);
}

extern __typeof__(ristulva_facts) ristulva_linked_facts __asm__("ristulva_facts");
ristulva_inline_ ristulva_status ristulva_facts(const ristulva_context *context, const uint8_t *octets, size_t len, ristulva_update_facts *out)
{
    return ristulva_linked_facts(context, ristulva_given_(octets, len), len, out);
}

extern __typeof__(ristulva_text) ristulva_linked_text __asm__("ristulva_text");
ristulva_inline_ ristulva_status ristulva_text(const ristulva_context *context, uint64_t place, const uint8_t *octets, size_t len, char *text,
                                               size_t room, size_t *written)
{
    uint64_t nothing = 0;
    return ristulva_linked_text(context, place, ristulva_given_(octets, len), len, ristulva_place_(char, text, room), room, written);
}

extern __typeof__(ristulva_encode) ristulva_linked_encode __asm__("ristulva_encode");
ristulva_inline_ ristulva_status ristulva_encode(const ristulva_context *context, const uint8_t *body, size_t len, uint8_t *message, size_t room,
                                                 size_t *written)
{
    uint64_t nothing = 0;
    return ristulva_linked_encode(context, ristulva_given_(body, len), len, ristulva_place_(uint8_t, message, room), room, written);
}

extern __typeof__(ristulva_narrow) ristulva_linked_narrow __asm__("ristulva_narrow");
ristulva_inline_ ristulva_status ristulva_narrow(const ristulva_context *context, const uint8_t *body, size_t len, uint8_t *message, size_t room,
                                                 size_t *written)
{
    uint64_t nothing = 0;
    return ristulva_linked_narrow(context, ristulva_given_(body, len), len, ristulva_place_(uint8_t, message, room), room, written);
}

extern __typeof__(ristulva_reconcile) ristulva_linked_reconcile __asm__("ristulva_reconcile");
ristulva_inline_ ristulva_status ristulva_reconcile(const ristulva_context *context, const uint8_t *body, size_t len, uint8_t *message,
                                                    size_t room, size_t *written)
{
    uint64_t nothing = 0;
    return ristulva_linked_reconcile(context, ristulva_given_(body, len), len, ristulva_place_(uint8_t, message, room), room, written);
}

extern __typeof__(ristulva_clean) ristulva_linked_clean __asm__("ristulva_clean");
ristulva_inline_ ristulva_status ristulva_clean(const ristulva_context *context, const uint8_t *types, size_t count, uint8_t first,
                                                const uint8_t *octets, size_t len, uint8_t *message, size_t room, size_t *written,
                                                ristulva_cleaned *out)
{
    uint64_t nothing = 0;
    return ristulva_linked_clean(context, ristulva_given_(types, count), count, first, ristulva_given_(octets, len), len, ristulva_place_(uint8_t,
                                 message, room), room, written, out);
}

extern __typeof__(ristulva_next_attribute) ristulva_linked_next_attribute __asm__("ristulva_next_attribute");
ristulva_inline_ ristulva_status ristulva_next_attribute(const uint8_t *octets, size_t len, ristulva_attributes *cursor,
                                                         ristulva_attribute *out)
{
    return ristulva_linked_next_attribute(ristulva_given_(octets, len), len, cursor, out);
}

extern __typeof__(ristulva_next_prefix) ristulva_linked_next_prefix __asm__("ristulva_next_prefix");
ristulva_inline_ ristulva_status ristulva_next_prefix(const uint8_t *octets, size_t len, ristulva_prefixes *cursor, ristulva_prefix *out)
{
    return ristulva_linked_next_prefix(ristulva_given_(octets, len), len, cursor, out);
}

extern __typeof__(ristulva_count_prefixes) ristulva_linked_count_prefixes __asm__("ristulva_count_prefixes");
ristulva_inline_ ristulva_status ristulva_count_prefixes(const uint8_t *octets, size_t len, const ristulva_prefixes *cursor, size_t *count)
{
    return ristulva_linked_count_prefixes(ristulva_given_(octets, len), len, cursor, count);
}

extern __typeof__(ristulva_reached) ristulva_linked_reached __asm__("ristulva_reached");
ristulva_inline_ ristulva_status ristulva_reached(const uint8_t *octets, size_t len, const ristulva_span *value, ristulva_span *next_hop,
                                                  ristulva_prefixes *cursor)
{
    return ristulva_linked_reached(ristulva_given_(octets, len), len, value, next_hop, cursor);
}

extern __typeof__(ristulva_unreached) ristulva_linked_unreached __asm__("ristulva_unreached");
ristulva_inline_ ristulva_status ristulva_unreached(const uint8_t *octets, size_t len, const ristulva_span *value, ristulva_prefixes *cursor)
{
    return ristulva_linked_unreached(ristulva_given_(octets, len), len, value, cursor);
}

extern __typeof__(ristulva_begin_routes) ristulva_linked_begin_routes __asm__("ristulva_begin_routes");
ristulva_inline_ ristulva_status ristulva_begin_routes(const ristulva_context *context, const uint8_t *octets, size_t len,
                                                       ristulva_route_cursor *cursor)
{
    return ristulva_linked_begin_routes(context, ristulva_given_(octets, len), len, cursor);
}

extern __typeof__(ristulva_next_route) ristulva_linked_next_route __asm__("ristulva_next_route");
ristulva_inline_ ristulva_status ristulva_next_route(const uint8_t *octets, size_t len, ristulva_route_cursor *cursor, ristulva_route *out)
{
    return ristulva_linked_next_route(ristulva_given_(octets, len), len, cursor, out);
}

extern __typeof__(ristulva_next_segment) ristulva_linked_next_segment __asm__("ristulva_next_segment");
ristulva_inline_ ristulva_status ristulva_next_segment(const uint8_t *octets, size_t len, ristulva_segments *cursor, ristulva_segment *out)
{
    return ristulva_linked_next_segment(ristulva_given_(octets, len), len, cursor, out);
}

extern __typeof__(ristulva_next_number) ristulva_linked_next_number __asm__("ristulva_next_number");
ristulva_inline_ ristulva_status ristulva_next_number(const uint8_t *octets, size_t len, ristulva_numbers *cursor, uint32_t *out)
{
    return ristulva_linked_next_number(ristulva_given_(octets, len), len, cursor, out);
}

extern __typeof__(ristulva_next_large_community) ristulva_linked_next_large_community __asm__("ristulva_next_large_community");
ristulva_inline_ ristulva_status ristulva_next_large_community(const uint8_t *octets, size_t len, ristulva_large_communities *cursor,
                                                               ristulva_large_community *out)
{
    return ristulva_linked_next_large_community(ristulva_given_(octets, len), len, cursor, out);
}

extern __typeof__(ristulva_routes) ristulva_linked_routes __asm__("ristulva_routes");
ristulva_inline_ ristulva_status ristulva_routes(const ristulva_context *context, const uint8_t *octets, size_t len, ristulva_route_row *rows,
                                                 size_t room, size_t *written, size_t *taken)
{
    uint64_t nothing = 0;
    return ristulva_linked_routes(context, ristulva_given_(octets, len), len, ristulva_place_(ristulva_route_row, rows, room), room,
                                  written, taken);
}

extern __typeof__(ristulva_path_numbers) ristulva_linked_path_numbers __asm__("ristulva_path_numbers");
ristulva_inline_ ristulva_status ristulva_path_numbers(const ristulva_context *context, const uint8_t *octets, size_t len,
                                                       ristulva_number_row *rows, size_t room, size_t *written, size_t *taken)
{
    uint64_t nothing = 0;
    return ristulva_linked_path_numbers(context, ristulva_given_(octets, len), len, ristulva_place_(ristulva_number_row, rows, room), room,
                                        written, taken);
}

extern __typeof__(ristulva_communities_of) ristulva_linked_communities_of __asm__("ristulva_communities_of");
ristulva_inline_ ristulva_status ristulva_communities_of(const ristulva_context *context, const uint8_t *octets, size_t len,
                                                         ristulva_community_row *rows, size_t room, size_t *written, size_t *taken)
{
    uint64_t nothing = 0;
    return ristulva_linked_communities_of(context, ristulva_given_(octets, len), len, ristulva_place_(ristulva_community_row, rows, room), room,
                                          written, taken);
}

extern __typeof__(ristulva_large_communities_of) ristulva_linked_large_communities_of __asm__("ristulva_large_communities_of");
ristulva_inline_ ristulva_status ristulva_large_communities_of(const ristulva_context *context, const uint8_t *octets, size_t len,
                                                               ristulva_large_community_row *rows, size_t room, size_t *written, size_t *taken)
{
    uint64_t nothing = 0;
    return ristulva_linked_large_communities_of(context, ristulva_given_(octets, len), len, ristulva_place_(ristulva_large_community_row, rows, room), room,
                                                written, taken);
}

extern __typeof__(ristulva_open) ristulva_linked_open __asm__("ristulva_open");
ristulva_inline_ ristulva_status ristulva_open(const uint8_t *octets, size_t len, ristulva_open_fields *out)
{
    return ristulva_linked_open(ristulva_given_(octets, len), len, out);
}

extern __typeof__(ristulva_next_capability) ristulva_linked_next_capability __asm__("ristulva_next_capability");
ristulva_inline_ ristulva_status ristulva_next_capability(const uint8_t *octets, size_t len, ristulva_capabilities *cursor,
                                                          ristulva_capability *out)
{
    return ristulva_linked_next_capability(ristulva_given_(octets, len), len, cursor, out);
}

extern __typeof__(ristulva_agree) ristulva_linked_agree __asm__("ristulva_agree");
ristulva_inline_ ristulva_status ristulva_agree(const uint8_t *ours, size_t ours_len, const uint8_t *theirs, size_t theirs_len,
                                                ristulva_context *context, uint16_t *hold)
{
    return ristulva_linked_agree(ristulva_given_(ours, ours_len), ours_len, ristulva_given_(theirs, theirs_len), theirs_len, context, hold);
}

extern __typeof__(ristulva_terms_of) ristulva_linked_terms_of __asm__("ristulva_terms_of");
ristulva_inline_ ristulva_status ristulva_terms_of(const uint8_t *reader, size_t reader_len, const uint8_t *sender, size_t sender_len,
                                                   ristulva_terms *terms, uint16_t *hold)
{
    return ristulva_linked_terms_of(ristulva_given_(reader, reader_len), reader_len, ristulva_given_(sender, sender_len), sender_len, terms, hold);
}

extern __typeof__(ristulva_front_in) ristulva_linked_front_in __asm__("ristulva_front_in");
ristulva_inline_ ristulva_status ristulva_front_in(const ristulva_terms *terms, const uint8_t *octets, size_t len, ristulva_found *out)
{
    return ristulva_linked_front_in(terms, ristulva_given_(octets, len), len, out);
}

extern __typeof__(ristulva_judge_in) ristulva_linked_judge_in __asm__("ristulva_judge_in");
ristulva_inline_ ristulva_status ristulva_judge_in(const ristulva_terms *terms, const uint8_t *octets, size_t len, uint8_t *data, size_t room,
                                                   ristulva_verdict *out)
{
    uint64_t nothing = 0;
    return ristulva_linked_judge_in(terms, ristulva_given_(octets, len), len, ristulva_place_(uint8_t, data, room), room, out);
}

extern __typeof__(ristulva_text_in) ristulva_linked_text_in __asm__("ristulva_text_in");
ristulva_inline_ ristulva_status ristulva_text_in(const ristulva_terms *terms, uint64_t place, const uint8_t *octets, size_t len, char *text,
                                                  size_t room, size_t *written)
{
    uint64_t nothing = 0;
    return ristulva_linked_text_in(terms, place, ristulva_given_(octets, len), len, ristulva_place_(char, text, room), room, written);
}

extern __typeof__(ristulva_refresh_in) ristulva_linked_refresh_in __asm__("ristulva_refresh_in");
ristulva_inline_ ristulva_status ristulva_refresh_in(const ristulva_terms *terms, const uint8_t *octets, size_t len, ristulva_refresh *out)
{
    return ristulva_linked_refresh_in(terms, ristulva_given_(octets, len), len, out);
}

extern __typeof__(ristulva_encode_refresh) ristulva_linked_encode_refresh __asm__("ristulva_encode_refresh");
ristulva_inline_ ristulva_status ristulva_encode_refresh(uint16_t afi, uint8_t safi, uint8_t subtype, uint8_t *message, size_t room,
                                                         size_t *written)
{
    uint64_t nothing = 0;
    return ristulva_linked_encode_refresh(afi, safi, subtype, ristulva_place_(uint8_t, message, room), room, written);
}

extern __typeof__(ristulva_judge_paths) ristulva_linked_judge_paths __asm__("ristulva_judge_paths");
ristulva_inline_ ristulva_status ristulva_judge_paths(const ristulva_terms *terms, const uint8_t *octets, size_t len, uint8_t *data, size_t room,
                                                      ristulva_verdict *out)
{
    uint64_t nothing = 0;
    return ristulva_linked_judge_paths(terms, ristulva_given_(octets, len), len, ristulva_place_(uint8_t, data, room), room, out);
}

extern __typeof__(ristulva_without_paths) ristulva_linked_without_paths __asm__("ristulva_without_paths");
ristulva_inline_ ristulva_status ristulva_without_paths(const ristulva_terms *terms, const uint8_t *octets, size_t len, uint8_t *message, size_t room,
                                                        size_t *written)
{
    uint64_t nothing = 0;
    return ristulva_linked_without_paths(terms, ristulva_given_(octets, len), len, ristulva_place_(uint8_t, message, room), room, written);
}

extern __typeof__(ristulva_paths) ristulva_linked_paths __asm__("ristulva_paths");
ristulva_inline_ ristulva_status ristulva_paths(const ristulva_terms *terms, const uint8_t *octets, size_t len, uint32_t *paths, size_t room,
                                                size_t *written)
{
    uint64_t nothing = 0;
    return ristulva_linked_paths(terms, ristulva_given_(octets, len), len, ristulva_place_(uint32_t, paths, room), room, written);
}

extern __typeof__(ristulva_decoder_pull) ristulva_linked_decoder_pull __asm__("ristulva_decoder_pull");
ristulva_inline_ ristulva_status ristulva_decoder_pull(ristulva_decoder *decoder, const uint8_t *octets, size_t len, uint8_t *message,
                                                       size_t message_room, uint8_t *data, size_t room, size_t *taken, ristulva_verdict *out)
{
    uint64_t nothing = 0;
    return ristulva_linked_decoder_pull(decoder, ristulva_given_(octets, len), len, ristulva_place_(uint8_t, message, message_room), message_room,
                                        ristulva_place_(uint8_t, data, room), room, taken, out);
}

extern __typeof__(ristulva_stream_pull) ristulva_linked_stream_pull __asm__("ristulva_stream_pull");
ristulva_inline_ ristulva_status ristulva_stream_pull(ristulva_stream *stream, const uint8_t *octets, size_t len, uint8_t *message,
                                                      size_t message_room, uint8_t *data, size_t room, size_t *taken, ristulva_verdict *out)
{
    uint64_t nothing = 0;
    return ristulva_linked_stream_pull(stream, ristulva_given_(octets, len), len, ristulva_place_(uint8_t, message, message_room), message_room,
                                       ristulva_place_(uint8_t, data, room), room, taken, out);
}

extern __typeof__(ristulva_session_event) ristulva_linked_session_event __asm__("ristulva_session_event");
ristulva_inline_ ristulva_status ristulva_session_event(ristulva_session *session, uint32_t event, ristulva_actions *actions, uint8_t *message,
                                                        size_t room, size_t *written)
{
    uint64_t nothing = 0;
    return ristulva_linked_session_event(session, event, actions, ristulva_place_(uint8_t, message, room), room, written);
}

extern __typeof__(ristulva_session_hear) ristulva_linked_session_hear __asm__("ristulva_session_hear");
ristulva_inline_ ristulva_status ristulva_session_hear(ristulva_session *session, const uint8_t *octets, size_t len, ristulva_heard *heard,
                                                       ristulva_actions *actions, uint8_t *message, size_t room, size_t *written)
{
    uint64_t nothing = 0;
    return ristulva_linked_session_hear(session, ristulva_given_(octets, len), len, heard, actions, ristulva_place_(uint8_t, message, room), room,
                                        written);
}

extern __typeof__(ristulva_session_codes) ristulva_linked_session_codes __asm__("ristulva_session_codes");
ristulva_inline_ ristulva_status ristulva_session_codes(ristulva_session *session, uint8_t *codes, size_t room, size_t *written)
{
    uint64_t nothing = 0;
    return ristulva_linked_session_codes(session, ristulva_place_(uint8_t, codes, room), room, written);
}

extern __typeof__(ristulva_session_open) ristulva_linked_session_open __asm__("ristulva_session_open");
ristulva_inline_ ristulva_status ristulva_session_open(ristulva_session *session, uint8_t *message, size_t room, size_t *written)
{
    uint64_t nothing = 0;
    return ristulva_linked_session_open(session, ristulva_place_(uint8_t, message, room), room, written);
}

extern __typeof__(ristulva_session_send) ristulva_linked_session_send __asm__("ristulva_session_send");
ristulva_inline_ ristulva_status ristulva_session_send(ristulva_session *session, const uint8_t *body, size_t len, ristulva_actions *actions,
                                                       uint8_t *message, size_t room, size_t *written)
{
    uint64_t nothing = 0;
    return ristulva_linked_session_send(session, ristulva_given_(body, len), len, actions, ristulva_place_(uint8_t, message, room), room,
                                        written);
}

extern __typeof__(ristulva_guard_new) ristulva_linked_guard_new __asm__("ristulva_guard_new");
ristulva_inline_ ristulva_status ristulva_guard_new(const uint8_t *pass, size_t count, uint8_t one_way, ristulva_guard *guard)
{
    return ristulva_linked_guard_new(ristulva_given_(pass, count), count, one_way, guard);
}

extern __typeof__(ristulva_guard_hear) ristulva_linked_guard_hear __asm__("ristulva_guard_hear");
ristulva_inline_ ristulva_status ristulva_guard_hear(ristulva_guard *guard, uint32_t side, const uint8_t *octets, size_t len, size_t *taken,
                                                     ristulva_came *came)
{
    return ristulva_linked_guard_hear(guard, side, ristulva_given_(octets, len), len, taken, came);
}

extern __typeof__(ristulva_guard_way) ristulva_linked_guard_way __asm__("ristulva_guard_way");
ristulva_inline_ ristulva_status ristulva_guard_way(ristulva_guard *guard, uint32_t side, uint8_t *octets, size_t room, size_t *written)
{
    uint64_t nothing = 0;
    return ristulva_linked_guard_way(guard, side, ristulva_place_(uint8_t, octets, room), room, written);
}

#undef ristulva_inline_
#undef ristulva_given_
#undef ristulva_place_

#endif

#ifdef __cplusplus
}
#endif

#endif
