/* zevombu.h: the core of Zevombu for C. One connection: turns in, answers out. Nothing here does input or output.
 *
 * A turn is a head of numbers and one slice of bytes: an event of the QUIC transport, or a call of the application. Its answer
 * stays with the connection until its next turn: the head of the reply comes back at once; its bytes and header fields, and the
 * actions that the transport has to do, are read one after another, each into room that the caller gives.
 *
 * What each function does is proved of its Rattle code (crates/wt_ffi), for every head, bytes, index and room, and for every
 * history of turns: no call requires anything of them. What isn't a turn, or may not come now, is a status, and nothing is lost
 * by it. The rules below are the caller's, and nothing checks them:
 *
 *  - A zevombu_core is made by zevombu_new, and given up once by zevombu_free. Between these, give it to one call at a time. It may
 *    go to another thread where a lock, a thread's start or join, or a SeqCst atomic orders that. Two connections share nothing.
 *  - A pointer to a struct is to one, and no two parameters of a call overlap. A pointer with a length is to that many bytes, and
 *    may be NULL only where the length is 0. No pointer is kept after a call, and none is handed out but that in a zevombu_core.
 *  - malloc, realloc and free are called, so no call is made from a signal handler, or in the forked child of a process with threads.
 *
 * The library never calls back, blocks, starts a thread, aborts or unwinds. How much stack it takes isn't proved.
 */
#ifndef ZEVOMBU_H
#define ZEVOMBU_H

#include <stdbool.h>
#include <stddef.h>
#include <stdint.h>

#ifdef __cplusplus
extern "C" {
#endif

/* The version of this header. It changes with each struct, number and meaning. */
#define ZEVOMBU_VERSION 1

/* A connection. Only its address is the caller's business. */
typedef struct { void *at; } zevombu_core;

/* A socket address: version 4, with the address in low; or version 6, with its halves in high and low. */
typedef struct { uint16_t version, port; uint64_t high, low; } zevombu_address;

/* ---- turns --------------------------------------------------------------------------------------------------------- */

/* Events of the transport, with what each uses of its head and bytes. */
enum zevombu_event {
    ZEVOMBU_CONNECTED = 0,          /* uni, bi, number: the credit of each stream; a fact of datagrams */
    ZEVOMBU_PEER_UNI = 1,
    ZEVOMBU_PEER_BI = 2,
    ZEVOMBU_BYTES = 3,              /* id; bytes */
    ZEVOMBU_END = 4,                /* id */
    ZEVOMBU_RESET = 5,              /* id, number: the code */
    ZEVOMBU_STOP = 6,               /* id, number: the code */
    ZEVOMBU_ACKED = 7,              /* id */
    ZEVOMBU_DATAGRAM = 8,           /* bytes */
    ZEVOMBU_MAX_UNI = 9,            /* number: the total */
    ZEVOMBU_MAX_BI = 10,            /* number: the total */
    ZEVOMBU_MAX_DATA = 11,          /* id, number: the total */
    ZEVOMBU_DATAGRAM_LIMIT = 12,    /* a fact of datagrams */
    ZEVOMBU_LOSS = 13              /* choice: a ZEVOMBU_LOSS; number: the code; bytes: the reason */
};

/* Calls of the application. "A session": choice 0 for the only one, or 1 and the id in session. */
enum zevombu_call {
    ZEVOMBU_CALL_CONNECT = 64,              /* choice: a ZEVOMBU_LOOKUP, found; outcome: a ZEVOMBU_OUTCOME, remote; fields; bytes: the URL, the reason of a fault, an invalid name, the fields */
    ZEVOMBU_CALL_INCOMING = 65,
    ZEVOMBU_CALL_ACCEPT = 66,               /* fields; bytes: the fields */
    ZEVOMBU_CALL_FORBIDDEN = 67,
    ZEVOMBU_CALL_NOT_FOUND = 68,
    ZEVOMBU_CALL_TOO_MANY_REQUESTS = 69,
    ZEVOMBU_CALL_HANDSHAKE = 70,
    ZEVOMBU_CALL_ENDPOINT_CLOSE = 71,       /* number: the code; bytes: the reason */
    ZEVOMBU_CALL_ACCEPT_UNI = 72,           /* a session */
    ZEVOMBU_CALL_ACCEPT_BI = 73,            /* a session */
    ZEVOMBU_CALL_RECEIVE_DATAGRAM = 74,     /* a session */
    ZEVOMBU_CALL_OPEN_UNI = 75,             /* a session */
    ZEVOMBU_CALL_OPEN_BI = 76,              /* a session */
    ZEVOMBU_CALL_POLL_OPENING = 77,         /* id */
    ZEVOMBU_CALL_SEND_DATAGRAM = 78,        /* a session; bytes */
    ZEVOMBU_CALL_END_SESSION = 79,          /* a session */
    ZEVOMBU_CALL_MAX_DATAGRAM_SIZE = 80,    /* a session */
    ZEVOMBU_CALL_SESSION_ID = 81,           /* a session */
    ZEVOMBU_CALL_CLOSE = 82,                /* number: the code; bytes: the reason */
    ZEVOMBU_CALL_CLOSED = 83,
    ZEVOMBU_CALL_WRITE = 84,                /* id; bytes */
    ZEVOMBU_CALL_WRITE_ALL = 85,            /* id; bytes */
    ZEVOMBU_CALL_FINISH = 86,               /* id */
    ZEVOMBU_CALL_STOPPED = 87,              /* id */
    ZEVOMBU_CALL_PRIORITY = 88,             /* id */
    ZEVOMBU_CALL_SET_PRIORITY = 89,         /* id, priority */
    ZEVOMBU_CALL_RESET_SEND = 90,           /* id, number: the code */
    ZEVOMBU_CALL_READ = 91,                 /* id, number: the most bytes */
    ZEVOMBU_CALL_READ_EXACT = 92,           /* id, number: how many bytes */
    ZEVOMBU_CALL_STOP_RECV = 93            /* id, number: the code */
};

/* A fact of datagrams, in choice: this end uses none, the peer takes none, or the greatest is limit bytes long. */
enum zevombu_fact {
    ZEVOMBU_DATAGRAMS_DISABLED = 0,
    ZEVOMBU_DATAGRAMS_UNSUPPORTED = 1,
    ZEVOMBU_DATAGRAMS_LIMIT = 2
};

/* Why a connection is lost. The reason of a transport error is UTF-8; those of closes are any bytes. */
enum zevombu_loss {
    ZEVOMBU_LOSS_VERSION_MISMATCH = 0,
    ZEVOMBU_LOSS_TRANSPORT_ERROR = 1,
    ZEVOMBU_LOSS_CONNECTION_CLOSED = 2,
    ZEVOMBU_LOSS_APPLICATION_CLOSED = 3,
    ZEVOMBU_LOSS_RESET = 4,
    ZEVOMBU_LOSS_TIMED_OUT = 5,
    ZEVOMBU_LOSS_CIDS_EXHAUSTED = 6
};

/* What a resolver answers for the URL's host: the address in found, none, or a fault whose reason is a text. */
enum zevombu_lookup {
    ZEVOMBU_LOOKUP_FOUND = 0,
    ZEVOMBU_LOOKUP_NOT_FOUND = 1,
    ZEVOMBU_LOOKUP_FAULT = 2
};

/* What QUIC answers where the address is known: an invalid name is a text, an invalid address is in remote. */
enum zevombu_outcome {
    ZEVOMBU_OUTCOME_PROCEED = 0,
    ZEVOMBU_OUTCOME_ENDPOINT_STOPPING = 1,
    ZEVOMBU_OUTCOME_CIDS_EXHAUSTED = 2,
    ZEVOMBU_OUTCOME_INVALID_SERVER_NAME = 3,
    ZEVOMBU_OUTCOME_INVALID_REMOTE_ADDRESS = 4
};

/* A turn's numbers. A turn looks at those named beside its kind, and at no other.
 *
 * A text in the bytes of a connect or an accept is its length in eight bytes, the lowest first, and then its UTF-8. A header field
 * is two texts, its name and its value; there are as many as fields says, and nothing follows them. */
typedef struct {
    uint32_t kind;          /* a zevombu_event or a zevombu_call */
    uint32_t choice;        /* a zevombu_fact, a zevombu_loss, a zevombu_lookup, or whether a session is named */
    uint32_t outcome;       /* a zevombu_outcome */
    int32_t priority;
    uint64_t id;            /* of a stream, below 2^62 */
    uint64_t session;       /* the id of a session, a multiple of 4 */
    uint64_t number;        /* a code below 2^62, a total, a size or a credit */
    uint64_t uni, bi;       /* how many streams of each kind may be opened */
    uint64_t limit;         /* the greatest datagram */
    uint64_t fields;        /* how many header fields the bytes have */
    zevombu_address found, remote;
} zevombu_turn_head;

/* ---- answers ------------------------------------------------------------------------------------------------------- */

/* Replies, with what each has. */
enum zevombu_reply_kind {
    ZEVOMBU_REPLY_DONE = 0,
    ZEVOMBU_REPLY_PENDING = 1,
    ZEVOMBU_REPLY_NO_SESSION = 2,
    ZEVOMBU_REPLY_NO_STREAM = 3,
    ZEVOMBU_REPLY_REQUEST = 4,             /* number: the id of its session; fields */
    ZEVOMBU_REPLY_SESSION = 5,             /* number: its id */
    ZEVOMBU_REPLY_REJECTED = 6,
    ZEVOMBU_REPLY_UNI = 7,                 /* number: the id */
    ZEVOMBU_REPLY_BI = 8,                  /* number: the id */
    ZEVOMBU_REPLY_OPENING = 9,             /* number: the id */
    ZEVOMBU_REPLY_SEND_READY = 10,         /* number: the id */
    ZEVOMBU_REPLY_BI_READY = 11,           /* number: the id */
    ZEVOMBU_REPLY_ID = 12,                 /* number: the id */
    ZEVOMBU_REPLY_DATAGRAM = 13,           /* bytes */
    ZEVOMBU_REPLY_SIZE = 14,               /* choice 1: number; 0: none */
    ZEVOMBU_REPLY_WRITTEN = 15,            /* number */
    ZEVOMBU_REPLY_ALL_WRITTEN = 16,
    ZEVOMBU_REPLY_COUNT = 17,              /* number */
    ZEVOMBU_REPLY_FINISHED = 18,
    ZEVOMBU_REPLY_PRIORITY = 19,           /* priority */
    ZEVOMBU_REPLY_CLOSED_STREAM = 20,
    ZEVOMBU_REPLY_READ = 21,               /* choice 1: bytes; 0: the stream has ended */
    ZEVOMBU_REPLY_EXACT = 22,              /* bytes */
    ZEVOMBU_REPLY_FAILED = 23,             /* an end of the connection */
    ZEVOMBU_REPLY_CLOSED = 24,             /* an end of the connection */
    ZEVOMBU_REPLY_CONNECT_FAILED = 25,     /* choice: a ZEVOMBU_CONNECTING; bytes: its text */
    ZEVOMBU_REPLY_OPENING_FAILED = 26,     /* choice: 0 not connected, 1 refused */
    ZEVOMBU_REPLY_WRITE_FAILED = 27,       /* choice: a ZEVOMBU_WRITE; number: the code */
    ZEVOMBU_REPLY_STOPPED_BY = 28,         /* the same */
    ZEVOMBU_REPLY_READ_FAILED = 29,        /* cause: a ZEVOMBU_READ; number: the code */
    ZEVOMBU_REPLY_EXACT_FAILED = 30,       /* choice 0: number bytes were there; 1: cause as of a read; bytes */
    ZEVOMBU_REPLY_DATAGRAM_FAILED = 31    /* choice: a ZEVOMBU_DATAGRAM */
};

/* An end of the connection, in cause: number is the code of a close, of this end's H3 error, or where has_code is 1 of QUIC;
 * the bytes are the reason of a close or of QUIC. */
enum zevombu_connection {
    ZEVOMBU_ENDED_CONNECTION_CLOSED = 0,
    ZEVOMBU_ENDED_APPLICATION_CLOSED = 1,
    ZEVOMBU_ENDED_LOCALLY_CLOSED = 2,
    ZEVOMBU_ENDED_LOCAL_H3_ERROR = 3,
    ZEVOMBU_ENDED_TIMED_OUT = 4,
    ZEVOMBU_ENDED_QUIC_PROTO = 5,
    ZEVOMBU_ENDED_CIDS_EXHAUSTED = 6
};

/* Why a connect failed. Of an invalid URL cause 0 says that it is none, and 1 that its scheme is another; of an error of the
 * connection cause is its end; an invalid address is in address. */
enum zevombu_connecting {
    ZEVOMBU_CONNECTING_INVALID_URL = 0,
    ZEVOMBU_CONNECTING_DNS_LOOKUP = 1,
    ZEVOMBU_CONNECTING_DNS_NOT_FOUND = 2,
    ZEVOMBU_CONNECTING_CONNECTION_ERROR = 3,
    ZEVOMBU_CONNECTING_SESSION_REJECTED = 4,
    ZEVOMBU_CONNECTING_RESERVED_HEADER = 5,
    ZEVOMBU_CONNECTING_ENDPOINT_STOPPING = 6,
    ZEVOMBU_CONNECTING_CIDS_EXHAUSTED = 7,
    ZEVOMBU_CONNECTING_INVALID_SERVER_NAME = 8,
    ZEVOMBU_CONNECTING_INVALID_REMOTE_ADDRESS = 9
};

/* Why nothing can be written; number is the code of a stop. */
enum zevombu_write {
    ZEVOMBU_WRITE_NOT_CONNECTED = 0,
    ZEVOMBU_WRITE_CLOSED = 1,
    ZEVOMBU_WRITE_STOPPED = 2,
    ZEVOMBU_WRITE_QUIC_PROTO = 3
};

/* Why nothing can be read, in cause; number is the code of a reset. */
enum zevombu_read {
    ZEVOMBU_READ_NOT_CONNECTED = 0,
    ZEVOMBU_READ_RESET = 1,
    ZEVOMBU_READ_QUIC_PROTO = 2
};

/* Why a datagram can't be sent. */
enum zevombu_datagram {
    ZEVOMBU_DATAGRAM_NOT_CONNECTED = 0,
    ZEVOMBU_DATAGRAM_UNSUPPORTED_BY_PEER = 1,
    ZEVOMBU_DATAGRAM_TOO_LARGE = 2,
    ZEVOMBU_DATAGRAM_DISABLED = 3
};

/* An answer's numbers; those that it hasn't are 0. */
typedef struct {
    uint32_t kind;          /* a zevombu_reply_kind */
    uint32_t choice, cause, has_code;
    int32_t priority;
    uint64_t number;
    zevombu_address address;
    uint64_t length;        /* how many bytes the reply has */
    uint64_t fields;        /* how many header fields */
    uint64_t actions;       /* how many actions go out */
} zevombu_reply_head;

/* What the transport is to do, in this order. */
enum zevombu_action_kind {
    ZEVOMBU_ACTION_DIAL = 0,             /* address; bytes: the name of the server */
    ZEVOMBU_ACTION_OPENED = 1,           /* id */
    ZEVOMBU_ACTION_SEND = 2,             /* id; bytes */
    ZEVOMBU_ACTION_FINISH = 3,           /* id */
    ZEVOMBU_ACTION_RESET_OUT = 4,        /* id, code */
    ZEVOMBU_ACTION_STOP_OUT = 5,         /* id, code */
    ZEVOMBU_ACTION_DATAGRAM_OUT = 6,     /* bytes */
    ZEVOMBU_ACTION_CLOSE = 7            /* code; bytes: the reason */
};

/* An action's numbers; those that it hasn't are 0. */
typedef struct {
    uint32_t kind;          /* a zevombu_action_kind */
    uint64_t id, code;
    zevombu_address address;
    uint64_t length;        /* how many bytes it has */
} zevombu_action_head;

/* How many bytes a header field's name and its value have. */
typedef struct { uint64_t name, value; } zevombu_field_head;

/* ---- functions ----------------------------------------------------------------------------------------------------- */

/* What became of a call. */
enum zevombu_status {
    ZEVOMBU_OK = 0,
    ZEVOMBU_MALFORMED = 1,      /* there is no such turn, or no such side; nothing changed */
    ZEVOMBU_UNLAWFUL = 2,       /* the turn may not come now; nothing changed */
    ZEVOMBU_OUT_OF_MEMORY = 3,  /* no memory for the turn itself, or for a connection; nothing changed */
    ZEVOMBU_FAILED = 4         /* memory ran out while the turn was answered: each later turn fails, and no answer can be read */
};

/* The version of the library that is linked: compare it with ZEVOMBU_VERSION. */
uint32_t zevombu_version(void);

/* Makes a connection of a client (0) or of a server (1). On any other status *core isn't written, and may not be used. */
uint32_t zevombu_new(uint32_t side, zevombu_core *core);

/* Gives a connection up, with all its memory. */
void zevombu_free(zevombu_core core);

/* Makes a turn. On ZEVOMBU_OK the turn was lawful, *reply is its answer's head, and the rest of the answer can be read; on any
 * other status *reply stays as it was, and on all but ZEVOMBU_FAILED what could be read can be read still. The bytes are copied. */
uint32_t zevombu_turn(zevombu_core *core, const zevombu_turn_head *turn, const uint8_t *bytes, size_t length, zevombu_reply_head *reply);

/* How many bytes the last answer's reply has. They are written in front of the room, where it has a place for each; else the room
 * stays as it was. */
size_t zevombu_reply(zevombu_core *core, uint8_t *room, size_t length);

/* The head and the bytes of an action of the last answer, the first of which is 0. The bytes are written as by zevombu_reply.
 * False, with nothing written, where there is no such action. */
bool zevombu_action(zevombu_core *core, size_t index, zevombu_action_head *action, uint8_t *room, size_t length);

/* The name and the value of a header field of the last answer's request, the first of which is 0, one after the other. They are
 * written as by zevombu_reply. False, with nothing written, where there is no such field. */
bool zevombu_field(zevombu_core *core, size_t index, zevombu_field_head *field, uint8_t *room, size_t length);

#ifdef __cplusplus
}
#endif
#endif
