/* A server's session by hand: the turns of examples/session.script, and each answer printed as there. */
#include "zevombu.h"

#include <stdio.h>
#include <stdlib.h>
#include <string.h>

static zevombu_core core;

static void print_bytes(const uint8_t *bytes, size_t length) {
    if (!length) putchar('-');
    for (size_t i = 0; i < length; i++) printf("%02x", bytes[i]);
}

static void *room_of(size_t length) {
    void *room = malloc(length ? length : 1);
    if (!room) exit(1);
    return room;
}

/* ` name=value` of each header field. */
static void print_fields(uint64_t count) {
    for (uint64_t i = 0; i < count; i++) {
        zevombu_field_head field;
        zevombu_field(&core, i, &field, NULL, 0);
        size_t length = field.name + field.value;
        uint8_t *room = room_of(length);
        zevombu_field(&core, i, &field, room, length);
        putchar(' ');
        for (size_t k = 0; k < field.name; k++) printf("%02x", room[k]);
        putchar('=');
        for (size_t k = field.name; k < length; k++) printf("%02x", room[k]);
        free(room);
    }
}

static void print_reply(const zevombu_reply_head *reply) {
    static const char *const names[] = {"done", "pending", "no_session", "no_stream", "request", "session", "rejected", "uni", "bi"};
    uint8_t *room = room_of(reply->length);
    size_t length = zevombu_reply(&core, room, reply->length);
    switch (reply->kind) {
    case ZEVOMBU_REPLY_REQUEST:
        printf("request %llu", (unsigned long long)reply->number);
        print_fields(reply->fields);
        break;
    case ZEVOMBU_REPLY_SESSION:
    case ZEVOMBU_REPLY_UNI:
    case ZEVOMBU_REPLY_BI:
        printf("%s %llu", names[reply->kind], (unsigned long long)reply->number);
        break;
    case ZEVOMBU_REPLY_READ:
        if (reply->choice) {
            printf("read ");
            print_bytes(room, length);
        } else {
            printf("end");
        }
        break;
    default:
        if (reply->kind < sizeof names / sizeof *names) printf("%s", names[reply->kind]);
        else printf("reply %u", reply->kind);
    }
    free(room);
}

static void print_action(size_t index) {
    zevombu_action_head action;
    zevombu_action(&core, index, &action, NULL, 0);
    uint8_t *room = room_of(action.length);
    zevombu_action(&core, index, &action, room, action.length);
    switch (action.kind) {
    case ZEVOMBU_ACTION_OPENED:
        printf(" ; opened %llu", (unsigned long long)action.id);
        break;
    case ZEVOMBU_ACTION_SEND:
        printf(" ; send %llu ", (unsigned long long)action.id);
        print_bytes(room, action.length);
        break;
    default:
        printf(" ; action %u", action.kind);
    }
    free(room);
}

/* Makes a turn, and prints the line of its answer. */
static void turn(zevombu_turn_head head, const char *hex) {
    uint8_t bytes[512];
    size_t length = 0;
    for (; hex && hex[2 * length]; length++) {
        unsigned byte;
        if (length == sizeof bytes || sscanf(hex + 2 * length, "%2x", &byte) != 1) exit(1);
        bytes[length] = (uint8_t)byte;
    }
    zevombu_reply_head reply;
    uint32_t status = zevombu_turn(&core, &head, bytes, length, &reply);
    if (status != ZEVOMBU_OK) {
        printf("status %u\n", status);
        return;
    }
    print_reply(&reply);
    for (uint64_t i = 0; i < reply.actions; i++) print_action(i);
    putchar('\n');
}

/* What is refused, and leaves all as it was: the head that it may write, the last answer, and the connection, by the turns after it. */
static void refused(void) {
    zevombu_reply_head reply, before;
    zevombu_turn_head no_kind = {.kind = 63}, no_id = {.kind = ZEVOMBU_END, .id = UINT64_MAX}, early = {.kind = ZEVOMBU_END, .id = 400};
    zevombu_action_head action;
    zevombu_core none;
    size_t length = zevombu_reply(&core, NULL, 0);
    memset(&reply, 85, sizeof reply);
    memcpy(&before, &reply, sizeof reply);
    if (zevombu_turn(&core, &no_kind, NULL, 0, &reply) != ZEVOMBU_MALFORMED) exit(2);
    if (zevombu_turn(&core, &no_id, NULL, 0, &reply) != ZEVOMBU_MALFORMED) exit(2);
    if (zevombu_turn(&core, &early, NULL, 0, &reply) != ZEVOMBU_UNLAWFUL) exit(2);
    if (memcmp(&before, &reply, sizeof reply) || zevombu_reply(&core, NULL, 0) != length) exit(2);
    if (zevombu_action(&core, SIZE_MAX, &action, NULL, 0)) exit(2);
    if (zevombu_new(2, &none) != ZEVOMBU_MALFORMED) exit(2);
}

/* A room with a byte too little stays as it was, and so does what is behind the bytes. */
static void short_room(size_t length) {
    uint8_t room[64];
    memset(room, 85, sizeof room);
    if (zevombu_reply(&core, room, length - 1) != length) exit(3);
    for (size_t i = 0; i < sizeof room; i++) if (room[i] != 85) exit(3);
    if (zevombu_reply(&core, room, sizeof room) != length) exit(3);
    for (size_t i = length; i < sizeof room; i++) if (room[i] != 85) exit(3);
}

int main(void) {
    if (zevombu_version() != ZEVOMBU_VERSION || zevombu_new(1, &core) != ZEVOMBU_OK) return 1;
    refused();
    turn((zevombu_turn_head){.kind = ZEVOMBU_CONNECTED, .choice = ZEVOMBU_DATAGRAMS_LIMIT, .limit = 1200, .uni = 9, .bi = 9, .number = 1000}, NULL);
    turn((zevombu_turn_head){.kind = ZEVOMBU_PEER_UNI}, NULL);
    turn((zevombu_turn_head){.kind = ZEVOMBU_BYTES, .id = 2}, "000400");
    turn((zevombu_turn_head){.kind = ZEVOMBU_PEER_BI}, NULL);
    refused();
    turn((zevombu_turn_head){.kind = ZEVOMBU_BYTES, .id = 0}, REQUEST);
    turn((zevombu_turn_head){.kind = ZEVOMBU_CALL_INCOMING}, NULL);
    turn((zevombu_turn_head){.kind = ZEVOMBU_CALL_ACCEPT}, NULL);
    turn((zevombu_turn_head){.kind = ZEVOMBU_PEER_UNI}, NULL);
    turn((zevombu_turn_head){.kind = ZEVOMBU_BYTES, .id = 6}, "4054006869");
    turn((zevombu_turn_head){.kind = ZEVOMBU_CALL_ACCEPT_UNI}, NULL);
    turn((zevombu_turn_head){.kind = ZEVOMBU_CALL_READ, .id = 6, .number = 16}, NULL);
    refused();
    short_room(2);
    turn((zevombu_turn_head){.kind = ZEVOMBU_CALL_READ, .id = 6, .number = 16}, NULL);
    zevombu_free(core);
    return 0;
}
