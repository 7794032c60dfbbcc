// The streams of `bench/core`, octet by octet those of src/streams.rt.txt, and rabbitmq-c's decoder over them: each is
// handed to amqp_handle_input in pieces of 64 KiB, as a client's connection would, and every frame that is decoded is
// dropped.
#ifndef BENCH_DECODE_H
#define BENCH_DECODE_H

#include <stdint.h>
#include <stdio.h>
#include <stdlib.h>
#include <string.h>
#include <time.h>

#include <amqp.h>
#include <amqp_framing.h>

enum { PIECE = 65536 };

static const char PUBLISH[] = "\x01\x00\x01\x00\x00\x00\x1c\x00\x3c\x00\x28\x00\x00\x06" "orders" "\x0d" "order.created" "\x00\xce";
static const char PLAIN_HEADER[] = "\x02\x00\x01\x00\x00\x00\x0e\x00\x3c\x00\x00\x00\x00\x00\x00\x00\x00\x04\x00\x00\x00\xce";
static const char TABLE_HEADER[] = "\x02\x00\x01\x00\x00\x00\x75\x00\x3c\x00\x00\x00\x00\x00\x00\x00\x00\x00\x40\x20\x00\x00\x00\x00\x63";
static const char TABLE[] =
    "\x04" "true" "t\x01" "\x05" "octet" "B\x07" "\x05" "short" "u\x01\x02" "\x06" "number" "I\x00\x01\x02\x03"
    "\x04" "long" "l\x00\x00\x00\x00\x00\x00\x00\x09" "\x05" "first" "S\x00\x00\x00\x08" "abcdefgh"
    "\x06" "second" "S\x00\x00\x00\x04" "late" "\x04" "time" "T\x00\x00\x00\x00\x65\x43\x21\x00";
static const char ACK[] = "\x01\x00\x01\x00\x00\x00\x0d\x00\x3c\x00\x50\x00\x00\x00\x00\x00\x00\x00\x07\x00\xce";

static size_t put(char *to, size_t at, const char *octets, size_t count) {
    memcpy(to + at, octets, count);
    return at + count;
}

static size_t put_body(char *to, size_t at, uint16_t size) {
    char head[7] = {3, 0, 1, 0, 0, (char)(size >> 8), (char)size};
    at = put(to, at, head, sizeof head);
    memset(to + at, 'x', size);
    return put(to, at + size, "\xce", 1);
}

// Puts one unit of a stream, of at most 4096 octets, and answers its length: 0 where no stream has the name.
static size_t unit_of(const char *name, char *unit) {
    size_t at;
    if (strcmp(name, "content") == 0) {
        at = put(unit, 0, PUBLISH, sizeof PUBLISH - 1);
        at = put(unit, at, PLAIN_HEADER, sizeof PLAIN_HEADER - 1);
        return put_body(unit, at, 1024);
    }
    if (strcmp(name, "table") == 0) {
        at = put(unit, 0, PUBLISH, sizeof PUBLISH - 1);
        at = put(unit, at, TABLE_HEADER, sizeof TABLE_HEADER - 1);
        at = put(unit, at, TABLE, sizeof TABLE - 1);
        at = put(unit, at, "\xce", 1);
        return put_body(unit, at, 64);
    }
    if (strcmp(name, "ack") == 0)
        return put(unit, 0, ACK, sizeof ACK - 1);
    return 0;
}

// As many units as fill so many octets, one after another.
static char *stream_of(const char *unit, size_t length, size_t octets, size_t *count) {
    char *stream = malloc(octets);
    *count = octets / length;
    if (stream == NULL) exit(1);
    for (size_t i = 0; i < *count; i++) memcpy(stream + i * length, unit, length);
    return stream;
}

static double seconds(void) {
    struct timespec now;
    clock_gettime(CLOCK_MONOTONIC, &now);
    return (double)now.tv_sec + (double)now.tv_nsec / 1e9;
}

// the seconds of one pass, and in `frames` how many frames were decoded
static double decode(char *stream, size_t length, size_t *frames) {
    amqp_connection_state_t state = amqp_new_connection();
    amqp_frame_t frame;
    amqp_bytes_t header = {8, (void *)"AMQP\x00\x00\x09\x01"};
    // a connection that is new awaits the protocol header
    if (amqp_handle_input(state, header, &frame) < 0) exit(1);
    amqp_tune_connection(state, 0, 131072, 0);
    *frames = 0;
    double start = seconds();
    for (size_t at = 0; at < length;) {
        size_t piece = length - at < PIECE ? length - at : PIECE;
        for (size_t end = at + piece; at < end;) {
            amqp_bytes_t rest = {end - at, stream + at};
            frame.frame_type = 0;
            int taken = amqp_handle_input(state, rest, &frame);
            if (taken < 0) exit(1);
            at += (size_t)taken;
            if (frame.frame_type != 0) {
                *frames += 1;
                amqp_maybe_release_buffers(state);
            }
        }
    }
    double time = seconds() - start;
    amqp_destroy_connection(state);
    return time;
}

#endif
