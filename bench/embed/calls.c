// The streams of `bench/core` through the C calls of the library: an end that gathers and one that lends, each fed
// event by event and in batches, in turns with rabbitmq-c's decoder in the same process. With `frames`, a stream of
// body frames through the splitter, one by one and in batches.
#include "../core/decode.h"
#include "meadowtray.h"

#include <stdbool.h>

enum { EVENTS = 64, FRAMES = 128 };

// how many octets a stream has, and how often each way takes it in its turn
static size_t octets = 200000000;
static int rounds = 2;
static const char *place = "from memory";

static void wanted(bool holds, const char *what) {
    if (!holds) {
        fprintf(stderr, "bench/embed: %s\n", what);
        exit(1);
    }
}

// ---- ends

// The protocol header, connection.start-ok of a client that is the guest, connection.tune-ok of 2047 channels and
// frames of 131072 octets, connection.open of the host `/`, and channel.open on channel 1.
static const char HANDSHAKE[] =
    "AMQP\x00\x00\x09\x01"
    "\x01\x00\x00\x00\x00\x00\x24\x00\x0a\x00\x0b\x00\x00\x00\x00\x05PLAIN\x00\x00\x00\x0c\x00guest\x00guest"
    "\x05" "en_US\xce"
    "\x01\x00\x00\x00\x00\x00\x0c\x00\x0a\x00\x1f\x07\xff\x00\x02\x00\x00\x00\x00\xce"
    "\x01\x00\x00\x00\x00\x00\x08\x00\x0a\x00\x28\x01/\x00\x00\xce"
    "\x01\x00\x01\x00\x00\x00\x05\x00\x14\x00\x0a\x00\xce";

// A Running server with channel 1 open.
static void open_server(mt_end *end, bool lends) {
    mt_server_settings settings;
    mt_octets output;
    mt_event event;
    const uint8_t *rest = (const uint8_t *)HANDSHAKE;
    size_t left = sizeof HANDSHAKE - 1;
    mt_server_defaults(&settings);
    settings.lends = lends;
    wanted(mt_end_open_server(end, &settings) == MT_OK, "a server isn't opened");
    while (left > 0) {
        wanted(mt_end_feed(end, rest, left, &event) == MT_OK, "a handshake isn't taken");
        rest += event.taken;
        left -= event.taken;
    }
    wanted(event.kind == MT_EVENT_OPENED, "a channel isn't opened");
    wanted(mt_end_output(end, &output) == MT_OK && mt_end_wrote(end, output.length) == MT_OK, "no output");
}

// What is seen of an event: whether it ends a message.
static size_t messages(const mt_event *event) {
    return event->kind == MT_EVENT_TOLD || (event->kind == MT_EVENT_PART && event->holds);
}

static size_t feed_one_by_one(mt_end *end, const uint8_t *piece, size_t length) {
    mt_event event;
    size_t found = 0;
    while (length > 0) {
        wanted(mt_end_feed(end, piece, length, &event) == MT_OK, "a piece isn't taken");
        found += messages(&event);
        piece += event.taken;
        length -= event.taken;
    }
    return found;
}

static size_t feed_in_batches(mt_end *end, const uint8_t *piece, size_t length) {
    mt_event events[EVENTS];
    size_t count, taken, found = 0;
    while (length > 0) {
        uint32_t status = mt_end_feed_batch(end, piece, length, events, EVENTS, &count, &taken, NULL);
        wanted(status == MT_OK, "a piece isn't taken");
        for (size_t i = 0; i < count; i++) found += messages(&events[i]);
        piece += taken;
        length -= taken;
    }
    return found;
}

typedef size_t feeding(mt_end *end, const uint8_t *piece, size_t length);

// the seconds of one pass, in which so many messages are told
static double feed(mt_end *end, feeding *way, const char *stream, size_t length, size_t count) {
    size_t found = 0;
    double start = seconds();
    for (size_t at = 0; at < length; at += PIECE)
        found += way(end, (const uint8_t *)stream + at, length - at < PIECE ? length - at : PIECE);
    double time = seconds() - start;
    wanted(found == count, "not each message is told");
    return time;
}

static void print_each(const char *way, double best, size_t count) {
    printf("  %-28s %8.1f ns\n", way, best * 1e9 / (double)count);
}

static double least(double best, double time) {
    return time < best ? time : best;
}

static void measure_ends(const char *name) {
    char unit[4096];
    size_t count, frames, length = unit_of(name, unit);
    mt_end gathers = MT_END_INIT, lends = MT_END_INIT;
    double decoder = 1e9, one = 1e9, batch = 1e9, lent_one = 1e9, lent_batch = 1e9;
    wanted(length > 0, "content, table or ack, and cache or memory; or frames, cache or memory, and a length");
    char *stream = stream_of(unit, length, octets, &count);
    length *= count;
    open_server(&gathers, false);
    open_server(&lends, true);
    for (int round = 0; round < rounds; round++) {
        decoder = least(decoder, decode(stream, length, &frames));
        one = least(one, feed(&gathers, feed_one_by_one, stream, length, count));
        batch = least(batch, feed(&gathers, feed_in_batches, stream, length, count));
        // an ack is told as a method by both kinds of end
        lent_one = least(lent_one, feed(&lends, feed_one_by_one, stream, length, count));
        lent_batch = least(lent_batch, feed(&lends, feed_in_batches, stream, length, count));
    }
    printf("%s, %s\n", name, place);
    print_each("rabbitmq-c", decoder, count);
    print_each("mt_end_feed", one, count);
    print_each("mt_end_feed_batch", batch, count);
    print_each("mt_end_feed, lends", lent_one, count);
    print_each("mt_end_feed_batch, lends", lent_batch, count);
    mt_end_close(&gathers);
    mt_end_close(&lends);
    free(stream);
}

// ---- frames

static size_t split_one_by_one(mt_splitter *splitter, const uint8_t *piece, size_t length) {
    mt_frame frame;
    size_t found = 0;
    while (length > 0) {
        wanted(mt_splitter_feed(splitter, piece, length, &frame) == MT_OK, "a piece isn't split");
        found += frame.kind == MT_BODY;
        piece += frame.taken;
        length -= frame.taken;
    }
    return found;
}

static size_t split_in_batches(mt_splitter *splitter, const uint8_t *piece, size_t length) {
    mt_frame frames[FRAMES];
    size_t count, taken, found = 0;
    while (length > 0) {
        uint32_t status = mt_splitter_feed_batch(splitter, piece, length, frames, FRAMES, &count, &taken);
        wanted(status == MT_OK, "a piece isn't split");
        for (size_t i = 0; i < count; i++) found += frames[i].kind == MT_BODY;
        piece += taken;
        length -= taken;
    }
    return found;
}

typedef size_t splitting(mt_splitter *splitter, const uint8_t *piece, size_t length);

static double split(mt_splitter *splitter, splitting *way, const char *stream, size_t length, size_t count) {
    size_t found = 0;
    double start = seconds();
    for (size_t at = 0; at < length; at += PIECE)
        found += way(splitter, (const uint8_t *)stream + at, length - at < PIECE ? length - at : PIECE);
    double time = seconds() - start;
    wanted(found == count, "not each frame is split");
    return time;
}

static void measure_frames(uint16_t payload) {
    static char unit[65544];
    size_t count, length = put_body(unit, 0, payload);
    mt_splitter splitter = MT_SPLITTER_INIT;
    double one = 1e9, batch = 1e9;
    char *stream = stream_of(unit, length, octets, &count);
    wanted(mt_splitter_open(&splitter, 131072) == MT_OK, "a splitter isn't opened");
    for (int round = 0; round < rounds; round++) {
        one = least(one, split(&splitter, split_one_by_one, stream, length * count, count));
        batch = least(batch, split(&splitter, split_in_batches, stream, length * count, count));
    }
    printf("frames of %zu octets, %s\n", length, place);
    print_each("mt_splitter_feed", one, count);
    print_each("mt_splitter_feed_batch", batch, count);
    mt_splitter_close(&splitter);
    free(stream);
}

int main(int words, char **word) {
    const char *name = words > 1 ? word[1] : "";
    if (words > 2 && strcmp(word[2], "cache") == 0) {
        octets = 1048576;
        rounds = 50;
        place = "in cache";
    }
    if (strcmp(name, "frames") == 0)
        measure_frames((uint16_t)(words > 3 ? atoi(word[3]) : 1000));
    else
        measure_ends(name);
    return 0;
}
