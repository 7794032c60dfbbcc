// The streams of `bench/core` decoded by rabbitmq-c.
#include "decode.h"

// how many octets a stream has, and how often it is decoded: 2 MB lie in the caches, 200 MB in memory
static size_t octets = 200000000;
static int rounds = 2;
static const char *place = "from memory";

static void measure(const char *name, const char *unit, size_t length) {
    size_t count, frames = 0;
    char *stream = stream_of(unit, length, octets, &count);
    double best = 1e9;
    for (int round = 0; round < rounds; round++) {
        double time = decode(stream, count * length, &frames);
        if (time < best) best = time;
    }
    char title[128];
    snprintf(title, sizeof title, "%s, %s", name, place);
    printf("%-58s %7.0f MB/s %8.0f thousand a second, %zu frames\n", title, (double)(count * length) / best / 1e6, (double)count / best / 1e3, frames);
    free(stream);
}

static const char *title_of(const char *name) {
    if (strcmp(name, "content") == 0) return "rabbitmq-c: publish, header, 1024 octets";
    if (strcmp(name, "table") == 0) return "rabbitmq-c: publish, header with a table, 64 octets";
    return "rabbitmq-c: basic.ack";
}

int main(int words, char **word) {
    const char *name = words > 1 ? word[1] : "";
    char unit[4096];
    size_t length = unit_of(name, unit);
    if (words > 2 && strcmp(word[2], "cache") == 0) {
        octets = 2000000;
        rounds = 50;
        place = "in cache";
    }
    if (length == 0) {
        fputs("content, table or ack, and cache or memory\n", stderr);
        return 2;
    }
    measure(title_of(name), unit, length);
    return 0;
}
