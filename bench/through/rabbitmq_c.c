// What bench/through compares with: contents published by rabbitmq-c, and a sink made of its own decoder.
//
//     sink                          prints the port, takes one connection, and counts the contents until it is closed
//     source PORT SIZE COUNT        publishes, closes, and prints the nanoseconds up to the answer of the close
#include <arpa/inet.h>
#include <stdint.h>
#include <stdio.h>
#include <stdlib.h>
#include <string.h>
#include <sys/socket.h>
#include <time.h>
#include <unistd.h>

#include <amqp.h>
#include <amqp_framing.h>
#include <amqp_tcp_socket.h>
#include <netinet/tcp.h>

enum { ROOM = 65536, PROTOCOL_HEADER = 'A' };

// What a server answers: connection.start with PLAIN and en_US, tune with frames of 131,072 octets, open-ok; channel.open-ok
// on channel 1; connection.close-ok.
static const char START[] = "\x01\x00\x00\x00\x00\x00\x1c\x00\x0a\x00\x0a\x00\x09\x00\x00\x00\x00\x00\x00\x00\x05PLAIN\x00\x00\x00\x05" "en_US\xce";
static const char TUNE[] = "\x01\x00\x00\x00\x00\x00\x0c\x00\x0a\x00\x1e\x07\xff\x00\x02\x00\x00\x00\x00\xce";
static const char OPEN_OK[] = "\x01\x00\x00\x00\x00\x00\x05\x00\x0a\x00\x29\x00\xce";
static const char CHANNEL_OK[] = "\x01\x00\x01\x00\x00\x00\x08\x00\x14\x00\x0b\x00\x00\x00\x00\xce";
static const char CLOSE_OK[] = "\x01\x00\x00\x00\x00\x00\x04\x00\x0a\x00\x33\xce";

static void fail(const char *what) {
    perror(what);
    exit(1);
}

static void put(int to, const char *octets, size_t count) {
    if (write(to, octets, count) != (ssize_t)count) fail("write");
}

// what is answered to a frame; whether the connection ends with it
static int answer(int to, const amqp_frame_t *frame) {
    if (frame->frame_type == PROTOCOL_HEADER) {
        put(to, START, sizeof START - 1);
    } else if (frame->frame_type == AMQP_FRAME_METHOD) {
        switch (frame->payload.method.id) {
            case AMQP_CONNECTION_START_OK_METHOD: put(to, TUNE, sizeof TUNE - 1); break;
            case AMQP_CONNECTION_OPEN_METHOD: put(to, OPEN_OK, sizeof OPEN_OK - 1); break;
            case AMQP_CHANNEL_OPEN_METHOD: put(to, CHANNEL_OK, sizeof CHANNEL_OK - 1); break;
            case AMQP_CONNECTION_CLOSE_METHOD: put(to, CLOSE_OK, sizeof CLOSE_OK - 1); return 1;
        }
    }
    return 0;
}

static void sink(void) {
    int listener = socket(AF_INET, SOCK_STREAM, 0);
    struct sockaddr_in address = {.sin_family = AF_INET, .sin_addr.s_addr = htonl(INADDR_LOOPBACK)};
    socklen_t length = sizeof address;
    if (bind(listener, (struct sockaddr *)&address, sizeof address) != 0 || listen(listener, 1) != 0) fail("listen");
    if (getsockname(listener, (struct sockaddr *)&address, &length) != 0) fail("getsockname");
    printf("%d\n", ntohs(address.sin_port));
    fflush(stdout);
    int stream = accept(listener, NULL, NULL);
    int on = 1;
    if (stream < 0 || setsockopt(stream, IPPROTO_TCP, TCP_NODELAY, &on, sizeof on) != 0) fail("accept");
    amqp_connection_state_t state = amqp_new_connection();
    static char buffer[ROOM];
    uint64_t left = 0;
    size_t contents = 0;
    for (int ends = 0; !ends;) {
        ssize_t count = read(stream, buffer, sizeof buffer);
        if (count <= 0) break;
        for (ssize_t at = 0; at < count && !ends;) {
            amqp_bytes_t rest = {(size_t)(count - at), buffer + at};
            amqp_frame_t frame;
            frame.frame_type = 0;
            int taken = amqp_handle_input(state, rest, &frame);
            if (taken < 0) exit(1);
            at += taken;
            if (frame.frame_type == AMQP_FRAME_HEADER) {
                left = frame.payload.properties.body_size;
                contents += left == 0;
            } else if (frame.frame_type == AMQP_FRAME_BODY) {
                left -= frame.payload.body_fragment.len;
                contents += left == 0;
            } else if (frame.frame_type != 0) {
                ends = answer(stream, &frame);
            }
            // a connection that is new awaits the protocol header
            if (frame.frame_type == PROTOCOL_HEADER) amqp_tune_connection(state, 0, 131072, 0);
            if (frame.frame_type != 0) amqp_maybe_release_buffers(state);
        }
    }
    printf("%zu contents\n", contents);
}

static void source(int port, size_t size, size_t count) {
    amqp_connection_state_t state = amqp_new_connection();
    amqp_socket_t *stream = amqp_tcp_socket_new(state);
    if (amqp_socket_open(stream, "127.0.0.1", port) != AMQP_STATUS_OK) fail("connect");
    if (amqp_login(state, "/", 0, 131072, 0, AMQP_SASL_METHOD_PLAIN, "guest", "guest").reply_type != AMQP_RESPONSE_NORMAL) exit(1);
    amqp_channel_open(state, 1);
    char *body = malloc(size + 1);
    if (body == NULL) fail("malloc");
    memset(body, 'x', size);
    struct timespec start, end;
    clock_gettime(CLOCK_MONOTONIC, &start);
    for (size_t i = 0; i < count; i++) {
        amqp_bytes_t octets = {size, body};
        int said = amqp_basic_publish(state, 1, amqp_cstring_bytes("orders"), amqp_cstring_bytes("order.created"), 0, 0, NULL, octets);
        if (said != AMQP_STATUS_OK) exit(1);
    }
    amqp_connection_close(state, AMQP_REPLY_SUCCESS);
    clock_gettime(CLOCK_MONOTONIC, &end);
    printf("%lld\n", (long long)(end.tv_sec - start.tv_sec) * 1000000000LL + (end.tv_nsec - start.tv_nsec));
    free(body);
    amqp_destroy_connection(state);
}

int main(int words, char **word) {
    if (words == 2 && strcmp(word[1], "sink") == 0) {
        sink();
    } else if (words == 5 && strcmp(word[1], "source") == 0) {
        source(atoi(word[2]), strtoul(word[3], NULL, 10), strtoul(word[4], NULL, 10));
    } else {
        fputs("sink, or source PORT SIZE COUNT\n", stderr);
        return 2;
    }
    return 0;
}
