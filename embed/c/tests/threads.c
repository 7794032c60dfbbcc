/* Two threads, each with two splitters of its own; and a splitter and an end that go from a thread to another. */
#include "check.h"
#include "meadowtray.h"

#include <pthread.h>

static const uint8_t HEARTBEAT[] = {8, 0, 0, 0, 0, 0, 0, 0xce};

static void *work(void *number)
{
	mt_splitter splitters[2] = {MT_SPLITTER_INIT, MT_SPLITTER_INIT};
	unsigned long *found = number;

	for (int i = 0; i < 2; ++i)
		if (mt_splitter_open(&splitters[i], 4096) != MT_OK)
			return NULL;
	for (int turn = 0; turn < 10000; ++turn) {
		mt_frame frame;
		size_t octet = (size_t)turn % sizeof HEARTBEAT;

		if (mt_splitter_feed(&splitters[turn / 8 % 2], &HEARTBEAT[octet], 1, &frame) == MT_OK &&
		    frame.kind == MT_HEARTBEAT)
			++*found;
	}
	for (int i = 0; i < 2; ++i)
		mt_splitter_close(&splitters[i]);
	return NULL;
}

static void *go_on(void *splitter)
{
	mt_frame frame;

	CHECK(mt_splitter_feed(splitter, HEARTBEAT + 3, 5, &frame) == MT_OK && frame.kind == MT_HEARTBEAT);
	CHECK(mt_splitter_close(splitter) == MT_OK);
	return NULL;
}

/* The rest of the protocol header, in a thread that didn't open the server: connection.start is its answer. */
static void *serve_on(void *server)
{
	mt_event event;
	mt_octets output;

	CHECK(mt_end_feed(server, (const uint8_t *)"P\0\0\x9\x1", 5, &event) == MT_OK && event.taken == 5);
	CHECK(mt_end_output(server, &output) == MT_OK && output.length > 8 && output.at[0] == MT_METHOD);
	CHECK(mt_end_close(server) == MT_OK);
	return NULL;
}

int main(void)
{
	mt_server_settings settings;
	mt_end server = MT_END_INIT;
	mt_event event;
	pthread_t threads[2];
	unsigned long found[2] = {0, 0};
	mt_splitter splitter = MT_SPLITTER_INIT;
	mt_frame frame;

	for (int i = 0; i < 2; ++i)
		CHECK(pthread_create(&threads[i], NULL, work, &found[i]) == 0);
	for (int i = 0; i < 2; ++i)
		CHECK(pthread_join(threads[i], NULL) == 0 && found[i] == 1250);
	CHECK(mt_splitter_open(&splitter, 4096) == MT_OK);
	CHECK(mt_splitter_feed(&splitter, HEARTBEAT, 3, &frame) == MT_OK);
	CHECK(pthread_create(&threads[0], NULL, go_on, &splitter) == 0 && pthread_join(threads[0], NULL) == 0);
	mt_server_defaults(&settings);
	CHECK(mt_end_open_server(&server, &settings) == MT_OK);
	CHECK(mt_end_feed(&server, (const uint8_t *)"AMQ", 3, &event) == MT_OK && event.taken == 3);
	CHECK(pthread_create(&threads[0], NULL, serve_on, &server) == 0 && pthread_join(threads[0], NULL) == 0);
	CHECK(mt_end_close(&server) == MT_NOT_OPEN);
	printf("threads: %lu checks\n", checked);
	return 0;
}
