/* A splitter through its C calls: frames however the stream is cut, one by one and in batches, faults, and misuse. */
#include "check.h"
#include "meadowtray.h"

#include <string.h>

/* A channel.open, a heartbeat, a body of 300 octets, an empty body, and a header. */
static size_t write_stream(uint8_t *out)
{
	static const uint8_t OPEN[] = {1, 0, 1, 0, 0, 0, 5, 0, 20, 0, 10, 0, 0xce};
	static const uint8_t HEARTBEAT[] = {8, 0, 0, 0, 0, 0, 0, 0xce};
	static const uint8_t EMPTY[] = {3, 0xff, 0xff, 0, 0, 0, 0, 0xce};
	static const uint8_t HEADER[] = {2, 1, 0, 0, 0, 0, 14, 0, 60, 0, 0, 0, 0, 0, 0, 0, 0, 0, 1, 0, 0, 0xce};
	uint8_t *at = out;

	memcpy(at, OPEN, sizeof OPEN);
	at += sizeof OPEN;
	memcpy(at, HEARTBEAT, sizeof HEARTBEAT);
	at += sizeof HEARTBEAT;
	memcpy(at, (uint8_t[]){3, 0, 7, 0, 0, 1, 44}, 7);
	at += 7;
	for (int i = 0; i < 300; ++i)
		*at++ = (uint8_t)(i * 7);
	*at++ = 0xce;
	memcpy(at, EMPTY, sizeof EMPTY);
	at += sizeof EMPTY;
	memcpy(at, HEADER, sizeof HEADER);
	at += sizeof HEADER;
	return (size_t)(at - out);
}

static const struct {
	uint8_t kind;
	uint16_t channel;
	size_t length;
} EXPECTED[] = {
	{MT_METHOD, 1, 5}, {MT_HEARTBEAT, 0, 0}, {MT_BODY, 7, 300}, {MT_BODY, 65535, 0}, {MT_HEADER, 256, 14}};

enum { FRAMES = sizeof EXPECTED / sizeof EXPECTED[0] };

static void expect(const mt_frame *frame, size_t index)
{
	CHECK(index < FRAMES);
	CHECK(frame->kind == EXPECTED[index].kind);
	CHECK(frame->channel == EXPECTED[index].channel);
	CHECK(frame->length == EXPECTED[index].length);
	if (frame->length == 300)
		for (int i = 0; i < 300; ++i)
			CHECK(frame->payload[i] == (uint8_t)(i * 7));
	if (frame->length == 5)
		CHECK(memcmp(frame->payload, "\0\24\0\12\0", 5) == 0);
}

/* A piece in memory of its own, so that a sanitizer sees what is read beside it. */
static uint8_t *piece_of(const uint8_t *from, size_t length)
{
	uint8_t *piece = malloc(length > 0 ? length : 1);

	CHECK(piece != NULL);
	if (length > 0)
		memcpy(piece, from, length);
	return piece;
}

static void split_in_pieces(const uint8_t *stream, size_t length, size_t size)
{
	mt_splitter splitter = MT_SPLITTER_INIT;
	mt_frame frame;
	size_t index = 0;

	CHECK(mt_splitter_open(&splitter, 4096) == MT_OK);
	for (size_t start = 0; start < length; start += size) {
		size_t rest = length - start < size ? length - start : size;
		uint8_t *piece = piece_of(stream + start, rest);
		const uint8_t *at = piece;

		while (rest > 0) {
			CHECK(mt_splitter_feed(&splitter, at, rest, &frame) == MT_OK);
			CHECK(frame.taken > 0 && frame.taken <= rest);
			if (frame.kind != MT_NO_FRAME)
				expect(&frame, index++);
			at += frame.taken;
			rest -= frame.taken;
		}
		free(piece);
	}
	CHECK(index == FRAMES);
	CHECK(mt_splitter_close(&splitter) == MT_OK);
}

static void split_in_batches(const uint8_t *stream, size_t length, size_t size, size_t capacity)
{
	mt_splitter splitter = MT_SPLITTER_INIT;
	mt_frame frames[8];
	size_t index = 0;

	CHECK(mt_splitter_open(&splitter, 4096) == MT_OK);
	for (size_t start = 0; start < length; start += size) {
		size_t rest = length - start < size ? length - start : size;
		uint8_t *piece = piece_of(stream + start, rest);
		const uint8_t *at = piece;

		while (rest > 0) {
			size_t count, taken;

			CHECK(mt_splitter_feed_batch(&splitter, at, rest, frames, capacity, &count, &taken) == MT_OK);
			CHECK(count <= capacity && taken > 0 && taken <= rest);
			for (size_t i = 0; i < count; ++i)
				expect(&frames[i], index++);
			at += taken;
			rest -= taken;
		}
		free(piece);
	}
	CHECK(index == FRAMES);
	CHECK(mt_splitter_close(&splitter) == MT_OK);
}

static void faults(void)
{
	static const struct {
		const char *octets;
		size_t length;
		uint32_t status;
		uint64_t at;
	} ROWS[] = {
		{"\4", 1, MT_FRAME_UNKNOWN_TYPE, 0},
		{"\1\0\1\xff\xff\xff\xff", 7, MT_FRAME_TOO_LARGE, 6},
		{"\10\0\0\0\0\0\0\0", 8, MT_FRAME_BAD_END, 7},
		{"\10\0\0\0\0\0\0\xce\11", 9, MT_FRAME_UNKNOWN_TYPE, 8},
	};

	for (size_t i = 0; i < sizeof ROWS / sizeof ROWS[0]; ++i) {
		mt_splitter splitter = MT_SPLITTER_INIT;
		mt_frame frames[4];
		const uint8_t *octets = (const uint8_t *)ROWS[i].octets;
		size_t count, taken, pending;

		CHECK(mt_splitter_open(&splitter, 4096) == MT_OK);
		CHECK(mt_splitter_feed_batch(&splitter, octets, ROWS[i].length, frames, 4, &count, &taken) ==
		      ROWS[i].status);
		CHECK(count == ROWS[i].length / 9);
		CHECK(frames[count].at == ROWS[i].at);
		CHECK(mt_splitter_feed(&splitter, octets, ROWS[i].length, frames) == MT_FRAME_FAILED);
		CHECK(frames[0].at == ROWS[i].at);
		CHECK(mt_splitter_pending(&splitter, &pending) == MT_OK && pending == 0);
		CHECK(mt_splitter_close(&splitter) == MT_OK);
	}
}

/* A frame that began in an earlier piece ends a batch, whether it is whole, waits or shows a fault. */
static void cut_frames(void)
{
	static const uint8_t TWICE[] = {8, 0, 0, 0, 0, 0, 0, 0xce, 8, 0, 0, 0, 0, 0, 0, 0xce};
	static const uint8_t BAD_END = 0;
	mt_splitter splitter = MT_SPLITTER_INIT;
	mt_frame frames[4];
	size_t count, taken;

	CHECK(mt_splitter_open(&splitter, 4096) == MT_OK);
	CHECK(mt_splitter_feed_batch(&splitter, TWICE, 3, frames, 4, &count, &taken) == MT_OK);
	CHECK(count == 0 && taken == 3);
	CHECK(mt_splitter_feed_batch(&splitter, TWICE + 3, 4, frames, 4, &count, &taken) == MT_OK);
	CHECK(count == 0 && taken == 4);
	CHECK(mt_splitter_feed_batch(&splitter, TWICE + 7, 9, frames, 0, &count, &taken) == MT_OK);
	CHECK(count == 0 && taken == 0);
	CHECK(mt_splitter_feed_batch(&splitter, TWICE + 7, 9, frames, 4, &count, &taken) == MT_OK);
	CHECK(count == 1 && taken == 1 && frames[0].kind == MT_HEARTBEAT && frames[0].taken == 1);
	CHECK(mt_splitter_feed_batch(&splitter, TWICE, sizeof TWICE, frames, 4, &count, &taken) == MT_OK);
	CHECK(count == 2 && taken == sizeof TWICE && frames[1].kind == MT_HEARTBEAT && frames[1].length == 0);
	CHECK(mt_splitter_feed_batch(&splitter, TWICE, sizeof TWICE, frames, 1, &count, &taken) == MT_OK);
	CHECK(count == 1 && taken == 8);
	CHECK(mt_splitter_feed_batch(&splitter, TWICE, sizeof TWICE - 1, frames, 4, &count, &taken) == MT_OK);
	CHECK(count == 1 && taken == sizeof TWICE - 1);
	CHECK(mt_splitter_feed_batch(&splitter, &BAD_END, 1, frames, 4, &count, &taken) == MT_FRAME_BAD_END);
	CHECK(count == 0 && taken == 0 && frames[0].at == 47);
	CHECK(mt_splitter_feed_batch(&splitter, TWICE, sizeof TWICE, frames, 4, &count, &taken) == MT_FRAME_FAILED);
	CHECK(count == 0 && taken == 0 && frames[0].at == 47);
	CHECK(mt_splitter_close(&splitter) == MT_OK);
	CHECK(mt_splitter_feed_batch(&splitter, TWICE, sizeof TWICE, frames, 4, &count, &taken) == MT_NOT_OPEN);
	CHECK(count == 0 && taken == 0);
}

static void misuse(void)
{
	mt_splitter splitter = MT_SPLITTER_INIT;
	mt_frame frame;
	size_t number;

	CHECK(mt_splitter_open(NULL, 4096) == MT_NULL);
	CHECK(mt_splitter_feed(NULL, NULL, 0, &frame) == MT_NULL);
	CHECK(mt_splitter_close(NULL) == MT_NULL);
	CHECK(mt_splitter_close(&splitter) == MT_NOT_OPEN);
	CHECK(mt_splitter_feed(&splitter, NULL, 0, &frame) == MT_NOT_OPEN);
	CHECK(mt_splitter_pending(&splitter, &number) == MT_NOT_OPEN);
	CHECK(mt_splitter_set_limit(&splitter, 4096) == MT_NOT_OPEN);
	CHECK(mt_splitter_open(&splitter, 7) == MT_LIMIT);
	CHECK(mt_splitter_close(&splitter) == MT_NOT_OPEN);
	CHECK(mt_splitter_open(&splitter, 4096) == MT_OK);
	CHECK(mt_splitter_open(&splitter, 4096) == MT_ALREADY_OPEN);
	CHECK(mt_splitter_feed(&splitter, NULL, 1, &frame) == MT_NULL);
	CHECK(mt_splitter_feed(&splitter, NULL, 0, NULL) == MT_NULL);
	CHECK(mt_splitter_feed(&splitter, NULL, 0, &frame) == MT_OK && frame.taken == 0 && frame.kind == MT_NO_FRAME);
	CHECK(mt_splitter_feed(&splitter, (const uint8_t *)"\1", 1, &frame) == MT_OK && frame.taken == 1);
	CHECK(mt_splitter_pending(&splitter, &number) == MT_OK && number == 1);
	CHECK(mt_splitter_set_limit(&splitter, 8192) == MT_LIMIT);
	CHECK(mt_splitter_close(&splitter) == MT_OK);
	CHECK(mt_splitter_close(&splitter) == MT_NOT_OPEN);
	CHECK(mt_splitter_open(&splitter, 4096) == MT_OK);
	CHECK(mt_splitter_set_limit(&splitter, 8192) == MT_OK);
	CHECK(mt_splitter_set_limit(&splitter, 7) == MT_LIMIT);
	CHECK(mt_splitter_close(&splitter) == MT_OK);
}

static void *refuse(size_t size)
{
	(void)size;
	return NULL;
}

static void *refuse_more(void *block, size_t size)
{
	(void)block;
	(void)size;
	return NULL;
}

static void memory(void)
{
	mt_memory refusing = {refuse, refuse_more, free};
	mt_splitter splitter = MT_SPLITTER_INIT;
	mt_frame frame;
	static const uint8_t HEARTBEAT[] = {8, 0, 0, 0, 0, 0, 0, 0xce};

	mt_set_memory(&refusing);
	CHECK(mt_splitter_open(&splitter, 4096) == MT_OUT_OF_MEMORY);
	mt_set_memory(NULL);
	CHECK(mt_splitter_open(&splitter, 4096) == MT_OK);
	mt_set_memory(&refusing);
	CHECK(mt_splitter_feed(&splitter, HEARTBEAT, 8, &frame) == MT_OK && frame.kind == MT_HEARTBEAT);
	CHECK(mt_splitter_feed(&splitter, HEARTBEAT, 4, &frame) == MT_FRAME_OUT_OF_MEMORY && frame.at == 8);
	mt_set_memory(NULL);
	CHECK(mt_splitter_close(&splitter) == MT_OK);
}

int main(void)
{
	uint8_t stream[512];
	size_t length = write_stream(stream);

	for (size_t size = 1; size <= 40; ++size) {
		split_in_pieces(stream, length, size);
		for (size_t capacity = 1; capacity <= 8; ++capacity)
			split_in_batches(stream, length, size, capacity);
	}
	split_in_pieces(stream, length, length);
	split_in_batches(stream, length, length, 8);
	faults();
	cut_frames();
	misuse();
	memory();
	printf("splitter: %lu checks\n", checked);
	return 0;
}
