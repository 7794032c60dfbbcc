/* Contents whose bodies come part by part, or are lent where they lie, through their C calls: what goes out is what one
 * send puts, however the body is cut; the refusals, and memory that runs out. */
#include "check.h"
#include "meadowtray.h"

#include <string.h>

static mt_end client;
static mt_end server;
static mt_end twin; /* a client that sends what the other begins */
static mt_end other;

/* Carries both ways until nothing is left to say. */
static void settle(mt_end *one, mt_end *two)
{
	mt_end *ends[] = {one, two};

	for (int idle = 0, from = 0; idle < 2; from = 1 - from) {
		mt_octets output;
		mt_event event;
		size_t at = 0;

		CHECK(mt_end_output(ends[from], &output) == MT_OK);
		while (at < output.length) {
			CHECK(mt_end_feed(ends[1 - from], output.at + at, output.length - at, &event) == MT_OK);
			at += event.taken;
		}
		CHECK(mt_end_wrote(ends[from], at) == MT_OK);
		idle = at == 0 ? idle + 1 : 0;
	}
}

static void connect(mt_end *one, mt_end *two)
{
	mt_client_settings to_client;
	mt_server_settings to_server;
	uint16_t channel = 0;

	mt_client_defaults(&to_client);
	mt_server_defaults(&to_server);
	to_client.lends = true;
	to_server.lends = true;
	to_server.frame_max = 4096;
	CHECK(mt_end_open_client(one, &to_client) == MT_OK && mt_end_open_server(two, &to_server) == MT_OK);
	settle(one, two);
	CHECK(mt_end_open_channel(one, &channel) == MT_OK && channel == 1);
	settle(one, two);
}

static uint8_t method_room[512];
static uint8_t header_room[512];
static uint8_t body[20000];

/* A publish with a body of so many octets. */
static mt_message publish(size_t length)
{
	mt_basic_publish fields = {mt_text(""), mt_text("orders"), false, false};
	mt_value properties[MT_PROPERTIES];
	mt_written method, header;
	mt_message message;

	for (int i = 0; i < MT_PROPERTIES; ++i)
		properties[i] = mt_number_value(MT_NONE, 0);
	CHECK(mt_write_basic_publish(&fields, method_room, sizeof method_room, &method) == MT_OK);
	CHECK(mt_header_write(length, properties, header_room, sizeof header_room, &header) == MT_OK);
	message.method = mt_octets_at(method_room, method.length);
	message.header = mt_octets_at(header_room, header.length);
	message.body = mt_octets_at(body, length);
	return message;
}

/* Octets that go to the server, whose events count the octets of the body. */
static size_t take(mt_octets octets, size_t *whole)
{
	mt_event event;
	size_t came = 0;

	for (size_t at = 0; at < octets.length; at += event.taken) {
		CHECK(mt_end_feed(&server, octets.at + at, octets.length - at, &event) == MT_OK);
		if (event.kind == MT_EVENT_PART)
			came += event.body.length;
		*whole += (event.kind == MT_EVENT_PART || event.kind == MT_EVENT_HEADS) && event.holds;
	}
	return came;
}

static uint64_t left_of(mt_content *content)
{
	uint64_t left = 1;

	CHECK(mt_content_left(content, &left) == MT_OK);
	return left;
}

/* A body of so many octets in parts of at most `part`: the octets are those that a send of it puts. */
static void send_in_parts(mt_content *content, size_t length, size_t part)
{
	mt_message message = publish(length);
	mt_octets octets, output;
	uint64_t still = 0, frames, before, after;
	size_t at = 0, written = 0, whole = 0, came;

	CHECK(mt_end_send(&twin, 1, &message) == MT_OK);
	CHECK(mt_end_output(&twin, &output) == MT_OK);
	CHECK(mt_end_counters(&client, &frames, &before) == MT_OK);
	CHECK(mt_end_begin_content(&client, content, 1, message.method, message.header, &octets) == MT_OK);
	CHECK(octets.length <= output.length && memcmp(octets.at, output.at, octets.length) == 0);
	CHECK(mt_content_add_to(content, &still) == MT_OK && still == output.length - octets.length);
	CHECK(mt_end_counters(&client, &frames, &after) == MT_OK && after - before == output.length);
	written = octets.length;
	came = take(octets, &whole);
	while (left_of(content) > 0) {
		size_t next = length - at < part ? length - at : part;
		mt_octets waits;

		CHECK(left_of(content) == length - at);
		/* neither another content nor more octets than are left */
		CHECK(mt_end_begin_content(&client, content, 1, message.method, message.header, &waits) == MT_WAITS);
		if (next == length - at)
			CHECK(mt_content_write(content, body, next + 1, &octets) == MT_MISFIT);
		CHECK(mt_content_write(content, body + at, next, &octets) == MT_OK);
		CHECK(octets.length <= output.length - written);
		CHECK(memcmp(octets.at, output.at + written, octets.length) == 0);
		written += octets.length;
		at += next;
		came += take(octets, &whole);
		still = 7;
		CHECK(mt_content_add_to(content, &still) == MT_OK && still == 7 + output.length - written);
	}
	CHECK(written == output.length && came == length && whole == 1);
	CHECK(mt_end_wrote(&twin, output.length) == MT_OK);
	CHECK(mt_content_write(content, body, 0, &octets) == MT_OK && octets.length == 0);
	CHECK(mt_content_write(content, body, 1, &octets) == MT_MISFIT);
}

/* A body of so many octets in pieces: joined, they are what a send of it puts, and the parts of the body lie where it
 * lies. */
static void send_in_pieces(mt_content *content, size_t length)
{
	mt_message message = publish(length);
	mt_octets output, pieces[32], waits;
	uint64_t frames, before, after;
	size_t count, wanted, at = 0, came = 0, whole = 0, inside = 0;

	CHECK(mt_end_send(&twin, 1, &message) == MT_OK);
	CHECK(mt_end_output(&twin, &output) == MT_OK);
	CHECK(mt_end_pieces(&client, length, &wanted) == MT_OK && wanted <= 32);
	CHECK(mt_end_counters(&client, &frames, &before) == MT_OK);
	CHECK(mt_end_lend_content(&client, content, 1, &message, pieces, wanted - 1, &count) == MT_NO_ROOM && count == 0);
	CHECK(mt_end_counters(&client, &frames, &after) == MT_OK && after == before);
	CHECK(mt_end_lend_content(&client, content, 1, &message, pieces, wanted, &count) == MT_OK && count == wanted);
	CHECK(mt_end_counters(&client, &frames, &after) == MT_OK && after - before == output.length);
	CHECK(mt_end_output(&client, &waits) == MT_OK && waits.length == 0);
	for (size_t i = 0; i < count; ++i) {
		CHECK(pieces[i].length > 0 && pieces[i].length <= output.length - at);
		CHECK(memcmp(pieces[i].at, output.at + at, pieces[i].length) == 0);
		if (i % 2 == 1) {
			CHECK(pieces[i].at == body + inside);
			inside += pieces[i].length;
		}
		at += pieces[i].length;
		came += take(pieces[i], &whole);
	}
	CHECK(at == output.length && inside == length && came == length && whole == 1);
	CHECK(mt_end_wrote(&twin, output.length) == MT_OK);
}

static void refuse(mt_content *content)
{
	mt_message message = publish(10);
	mt_basic_ack ack = {1, false};
	mt_written method;
	mt_octets octets, plain;
	mt_splitter splitter = MT_SPLITTER_INIT;
	mt_content closed = MT_CONTENT_INIT;
	mt_frame frame;
	mt_end gathers = MT_END_INIT;
	mt_client_settings settings;
	mt_octets pieces[8];
	size_t placed;
	uint64_t count = 5;
	uint8_t room[64];

	CHECK(mt_write_basic_ack(&ack, room, sizeof room, &method) == MT_OK);
	plain = mt_octets_at(room, method.length);
	CHECK(mt_end_begin_content(&client, content, 1, plain, message.header, &octets) == MT_MISFIT);
	CHECK(mt_end_begin_content(&client, content, 1, mt_octets_at(room, 3), message.header, &octets) != MT_OK);
	CHECK(mt_end_begin_content(&client, content, 1, message.method, mt_octets_at(header_room, 3), &octets) != MT_OK);
	CHECK(mt_end_begin_content(&client, content, 2, message.method, message.header, &octets) == MT_ASK_NOT_OPEN);
	CHECK(mt_end_begin_content(&client, &closed, 1, message.method, message.header, &octets) == MT_NOT_OPEN);
	CHECK(mt_end_begin_content(&client, NULL, 1, message.method, message.header, &octets) == MT_NULL);
	CHECK(mt_end_begin_content(&gathers, content, 1, message.method, message.header, &octets) == MT_NOT_OPEN);
	mt_client_defaults(&settings);
	CHECK(mt_end_open_client(&gathers, &settings) == MT_OK);
	CHECK(mt_end_begin_content(&gathers, content, 1, message.method, message.header, &octets) == MT_WAITS);
	CHECK(mt_end_lend_content(&gathers, content, 1, &message, pieces, 8, &placed) == MT_WAITS && placed == 0);
	CHECK(mt_end_pieces(&gathers, 10, &placed) == MT_ASK_NOT_RUNNING && placed == 0);
	CHECK(mt_end_close(&gathers) == MT_OK);

	/* what waits in the output goes first */
	CHECK(mt_end_beat(&client) == MT_OK);
	CHECK(mt_end_begin_content(&client, content, 1, message.method, message.header, &octets) == MT_WAITS);
	CHECK(octets.length == 0);
	CHECK(mt_end_lend_content(&client, content, 1, &message, pieces, 8, &placed) == MT_WAITS && placed == 0);
	settle(&client, &server);
	CHECK(mt_end_lend_content(&client, content, 2, &message, pieces, 8, &placed) == MT_ASK_NOT_OPEN && placed == 0);
	CHECK(mt_end_lend_content(&client, &closed, 1, &message, pieces, 8, &placed) == MT_NOT_OPEN);
	CHECK(mt_end_lend_content(&client, (mt_content *)&client, 1, &message, NULL, 8, &placed) == MT_NULL);
	message.body.length = 9;
	CHECK(mt_end_lend_content(&client, content, 1, &message, pieces, 8, &placed) == MT_MISFIT && placed == 0);
	message.body.length = 10;

	/* a handle of another kind, and one that isn't open */
	CHECK(mt_splitter_open(&splitter, 4096) == MT_OK);
	CHECK(mt_end_begin_content(&client, (mt_content *)&splitter, 1, message.method, message.header, &octets) ==
	      MT_OTHER_KIND);
	CHECK(mt_content_write((mt_content *)&splitter, body, 1, &octets) == MT_OTHER_KIND);
	CHECK(mt_content_left((mt_content *)&splitter, &count) == MT_OTHER_KIND && count == 5);
	CHECK(mt_content_add_to((mt_content *)&splitter, &count) == MT_OTHER_KIND && count == 5);
	CHECK(mt_splitter_close(&splitter) == MT_OK);
	CHECK(mt_splitter_feed((mt_splitter *)content, body, 8, &frame) == MT_OTHER_KIND);
	CHECK(mt_splitter_set_limit((mt_splitter *)content, 4096) == MT_OTHER_KIND);
	CHECK(mt_content_open(content) == MT_ALREADY_OPEN);
	CHECK(mt_content_write(&closed, body, 1, &octets) == MT_NOT_OPEN);
	CHECK(mt_content_left(&closed, &count) == MT_NOT_OPEN && mt_content_close(&closed) == MT_NOT_OPEN);
	CHECK(mt_content_write(content, NULL, 1, &octets) == MT_NULL && mt_content_left(content, NULL) == MT_NULL);
	CHECK(mt_content_open(&closed) == MT_OK && left_of(&closed) == 0);
	CHECK(mt_content_write(&closed, body, 1, &octets) == MT_NOT_THERE);
	CHECK(mt_content_add_to(&closed, &count) == MT_OK && count == 5);
	CHECK(mt_content_close(&closed) == MT_OK);
}

/* ---- memory that is refused ------------------------------------------------------------------------------------ */

static unsigned long requests_left;
static long held;

static void *give(size_t size)
{
	void *block = requests_left > 0 ? malloc(size) : NULL;

	requests_left -= requests_left > 0;
	held += block != NULL;
	return block;
}

static void *resize(void *block, size_t size)
{
	void *larger = requests_left > 0 ? realloc(block, size) : NULL;

	requests_left -= requests_left > 0;
	held += block == NULL && larger != NULL;
	return larger;
}

static void take_back(void *block)
{
	held -= block != NULL;
	free(block);
}

/* One content with so many requests for memory: the answer is whether they were enough. A part that is refused is
 * written again once there is memory. */
static bool goes_out(unsigned long requests)
{
	mt_content content = MT_CONTENT_INIT;
	mt_message message;
	mt_octets octets;
	uint64_t frames, before, after;
	size_t came = 0, whole = 0;
	bool well;

	requests_left = 1000;
	message = publish(9000);
	requests_left = requests;
	CHECK(mt_end_counters(&client, &frames, &before) == MT_OK);
	well = mt_content_open(&content) == MT_OK &&
	       mt_end_begin_content(&client, &content, 1, message.method, message.header, &octets) == MT_OK;
	CHECK(mt_end_counters(&client, &frames, &after) == MT_OK && (after > before) == well);
	if (well) {
		unsigned long kept = requests_left;

		requests_left = 1000;
		came = take(octets, &whole);
		requests_left = kept;
		if (mt_content_write(&content, body, 9000, &octets) == MT_OUT_OF_MEMORY) {
			well = false;
			CHECK(left_of(&content) == 9000);
			requests_left = 1000;
			CHECK(mt_content_write(&content, body, 9000, &octets) == MT_OK);
		}
		requests_left = 1000;
		came += take(octets, &whole);
		CHECK(came == 9000 && whole == 1 && left_of(&content) == 0);
	}
	mt_content_close(&content);
	return well;
}

static void run_short(void)
{
	const mt_memory few = {give, resize, take_back};
	unsigned long requests = 0;

	mt_set_memory(&few);
	requests_left = 100000;
	connect(&client, &server);
	while (!goes_out(requests))
		++requests;
	CHECK(requests >= 3);
	mt_end_close(&client);
	mt_end_close(&server);
	CHECK(held == 0);
	mt_set_memory(NULL);
}

int main(void)
{
	const size_t lengths[] = {0, 1, 4087, 4088, 4089, 8176, 20000};
	const size_t parts[] = {1, 7, 4088, 4089, 20000};
	mt_content content = MT_CONTENT_INIT;

	for (size_t i = 0; i < sizeof body; ++i)
		body[i] = (uint8_t)(i * 13);
	connect(&client, &server);
	connect(&twin, &other);
	CHECK(mt_content_open(&content) == MT_OK);
	for (size_t i = 0; i < sizeof lengths / sizeof lengths[0]; ++i)
		for (size_t j = 0; j < sizeof parts / sizeof parts[0]; ++j)
			send_in_parts(&content, lengths[i], parts[j]);
	for (size_t i = 0; i < sizeof lengths / sizeof lengths[0]; ++i)
		send_in_pieces(&content, lengths[i]);
	refuse(&content);
	send_in_parts(&content, 20000, 3);
	CHECK(mt_content_close(&content) == MT_OK && mt_content_close(&content) == MT_NOT_OPEN);
	CHECK(mt_end_close(&client) == MT_OK && mt_end_close(&server) == MT_OK);
	CHECK(mt_end_close(&twin) == MT_OK && mt_end_close(&other) == MT_OK);
	run_short();
	printf("contents: %lu checks\n", checked);
	return 0;
}
