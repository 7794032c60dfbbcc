/* A client and a server in memory, through their C calls: the handshake however it is cut, a channel, contents one by
 * one and in batches, closes, refusals, faults, and misuse. */
#include "check.h"
#include "meadowtray.h"

#include <string.h>

static mt_end client;
static mt_end server;

static bool is(mt_octets octets, const char *text)
{
	return octets.length == strlen(text) && memcmp(octets.at, text, octets.length) == 0;
}

static void open_ends(void)
{
	mt_client_settings to_client;
	mt_server_settings to_server;

	mt_client_defaults(&to_client);
	mt_server_defaults(&to_server);
	to_client.user = mt_text("ann");
	to_client.password = mt_text("secret");
	to_client.virtual_host = mt_text("shop");
	to_server.frame_max = 8192;
	to_server.channel_max = 7;
	CHECK(mt_end_open_client(&client, &to_client) == MT_OK);
	CHECK(mt_end_open_client(&client, &to_client) == MT_ALREADY_OPEN);
	CHECK(mt_end_open_server(&client, &to_server) == MT_ALREADY_OPEN);
	CHECK(mt_end_open_server(&server, &to_server) == MT_OK);
}

static void close_ends(void)
{
	CHECK(mt_end_close(&client) == MT_OK);
	CHECK(mt_end_close(&client) == MT_NOT_OPEN);
	CHECK(mt_end_close(&server) == MT_OK);
}

/* What was carried last. */
static uint8_t *last_piece;

/* Carries up to `most` octets of what an end has to say to the other, in memory of its own that stays until the next
 * call. The event of them is the answer, if something is told of them; `carried` says how many there were. */
static uint32_t carry(mt_end *from, mt_end *to, size_t most, mt_event *event, size_t *carried)
{
	mt_octets output;
	uint32_t status;

	CHECK(mt_end_output(from, &output) == MT_OK);
	*carried = output.length < most ? output.length : most;
	free(last_piece);
	last_piece = malloc(*carried + 1);
	CHECK(last_piece != NULL);
	memcpy(last_piece, output.at, *carried);
	status = mt_end_feed(to, last_piece, *carried, event);
	if (status == MT_OK)
		*carried = event->taken;
	CHECK(mt_end_wrote(from, *carried) == MT_OK);
	return status;
}

/* Carries both ways until nothing is left to say, and counts the events of each kind but quiet ones. */
static void settle(size_t most, unsigned *events)
{
	bool silent = false;

	while (!silent) {
		mt_event event;
		size_t there, back;

		CHECK(carry(&client, &server, most, &event, &there) == MT_OK);
		++events[event.kind];
		CHECK(carry(&server, &client, most, &event, &back) == MT_OK);
		++events[event.kind];
		silent = there == 0 && back == 0;
	}
}

static uint8_t phase_of(mt_end *end)
{
	uint8_t phase = 0;

	CHECK(mt_end_phase(end, &phase) == MT_OK);
	return phase;
}

static mt_channel channel_of(mt_end *end, uint16_t number)
{
	mt_channel channel = {0, 0, 0};

	CHECK(mt_end_channel(end, number, &channel) == MT_OK);
	return channel;
}

/* The handshake in pieces of at most so many octets, and a channel. */
static void shake_hands(size_t most)
{
	unsigned events[16] = {0};
	mt_agreed agreed;
	uint16_t channel;

	open_ends();
	CHECK(phase_of(&client) == MT_PHASE_HANDSHAKE);
	CHECK(mt_end_agreed(&client, &agreed) == MT_OK && agreed.frame_max == 0 && agreed.channel_max == 0);
	CHECK(mt_end_open_channel(&client, &channel) == MT_ASK_NOT_RUNNING);
	CHECK(mt_end_lowest_free(&client, &channel) == MT_ASK_NOT_RUNNING);
	settle(most, events);
	CHECK(events[MT_EVENT_NEGOTIATED] == 2);
	CHECK(phase_of(&client) == MT_PHASE_RUNNING && phase_of(&server) == MT_PHASE_RUNNING);
	CHECK(mt_end_agreed(&client, &agreed) == MT_OK && agreed.frame_max == 8192 && agreed.channel_max == 7);
	CHECK(mt_end_open_channel(&server, &channel) == MT_ASK_NOT_SENDABLE);
	CHECK(mt_end_lowest_free(&client, &channel) == MT_OK && channel == 1);
	CHECK(mt_end_open_channel(&client, &channel) == MT_OK && channel == 1);
	CHECK(channel_of(&client, 1).state == MT_STATE_OPENING);
	CHECK(mt_end_lowest_free(&client, &channel) == MT_OK && channel == 2);
	settle(most, events);
	CHECK(events[MT_EVENT_OPENED] == 2);
	CHECK(channel_of(&client, 1).state == MT_STATE_OPEN && channel_of(&server, 1).state == MT_STATE_OPEN);
	CHECK(channel_of(&client, 2).state == MT_STATE_FREE);
}

static uint8_t method_room[512];
static uint8_t header_room[512];

/* A publish to a queue with a content of these octets. */
static mt_message publish(const char *queue, mt_octets body)
{
	mt_basic_publish fields = {mt_text(""), mt_text(queue), false, false};
	mt_value properties[MT_PROPERTIES];
	mt_written method, header;
	mt_message message;

	for (int i = 0; i < MT_PROPERTIES; ++i)
		properties[i] = mt_number_value(MT_NONE, 0);
	properties[MT_CONTENT_TYPE] = mt_octets_value(MT_SHORT_STRING, mt_text("text/plain"));
	CHECK(mt_write_basic_publish(&fields, method_room, sizeof method_room, &method) == MT_OK);
	CHECK(mt_header_write(body.length, properties, header_room, sizeof header_room, &header) == MT_OK);
	message.method = mt_octets_at(method_room, method.length);
	message.header = mt_octets_at(header_room, header.length);
	message.body = body;
	return message;
}

/* The event is a publish to this queue with a content of these octets. */
static void expect_publish(const mt_event *event, const char *queue, mt_octets body)
{
	mt_method method;
	mt_basic_publish fields;
	mt_header header;

	CHECK(event->kind == MT_EVENT_TOLD && event->channel == 1 && event->holds);
	CHECK(mt_method_read(event->method.at, event->method.length, &method) == MT_OK);
	CHECK(mt_as_basic_publish(&method, &fields) && is(fields.routing_key, queue));
	CHECK(mt_header_read(event->header.at, event->header.length, &header) == MT_OK);
	CHECK(header.body_size == body.length);
	CHECK(is(mt_octets_of(&header.properties[MT_CONTENT_TYPE]), "text/plain"));
	CHECK(event->body.length == body.length && memcmp(event->body.at, body.at, body.length) == 0);
}

/* A content that takes three frames, in pieces of at most so many octets. */
static void send_content(size_t most)
{
	static uint8_t octets[20000];
	mt_octets body = {octets, sizeof octets};
	mt_message message;
	mt_event event;
	size_t carried, pending, gathered = 0;

	for (size_t i = 0; i < sizeof octets; ++i)
		octets[i] = (uint8_t)(i * 11);
	shake_hands(most);
	message = publish("orders", body);
	CHECK(mt_end_send(&client, 1, &message) == MT_OK);
	do {
		size_t in_all, kept;

		if (channel_of(&server, 1).gathered > gathered)
			gathered = channel_of(&server, 1).gathered;
		CHECK(mt_end_gathered_in_all(&server, &in_all) == MT_OK && in_all == channel_of(&server, 1).gathered);
		CHECK(mt_end_pending(&server, &pending) == MT_OK && mt_end_kept(&server, &kept) == MT_OK);
		CHECK(kept == pending + in_all || kept == pending + in_all + message.method.length ||
		      kept == pending + in_all + message.method.length + message.header.length);
		CHECK(carry(&client, &server, most, &event, &carried) == MT_OK && carried > 0);
		CHECK(mt_end_pending(&server, &pending) == MT_OK && pending < 8192);
	} while (event.kind == MT_EVENT_NONE);
	/* a piece that has all of the content is taken at once */
	CHECK(gathered >= 8184 || most > sizeof octets);
	CHECK(mt_end_gathered_in_all(&server, &gathered) == MT_OK && gathered == 0);
	expect_publish(&event, "orders", body);
	close_ends();
}

/* Contents of three frames each, sent on two channels at once, so that their frames come in turn: each is told whole. */
static void gather_two(size_t most)
{
	static uint8_t bodies[3][20000];
	mt_octets body;
	mt_message message;
	mt_event event;
	unsigned events[16] = {0}, told[3] = {0};
	size_t carried, in_all, greatest = 0;
	uint16_t channel;

	shake_hands(SIZE_MAX);
	CHECK(mt_end_open_channel(&client, &channel) == MT_OK && channel == 2);
	settle(SIZE_MAX, events);
	for (int sent = 0; sent < 2; ++sent)
		for (channel = 1; channel <= 2; ++channel) {
			for (size_t i = 0; i < sizeof bodies[channel]; ++i)
				bodies[channel][i] = (uint8_t)(i * 11 + channel);
			body = mt_octets_at(bodies[channel], sizeof bodies[channel]);
			message = publish(channel == 1 ? "one" : "two", body);
			CHECK(mt_end_send(&client, channel, &message) == MT_OK);
		}
	do {
		CHECK(carry(&client, &server, most, &event, &carried) == MT_OK);
		if (event.kind == MT_EVENT_TOLD) {
			channel = event.channel;
			CHECK(channel == 1 || channel == 2);
			++told[channel];
			event.channel = 1;
			body = mt_octets_at(bodies[channel], sizeof bodies[channel]);
			expect_publish(&event, channel == 1 ? "one" : "two", body);
		}
		CHECK(mt_end_gathered_in_all(&server, &in_all) == MT_OK);
		CHECK(in_all == channel_of(&server, 1).gathered + channel_of(&server, 2).gathered);
		greatest = in_all > greatest ? in_all : greatest;
	} while (carried > 0);
	CHECK(told[1] == 2 && told[2] == 2);
	/* both were under way at once: a piece is taken up to the end of one of them */
	CHECK(greatest > (most < 8192 ? 20000 : 16000) && in_all == 0);
	close_ends();
}

/* A channel that is closed in the middle of a content: what has come of it is let go, and the channel can be used again. */
static void gather_half(void)
{
	static uint8_t octets[20000];
	mt_octets body = {octets, sizeof octets}, text = mt_text("enough");
	mt_message message;
	mt_event event;
	unsigned events[16] = {0};
	size_t carried, in_all, kept;
	uint16_t channel;

	shake_hands(SIZE_MAX);
	message = publish("orders", body);
	CHECK(mt_end_send(&client, 1, &message) == MT_OK);
	do
		CHECK(carry(&client, &server, 4096, &event, &carried) == MT_OK && event.kind == MT_EVENT_NONE);
	while (channel_of(&server, 1).gathered == 0);
	CHECK(mt_end_gathered_in_all(&server, &in_all) == MT_OK && in_all > 0);
	CHECK(mt_end_close_channel(&server, 1, 406, text) == MT_OK);
	settle(SIZE_MAX, events);
	CHECK(events[MT_EVENT_TOLD] == 0 && events[MT_EVENT_DISCARDED] > 0);
	CHECK(events[MT_EVENT_CHANNEL_CLOSED] == 2);
	CHECK(mt_end_gathered_in_all(&server, &in_all) == MT_OK && in_all == 0);
	CHECK(mt_end_kept(&server, &kept) == MT_OK && kept == 0);
	CHECK(mt_end_open_channel(&client, &channel) == MT_OK && channel == 1);
	settle(SIZE_MAX, events);
	body.length = 5;
	message = publish("orders", body);
	CHECK(mt_end_send(&client, 1, &message) == MT_OK);
	do
		CHECK(carry(&client, &server, SIZE_MAX, &event, &carried) == MT_OK && carried > 0);
	while (event.kind == MT_EVENT_NONE);
	expect_publish(&event, "orders", body);
	close_ends();
}

/* The server has found fault with a heartbeat on channel 3. */
static void blame_heartbeat(void)
{
	mt_blame blame;
	uint64_t octets;
	char line[256], wanted[256];

	CHECK(mt_end_octets_taken(&server, &octets) == MT_OK);
	CHECK(mt_end_blame(&client, &blame) == MT_NOT_THERE && mt_end_blame_line(&client, line, sizeof line) == MT_NOT_THERE);
	CHECK(mt_end_blame(&server, &blame) == MT_OK);
	CHECK(blame.octet == octets - 8 && blame.frame == MT_HEARTBEAT && blame.channel == 3 && blame.method == 0);
	CHECK(blame.rule == MT_RULE_HEARTBEAT_ON_ZERO && blame.code == 501 && blame.field == 0 && blame.field_at == 0);
	snprintf(wanted, sizeof wanted, "octet %llu, channel 3: a heartbeat on a channel (501)",
		 (unsigned long long)blame.octet);
	CHECK(mt_end_blame_line(&server, line, sizeof line) == MT_OK && strcmp(line, wanted) == 0);
	line[0] = 'x';
	CHECK(mt_end_blame_line(&server, line, strlen(wanted)) == MT_NO_ROOM && line[0] == 'x');
	CHECK(mt_end_blame_line(&server, line, strlen(wanted) + 1) == MT_OK && strcmp(line, wanted) == 0);
	CHECK(mt_end_blame_line(&server, NULL, 0) == MT_NO_ROOM);
}

/* A method whose payload can't be read: its field, and where. */
static void blame_method(void)
{
	static const uint8_t SHORT_QOS[] = {1, 0, 1, 0, 0, 0, 6, 0, 60, 0, 10, 0, 0, 0xce};
	mt_blame blame;
	mt_event event;
	char line[256];

	shake_hands(SIZE_MAX);
	CHECK(mt_end_feed(&server, SHORT_QOS, sizeof SHORT_QOS, &event) == MT_END_PEER && event.code == 502);
	CHECK(mt_end_blame(&server, &blame) == MT_OK && blame.rule == MT_RULE_SYNTAX && blame.code == 502);
	CHECK(blame.frame == MT_METHOD && blame.channel == 1 && blame.method == MT_BASIC_QOS);
	CHECK(blame.field == MT_VALUE_ENDS && blame.field_at == 4);
	CHECK(mt_end_blame_line(&server, line, sizeof line) == MT_OK && strstr(line, "basic.qos that can't be read") != NULL);
	close_ends();
}

/* What each end heard of the other in the handshake, until it forgets it. */
static void hear(void)
{
	uint8_t room[1024];
	mt_written written;
	mt_method method;
	mt_connection_open opened;
	mt_connection_start_ok start_ok;
	uint16_t class_id, method_id, heartbeat;

	shake_hands(SIZE_MAX);
	CHECK(mt_end_heard(&server, MT_CONNECTION_OPEN, room, sizeof room, &written) == MT_OK);
	CHECK(mt_method_read(room, written.length, &method) == MT_OK && mt_as_connection_open(&method, &opened));
	CHECK(is(opened.virtual_host, "shop"));
	CHECK(mt_end_heard(&server, MT_CONNECTION_START_OK, room, sizeof room, &written) == MT_OK);
	CHECK(mt_method_read(room, written.length, &method) == MT_OK && mt_as_connection_start_ok(&method, &start_ok));
	CHECK(start_ok.response.length == 11 && memcmp(start_ok.response.at, "\0ann\0secret", 11) == 0);
	memset(room, 7, sizeof room);
	CHECK(mt_end_heard(&server, MT_CONNECTION_START_OK, room, written.length - 1, &written) == MT_NO_ROOM && room[0] == 7);
	CHECK(mt_end_heard(&server, MT_CONNECTION_START_OK, NULL, 0, &written) == MT_NO_ROOM);
	CHECK(mt_end_heard(&server, MT_CONNECTION_START, room, sizeof room, &written) == MT_NOT_THERE && room[0] == 7);
	CHECK(mt_end_heard(&server, 1, room, sizeof room, &written) == MT_UNKNOWN_METHOD && room[0] == 7);
	CHECK(mt_end_heard(&client, MT_CONNECTION_START, room, sizeof room, &written) == MT_OK);
	CHECK(mt_end_forget_heard(&server) == MT_OK);
	CHECK(mt_end_heard(&server, MT_CONNECTION_START_OK, room, sizeof room, &written) == MT_NOT_THERE);
	CHECK(mt_end_heartbeat(&server, &heartbeat) == MT_OK && heartbeat == 0);
	CHECK(mt_end_closed_for(&client, &class_id, &method_id) == MT_NOT_THERE);
	close_ends();
}

/* A close of a channel and of the connection, each for a method. */
static void close_for(void)
{
	unsigned events[16] = {0};
	mt_event event;
	size_t carried;
	uint16_t class_id, method_id;

	shake_hands(SIZE_MAX);
	CHECK(mt_end_close_channel_for(&server, 1, 404, mt_text("no queue"), 1) == MT_MISFIT);
	CHECK(mt_end_close_channel_for(&server, 2, 404, mt_text("no queue"), MT_QUEUE_DECLARE) == MT_ASK_NOT_OPEN);
	CHECK(mt_end_close_channel_for(&server, 1, 404, mt_text("no queue"), MT_QUEUE_DECLARE) == MT_OK);
	settle(SIZE_MAX, events);
	CHECK(events[MT_EVENT_CHANNEL_CLOSED] == 2);
	CHECK(mt_end_closed_for(&client, &class_id, &method_id) == MT_OK && class_id == 50 && method_id == 10);
	CHECK(mt_end_close_connection_for(&client, 320, mt_text("shut down"), MT_BASIC_PUBLISH) == MT_OK);
	CHECK(carry(&client, &server, SIZE_MAX, &event, &carried) == MT_OK && event.kind == MT_EVENT_CONNECTION_CLOSED);
	CHECK(mt_end_closed_for(&server, &class_id, &method_id) == MT_OK && class_id == 60 && method_id == 40);
	close_ends();
}

/* A server that lends: a content of three frames in pieces of at most so many octets, one by one and in batches. */
static void lend_content(size_t most, size_t capacity)
{
	static uint8_t octets[20000];
	mt_client_settings to_client;
	mt_server_settings to_server;
	mt_event events[8];
	mt_message message;
	mt_octets output;
	mt_channel told;
	unsigned seen[18] = {0};
	uint8_t *stream;
	size_t length, count, taken, came = 0, whole = 0, heads = 0, kept, pending;
	uint16_t channel;

	for (size_t i = 0; i < sizeof octets; ++i)
		octets[i] = (uint8_t)(i * 11);
	mt_client_defaults(&to_client);
	mt_server_defaults(&to_server);
	to_server.lends = true;
	to_server.frame_max = 8192;
	CHECK(mt_end_open_client(&client, &to_client) == MT_OK && mt_end_open_server(&server, &to_server) == MT_OK);
	settle(most, seen);
	CHECK(seen[MT_EVENT_NEGOTIATED] == 2);
	CHECK(mt_end_open_channel(&client, &channel) == MT_OK && channel == 1);
	settle(most, seen);
	message = publish("orders", mt_octets_at(octets, sizeof octets));
	CHECK(mt_end_send(&client, 1, &message) == MT_OK);
	CHECK(mt_end_output(&client, &output) == MT_OK);
	length = output.length;
	stream = malloc(length);
	CHECK(stream != NULL);
	memcpy(stream, output.at, length);
	CHECK(mt_end_wrote(&client, length) == MT_OK);
	for (size_t at = 0; at < length; at += taken) {
		size_t left = length - at < most ? length - at : most;
		uint8_t *piece = malloc(left);

		CHECK(piece != NULL);
		memcpy(piece, stream + at, left);
		if (capacity == 0) {
			CHECK(mt_end_feed(&server, piece, left, &events[0]) == MT_OK);
			taken = events[0].taken;
			count = events[0].kind != MT_EVENT_NONE;
		} else {
			CHECK(mt_end_feed_batch(&server, piece, left, events, capacity, &count, &taken, NULL) == MT_OK);
		}
		CHECK(taken > 0 && count <= 8);
		for (size_t i = 0; i < count; ++i) {
			const mt_event *event = &events[i];

			CHECK(event->channel == 1);
			if (event->kind == MT_EVENT_BEGINS) {
				CHECK(event->method.length == message.method.length);
				CHECK(memcmp(event->method.at, message.method.at, message.method.length) == 0);
			} else if (event->kind == MT_EVENT_HEADS) {
				CHECK(event->header.length == message.header.length && !event->holds);
				CHECK(memcmp(event->header.at, message.header.at, message.header.length) == 0);
				++heads;
			} else {
				CHECK(event->kind == MT_EVENT_PART && heads == 1);
				CHECK(memcmp(event->body.at, octets + came, event->body.length) == 0);
				came += event->body.length;
				whole += event->holds;
			}
		}
		free(piece);
		CHECK(mt_end_channel(&server, 1, &told) == MT_OK && told.gathered == came % sizeof octets);
		CHECK(mt_end_kept(&server, &kept) == MT_OK && mt_end_pending(&server, &pending) == MT_OK && kept == pending);
	}
	CHECK(came == sizeof octets && whole == 1);
	free(stream);
	CHECK(mt_end_close_channel_for(&server, 1, 404, mt_text("no queue"), MT_BASIC_PUBLISH) == MT_OK);
	settle(most, seen);
	CHECK(seen[MT_EVENT_CHANNEL_CLOSED] == 2);
	close_ends();
}

/* Five messages and a heartbeat in one piece, taken by batches. */
static void take_batches(void)
{
	static const uint8_t HEARTBEAT[] = {8, 0, 0, 0, 0, 0, 0, 0xce};
	const char *queues[] = {"a", "bb", "ccc", "dddd", "eeeee"};
	uint8_t *piece;
	mt_octets output;
	mt_event events[4];
	size_t length, count, taken, found = 0, quiet = 0;
	uint16_t code = 1;

	shake_hands(4096);
	for (int i = 0; i < 5; ++i) {
		mt_message message = publish(queues[i], mt_text(queues[i]));

		CHECK(mt_end_send(&client, 1, &message) == MT_OK);
	}
	CHECK(mt_end_output(&client, &output) == MT_OK);
	length = output.length + sizeof HEARTBEAT;
	piece = malloc(length);
	CHECK(piece != NULL);
	memcpy(piece, output.at, output.length);
	memcpy(piece + output.length, HEARTBEAT, sizeof HEARTBEAT);
	CHECK(mt_end_wrote(&client, output.length) == MT_OK);
	for (size_t at = 0; at < length; at += taken) {
		CHECK(mt_end_feed_batch(&server, piece + at, length - at, events, 4, &count, &taken, &code) == MT_OK);
		CHECK(taken > 0 && count <= 4 && code == 0);
		for (size_t i = 0; i < count; ++i) {
			if (events[i].kind == MT_EVENT_QUIET) {
				++quiet;
				continue;
			}
			expect_publish(&events[i], queues[found], mt_text(queues[found]));
			++found;
		}
	}
	CHECK(found == 5 && quiet == 1);
	free(piece);

	/* a batch that ends in a fault: the events before it are there */
	{
		mt_message message = publish("f", mt_text("f"));
		uint8_t bad[1024];

		CHECK(mt_end_send(&client, 1, &message) == MT_OK);
		CHECK(mt_end_output(&client, &output) == MT_OK && output.length < sizeof bad - 8);
		memcpy(bad, output.at, output.length);
		memcpy(bad + output.length, HEARTBEAT, sizeof HEARTBEAT);
		bad[output.length + 2] = 3; /* a heartbeat on channel 3 */
		CHECK(mt_end_feed_batch(&server, bad, output.length + sizeof HEARTBEAT, events, 4, &count, &taken, &code) ==
		      MT_END_PEER);
		CHECK(count == 1 && taken == output.length && code >= 501);
		expect_publish(&events[0], "f", mt_text("f"));
		CHECK(phase_of(&server) == MT_PHASE_FAILED);
		CHECK(mt_end_feed(&server, HEARTBEAT, 8, &events[0]) == MT_END_FAILED);
	}
	blame_heartbeat();
	close_ends();
}

/* Contents of one frame and of three, in turn on two channels, taken by batches in pieces of at most so many octets. A
 * body that came in one frame of the piece lies there. */
static void mix_batches(size_t most, size_t capacity)
{
	static uint8_t bodies[3][20000];
	static const size_t LENGTHS[] = {0, 20000, 100};
	unsigned seen[16] = {0}, told[3] = {0};
	mt_event events[8];
	mt_octets output;
	mt_message message;
	uint8_t *stream;
	size_t length, count, taken, in_piece = 0;
	uint16_t channel, code = 1;

	shake_hands(SIZE_MAX);
	CHECK(mt_end_open_channel(&client, &channel) == MT_OK && channel == 2);
	settle(SIZE_MAX, seen);
	for (int sent = 0; sent < 3; ++sent)
		for (channel = 1; channel <= 2; ++channel) {
			memset(bodies[channel], channel, sizeof bodies[channel]);
			message = publish(channel == 1 ? "one" : "two", mt_octets_at(bodies[channel], LENGTHS[channel]));
			CHECK(mt_end_send(&client, channel, &message) == MT_OK);
		}
	CHECK(mt_end_output(&client, &output) == MT_OK);
	length = output.length;
	stream = malloc(length);
	CHECK(stream != NULL);
	memcpy(stream, output.at, length);
	CHECK(mt_end_wrote(&client, length) == MT_OK);
	for (size_t at = 0; at < length; at += taken) {
		size_t left = length - at < most ? length - at : most;
		uint8_t *piece = malloc(left);

		CHECK(piece != NULL);
		memcpy(piece, stream + at, left);
		CHECK(mt_end_feed_batch(&server, piece, left, events, capacity, &count, &taken, &code) == MT_OK);
		CHECK(taken > 0 && taken <= left && count <= capacity && code == 0);
		for (size_t i = 0; i < count; ++i) {
			CHECK(events[i].taken <= taken && (i == 0 || events[i].taken > events[i - 1].taken));
			channel = events[i].channel;
			CHECK(channel == 1 || channel == 2);
			++told[channel];
			in_piece += events[i].body.at >= piece && events[i].body.at < piece + left;
			events[i].channel = 1;
			expect_publish(&events[i], channel == 1 ? "one" : "two",
				       mt_octets_at(bodies[channel], LENGTHS[channel]));
		}
		free(piece);
	}
	CHECK(told[1] == 3 && told[2] == 3);
	CHECK(in_piece == (most == SIZE_MAX ? 3 : most < 100 ? 0 : in_piece));
	CHECK(mt_end_gathered_in_all(&server, &count) == MT_OK && count == 0);
	free(stream);
	close_ends();
}

/* A request and its reply, flow, blocked, and the closes of a channel and of the connection. */
static void converse(void)
{
	unsigned events[16] = {0};
	mt_basic_qos qos = {0, 10, false};
	mt_written written;
	mt_message message = {{NULL, 0}, {NULL, 0}, {NULL, 0}};
	mt_event event;
	size_t carried;

	shake_hands(64);
	CHECK(mt_write_basic_qos(&qos, method_room, sizeof method_room, &written) == MT_OK);
	message.method = mt_octets_at(method_room, written.length);
	CHECK(mt_end_send(&client, 1, &message) == MT_OK);
	CHECK(channel_of(&client, 1).reply_due == MT_BASIC_QOS);
	CHECK(mt_end_send(&client, 1, &message) == MT_ASK_REPLY_PENDING);
	CHECK(mt_end_send(&client, 2, &message) == MT_ASK_NOT_OPEN);
	CHECK(mt_end_send(&client, 8, &message) == MT_ASK_BAD_CHANNEL);
	CHECK(carry(&client, &server, SIZE_MAX, &event, &carried) == MT_OK);
	CHECK(event.kind == MT_EVENT_TOLD && event.channel == 1 && !event.holds);
	CHECK(channel_of(&server, 1).reply_due == MT_BASIC_QOS);
	CHECK(mt_method_write(MT_BASIC_QOS_OK, NULL, 0, method_room, sizeof method_room, &written) == MT_OK);
	message.method = mt_octets_at(method_room, written.length);
	CHECK(mt_end_send(&server, 1, &message) == MT_OK);
	CHECK(mt_end_send(&server, 1, &message) == MT_ASK_NO_SUCH_REQUEST);
	settle(SIZE_MAX, events);
	CHECK(channel_of(&client, 1).reply_due == 0);

	CHECK(mt_end_flow(&server, 1, false) == MT_OK);
	CHECK(mt_end_flow(&server, 1, true) == MT_ASK_FLOW_PENDING);
	CHECK(carry(&server, &client, SIZE_MAX, &event, &carried) == MT_OK);
	CHECK(event.kind == MT_EVENT_FLOW && event.channel == 1 && !event.holds);
	message = publish("q", mt_text("x"));
	CHECK(mt_end_send(&client, 1, &message) == MT_ASK_PAUSED);
	CHECK(carry(&client, &server, SIZE_MAX, &event, &carried) == MT_OK);
	CHECK(event.kind == MT_EVENT_FLOW_OK && event.channel == 1 && !event.holds);

	CHECK(mt_end_blocked(&client, mt_text("no")) == MT_ASK_NOT_SENDABLE);
	CHECK(mt_end_blocked(&server, mt_text("disk full")) == MT_OK);
	CHECK(carry(&server, &client, SIZE_MAX, &event, &carried) == MT_OK);
	CHECK(event.kind == MT_EVENT_BLOCKED && is(event.text, "disk full"));
	CHECK(mt_end_unblocked(&server) == MT_OK);
	CHECK(carry(&server, &client, SIZE_MAX, &event, &carried) == MT_OK && event.kind == MT_EVENT_UNBLOCKED);

	CHECK(mt_end_close_channel(&server, 1, 404, mt_text("no queue")) == MT_OK);
	CHECK(channel_of(&server, 1).state == MT_STATE_CLOSING);
	CHECK(carry(&server, &client, SIZE_MAX, &event, &carried) == MT_OK);
	CHECK(event.kind == MT_EVENT_CHANNEL_CLOSED && event.channel == 1 && event.holds && event.code == 404);
	CHECK(is(event.text, "no queue"));
	CHECK(carry(&client, &server, SIZE_MAX, &event, &carried) == MT_OK);
	CHECK(event.kind == MT_EVENT_CHANNEL_CLOSED && event.channel == 1 && !event.holds);
	CHECK(channel_of(&server, 1).state == MT_STATE_FREE);

	CHECK(mt_end_close_connection(&client, 200, mt_text("bye")) == MT_OK);
	CHECK(phase_of(&client) == MT_PHASE_CLOSING);
	CHECK(carry(&client, &server, SIZE_MAX, &event, &carried) == MT_OK);
	CHECK(event.kind == MT_EVENT_CONNECTION_CLOSED && event.holds && event.code == 200 && is(event.text, "bye"));
	CHECK(carry(&server, &client, SIZE_MAX, &event, &carried) == MT_OK);
	CHECK(event.kind == MT_EVENT_CONNECTION_CLOSED && !event.holds);
	CHECK(phase_of(&client) == MT_PHASE_CLOSED && phase_of(&server) == MT_PHASE_CLOSED);
	CHECK(mt_end_feed(&client, method_room, 1, &event) == MT_END_CLOSED && event.taken == 0);
	close_ends();
}

/* Both ends wait for their programs, which settle on a heartbeat, beat, and refuse the second login. */
static void decide(bool admitted)
{
	mt_client_settings to_client;
	mt_server_settings to_server;
	unsigned events[16] = {0};
	mt_event event;
	mt_octets output;
	mt_agreed agreed;
	uint64_t frames, written, frames_after;
	size_t carried;
	char long_text[256];

	mt_client_defaults(&to_client);
	mt_server_defaults(&to_server);
	to_client.gated = to_server.gated = true;
	to_client.heartbeat = 60;
	to_server.heartbeat = 30;
	CHECK(mt_end_open_client(&client, &to_client) == MT_OK && mt_end_open_server(&server, &to_server) == MT_OK);
	CHECK(mt_end_beat(&client) == MT_ASK_NOT_RUNNING && mt_end_admit(&server) == MT_ASK_NOT_AWAITED);
	CHECK(mt_end_answer_start(&client, mt_text("PLAIN"), mt_text(""), mt_text("en_US")) == MT_ASK_NOT_AWAITED);
	CHECK(carry(&client, &server, SIZE_MAX, &event, &carried) == MT_OK && event.kind == MT_EVENT_QUIET);
	CHECK(carry(&server, &client, SIZE_MAX, &event, &carried) == MT_OK && event.kind == MT_EVENT_ANSWER_ASKED);
	CHECK(mt_end_output(&client, &output) == MT_OK && output.length == 0);
	memset(long_text, 'x', sizeof long_text);
	CHECK(mt_end_answer_start(&client, mt_octets_at(long_text, 256), mt_text(""), mt_text("en_US")) == MT_MISFIT);
	CHECK(mt_end_answer_start(&client, mt_text("PLAIN"), mt_text(""), mt_octets_at(long_text, 256)) == MT_MISFIT);
	CHECK(mt_end_admit(&client) == MT_ASK_NOT_AWAITED);
	CHECK(mt_end_answer_start(&client, mt_text("PLAIN"), mt_octets_at("\0ann\0secret", 11), mt_text("en_US")) == MT_OK);
	CHECK(mt_end_waiting(&client, 0, &carried) == MT_OK && carried > 0);
	CHECK(mt_end_waiting(&client, 1, &carried) == MT_OK && carried == 0);
	CHECK(carry(&client, &server, SIZE_MAX, &event, &carried) == MT_OK && event.kind == MT_EVENT_LOGIN_ASKED);
	CHECK(mt_end_refuse(&server, 403, mt_octets_at(long_text, 256)) == MT_MISFIT);
	if (!admitted) {
		CHECK(mt_end_refuse(&server, 403, mt_text("not you")) == MT_OK);
		CHECK(mt_end_refuse(&server, 403, mt_text("not you")) == MT_ASK_NOT_AWAITED);
		CHECK(carry(&server, &client, SIZE_MAX, &event, &carried) == MT_OK);
		CHECK(event.kind == MT_EVENT_CONNECTION_CLOSED && event.holds && event.code == 403 && is(event.text, "not you"));
		close_ends();
		return;
	}
	CHECK(mt_end_admit(&server) == MT_OK && mt_end_admit(&server) == MT_ASK_NOT_AWAITED);
	settle(SIZE_MAX, events);
	CHECK(events[MT_EVENT_OPEN_ASKED] == 1 && events[MT_EVENT_NEGOTIATED] == 0);
	CHECK(mt_end_admit(&server) == MT_OK);
	settle(SIZE_MAX, events);
	CHECK(phase_of(&client) == MT_PHASE_RUNNING && phase_of(&server) == MT_PHASE_RUNNING);
	CHECK(mt_end_agreed(&client, &agreed) == MT_OK && agreed.heartbeat == 30);
	CHECK(mt_end_agreed(&server, &agreed) == MT_OK && agreed.heartbeat == 30);
	CHECK(mt_end_counters(&server, &frames, &written) == MT_OK && frames > 0 && written > 0);
	CHECK(mt_end_beat(&client) == MT_OK);
	CHECK(mt_end_output(&client, &output) == MT_OK && output.length == 8 && memcmp(output.at, "\10\0\0\0\0\0\0\316", 8) == 0);
	CHECK(carry(&client, &server, SIZE_MAX, &event, &carried) == MT_OK && event.kind == MT_EVENT_QUIET);
	CHECK(mt_end_counters(&server, &frames_after, &written) == MT_OK && frames_after == frames + 1);
	close_ends();
}

/* What isn't sent, and what an end isn't opened with. */
static void refuse(void)
{
	char long_text[256];
	mt_client_settings settings;
	mt_server_settings to_server;
	mt_message message;
	mt_octets text;

	memset(long_text, 'x', sizeof long_text);
	text = mt_octets_at(long_text, sizeof long_text);
	mt_client_defaults(&settings);
	settings.frame_max = 4095;
	CHECK(mt_end_open_client(&client, &settings) == MT_SETTINGS_FRAME_MAX);
	mt_client_defaults(&settings);
	settings.channel_max = 0;
	CHECK(mt_end_open_client(&client, &settings) == MT_SETTINGS_CHANNEL_MAX);
	mt_client_defaults(&settings);
	settings.virtual_host = text;
	CHECK(mt_end_open_client(&client, &settings) == MT_MISFIT);
	mt_client_defaults(&settings);
	settings.properties = mt_octets_at("\0\0\0\1", 4);
	CHECK(mt_end_open_client(&client, &settings) == MT_VALUE_ENDS);
	mt_server_defaults(&to_server);
	to_server.properties = mt_octets_at("\0\0\0\0x", 5);
	CHECK(mt_end_open_server(&server, &to_server) == MT_MISFIT);
	CHECK(mt_end_close(&client) == MT_NOT_OPEN && mt_end_close(&server) == MT_NOT_OPEN);

	shake_hands(SIZE_MAX);
	CHECK(mt_end_close_channel(&client, 1, 1, text) == MT_MISFIT);
	CHECK(mt_end_close_connection(&client, 1, text) == MT_MISFIT);
	message = publish("q", mt_text("body"));
	message.body.length = 3;
	CHECK(mt_end_send(&client, 1, &message) == MT_MISFIT);
	message = publish("q", mt_text("body"));
	message.header.length = 0;
	CHECK(mt_end_send(&client, 1, &message) == MT_VALUE_ENDS);
	message = publish("q", mt_text("body"));
	message.method.length = 5;
	CHECK(mt_end_send(&client, 1, &message) == MT_VALUE_ENDS);
	message.method = mt_octets_at("\0\1\0\1", 4);
	CHECK(mt_end_send(&client, 1, &message) == MT_UNKNOWN_METHOD);
	CHECK(channel_of(&client, 1).state == MT_STATE_OPEN);
	close_ends();
}

static uint32_t use_all(mt_end *end)
{
	mt_event events[2];
	mt_octets octets;
	mt_channel channel;
	mt_agreed agreed;
	mt_message message = {{NULL, 0}, {NULL, 0}, {NULL, 0}};
	uint16_t number;
	uint8_t phase;
	uint64_t frames, written;
	size_t count, taken;
	uint16_t number_too;
	mt_written made;
	mt_blame blame;
	char line[16];
	uint32_t status = mt_end_feed(end, method_room, 1, &events[0]);

	CHECK(mt_end_feed_batch(end, method_room, 1, events, 2, &count, &taken, NULL) == status);
	CHECK(mt_end_output(end, &octets) == status);
	CHECK(mt_end_wrote(end, 0) == status);
	CHECK(mt_end_open_channel(end, &number) == status);
	CHECK(mt_end_send(end, 1, &message) == status);
	CHECK(mt_end_flow(end, 1, true) == status);
	CHECK(mt_end_close_channel(end, 1, 1, mt_text("")) == status);
	CHECK(mt_end_close_connection(end, 1, mt_text("")) == status);
	CHECK(mt_end_blocked(end, mt_text("")) == status);
	CHECK(mt_end_unblocked(end) == status);
	CHECK(mt_end_phase(end, &phase) == status);
	CHECK(mt_end_agreed(end, &agreed) == status);
	CHECK(mt_end_channel(end, 1, &channel) == status);
	CHECK(mt_end_lowest_free(end, &number) == status);
	CHECK(mt_end_pending(end, &count) == status);
	CHECK(mt_end_beat(end) == status);
	CHECK(mt_end_admit(end) == status);
	CHECK(mt_end_refuse(end, 403, mt_text("")) == status);
	CHECK(mt_end_answer_start(end, mt_text(""), mt_text(""), mt_text("")) == status);
	CHECK(mt_end_waiting(end, 1, &count) == status);
	CHECK(mt_end_counters(end, &frames, &written) == status);
	CHECK(mt_end_octets_taken(end, &frames) == status);
	CHECK(mt_end_kept(end, &count) == status);
	CHECK(mt_end_gathered_in_all(end, &count) == status);
	CHECK(mt_end_heartbeat(end, &number) == status);
	CHECK(mt_end_heard(end, MT_CONNECTION_OPEN, header_room, sizeof header_room, &made) == status);
	CHECK(mt_end_forget_heard(end) == status);
	CHECK(mt_end_closed_for(end, &number, &number_too) == status);
	CHECK(mt_end_close_channel_for(end, 1, 1, mt_text(""), MT_BASIC_ACK) == status);
	CHECK(mt_end_close_connection_for(end, 1, mt_text(""), MT_BASIC_ACK) == status);
	CHECK(mt_end_blame(end, &blame) == status);
	CHECK(mt_end_blame_line(end, line, sizeof line) == status);
	return status;
}

/* Null, unopened, closed twice. */
static void misuse(void)
{
	mt_end end = MT_END_INIT;
	mt_client_settings settings;
	mt_event event;
	mt_octets octets;

	CHECK(use_all(NULL) == MT_NULL);
	CHECK(use_all(&end) == MT_NOT_OPEN);
	CHECK(mt_end_close(NULL) == MT_NULL && mt_end_close(&end) == MT_NOT_OPEN);
	CHECK(mt_end_open_client(&end, NULL) == MT_NULL && mt_end_open_server(&end, NULL) == MT_NULL);
	mt_client_defaults(&settings);
	CHECK(mt_end_open_client(NULL, &settings) == MT_NULL);
	settings.user.at = NULL;
	CHECK(mt_end_open_client(&end, &settings) == MT_NULL);

	mt_client_defaults(&settings);
	CHECK(mt_end_open_client(&end, &settings) == MT_OK);
	CHECK(mt_end_output(&end, &octets) == MT_OK && octets.length == 8);
	CHECK(mt_end_wrote(&end, 9) == MT_PAST_OUTPUT);
	CHECK(mt_end_output(&end, &octets) == MT_OK && octets.length == 8);
	CHECK(mt_end_feed(&end, NULL, 0, &event) == MT_OK && event.taken == 0 && event.kind == MT_EVENT_NONE);
	CHECK(mt_end_feed(&end, NULL, 1, &event) == MT_NULL);
	CHECK(mt_end_feed(&end, method_room, 1, NULL) == MT_NULL);
	CHECK(mt_end_close(&end) == MT_OK && mt_end_close(&end) == MT_NOT_OPEN);
	CHECK(mt_end_open_client(&end, &settings) == MT_OK && mt_end_close(&end) == MT_OK);
	mt_client_defaults(NULL);
	mt_server_defaults(NULL);
}

/* Another protocol header at a server: there is no answer but its own. */
static void greet_wrongly(void)
{
	mt_server_settings settings;
	mt_event event;
	mt_octets output;

	mt_server_defaults(&settings);
	CHECK(mt_end_open_server(&server, &settings) == MT_OK);
	CHECK(mt_end_feed(&server, (const uint8_t *)"AMQP\0\1\0\0", 8, &event) == MT_END_FATAL);
	CHECK(mt_end_output(&server, &output) == MT_OK && output.length == 8);
	CHECK(memcmp(output.at, "AMQP\0\0\11\1", 8) == 0);
	CHECK(mt_end_close(&server) == MT_OK);
}

/* ---- memory that is refused ------------------------------------------------------------------------------------ */

static unsigned long left;
static long held;

static void *take(size_t size)
{
	void *block = left > 0 ? malloc(size) : NULL;

	if (left > 0)
		--left;
	held += block != NULL;
	return block;
}

static void *resize(void *block, size_t size)
{
	void *larger = left > 0 ? realloc(block, size) : NULL;

	if (left > 0)
		--left;
	held += block == NULL && larger != NULL;
	return larger;
}

static void give(void *block)
{
	held -= block != NULL;
	free(block);
}

/* One life of a connection with so many requests for memory; the answer is whether they were enough. All is given
 * back. */
static bool lives(unsigned long requests)
{
	mt_client_settings to_client;
	mt_server_settings to_server;
	mt_message message;
	mt_event event;
	size_t carried;
	uint16_t channel = 0;
	bool well = true;
	int idle = 0;

	mt_client_defaults(&to_client);
	mt_server_defaults(&to_server);
	left = requests;
	well = mt_end_open_client(&client, &to_client) == MT_OK && mt_end_open_server(&server, &to_server) == MT_OK;
	while (well && idle < 2) {
		mt_end *from = idle == 0 ? &client : &server, *to = idle == 0 ? &server : &client;
		uint32_t status = carry(from, to, SIZE_MAX, &event, &carried);

		well = status == MT_OK;
		if (status == MT_END_OUT_OF_MEMORY) {
			/* what came is lost, so nothing that comes later is told */
			const uint8_t octet = 1;

			left = 1000;
			CHECK(mt_end_feed(to, &octet, 1, &event) == MT_END_FAILED);
			left = 0;
		}
		idle = carried == 0 ? idle + 1 : 0;
		if (well && event.kind == MT_EVENT_NEGOTIATED && to == &client)
			well = mt_end_open_channel(&client, &channel) == MT_OK;
		if (well && event.kind == MT_EVENT_OPENED && to == &client) {
			unsigned long kept = left;

			left = 1000;
			message = publish("queue", mt_text("a body"));
			left = kept;
			well = mt_end_send(&client, channel, &message) == MT_OK;
		}
		if (well && event.kind == MT_EVENT_TOLD)
			expect_publish(&event, "queue", mt_text("a body"));
	}
	mt_end_close(&client);
	mt_end_close(&server);
	CHECK(held == 0);
	return well;
}

static void run_short(void)
{
	const mt_memory few = {take, resize, give};
	unsigned long requests = 0;

	mt_set_memory(&few);
	while (!lives(requests))
		++requests;
	CHECK(requests > 10);
	mt_set_memory(NULL);
}

int main(void)
{
	for (size_t most = 1; most <= 40; ++most) {
		shake_hands(most);
		close_ends();
		send_content(most);
		lend_content(most, most % 4);
	}
	lend_content(SIZE_MAX, 0);
	lend_content(SIZE_MAX, 8);
	lend_content(10000, 3);
	shake_hands(SIZE_MAX);
	close_ends();
	send_content(SIZE_MAX);
	gather_two(7);
	gather_two(SIZE_MAX);
	gather_half();
	take_batches();
	for (size_t most = 1; most <= 20; ++most)
		mix_batches(most * most, 1 + most % 8);
	mix_batches(SIZE_MAX, 1);
	mix_batches(SIZE_MAX, 8);
	converse();
	refuse();
	misuse();
	greet_wrongly();
	blame_method();
	hear();
	close_for();
	decide(true);
	decide(false);
	run_short();
	free(last_piece);
	printf("ends: %lu checks\n", checked);
	return 0;
}
