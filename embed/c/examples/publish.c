/* Publishes one message over TCP, and waits for the broker's confirm:
 *
 *     publish HOST PORT QUEUE TEXT
 *
 * as guest, on the virtual host "/". It ends with 0 once the broker has confirmed the message. */
#include "meadowtray.h"

#include <netdb.h>
#include <stdio.h>
#include <string.h>
#include <sys/socket.h>
#include <unistd.h>

static mt_end client = MT_END_INIT;
static uint16_t channel;
static const char *queue, *text;
static bool confirmed, over;

/* Says what is wrong, and that it is over. */
static void fail(const char *what, uint32_t status)
{
	fprintf(stderr, "publish: %s: %s\n", what, mt_status_text(status));
	over = true;
}

/* Asks that what is published be confirmed. */
static void select_confirms(void)
{
	static const uint8_t SELECT[] = {0, 85, 0, 10, 0}; /* class 85, method 10, and no bit set */
	mt_message message = {mt_octets_at(SELECT, sizeof SELECT), {NULL, 0}, {NULL, 0}};
	uint32_t status = mt_end_send(&client, channel, &message);

	if (status != MT_OK)
		fail("confirm.select", status);
}

static void publish(void)
{
	uint8_t method[600], header[64];
	mt_basic_publish fields = {mt_text(""), mt_text(queue), false, false};
	mt_value properties[MT_PROPERTIES] = {{NULL, 0, 0, MT_NONE, 0}};
	mt_written of_method, of_header;
	mt_message message;
	uint32_t status;

	properties[MT_CONTENT_TYPE] = mt_octets_value(MT_SHORT_STRING, mt_text("text/plain"));
	if ((status = mt_write_basic_publish(&fields, method, sizeof method, &of_method)) == MT_OK)
		status = mt_header_write(strlen(text), properties, header, sizeof header, &of_header);
	if (status == MT_OK) {
		message.method = mt_octets_at(method, of_method.length);
		message.header = mt_octets_at(header, of_header.length);
		message.body = mt_text(text);
		status = mt_end_send(&client, channel, &message);
	}
	if (status != MT_OK)
		fail("the message", status);
}

static void hear(const mt_event *event)
{
	uint32_t kind = 0;

	if (event->kind == MT_EVENT_NEGOTIATED)
		mt_end_open_channel(&client, &channel);
	else if (event->kind == MT_EVENT_OPENED)
		select_confirms();
	else if (event->kind == MT_EVENT_CONNECTION_CLOSED || event->kind == MT_EVENT_CHANNEL_CLOSED) {
		if (event->holds)
			fprintf(stderr, "publish: closed: %u %.*s\n", event->code, (int)event->text.length,
				(const char *)event->text.at);
		over = true;
	} else if (event->kind == MT_EVENT_TOLD)
		mt_method_peek(event->method.at, event->method.length, &kind);
	if (kind == MT_CONFIRM_SELECT_OK)
		publish();
	confirmed = confirmed || kind == MT_BASIC_ACK;
	if (kind == MT_BASIC_ACK || kind == MT_BASIC_NACK)
		mt_end_close_connection(&client, 200, mt_text("bye"));
}

int main(int argc, char **argv)
{
	struct addrinfo *found, wanted = {.ai_socktype = SOCK_STREAM};
	mt_client_settings settings;
	mt_event event;
	uint8_t piece[65536];
	int peer;

	if (argc != 5 || getaddrinfo(argv[1], argv[2], &wanted, &found) != 0)
		return 2;
	queue = argv[3];
	text = argv[4];
	peer = socket(found->ai_family, found->ai_socktype, found->ai_protocol);
	mt_client_defaults(&settings);
	if (peer < 0 || connect(peer, found->ai_addr, found->ai_addrlen) != 0 ||
	    mt_end_open_client(&client, &settings) != MT_OK)
		return 1;
	freeaddrinfo(found);
	for (;;) {
		mt_octets output;
		ssize_t count = 1;

		while (mt_end_output(&client, &output) == MT_OK && output.length > 0 && count > 0)
			if ((count = write(peer, output.at, output.length)) > 0)
				mt_end_wrote(&client, (size_t)count);
		if (over || count <= 0 || (count = read(peer, piece, sizeof piece)) <= 0)
			break;
		for (size_t at = 0; !over && at < (size_t)count; at += event.taken) {
			uint32_t status = mt_end_feed(&client, piece + at, (size_t)count - at, &event);

			if (status != MT_OK)
				fail("the broker", status);
			else if (event.kind != MT_EVENT_NONE)
				hear(&event);
		}
	}
	mt_end_close(&client);
	close(peer);
	return confirmed ? 0 : 1;
}
