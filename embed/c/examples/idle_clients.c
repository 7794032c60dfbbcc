/* Opens many connections, one after the other, and holds them until its input ends.
 *
 *     idle_clients 127.0.0.1 5672 10000
 */
#include "meadowtray.h"

#include <arpa/inet.h>
#include <netinet/in.h>
#include <stdio.h>
#include <stdlib.h>
#include <sys/resource.h>
#include <sys/socket.h>
#include <unistd.h>

/* Writes all that the end has to say. */
static bool say(mt_end *end, int peer)
{
	mt_octets output;
	ssize_t count = 1;

	while (count > 0 && mt_end_output(end, &output) == MT_OK && output.length > 0)
		if ((count = write(peer, output.at, output.length)) > 0)
			mt_end_wrote(end, (size_t)count);
	return count > 0;
}

/* The handshake, to its end. */
static bool shake_hands(mt_end *end, int peer)
{
	uint8_t room[4096];
	mt_event event = {0};

	while (say(end, peer) && event.kind != MT_EVENT_NEGOTIATED) {
		ssize_t count = read(peer, room, sizeof room);

		if (count <= 0)
			return false;
		for (size_t at = 0; at < (size_t)count; at += event.taken)
			if (mt_end_feed(end, room + at, (size_t)count - at, &event) != MT_OK)
				return false;
	}
	return event.kind == MT_EVENT_NEGOTIATED;
}

int main(int argc, char **argv)
{
	struct sockaddr_in address = {.sin_family = AF_INET};
	struct rlimit files;
	mt_client_settings settings;
	mt_end *ends;
	size_t count;

	if (argc != 4 || inet_pton(AF_INET, argv[1], &address.sin_addr) != 1)
		return 2;
	address.sin_port = htons((uint16_t)atoi(argv[2]));
	count = (size_t)atol(argv[3]);
	if (getrlimit(RLIMIT_NOFILE, &files) == 0) {
		files.rlim_cur = files.rlim_max;
		setrlimit(RLIMIT_NOFILE, &files);
	}
	mt_client_defaults(&settings);
	ends = calloc(count, sizeof *ends);
	for (size_t i = 0; ends && i < count; ++i) {
		int peer = socket(AF_INET, SOCK_STREAM, 0);

		if (peer < 0 || connect(peer, (struct sockaddr *)&address, sizeof address) != 0 ||
		    mt_end_open_client(&ends[i], &settings) != MT_OK || !shake_hands(&ends[i], peer)) {
			fprintf(stderr, "idle_clients: connection %zu isn't opened\n", i);
			return 1;
		}
	}
	printf("%zu connections\n", count);
	fflush(stdout);
	while (getchar() != EOF)
		continue;
	for (size_t i = 0; ends && i < count; ++i)
		mt_end_close(&ends[i]);
	free(ends);
	return 0;
}
