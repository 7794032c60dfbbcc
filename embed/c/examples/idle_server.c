/* A server that holds many idle clients in one thread, by epoll, and says how much memory each of them takes.
 *
 *     idle_server 5672 10000
 *
 * It lets everyone in, and says only what the library says of itself. Once so many clients are connected it prints what
 * they take; once all have gone it ends. idle_clients.c opens the connections. */
#include "meadowtray.h"

#include <arpa/inet.h>
#include <errno.h>
#include <fcntl.h>
#include <malloc.h>
#include <netinet/in.h>
#include <stdio.h>
#include <stdlib.h>
#include <sys/epoll.h>
#include <sys/resource.h>
#include <sys/socket.h>
#include <unistd.h>

typedef struct peer {
	mt_end end;
	int socket;
	bool over;    /* nothing more is read: what is left to say is written, and then it is dropped */
	bool crowded; /* the socket took no more when it was last written to */
} peer;

static int events_of;
static size_t here, running, wanted;
static size_t library_octets, resident_before;

/* ---- memory: what the library has, and what the process has in all --------------------------------------------- */

static void *take(size_t size)
{
	void *block = malloc(size);

	library_octets += malloc_usable_size(block);
	return block;
}

static void *resize(void *block, size_t size)
{
	size_t before = malloc_usable_size(block);
	void *larger = realloc(block, size);

	if (larger)
		library_octets += malloc_usable_size(larger) - before;
	return larger;
}

static void release(void *block)
{
	library_octets -= malloc_usable_size(block);
	free(block);
}

static size_t resident(void)
{
	unsigned long pages = 0;
	FILE *statm = fopen("/proc/self/statm", "r");

	if (!statm || fscanf(statm, "%*u %lu", &pages) != 1)
		return 0;
	fclose(statm);
	return pages * (size_t)sysconf(_SC_PAGESIZE);
}

static void report(void)
{
	printf("%zu clients: for each %zu octets of the library's, %zu resident\n", running, library_octets / running,
	       (resident() - resident_before) / running);
	fflush(stdout);
}

/* ---- a peer ---------------------------------------------------------------------------------------------------- */

static void listen_to(peer *peer, int operation)
{
	struct epoll_event event = {.data = {.ptr = peer}};

	event.events = (peer->over ? 0 : EPOLLIN) | (peer->crowded ? EPOLLOUT : 0);
	epoll_ctl(events_of, operation, peer->socket, &event);
}

static void leave(peer *peer)
{
	mt_end_close(&peer->end);
	close(peer->socket);
	free(peer);
	--here;
}

static void hear(peer *peer, const mt_event *event)
{
	if (event->kind == MT_EVENT_NEGOTIATED) {
		mt_end_forget_heard(&peer->end);
		if (++running == wanted)
			report();
	}
	if (event->kind == MT_EVENT_CONNECTION_CLOSED)
		peer->over = true;
}

/* Reads once. All peers share the room: an end keeps what isn't a whole frame yet itself. */
static void read_from(peer *peer)
{
	static uint8_t room[65536];
	ssize_t count = read(peer->socket, room, sizeof room);
	mt_event event;

	peer->over = count == 0 || (count < 0 && errno != EAGAIN && errno != EINTR);
	for (size_t at = 0; count > 0 && !peer->over && at < (size_t)count; at += event.taken) {
		uint32_t status = mt_end_feed(&peer->end, room + at, (size_t)count - at, &event);
		char why[256];

		if (status == MT_OK && event.kind != MT_EVENT_NONE)
			hear(peer, &event);
		if (status == MT_OK)
			continue;
		peer->over = true;
		if (mt_end_blame_line(&peer->end, why, sizeof why) == MT_OK)
			fprintf(stderr, "idle_server: %s\n", why);
	}
}

/* Writes what the end has to say. The answer is whether the peer stays. */
static bool write_to(peer *peer)
{
	mt_octets output;
	ssize_t count = 1;

	while (count > 0 && mt_end_output(&peer->end, &output) == MT_OK && output.length > 0)
		if ((count = send(peer->socket, output.at, output.length, MSG_NOSIGNAL)) > 0)
			mt_end_wrote(&peer->end, (size_t)count);
	peer->crowded = count < 0 && errno == EAGAIN;
	return count > 0 ? !peer->over : peer->crowded;
}

static void enter(int socket)
{
	mt_server_settings settings;
	peer *peer = calloc(1, sizeof *peer);

	mt_server_defaults(&settings);
	if (!peer || mt_end_open_server(&peer->end, &settings) != MT_OK) {
		free(peer);
		close(socket);
		return;
	}
	peer->socket = socket;
	fcntl(socket, F_SETFL, O_NONBLOCK);
	listen_to(peer, EPOLL_CTL_ADD);
	++here;
}

int main(int argc, char **argv)
{
	const mt_memory memory = {take, resize, release};
	struct rlimit files;
	struct epoll_event found[256], listens = {.events = EPOLLIN};
	struct sockaddr_in address = {.sin_family = AF_INET};
	int listener = socket(AF_INET, SOCK_STREAM, 0), one = 1, client;

	if (argc != 3)
		return 2;
	address.sin_port = htons((uint16_t)atoi(argv[1]));
	wanted = (size_t)atol(argv[2]);
	if (getrlimit(RLIMIT_NOFILE, &files) == 0) {
		files.rlim_cur = files.rlim_max;
		setrlimit(RLIMIT_NOFILE, &files);
	}
	mt_set_memory(&memory);
	events_of = epoll_create1(0);
	setsockopt(listener, SOL_SOCKET, SO_REUSEADDR, &one, sizeof one);
	fcntl(listener, F_SETFL, O_NONBLOCK);
	if (bind(listener, (struct sockaddr *)&address, sizeof address) != 0 || listen(listener, 1024) != 0 ||
	    epoll_ctl(events_of, EPOLL_CTL_ADD, listener, &listens) != 0) {
		perror("idle_server");
		return 1;
	}
	resident_before = resident();
	while (here > 0 || running < wanted) {
		int count = epoll_wait(events_of, found, 256, -1);

		for (int i = 0; i < count; ++i) {
			peer *peer = found[i].data.ptr;

			while (!peer && (client = accept(listener, NULL, NULL)) >= 0)
				enter(client);
			if (peer && !peer->over && found[i].events & (EPOLLIN | EPOLLHUP | EPOLLERR))
				read_from(peer);
			if (peer && write_to(peer))
				listen_to(peer, EPOLL_CTL_MOD);
			else if (peer)
				leave(peer);
		}
	}
	return 0;
}
