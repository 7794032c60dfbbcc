/* The ends as C programs call them: null pointers are refused here, what a program gives is brought into the form that
 * the proved functions take. */
#include "meadowtray.h"

/* The room of an end's handle. */
typedef struct slot {
	void *at;
	bool open;
} slot;

_Static_assert(sizeof(mt_end) == sizeof(slot), "an end is a slot");
_Static_assert(offsetof(mt_end, open) == offsetof(slot, open), "an end is a slot");

/* What a client and a server are set up with. */
typedef struct client_settings {
	mt_octets properties;
	mt_octets mechanism;
	mt_octets response;
	mt_octets locale;
	mt_octets virtual_host;
	uint64_t max_body;
	uint32_t frame_max;
	uint16_t channel_max;
	uint16_t heartbeat;
	bool gated;
	bool lends;
} client_settings;

typedef struct server_settings {
	mt_octets properties;
	mt_octets mechanisms;
	mt_octets locales;
	uint64_t max_body;
	uint32_t frame_max;
	uint16_t channel_max;
	uint16_t heartbeat;
	bool gated;
	bool lends;
} server_settings;

/* What a feed tells. */
typedef struct fed_end {
	size_t taken;
	uint16_t code;
	uint8_t kind;
} fed_end;

/* What is shown of an event: the first members of mt_event. */
typedef struct seen_event {
	mt_octets method;
	mt_octets header;
	mt_octets body;
	mt_octets text;
	uint32_t frame_max;
	uint16_t channel;
	uint16_t channel_max;
	uint16_t heartbeat;
	uint16_t code;
	uint8_t kind;
	bool holds;
} seen_event;

/* An event in its place of a batch: as mt_event. */
typedef struct event_place {
	seen_event seen;
	size_t taken;
} event_place;

_Static_assert(sizeof(seen_event) <= offsetof(mt_event, taken), "what is shown is the first part of an event");
_Static_assert(sizeof(event_place) == sizeof(mt_event), "an event has a place");
_Static_assert(offsetof(event_place, taken) == offsetof(mt_event, taken), "an event has a place");
_Static_assert(offsetof(seen_event, text) == offsetof(mt_event, text), "members of an event in their order");
_Static_assert(offsetof(seen_event, frame_max) == offsetof(mt_event, frame_max), "members of an event in their order");
_Static_assert(offsetof(seen_event, code) == offsetof(mt_event, code), "members of an event in their order");
_Static_assert(offsetof(seen_event, holds) == offsetof(mt_event, holds), "members of an event in their order");

/* What is asked. */
enum { OPEN_CHANNEL = 1, FLOW = 2, CLOSE_CHANNEL = 3, CLOSE = 4, BLOCKED = 5, UNBLOCKED = 6 };

typedef struct given_ask {
	mt_octets text;
	uint16_t channel;
	uint16_t code;
	uint8_t kind;
	bool active;
} given_ask;

/* A heartbeat, or what is decided in the handshake. */
enum { BEAT = 1, ADMIT = 2, REFUSE = 3, ANSWER_START = 4 };

typedef struct given_control {
	mt_octets text;
	mt_octets response;
	mt_octets locale;
	uint16_t code;
	uint8_t kind;
} given_control;

/* A close for a method. */
typedef struct given_close {
	mt_octets text;
	uint32_t method;
	uint16_t channel;
	uint16_t code;
	bool connection;
} given_close;

/* What an end answers of itself. */
typedef struct end_look {
	uint64_t frames_taken;
	uint64_t octets_written;
	uint64_t octets_taken;
	size_t pending;
	size_t kept;
	size_t gathered;
	mt_agreed agreed;
	uint16_t heartbeat;
	uint8_t phase;
} end_look;

typedef struct cause_told {
	uint16_t class_id;
	uint16_t method_id;
} cause_told;

uint32_t proved_client_open(slot *slot, const client_settings *settings);
uint32_t proved_server_open(slot *slot, const server_settings *settings);
uint32_t proved_end_close(slot *slot);
uint32_t proved_end_feed_lent(slot *slot, const uint8_t *piece, size_t length, fed_end *fed, seen_event *seen);
uint32_t proved_end_feed_batch(slot *slot, const uint8_t *piece, size_t length, event_place *places, size_t capacity,
			       fed_end *fed, size_t *count);
uint32_t proved_end_output(slot *slot, mt_octets *output);
uint32_t proved_end_wrote(slot *slot, size_t length);
uint32_t proved_end_ask(slot *slot, const given_ask *ask, uint16_t *channel);
uint32_t proved_end_send(slot *slot, uint16_t channel, const uint8_t *method, size_t method_length,
			 const uint8_t *header, size_t header_length, const uint8_t *body, size_t body_length);
uint32_t proved_end_control(slot *slot, const given_control *control);
uint32_t proved_end_look(slot *slot, end_look *look);
uint32_t proved_end_channel(slot *slot, uint16_t channel, mt_channel *told);
uint32_t proved_end_waiting(slot *slot, uint16_t channel, size_t *octets);
uint32_t proved_end_close_for(slot *slot, const given_close *close);
uint32_t proved_end_heard(slot *slot, uint32_t kind, uint8_t *room, size_t capacity, mt_written *written);
uint32_t proved_end_forget_heard(slot *slot);
uint32_t proved_end_closed_for(slot *slot, cause_told *cause);
uint32_t proved_end_blame(slot *slot, mt_blame *blame);
uint32_t proved_end_blame_line(slot *slot, uint8_t *room, size_t capacity, mt_written *written);

/* Memory, from where the library takes it (memory.c). */
void *take_memory(size_t size);
void give_memory(void *block);

/* No octets, where a pointer is wanted that isn't null. */
static const uint8_t NOTHING[1];

/* A table of no pairs. */
static const uint8_t NO_PAIRS[4];

#define WANTED(condition)                                                                                            \
	do {                                                                                                         \
		if (!(condition))                                                                                    \
			return MT_NULL;                                                                              \
	} while (0)

/* Whether octets are there, or there are none. */
static bool are_there(mt_octets octets)
{
	return octets.at != NULL || octets.length == 0;
}

/* The octets as the proved functions take them: none of them begin at null. */
static mt_octets taken_from(mt_octets octets)
{
	return octets.at != NULL ? octets : (mt_octets){NOTHING, 0};
}

static mt_octets properties_of(mt_octets octets)
{
	return octets.length > 0 ? octets : (mt_octets){NO_PAIRS, sizeof NO_PAIRS};
}

void mt_client_defaults(mt_client_settings *settings)
{
	if (settings)
		*settings = (mt_client_settings){mt_text("guest"), mt_text("guest"), mt_text("/"), mt_text("PLAIN"),
						 {NULL, 0}, mt_text("en_US"), {NULL, 0}, 16777216, 131072, 2047, 0, false,
						 false};
}

void mt_server_defaults(mt_server_settings *settings)
{
	if (settings)
		*settings = (mt_server_settings){mt_text("PLAIN"), mt_text("en_US"), {NULL, 0}, 16777216, 131072, 2047, 0,
						 false, false};
}

/* The response of PLAIN: a 0, the user, a 0, the password. */
static mt_octets plain_response(mt_octets user, mt_octets password)
{
	uint8_t *at = user.length < SIZE_MAX - 2 && password.length < SIZE_MAX - 2 - user.length
			      ? take_memory(user.length + password.length + 2)
			      : NULL;
	mt_octets response = {at, user.length + password.length + 2};

	if (!at)
		return response;
	*at++ = 0;
	for (size_t i = 0; i < user.length; ++i)
		*at++ = user.at[i];
	*at++ = 0;
	for (size_t i = 0; i < password.length; ++i)
		*at++ = password.at[i];
	return response;
}

uint32_t mt_end_open_client(mt_end *end, const mt_client_settings *given)
{
	client_settings settings;
	mt_octets made = {NULL, 0};
	uint32_t status;

	WANTED(end && given);
	WANTED(are_there(given->user) && are_there(given->password) && are_there(given->virtual_host));
	WANTED(are_there(given->mechanism) && are_there(given->response) && are_there(given->locale));
	WANTED(are_there(given->properties));
	if (!given->response.at) {
		made = plain_response(given->user, given->password);
		if (!made.at)
			return MT_OUT_OF_MEMORY;
	}
	settings.properties = properties_of(given->properties);
	settings.mechanism = taken_from(given->mechanism);
	settings.response = made.at ? made : given->response;
	settings.locale = taken_from(given->locale);
	settings.virtual_host = taken_from(given->virtual_host);
	settings.max_body = given->max_body;
	settings.frame_max = given->frame_max;
	settings.channel_max = given->channel_max;
	settings.heartbeat = given->heartbeat;
	settings.gated = given->gated;
	settings.lends = given->lends;
	status = proved_client_open((slot *)end, &settings);
	if (made.at)
		give_memory((void *)(uintptr_t)made.at);
	return status;
}

uint32_t mt_end_open_server(mt_end *end, const mt_server_settings *given)
{
	server_settings settings;

	WANTED(end && given && are_there(given->mechanisms) && are_there(given->locales));
	WANTED(are_there(given->properties));
	settings.properties = properties_of(given->properties);
	settings.mechanisms = taken_from(given->mechanisms);
	settings.locales = taken_from(given->locales);
	settings.max_body = given->max_body;
	settings.frame_max = given->frame_max;
	settings.channel_max = given->channel_max;
	settings.heartbeat = given->heartbeat;
	settings.gated = given->gated;
	settings.lends = given->lends;
	return proved_server_open((slot *)end, &settings);
}

uint32_t mt_end_close(mt_end *end)
{
	WANTED(end);
	return proved_end_close((slot *)end);
}

/* An event before anything is known of it: what it lends points somewhere. */
static const mt_event NO_EVENT = {{NOTHING, 0}, {NOTHING, 0}, {NOTHING, 0}, {NOTHING, 0}, 0, 0, 0, 0, 0,
				  MT_EVENT_NONE, false, 0};

/* What the proved functions show of an event: all but what was taken of the piece. */
static seen_event *seen_of(mt_event *event)
{
	return (seen_event *)event;
}

/* Feeds an end with no octets: only a fault comes of them. */
static uint32_t feed_nothing(mt_end *end, mt_event *event)
{
	fed_end fed = {0, 0, MT_EVENT_NONE};
	size_t count = 0;
	uint32_t status;

	*event = NO_EVENT;
	status = proved_end_feed_lent((slot *)end, NOTHING, 0, &fed, seen_of(event));
	if (status == MT_OTHER_KIND)
		status = proved_end_feed_batch((slot *)end, NOTHING, 0, (event_place *)event, 1, &fed, &count);
	return status;
}

uint32_t mt_end_feed(mt_end *end, const uint8_t *piece, size_t length, mt_event *event)
{
	fed_end fed = {0, 0, MT_EVENT_NONE};
	size_t count = 0, at = 0;
	uint32_t status;

	WANTED(end && event && (piece || length == 0));
	if (length == 0)
		return feed_nothing(end, event);
	/* A batch with one place. It stops after a frame that began in an earlier piece, too. */
	do {
		status = proved_end_feed_batch((slot *)end, piece + at, length - at, (event_place *)event, 1, &fed, &count);
		at += fed.taken;
	} while (status == MT_OK && count == 0 && at < length);
	if (count == 0)
		*event = NO_EVENT;
	event->taken = at;
	if (status != MT_OK)
		event->code = fed.code;
	return status;
}

uint32_t mt_end_feed_batch(mt_end *end, const uint8_t *piece, size_t length, mt_event *events, size_t capacity,
			   size_t *count, size_t *taken, uint16_t *code)
{
	fed_end fed = {0, 0, MT_EVENT_NONE};
	uint32_t status;

	WANTED(end && events && count && taken && (piece || length == 0));
	*count = 0;
	status = proved_end_feed_batch((slot *)end, piece ? piece : NOTHING, length, (event_place *)events, capacity, &fed,
				       count);
	*taken = fed.taken;
	if (code)
		*code = fed.code;
	return status;
}

uint32_t mt_end_output(mt_end *end, mt_octets *output)
{
	WANTED(end && output);
	*output = (mt_octets){NOTHING, 0};
	return proved_end_output((slot *)end, output);
}

uint32_t mt_end_wrote(mt_end *end, size_t length)
{
	WANTED(end);
	return proved_end_wrote((slot *)end, length);
}

/* An ask of a kind, without anything beside it. */
static given_ask ask_of(uint8_t kind)
{
	return (given_ask){{NOTHING, 0}, 0, 0, kind, false};
}

static uint32_t asked(mt_end *end, const given_ask *ask)
{
	uint16_t channel = 0;

	WANTED(end);
	return proved_end_ask((slot *)end, ask, &channel);
}

uint32_t mt_end_open_channel(mt_end *end, uint16_t *channel)
{
	given_ask ask = ask_of(OPEN_CHANNEL);

	WANTED(end && channel);
	*channel = 0;
	return proved_end_ask((slot *)end, &ask, channel);
}

uint32_t mt_end_send(mt_end *end, uint16_t channel, const mt_message *message)
{
	mt_octets method, header, body;

	WANTED(end && message && are_there(message->method) && are_there(message->header) && are_there(message->body));
	method = taken_from(message->method);
	header = taken_from(message->header);
	body = taken_from(message->body);
	return proved_end_send((slot *)end, channel, method.at, method.length, header.at, header.length, body.at,
			       body.length);
}

uint32_t mt_end_flow(mt_end *end, uint16_t channel, bool active)
{
	given_ask ask = ask_of(FLOW);

	ask.channel = channel;
	ask.active = active;
	return asked(end, &ask);
}

uint32_t mt_end_close_channel(mt_end *end, uint16_t channel, uint16_t code, mt_octets text)
{
	given_ask ask = ask_of(CLOSE_CHANNEL);

	WANTED(are_there(text));
	ask.text = taken_from(text);
	ask.channel = channel;
	ask.code = code;
	return asked(end, &ask);
}

uint32_t mt_end_close_connection(mt_end *end, uint16_t code, mt_octets text)
{
	given_ask ask = ask_of(CLOSE);

	WANTED(are_there(text));
	ask.text = taken_from(text);
	ask.code = code;
	return asked(end, &ask);
}

/* A close of a channel, or of the connection, for a method. */
static uint32_t closed_for(mt_end *end, given_close *close, mt_octets text)
{
	WANTED(end && are_there(text));
	close->text = taken_from(text);
	return proved_end_close_for((slot *)end, close);
}

uint32_t mt_end_close_channel_for(mt_end *end, uint16_t channel, uint16_t code, mt_octets text, uint32_t kind)
{
	given_close close = {text, kind, channel, code, false};

	return closed_for(end, &close, text);
}

uint32_t mt_end_close_connection_for(mt_end *end, uint16_t code, mt_octets text, uint32_t kind)
{
	given_close close = {text, kind, 0, code, true};

	return closed_for(end, &close, text);
}

uint32_t mt_end_blocked(mt_end *end, mt_octets reason)
{
	given_ask ask = ask_of(BLOCKED);

	WANTED(are_there(reason));
	ask.text = taken_from(reason);
	return asked(end, &ask);
}

uint32_t mt_end_unblocked(mt_end *end)
{
	given_ask ask = ask_of(UNBLOCKED);

	return asked(end, &ask);
}

/* A heartbeat or a decision, without anything beside it. */
static given_control control_of(uint8_t kind)
{
	return (given_control){{NOTHING, 0}, {NOTHING, 0}, {NOTHING, 0}, 0, kind};
}

uint32_t mt_end_beat(mt_end *end)
{
	given_control control = control_of(BEAT);

	WANTED(end);
	return proved_end_control((slot *)end, &control);
}

uint32_t mt_end_admit(mt_end *end)
{
	given_control control = control_of(ADMIT);

	WANTED(end);
	return proved_end_control((slot *)end, &control);
}

uint32_t mt_end_refuse(mt_end *end, uint16_t code, mt_octets text)
{
	given_control control = control_of(REFUSE);

	WANTED(end && are_there(text));
	control.code = code;
	control.text = taken_from(text);
	return proved_end_control((slot *)end, &control);
}

uint32_t mt_end_answer_start(mt_end *end, mt_octets mechanism, mt_octets response, mt_octets locale)
{
	given_control control = control_of(ANSWER_START);

	WANTED(end && are_there(mechanism) && are_there(response) && are_there(locale));
	control.text = taken_from(mechanism);
	control.response = taken_from(response);
	control.locale = taken_from(locale);
	return proved_end_control((slot *)end, &control);
}

uint32_t mt_end_phase(mt_end *end, uint8_t *phase)
{
	end_look look;
	uint32_t status;

	WANTED(end && phase);
	status = proved_end_look((slot *)end, &look);
	if (status == MT_OK)
		*phase = look.phase;
	return status;
}

uint32_t mt_end_agreed(mt_end *end, mt_agreed *agreed)
{
	end_look look;
	uint32_t status;

	WANTED(end && agreed);
	status = proved_end_look((slot *)end, &look);
	if (status == MT_OK)
		*agreed = look.agreed;
	return status;
}

uint32_t mt_end_counters(mt_end *end, uint64_t *frames_taken, uint64_t *octets_written)
{
	end_look look;
	uint32_t status;

	WANTED(end && frames_taken && octets_written);
	status = proved_end_look((slot *)end, &look);
	if (status == MT_OK) {
		*frames_taken = look.frames_taken;
		*octets_written = look.octets_written;
	}
	return status;
}

uint32_t mt_end_waiting(mt_end *end, uint16_t channel, size_t *octets)
{
	WANTED(end && octets);
	return proved_end_waiting((slot *)end, channel, octets);
}

uint32_t mt_end_channel(mt_end *end, uint16_t channel, mt_channel *told)
{
	WANTED(end && told);
	return proved_end_channel((slot *)end, channel, told);
}

uint32_t mt_end_lowest_free(mt_end *end, uint16_t *channel)
{
	end_look look;
	mt_channel told;
	uint32_t status;

	WANTED(end && channel);
	*channel = 0;
	status = proved_end_look((slot *)end, &look);
	if (status != MT_OK)
		return status;
	if (look.phase != MT_PHASE_RUNNING)
		return MT_ASK_NOT_RUNNING;
	for (uint32_t number = 1; number <= look.agreed.channel_max; ++number) {
		status = proved_end_channel((slot *)end, (uint16_t)number, &told);
		if (status != MT_OK)
			return status;
		if (told.state == MT_STATE_FREE) {
			*channel = (uint16_t)number;
			return MT_OK;
		}
	}
	return MT_ASK_NO_FREE_CHANNEL;
}

uint32_t mt_end_pending(mt_end *end, size_t *pending)
{
	end_look look;
	uint32_t status;

	WANTED(end && pending);
	status = proved_end_look((slot *)end, &look);
	if (status == MT_OK)
		*pending = look.pending;
	return status;
}

uint32_t mt_end_octets_taken(mt_end *end, uint64_t *octets)
{
	end_look look;
	uint32_t status;

	WANTED(end && octets);
	status = proved_end_look((slot *)end, &look);
	if (status == MT_OK)
		*octets = look.octets_taken;
	return status;
}

uint32_t mt_end_kept(mt_end *end, size_t *octets)
{
	end_look look;
	uint32_t status;

	WANTED(end && octets);
	status = proved_end_look((slot *)end, &look);
	if (status == MT_OK)
		*octets = look.kept;
	return status;
}

uint32_t mt_end_gathered_in_all(mt_end *end, size_t *octets)
{
	end_look look;
	uint32_t status;

	WANTED(end && octets);
	status = proved_end_look((slot *)end, &look);
	if (status == MT_OK)
		*octets = look.gathered;
	return status;
}

uint32_t mt_end_heartbeat(mt_end *end, uint16_t *heartbeat)
{
	end_look look;
	uint32_t status;

	WANTED(end && heartbeat);
	status = proved_end_look((slot *)end, &look);
	if (status == MT_OK)
		*heartbeat = look.heartbeat;
	return status;
}

uint32_t mt_end_heard(mt_end *end, uint32_t kind, uint8_t *room, size_t capacity, mt_written *written)
{
	uint8_t none;

	WANTED(end && written && (room || capacity == 0));
	*written = (mt_written){0, 0, 0};
	return proved_end_heard((slot *)end, kind, room ? room : &none, capacity, written);
}

uint32_t mt_end_forget_heard(mt_end *end)
{
	WANTED(end);
	return proved_end_forget_heard((slot *)end);
}

uint32_t mt_end_closed_for(mt_end *end, uint16_t *class_id, uint16_t *method_id)
{
	cause_told cause = {0, 0};
	uint32_t status;

	WANTED(end && class_id && method_id);
	status = proved_end_closed_for((slot *)end, &cause);
	*class_id = cause.class_id;
	*method_id = cause.method_id;
	return status;
}

uint32_t mt_end_blame(mt_end *end, mt_blame *blame)
{
	WANTED(end && blame);
	*blame = (mt_blame){0, 0, 0, 0, 0, 0, 0, 0};
	return proved_end_blame((slot *)end, blame);
}

uint32_t mt_end_blame_line(mt_end *end, char *room, size_t capacity)
{
	mt_written written = {0, 0, 0};
	uint8_t none;
	uint32_t status;

	WANTED(end && (room || capacity == 0));
	status = proved_end_blame_line((slot *)end, capacity ? (uint8_t *)room : &none, capacity ? capacity - 1 : 0, &written);
	if (status != MT_OK)
		return status;
	if (capacity == 0)
		return MT_NO_ROOM;
	room[written.length] = 0;
	return MT_OK;
}
