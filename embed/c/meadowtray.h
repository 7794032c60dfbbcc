/* AMQP 0-9-1 on the wire: both ends of a connection, frames split from a stream, and the methods, content headers and
 * tables that they carry.
 *
 * What this library does is proved; what a proof can't make a C program do stands here, and is the caller's part:
 *
 *   - A pointer is null, or points to what its type says, and a length says how many octets there are.
 *   - A structure that a call writes overlaps nothing else that the call is given.
 *   - One call at a time for a handle. Different handles may be used by different threads at once, and a handle may go
 *     from one thread to another, in the order that a lock or the start of a thread gives.
 *   - A handle isn't copied: of two copies one is closed, and the other points to memory that was freed.
 *   - A handle's octets are 0 before it is opened (MT_SPLITTER_INIT and its like), and only this library writes them.
 *
 * A null handle, a null structure, a handle that isn't open and one that is closed twice are answered by a status,
 * and nothing is read or written then.
 *
 * Each function but the few that say otherwise returns a status: MT_OK, or the number of what is wrong, and then
 * nothing has changed unless the function says so. mt_status_text has its text.
 *
 * What a call lends (a payload, a body, the output) is read until the next call with the same handle, and for as long
 * as the piece that was fed stays as it is. It is never freed by the caller. */
#ifndef MEADOWTRAY_H
#define MEADOWTRAY_H

#include <stdbool.h>
#include <stddef.h>
#include <stdint.h>

#ifdef __cplusplus
extern "C" {
#endif

/* ---- statuses -------------------------------------------------------------------------------------------------- */

enum {
	MT_OK = 0,

	/* the handle, or what was given beside it */
	MT_NOT_OPEN = 1,     /* the handle was never opened, or is closed */
	MT_ALREADY_OPEN = 2, /* the handle is open: close it first */
	MT_OTHER_KIND = 3,   /* the handle holds another kind of value */
	MT_OUT_OF_MEMORY = 4,
	MT_LIMIT = 5,     /* a limit below 8, or one that is changed within a frame */
	MT_NULL = 6,      /* a pointer is null that may not be */
	MT_NO_ROOM = 7,   /* there is less room than what is to be put into it */
	MT_NOT_THERE = 8, /* a table has no pair with the name that is asked for */
	MT_MISFIT = 9,    /* a value isn't one for its place, or there is one too few or too many */
	MT_PAST_OUTPUT = 10, /* more octets than the output has */
	MT_WAITS = 11, /* octets of the output, or of a body that was begun, are to be written first */
	MT_CUT = 12, /* a content was lent, and there was no place for all of its pieces: the connection is lost */

	/* a stream that isn't one of frames; each later feed answers MT_FRAME_FAILED */
	MT_FRAME_UNKNOWN_TYPE = 101,
	MT_FRAME_TOO_LARGE = 102,
	MT_FRAME_BAD_END = 103,
	MT_FRAME_OUT_OF_MEMORY = 104,
	MT_FRAME_FAILED = 105,

	/* the payload of a method or a content header */
	MT_UNKNOWN_METHOD = 201, /* no method has the class id and the method id, or a header's class isn't 60 */
	MT_TRAILING = 203,       /* octets stand after the last field */
	MT_BAD_WEIGHT = 204,     /* a header's weight isn't 0 */
	MT_BAD_FLAGS = 205,      /* bit 1 or bit 0 of a header's flags is set */

	/* a field of those, or a table */
	MT_VALUE_ENDS = 301,           /* the octets end early */
	MT_VALUE_UNKNOWN_TAG = 302,    /* a tag octet is none of the nineteen */
	MT_VALUE_PASSES_ITS_END = 303, /* what is inside a table or an array passes its end */
	MT_VALUE_TOO_DEEP = 304,       /* tables and arrays nest deeper than 32 */
	MT_VALUE_TOO_LONG = 306,       /* what a count counts is too long to be written */

	/* why an end takes no more octets; after each but the last it has failed */
	MT_END_PEER = 401,  /* the other end broke the protocol, and was told so by a close */
	MT_END_FATAL = 402, /* there is no answer to what came, as another protocol header */
	MT_END_OUT_OF_MEMORY = 403,
	MT_END_FAILED = 404, /* it had failed before */
	MT_END_CLOSED = 405, /* the connection was closed before */

	/* why an end can't be set up so */
	MT_SETTINGS_FRAME_MAX = 501,      /* the greatest frame is below 4096 octets or above 1048576 */
	MT_SETTINGS_CHANNEL_MAX = 502,    /* there is no channel */
	MT_SETTINGS_HELLO_TOO_LONG = 503, /* what it says of itself is longer than a frame of 4096 octets */
	MT_SETTINGS_OUT_OF_MEMORY = 504,

	/* why what was asked is refused, in the order in which the reasons are looked at, memory last */
	MT_ASK_NOT_RUNNING = 601, /* the handshake isn't over, or the connection is closing, closed or failed */
	MT_ASK_BAD_CHANNEL = 602, /* the channel is 0 or above the agreed maximum */
	MT_ASK_NOT_OPEN = 603,
	MT_ASK_PAUSED = 604,          /* the other end asked for no more contents */
	MT_ASK_NOT_SENDABLE = 605,    /* this side doesn't send the method, or not as a message */
	MT_ASK_TOO_LARGE = 606,       /* the method or the header is too long for a frame of the agreed size */
	MT_ASK_FLOW_PENDING = 607,    /* a flow of this end is unanswered */
	MT_ASK_NO_FREE_CHANNEL = 608, /* no channel number up to the agreed maximum is free */
	MT_ASK_OUT_OF_MEMORY = 609,
	MT_ASK_REPLY_PENDING = 610,  /* a client's request waits for its reply */
	MT_ASK_NO_SUCH_REQUEST = 611, /* a server's reply doesn't answer the oldest request, or there is none */
	MT_ASK_NOT_AWAITED = 612 /* what is decided is not awaited: no event asked for it */
};

/* The text of a status, for a log. It is never null, and stays for ever. */
const char *mt_status_text(uint32_t status);

/* ---- memory ---------------------------------------------------------------------------------------------------- */

/* What the library takes memory by: malloc, realloc and free of the C library, unless these are set before the
 * first handle is opened and the first payload is written, and not later. The three are of one allocator, and
 * align a block of n octets to each power of two up to 16 that divides n. They may answer null: the call that
 * asked answers that memory ran out. */
typedef struct mt_memory {
	void *(*allocate)(size_t size);
	void *(*resize)(void *block, size_t size);
	void (*release)(void *block);
} mt_memory;

/* Null, or a null function, gives the C library's back. */
void mt_set_memory(const mt_memory *memory);

/* ---- frames ---------------------------------------------------------------------------------------------------- */

/* A frame's type octet (AMQP 0-9-1 specification, section 4.2.3). */
enum { MT_NO_FRAME = 0, MT_METHOD = 1, MT_HEADER = 2, MT_BODY = 3, MT_HEARTBEAT = 8 };

/* Splits a stream into its frames. */
typedef struct mt_splitter {
	void *at;
	bool open;
} mt_splitter;

#define MT_SPLITTER_INIT                                                                                             \
	{                                                                                                            \
		NULL, false                                                                                          \
	}

/* What a piece gave. With MT_OK, `taken` octets of it were taken, and `kind` is the type octet of the frame that the
 * last of them ends, or MT_NO_FRAME; the other fields are that frame's. After a fault `at` is its place in the
 * stream, counted from 0.
 *
 * The payload is lent: from the piece where the frame lies whole in it, else from the splitter. It is read until the
 * next call with this splitter, and while the piece stays. */
typedef struct mt_frame {
	size_t taken;
	uint64_t at;
	const uint8_t *payload;
	size_t length;
	uint16_t channel;
	uint8_t kind;
} mt_frame;

/* Opens a splitter at the beginning of a stream. `limit` counts all octets of a frame, eight of which stand around
 * its payload, and is 8 at least (MT_LIMIT). MT_ALREADY_OPEN where it is open. */
uint32_t mt_splitter_open(mt_splitter *splitter, uint32_t limit);

/* Takes octets up to the end of the next frame and no further. Where the piece ends before that, all of it is taken.
 * Call it again with the rest of the piece until none is left:
 *
 *     while (length > 0) {
 *             if ((status = mt_splitter_feed(&splitter, piece, length, &frame)) != MT_OK)
 *                     return status;
 *             if (frame.kind != MT_NO_FRAME)
 *                     handle(&frame);
 *             piece += frame.taken;
 *             length -= frame.taken;
 *     }
 *
 * No memory is taken for a frame that lies whole in the piece. `piece` may be null where `length` is 0. */
uint32_t mt_splitter_feed(mt_splitter *splitter, const uint8_t *piece, size_t length, mt_frame *frame);

/* Feeds as mt_splitter_feed does, again and again, into frames[0] and so on, and says in `count` how many frames
 * there are and in `taken` how many octets were taken. It stops where `capacity` frames are there, where the piece
 * ends, at a fault, and after a frame that began in an earlier piece, since its payload is the splitter's. All
 * payloads are read until the next call.
 *
 * At a fault the status is the fault's, the frames before it are there all the same, and `at` of frames[count] is its
 * place. */
uint32_t mt_splitter_feed_batch(mt_splitter *splitter, const uint8_t *piece, size_t length, mt_frame *frames,
				size_t capacity, size_t *count, size_t *taken);

/* How many octets were taken of a frame that isn't whole yet. After a fault it is 0. */
uint32_t mt_splitter_pending(mt_splitter *splitter, size_t *pending);

/* Changes the limit, between two frames. MT_LIMIT below 8, and where octets are pending. */
uint32_t mt_splitter_set_limit(mt_splitter *splitter, uint32_t limit);

/* Frees what the splitter has. MT_NOT_OPEN where it isn't open, as on a second close; it can be opened again. */
uint32_t mt_splitter_close(mt_splitter *splitter);

/* ---- values ---------------------------------------------------------------------------------------------------- */

/* Methods, content headers and tables are read and written without a handle: the functions below keep nothing, and
 * may be called by any thread at any time. Those that read take no memory. What they lend lies in the octets that
 * they were given, and is read while those stay. Those that write take memory for what they make of the values, and
 * give it back.
 *
 * A write fills `room`, which has `capacity` octets, from its start. It is all or nothing: with any status but MT_OK
 * the room is as it was. */

/* The kind of a method's field or of a content's property (specification, section 4.2.5). */
enum {
	MT_NONE = 0, /* a property that isn't there */
	MT_BIT = 1,
	MT_OCTET = 2,
	MT_SHORT = 3,
	MT_LONG = 4,
	MT_LONG_LONG = 5,
	MT_SHORT_STRING = 6,
	MT_LONG_STRING = 7,
	MT_TABLE = 8
};

/* The kind of a value in a table or an array: its tag octet (docs/PROTOCOL.md has what each is). */
enum {
	MT_TAG_BOOLEAN = 't',
	MT_TAG_SHORT_SHORT_INT = 'b',
	MT_TAG_SHORT_SHORT_UINT = 'B',
	MT_TAG_ERRATA_SHORT_INT = 's',
	MT_TAG_SHORT_INT = 'U',
	MT_TAG_SHORT_UINT = 'u',
	MT_TAG_LONG_INT = 'I',
	MT_TAG_LONG_UINT = 'i',
	MT_TAG_ERRATA_LONG_LONG_INT = 'l',
	MT_TAG_LONG_LONG_INT = 'L',
	MT_TAG_FLOAT = 'f',
	MT_TAG_DOUBLE = 'd',
	MT_TAG_DECIMAL = 'D',
	MT_TAG_TIMESTAMP = 'T',
	MT_TAG_VOID = 'V',
	MT_TAG_LONG_STRING = 'S',
	MT_TAG_BYTE_ARRAY = 'x',
	MT_TAG_ARRAY = 'A',
	MT_TAG_TABLE = 'F'
};

/* A field, a property, or a value in a table. `kind` says which of the others count:
 *
 *   - a bit or a truth value: `number` is 0 or 1;
 *   - a number: `number`, which is in two's complement where the kind is a signed one: (int64_t)value.number;
 *   - a float or a double: the bits of it, in the lower 32 or all 64 of `number`;
 *   - a decimal: `number`, of which the last `scale` digits stand after the point;
 *   - a string or a byte array: `octets`, `length` of them, which end with no 0;
 *   - a table: its octets, the count before its pairs among them, as mt_table_read and mt_table_get take them;
 *   - an array: its octets without the count, as mt_array_read takes them. */
typedef struct mt_value {
	const uint8_t *octets;
	size_t length;
	uint64_t number;
	uint8_t kind;
	uint8_t scale;
} mt_value;

/* Octets that are lent: `length` of them. A table's have its count before its pairs. */
typedef struct mt_octets {
	const uint8_t *at;
	size_t length;
} mt_octets;

static inline mt_octets mt_octets_at(const void *at, size_t length)
{
	mt_octets octets;

	octets.at = (const uint8_t *)at;
	octets.length = length;
	return octets;
}

/* The octets of a value. */
static inline mt_octets mt_octets_of(const mt_value *value)
{
	return mt_octets_at(value->octets, value->length);
}

/* The octets of a text up to its 0, which isn't among them. */
static inline mt_octets mt_text(const char *text)
{
	size_t length = 0;

	while (text[length] != 0)
		++length;
	return mt_octets_at(text, length);
}

/* A value that holds a number, or a bit as 0 or 1. */
static inline mt_value mt_number_value(uint8_t kind, uint64_t number)
{
	mt_value value;

	value.octets = NULL;
	value.length = 0;
	value.number = number;
	value.kind = kind;
	value.scale = 0;
	return value;
}

/* A value that holds octets. */
static inline mt_value mt_octets_value(uint8_t kind, mt_octets octets)
{
	mt_value value = mt_number_value(kind, 0);

	value.octets = octets.at;
	value.length = octets.length;
	return value;
}

/* A field or a property that is a table: of no pairs, where there are no octets. */
static inline mt_value mt_table_value(mt_octets octets)
{
	static const uint8_t no_pairs[4] = {0, 0, 0, 0};

	return mt_octets_value(MT_TABLE, octets.length > 0 ? octets : mt_octets_at(no_pairs, sizeof no_pairs));
}

/* What was written: with MT_OK, `length` octets stand in the room now. With MT_MISFIT, `value` is the place of the
 * first value that isn't one for its field, or how many there are where one is wanting. With a fault of a table or an
 * array, `value` is the place of the value whose octets can't be read, and `at` the fault's place in them. */
typedef struct mt_written {
	size_t length;
	size_t value;
	size_t at;
} mt_written;

/* ---- methods --------------------------------------------------------------------------------------------------- */

/* No method has more fields, reserved ones not counted. */
#define MT_MOST_FIELDS 8

/* A method that was read. With MT_OK, `kind` is its class id times 65536 plus its method id, as MT_BASIC_DELIVER, and
 * the first `count` of `fields` are its fields in the order of the standard, without those that it reserves. After a
 * fault `at` is its place in the payload: the first octet of the field that can't be read, or the octet in it that
 * shows it if it is a table.
 *
 * meadowtray_methods.h has for each method a structure with its fields by name, and a function that fills it. */
typedef struct mt_method {
	size_t at;
	size_t count;
	uint32_t kind;
	mt_value fields[MT_MOST_FIELDS];
} mt_method;

/* The kind of the method that a payload begins with, of which its first four octets are read. MT_UNKNOWN_METHOD where
 * they name none. */
uint32_t mt_method_peek(const uint8_t *payload, size_t length, uint32_t *kind);

/* Reads the method that a payload encodes, all of it: the payload of a frame of the type MT_METHOD. The fault is that
 * of the first field that can't be read. */
uint32_t mt_method_read(const uint8_t *payload, size_t length, mt_method *method);

/* Writes the payload of a method: that of a frame of the type MT_METHOD. The values are its fields in the order of
 * the standard, without those that it reserves; MT_UNKNOWN_METHOD where no method is of this kind. Bits that are free
 * are written 0, reserved fields zero or empty, and a table's truth values 0 or 1, whatever octets it was given by.
 *
 * meadowtray_methods.h has for each method a function that writes it from the structure with its fields. */
uint32_t mt_method_write(uint32_t kind, const mt_value *fields, size_t count, uint8_t *room, size_t capacity,
			 mt_written *written);

/* The name of a kind, as "basic.get-ok", or null where it is none. It stays for ever, as do the names below. */
const char *mt_method_name(uint32_t kind);

/* The kind with this name, or 0 where there is none. */
uint32_t mt_method_kind(const char *name);

/* The name of a method's field, as "routing-key", or null where the method has no field at this place. */
const char *mt_field_name(uint32_t kind, size_t place);

/* The field with this name of a method that was read, or null where it has none. */
const mt_value *mt_method_field(const mt_method *method, const char *name);

/* ---- content headers ------------------------------------------------------------------------------------------- */

/* The places of a content's properties. */
enum {
	MT_CONTENT_TYPE = 0,
	MT_CONTENT_ENCODING = 1,
	MT_HEADERS = 2,
	MT_DELIVERY_MODE = 3, /* 1: not persistent, 2: persistent */
	MT_PRIORITY = 4,
	MT_CORRELATION_ID = 5,
	MT_REPLY_TO = 6,
	MT_EXPIRATION = 7,
	MT_MESSAGE_ID = 8,
	MT_TIMESTAMP = 9, /* in seconds of POSIX time */
	MT_TYPE_NAME = 10,
	MT_USER_ID = 11,
	MT_APP_ID = 12,
	MT_CLUSTER_ID = 13,
	MT_PROPERTIES = 14
};

/* A content header that was read: how many octets the body has, the flags as they stand in it, and the properties by
 * their places, with the kind MT_NONE where one isn't there. After a fault `at` is its place in the payload. */
typedef struct mt_header {
	uint64_t body_size;
	size_t at;
	uint16_t flags;
	mt_value properties[MT_PROPERTIES];
} mt_header;

/* The name of the property at a place, as "content-type", or null where the place is none. */
const char *mt_property_name(size_t place);

/* Reads the content header that a payload encodes, all of it: the payload of a frame of the type MT_HEADER. */
uint32_t mt_header_read(const uint8_t *payload, size_t length, mt_header *header);

/* Writes the payload of a content header. `properties` are the MT_PROPERTIES properties by their places, with the
 * kind MT_NONE for those that aren't to be there. */
uint32_t mt_header_write(uint64_t body_size, const mt_value *properties, uint8_t *room, size_t capacity,
			 mt_written *written);

/* ---- tables ---------------------------------------------------------------------------------------------------- */

/* A name, at most 255 octets, with its value. */
typedef struct mt_pair {
	const uint8_t *name;
	size_t name_length;
	mt_value value;
} mt_pair;

/* What was read of a table or an array: how many octets it has, how many pairs or values, and how many of these were
 * put into their places. After a fault `at` is its place in the octets. */
typedef struct mt_table {
	size_t at;
	size_t length;
	size_t count;
	size_t placed;
} mt_table;

/* Reads the table that the octets begin with: a count of four octets, and so many octets of pairs. What stands after
 * the table isn't read. A name may stand more than once. All of the table is checked, with the tables and arrays in
 * it; the first of its pairs are put into `pairs`, and MT_NO_ROOM says that there are more than `capacity`. `pairs`
 * may be null where `capacity` is 0. */
uint32_t mt_table_read(const uint8_t *octets, size_t length, mt_pair *pairs, size_t capacity, mt_table *table);

/* The value of the first pair with this name, of the table that the octets begin with; MT_NOT_THERE where it has
 * none. After a fault `at` is its place; `at` may be null. */
uint32_t mt_table_get(const uint8_t *octets, size_t length, const void *name, size_t name_length, mt_value *value,
		      size_t *at);

/* Writes the table of these pairs, its count with it: octets for mt_table_value, or for a value with the kind
 * MT_TAG_TABLE. A value that is a table or an array is given by its octets. Tables and arrays may nest 32 deep, this
 * one among them. */
uint32_t mt_table_write(const mt_pair *pairs, size_t count, uint8_t *room, size_t capacity, mt_written *written);

/* Reads the array whose octets these are, all of them: those of a value with the kind MT_TAG_ARRAY. The first of its
 * values are put into `values`, and MT_NO_ROOM says that there are more than `capacity`. */
uint32_t mt_array_read(const uint8_t *octets, size_t length, mt_value *values, size_t capacity, mt_table *array);

/* ---- ends of a connection -------------------------------------------------------------------------------------- */

/* One end of a connection, a client or a server. It touches no socket: octets that came are fed, and octets that are
 * to be sent are lent, until mt_end_wrote says that they were sent. What a program does with each read of a socket:
 *
 *     while (length > 0) {
 *             if ((status = mt_end_feed(&end, piece, length, &event)) != MT_OK)
 *                     break;
 *             if (event.kind != MT_EVENT_NONE)
 *                     handle(&event);
 *             piece += event.taken;
 *             length -= event.taken;
 *     }
 *     if (mt_end_output(&end, &output) == MT_OK && output.length > 0)
 *             mt_end_wrote(&end, send_some(output.at, output.length));
 *
 * After a fault, and after a close, what was put before can still be sent. */
typedef struct mt_end {
	void *at;
	bool open;
} mt_end;

#define MT_END_INIT                                                                                                  \
	{                                                                                                            \
		NULL, false                                                                                          \
	}

/* What a client is set up with. The octets are read while it is opened, and no longer. */
typedef struct mt_client_settings {
	mt_octets user;         /* of these two a response for the mechanism PLAIN is made, where none is given */
	mt_octets password;     /* in `response` */
	mt_octets virtual_host; /* at most 255 octets, as the mechanism and the locale */
	mt_octets mechanism;
	mt_octets response;
	mt_octets locale;
	mt_octets properties; /* the octets of a table, as mt_table_write makes them; of none, an empty one */
	uint64_t max_body;    /* the greatest body that is taken, in octets */
	uint32_t frame_max;   /* the greatest frame, all its octets counted: from 4096 to 1048576 */
	uint16_t channel_max; /* the greatest channel number, from 1 */
	uint16_t heartbeat;   /* the heartbeat that is wanted, in seconds; 0 is none */
	bool gated;           /* whether the program answers the server's start itself: MT_EVENT_ANSWER_ASKED */
	bool lends;           /* whether its events lend the frames of a content as they come: MT_EVENT_BEGINS */
} mt_client_settings;

/* What a server is set up with. */
typedef struct mt_server_settings {
	mt_octets mechanisms; /* their names, parted by spaces */
	mt_octets locales;    /* likewise */
	mt_octets properties;
	uint64_t max_body;
	uint32_t frame_max;
	uint16_t channel_max;
	uint16_t heartbeat;
	bool gated; /* whether the program admits logins itself: MT_EVENT_LOGIN_ASKED, MT_EVENT_OPEN_ASKED */
	bool lends; /* whether its events lend, likewise */
} mt_server_settings;

/* The defaults: frames of 131072 octets, 2047 channels, bodies of 16777216 octets, no heartbeat, not gated; a client is guest with the
 * password guest, by PLAIN, in en_US, and opens the virtual host "/"; a server offers PLAIN and en_US. */
void mt_client_defaults(mt_client_settings *settings);
void mt_server_defaults(mt_server_settings *settings);

/* Opens an end. A client has the protocol header to send, a server nothing. MT_ALREADY_OPEN where it is open;
 * MT_MISFIT where a text is longer than 255 octets, or octets stand after the table of the properties; the fault of
 * that table; MT_SETTINGS_FRAME_MAX and its like where an end can't be set up so. It stays closed then. */
uint32_t mt_end_open_client(mt_end *end, const mt_client_settings *settings);
uint32_t mt_end_open_server(mt_end *end, const mt_server_settings *settings);

/* Frees what the end has. MT_NOT_OPEN where it isn't open, as on a second close; it can be opened again. */
uint32_t mt_end_close(mt_end *end);

/* The kind of an event. */
enum {
	MT_EVENT_NONE = 0,
	MT_EVENT_NEGOTIATED = 1,     /* the handshake is over: `channel_max`, `frame_max`, `heartbeat` */
	MT_EVENT_OPENED = 2,         /* a channel's life begins */
	MT_EVENT_TOLD = 3,           /* a method without content, or a content that is whole now */
	MT_EVENT_FLOW = 4,           /* the other end asks that contents be sent (`holds`), or no more of them */
	MT_EVENT_FLOW_OK = 5,        /* the other end answers a flow */
	MT_EVENT_CHANNEL_CLOSED = 6, /* a channel's life ended: by the other end (`holds`, `code`, `text`), or by close-ok */
	MT_EVENT_CONNECTION_CLOSED = 7, /* the connection ended, likewise */
	MT_EVENT_DISCARDED = 8,  /* a frame was dropped after this end's close, or a content refused at its header */
	MT_EVENT_BLOCKED = 9,    /* the server takes no more contents, for the reason in `text` */
	MT_EVENT_UNBLOCKED = 10, /* the server takes contents again */
	MT_EVENT_QUIET = 11,     /* a step of the handshake, a heartbeat, or a close that crosses this end's own */
	MT_EVENT_ANSWER_ASKED = 12, /* a gated client took start: mt_end_answer_start */
	MT_EVENT_LOGIN_ASKED = 13,  /* a gated server took start-ok: mt_end_admit or mt_end_refuse */
	MT_EVENT_OPEN_ASKED = 14,   /* a gated server took open: likewise */

	/* An end that lends tells the frames of a content as they come, and keeps none of them. The content is whole with
	 * the frame whose event `holds`. One that ends by MT_EVENT_DISCARDED, a close or a fault never was. */
	MT_EVENT_BEGINS = 15, /* a method that begins a content: `method` */
	MT_EVENT_HEADS = 16,  /* the content's header: `header`; it holds where the body has no octets */
	MT_EVENT_PART = 17    /* a part of the body: `body` */
};

/* What a piece gave. With MT_OK, `taken` octets of it were taken, and `kind` says what came of them. Of a message that
 * was told, `method` and `header` are payloads, as mt_method_read and mt_header_read take them, and `body` is its body;
 * `holds` says whether it has a content. `channel` is that of each event that concerns one.
 *
 * After MT_END_PEER `code` is that of the close which was put. All octets are lent until the next call with the end, and
 * while the piece stays: of a frame that lies whole in the piece they lie there. */
typedef struct mt_event {
	mt_octets method;
	mt_octets header;
	mt_octets body;
	mt_octets text;
	uint32_t frame_max;
	uint16_t channel;
	uint16_t channel_max;
	uint16_t heartbeat;
	uint16_t code;
	uint8_t kind;
	bool holds;
	size_t taken;
} mt_event;

/* Takes octets up to the end of the next frame of which something is told. Where the piece ends before that, all of it
 * is taken. An end that lends tells of each frame; any other keeps the frames of a content until it is whole, and
 * tells it then. Call it again with the rest of the piece until none is left. Replies wait in the output, which has no
 * limit: don't feed while it is longer than a bound of your own.
 *
 * MT_END_PEER and the statuses beside it are the end's own faults; nothing is told then. After MT_END_OUT_OF_MEMORY
 * each feed is MT_END_FAILED. `piece` may be null where `length` is 0. */
uint32_t mt_end_feed(mt_end *end, const uint8_t *piece, size_t length, mt_event *event);

/* Feeds as mt_end_feed does, again and again, and puts the events into events[0] and so on: `count` says how many, and
 * `taken` how many octets were taken. It stops where `capacity` events are there, where the piece ends, at a fault,
 * and after a frame that began in an earlier piece, since that one is the end's own; frames of which nothing is told
 * take no place. Call it again with the rest of the piece until none is left.
 *
 * At a fault the status is the fault's, and the events before it are there all the same; `code`, which may be null, is
 * that of the close. An end that doesn't lend keeps room for as many contents as came of one batch. */
uint32_t mt_end_feed_batch(mt_end *end, const uint8_t *piece, size_t length, mt_event *events, size_t capacity,
			   size_t *count, size_t *taken, uint16_t *code);

/* The octets to send next, lent until the next call with the end. They stay until mt_end_wrote says that they were
 * sent. */
uint32_t mt_end_output(mt_end *end, mt_octets *output);

/* So many octets of the output were sent. MT_PAST_OUTPUT where it has fewer. */
uint32_t mt_end_wrote(mt_end *end, size_t length);

/* Asks. Each is refused with the first status from MT_ASK_NOT_RUNNING on that applies, which changes nothing, or its
 * frames are put into the output at once. */

/* Opens the lowest channel that is free. Only a client opens channels. */
uint32_t mt_end_open_channel(mt_end *end, uint16_t *channel);

/* A message: the payloads of its method and of its content header, and its body. Where no content follows the method,
 * header and body are empty. */
typedef struct mt_message {
	mt_octets method;
	mt_octets header;
	mt_octets body;
} mt_message;

/* Sends a message on a channel; a content is cut to the agreed frame size. MT_MISFIT where there is a content and none
 * follows the method, or where the header says another size than the body's. */
uint32_t mt_end_send(mt_end *end, uint16_t channel, const mt_message *message);

/* A content whose body comes part by part, so that a body of any length goes out through a small buffer. A handle is
 * opened once, and serves one content after the other. */
typedef struct mt_content {
	void *at;
	bool open;
} mt_content;

#define MT_CONTENT_INIT                                                                                              \
	{                                                                                                            \
		NULL, false                                                                                          \
	}

uint32_t mt_content_open(mt_content *content);

/* Begins a content: by the payloads of its method and of its content header, whose `body_size` says how long the body
 * will be. `octets` are the frames of both; those of the body come by mt_content_write, as its octets come:
 *
 *     status = mt_end_begin_content(&end, &content, channel, method, header, &octets);
 *     while (status == MT_OK && put(octets) && mt_content_left(&content, &left) == MT_OK && left > 0)
 *             status = mt_content_write(&content, part, next_part(part, left), &octets);
 *
 * All frames of the content count as put and as written, so the program writes them to the last octet before anything
 * else that the end puts; where the body or the stream stops half-way, the connection is lost. MT_WAITS where octets of
 * the end's output are to be written first, or octets of the content that the handle began before. MT_MISFIT where no
 * content follows the method. With any status but MT_OK the end is as it was, and no content is begun.
 *
 * The octets are lent by the content until the next call with it. The handle and the end may be closed in any order. */
uint32_t mt_end_begin_content(mt_end *end, mt_content *content, uint16_t channel, mt_octets method, mt_octets header,
			      mt_octets *octets);

/* Frames the next octets of the body: `octets` are to be written, with what stands before, between and after them.
 * MT_MISFIT where they are more than are left, MT_NOT_THERE where no content was begun; nothing changes then. After
 * MT_OUT_OF_MEMORY the same part may be tried again. */
uint32_t mt_content_write(mt_content *content, const uint8_t *part, size_t length, mt_octets *octets);

/* Lends the frames of a content, with the body where it lies, for a write that takes several slices (writev): as
 * mt_end_send sends them, and without the copy. pieces[0] and so on are to be written in their order, all of them before
 * anything else that the end puts: they count as put and as written. `count` says how many there are.
 *
 * MT_WAITS, MT_MISFIT and the refusals are as at mt_end_begin_content, and MT_MISFIT stands for a header that says
 * another size than the body's, too. MT_NO_ROOM where `capacity` is less than mt_end_pieces answers. With each of these nothing is lent, and the end is as it was. MT_CUT would say that it was less
 * than was wanted all the same, and doesn't come.
 *
 * The parts of the body are lent by the caller's own, which stays as long; what stands around them by the content, until
 * the next call with it. */
uint32_t mt_end_lend_content(mt_end *end, mt_content *content, uint16_t channel, const mt_message *message,
			     mt_octets *pieces, size_t capacity, size_t *count);

/* How many pieces a body of so many octets wants: two for each frame of it, and one. MT_ASK_NOT_RUNNING before the frame
 * size is agreed. */
uint32_t mt_end_pieces(mt_end *end, size_t length, size_t *count);

/* How many octets of the body are still to come. Once it is 0, all frames were given. */
uint32_t mt_content_left(mt_content *content, uint64_t *left);

/* Adds to a count how many octets are still to be given, those around the parts of the body with them: the greatest
 * number of 64 bits where the count would pass that. */
uint32_t mt_content_add_to(mt_content *content, uint64_t *count);

/* Frees what the handle has. MT_NOT_OPEN where it isn't open, as on a second close. */
uint32_t mt_content_close(mt_content *content);

/* Asks the other end to send contents on a channel, or no more of them. */
uint32_t mt_end_flow(mt_end *end, uint16_t channel, bool active);

/* Closes a channel, or the connection, with a code and a text of at most 255 octets (MT_MISFIT). */
uint32_t mt_end_close_channel(mt_end *end, uint16_t channel, uint16_t code, mt_octets text);
uint32_t mt_end_close_connection(mt_end *end, uint16_t code, mt_octets text);

/* The same for a method: the close names its class and its method, and mt_end_closed_for of the other end answers them.
 * MT_MISFIT too where no method is of this kind. */
uint32_t mt_end_close_channel_for(mt_end *end, uint16_t channel, uint16_t code, mt_octets text, uint32_t kind);
uint32_t mt_end_close_connection_for(mt_end *end, uint16_t code, mt_octets text, uint32_t kind);

/* Says that the server takes no more contents, and why, or that it takes them again. Only a server says so. */
uint32_t mt_end_blocked(mt_end *end, mt_octets reason);
uint32_t mt_end_unblocked(mt_end *end);

/* Puts a heartbeat. When to beat is the program's: an end knows no clock. It owes one each `heartbeat` seconds of what was
 * agreed in which it writes nothing else, and where that is 0 none. */
uint32_t mt_end_beat(mt_end *end);

/* What a gated end decides; MT_ASK_NOT_AWAITED where no event asked for it. A server admits a login or an open, or refuses
 * it and closes the connection, with a code, as 403 or 530, and a text. A client answers start with what it chose. */
uint32_t mt_end_admit(mt_end *end);
uint32_t mt_end_refuse(mt_end *end, uint16_t code, mt_octets text);
uint32_t mt_end_answer_start(mt_end *end, mt_octets mechanism, mt_octets response, mt_octets locale);

/* How far a connection is. */
enum { MT_PHASE_HANDSHAKE = 1, MT_PHASE_RUNNING = 2, MT_PHASE_CLOSING = 3, MT_PHASE_CLOSED = 4, MT_PHASE_FAILED = 5 };

uint32_t mt_end_phase(mt_end *end, uint8_t *phase);

/* What tune-ok settled, all 0 before. */
typedef struct mt_agreed {
	uint32_t frame_max;
	uint16_t channel_max;
	uint16_t heartbeat; /* in seconds; 0 is none */
} mt_agreed;

uint32_t mt_end_agreed(mt_end *end, mt_agreed *agreed);

/* The heartbeat of it, in seconds; 0 is none, and what stands before. */
uint32_t mt_end_heartbeat(mt_end *end, uint16_t *heartbeat);

/* What the other end said in the handshake: a client hears MT_CONNECTION_START and MT_CONNECTION_TUNE, a server
 * MT_CONNECTION_START_OK, MT_CONNECTION_TUNE_OK and MT_CONNECTION_OPEN. Who logs in, to which virtual host, and what
 * the other end can do stands there. The payload of the method of this kind is written into `room`, which is the
 * caller's, and stays; mt_method_read reads it. As long as an end keeps it, it may be asked for again.
 *
 * MT_NOT_THERE where none of this kind was heard, of kinds that aren't kept, and once it is forgotten;
 * MT_UNKNOWN_METHOD where no method is of this kind. With any status but MT_OK the room is as it was. */
uint32_t mt_end_heard(mt_end *end, uint32_t kind, uint8_t *room, size_t capacity, mt_written *written);

/* Forgets what the other end said in the handshake, its credentials among it. What was written into a caller's room is
 * the caller's to forget. */
uint32_t mt_end_forget_heard(mt_end *end);

/* What the last close of the other end was about, of a channel or of the connection, of which an event told: the class
 * and the method that it names, both 0 where it names none. MT_NOT_THERE where there was no close. */
uint32_t mt_end_closed_for(mt_end *end, uint16_t *class_id, uint16_t *method_id);

/* The state of a channel. */
enum { MT_STATE_FREE = 1, MT_STATE_OPENING = 2, MT_STATE_OPEN = 3, MT_STATE_CLOSING = 4 };

/* What an end answers of a channel: its state; how many octets are kept of the body of a content that isn't whole yet;
 * and the kind of the request that is to be answered next, at a client the one that waits for its reply, at a server
 * the oldest that it took, or 0. */
typedef struct mt_channel {
	size_t gathered;
	uint32_t reply_due;
	uint8_t state;
} mt_channel;

uint32_t mt_end_channel(mt_end *end, uint16_t channel, mt_channel *told);

/* The lowest channel that is free, which an mt_end_open_channel would take; MT_ASK_NO_FREE_CHANNEL where none is. It
 * asks one channel after the other. */
uint32_t mt_end_lowest_free(mt_end *end, uint16_t *channel);

/* How many octets wait of a channel, put and not sent. All frames that wait are looked at. */
uint32_t mt_end_waiting(mt_end *end, uint16_t channel, size_t *octets);

/* How many frames the end took, heartbeats too, and how many octets of its output were sent: where these are the same at
 * two looks, nothing came or went between them. They stay at the greatest number of 64 bits. */
uint32_t mt_end_counters(mt_end *end, uint64_t *frames_taken, uint64_t *octets_written);

/* How many octets the end took in all, also those with which it found fault. It stays at the greatest number of 64
 * bits. */
uint32_t mt_end_octets_taken(mt_end *end, uint64_t *octets);

/* How many octets were taken of a frame that isn't whole yet, or of the protocol header. */
uint32_t mt_end_pending(mt_end *end, size_t *pending);

/* How many octets the end keeps for its peer: of each channel the payloads of the method and of the header of the
 * content under way and what has come of its body, and those that are pending. Neither this nor the next looks at the channels one by one. */
uint32_t mt_end_kept(mt_end *end, size_t *octets);

/* How many octets are kept of the bodies of contents that aren't whole yet, on all channels: the sum of `gathered`. */
uint32_t mt_end_gathered_in_all(mt_end *end, size_t *octets);

/* The rules that the other end can break, each with the code of the close that is put for it. Where there is no code, no
 * close is put, since none could be read. */
enum {
	MT_RULE_PROTOCOL_HEADER = 1,    /* a server hears the protocol header first, of this version */
	MT_RULE_FRAME_TYPE = 2,         /* a frame is of a type that there is */
	MT_RULE_FRAME_SIZE = 3,         /* a frame is no longer than the limit: 501 */
	MT_RULE_FRAME_END = 4,          /* a frame ends with its end octet */
	MT_RULE_FRAME_MEMORY = 5,       /* never blamed: there is no memory for a frame */
	MT_RULE_FRAME_FAILED = 6,       /* never blamed: octets after a fault */
	MT_RULE_HEARTBEAT_EMPTY = 7,    /* a heartbeat is empty: 501 */
	MT_RULE_HEARTBEAT_ON_ZERO = 8,  /* a heartbeat stands on channel 0: 501 */
	MT_RULE_KNOWN_METHOD = 9,       /* a method is one that there is: 540 */
	MT_RULE_NO_SECURE = 10,         /* connection.secure is not implemented: 540 */
	MT_RULE_SYNTAX = 11,            /* a method or a header is read to its end: 502 */
	MT_RULE_HANDSHAKE_ORDER = 12,   /* in the handshake comes its next method, or a close: 503 */
	MT_RULE_TUNE_FRAME_SIZE = 13,   /* tune allows frames of 4096 octets: 501 */
	MT_RULE_TUNE_OK_RANGE = 14,     /* tune-ok stays within the limits of tune */
	MT_RULE_HANDSHAKE_IS_OVER = 15, /* after the handshake none of its methods comes: 503 */
	MT_RULE_CONNECTION_ON_ZERO = 16, /* methods of the class connection stand on channel 0: 503 */
	MT_RULE_SENT_BY_SIDE = 17,      /* the side may send the method: 503 */
	MT_RULE_WAS_ASKED = 18,         /* what answers was asked for: 503 */
	MT_RULE_NOT_ON_ZERO = 19,       /* channel 0 carries what is of the connection: 504 */
	MT_RULE_CHANNEL_MAXIMUM = 20,   /* a channel's number is at most the agreed one: 504 */
	MT_RULE_OPENED_ONCE = 21,       /* a channel that is open isn't opened again: 504 */
	MT_RULE_CHANNEL_OPEN = 22,      /* the channel is open: 504 */
	MT_RULE_HEADER_DUE = 23,        /* after the method of a content comes its header: 505 */
	MT_RULE_BODY_DUE = 24,          /* after a header come parts of the body until it is whole: 505 */
	MT_RULE_CONTENT_BEGUN = 25,     /* a header or a part of a body belongs to a content: 505 */
	MT_RULE_BODY_SIZE = 26,         /* a body is no longer than its header said: 501 */
	MT_RULE_WAITING_REQUESTS = 27,  /* at most 1,024 requests of a channel wait for their replies: 506 */
	MT_RULE_CONTENT_SIZE = 28       /* never blamed: a content is no larger than the end takes */
};

/* What was wrong with the octets with which an end found fault. `octet` is the place in the stream, counted from 0,
 * where the frame or the protocol header at fault begins. `frame` is the frame's type octet, or 0 where no frame is
 * whole; the channel and the kind of the method, 0 where its first octets name none, are that frame's. Where a method or
 * a header can't be read, `field` is the status of what is wrong with it, as MT_TRAILING, and `field_at` its place in
 * the payload. `code` is that of the close which was put, or 0, and `rule` the rule that was broken. */
typedef struct mt_blame {
	uint64_t octet;
	size_t field_at;
	uint32_t field;
	uint32_t method;
	uint16_t channel;
	uint16_t code;
	uint8_t frame;
	uint8_t rule;
} mt_blame;

/* MT_NOT_THERE where the end found no fault with octets, as where memory was refused. */
uint32_t mt_end_blame(mt_end *end, mt_blame *blame);

/* The same as a line for a log, which a 0 ends: "octet 1043, channel 3: basic.ack while a header is due (505)". 256
 * octets are room for each. MT_NO_ROOM where `capacity` is less than the line wants; the room is then as it was. */
uint32_t mt_end_blame_line(mt_end *end, char *room, size_t capacity);

#ifdef __cplusplus
}
#endif

#include "meadowtray_methods.h"

#endif
