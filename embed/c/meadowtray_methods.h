/* The methods of AMQP 0-9-1, by name. Included by meadowtray.h.
 *
 * Written by tools/c_methods.py from the table of methods in docs/PROTOCOL.md: change those and run it again. */
#ifndef MEADOWTRAY_METHODS_H
#define MEADOWTRAY_METHODS_H

#ifdef __cplusplus
extern "C" {
#endif

/* The kind of a method: its class id times 65536, plus its method id. */
enum {
	MT_CONNECTION_START = 655370,
	MT_CONNECTION_START_OK = 655371,
	MT_CONNECTION_SECURE = 655380,
	MT_CONNECTION_SECURE_OK = 655381,
	MT_CONNECTION_TUNE = 655390,
	MT_CONNECTION_TUNE_OK = 655391,
	MT_CONNECTION_OPEN = 655400,
	MT_CONNECTION_OPEN_OK = 655401,
	MT_CONNECTION_CLOSE = 655410,
	MT_CONNECTION_CLOSE_OK = 655411,
	MT_CONNECTION_BLOCKED = 655420,
	MT_CONNECTION_UNBLOCKED = 655421,
	MT_CHANNEL_OPEN = 1310730,
	MT_CHANNEL_OPEN_OK = 1310731,
	MT_CHANNEL_FLOW = 1310740,
	MT_CHANNEL_FLOW_OK = 1310741,
	MT_CHANNEL_CLOSE = 1310760,
	MT_CHANNEL_CLOSE_OK = 1310761,
	MT_EXCHANGE_DECLARE = 2621450,
	MT_EXCHANGE_DECLARE_OK = 2621451,
	MT_EXCHANGE_DELETE = 2621460,
	MT_EXCHANGE_DELETE_OK = 2621461,
	MT_EXCHANGE_BIND = 2621470,
	MT_EXCHANGE_BIND_OK = 2621471,
	MT_EXCHANGE_UNBIND = 2621480,
	MT_EXCHANGE_UNBIND_OK = 2621491,
	MT_QUEUE_DECLARE = 3276810,
	MT_QUEUE_DECLARE_OK = 3276811,
	MT_QUEUE_BIND = 3276820,
	MT_QUEUE_BIND_OK = 3276821,
	MT_QUEUE_UNBIND = 3276850,
	MT_QUEUE_UNBIND_OK = 3276851,
	MT_QUEUE_PURGE = 3276830,
	MT_QUEUE_PURGE_OK = 3276831,
	MT_QUEUE_DELETE = 3276840,
	MT_QUEUE_DELETE_OK = 3276841,
	MT_BASIC_QOS = 3932170,
	MT_BASIC_QOS_OK = 3932171,
	MT_BASIC_CONSUME = 3932180,
	MT_BASIC_CONSUME_OK = 3932181,
	MT_BASIC_CANCEL = 3932190,
	MT_BASIC_CANCEL_OK = 3932191,
	MT_BASIC_PUBLISH = 3932200,
	MT_BASIC_RETURN = 3932210,
	MT_BASIC_DELIVER = 3932220,
	MT_BASIC_GET = 3932230,
	MT_BASIC_GET_OK = 3932231,
	MT_BASIC_GET_EMPTY = 3932232,
	MT_BASIC_ACK = 3932240,
	MT_BASIC_REJECT = 3932250,
	MT_BASIC_RECOVER_ASYNC = 3932260,
	MT_BASIC_RECOVER = 3932270,
	MT_BASIC_RECOVER_OK = 3932271,
	MT_BASIC_NACK = 3932280,
	MT_TX_SELECT = 5898250,
	MT_TX_SELECT_OK = 5898251,
	MT_TX_COMMIT = 5898260,
	MT_TX_COMMIT_OK = 5898261,
	MT_TX_ROLLBACK = 5898270,
	MT_TX_ROLLBACK_OK = 5898271,
	MT_CONFIRM_SELECT = 5570570,
	MT_CONFIRM_SELECT_OK = 5570571
};

/* For each method with fields follow a structure with them, a function that fills it from a method that was read, and
 * one that writes such a method; for one without fields, this last alone. The first answers false, and writes
 * nothing, where the method is of another kind; the second does what mt_method_write does. A table without octets is
 * one of no pairs. */

/* connection.start, class 10, method 10 */
typedef struct mt_connection_start {
	uint8_t version_major;
	uint8_t version_minor;
	mt_octets server_properties;
	mt_octets mechanisms;
	mt_octets locales;
} mt_connection_start;

static inline bool mt_as_connection_start(const mt_method *method, mt_connection_start *fields)
{
	if (method->kind != MT_CONNECTION_START)
		return false;
	fields->version_major = (uint8_t)method->fields[0].number;
	fields->version_minor = (uint8_t)method->fields[1].number;
	fields->server_properties = mt_octets_of(&method->fields[2]);
	fields->mechanisms = mt_octets_of(&method->fields[3]);
	fields->locales = mt_octets_of(&method->fields[4]);
	return true;
}

static inline uint32_t mt_write_connection_start(const mt_connection_start *fields,
		uint8_t *room, size_t capacity, mt_written *written)
{
	mt_value values[5];

	values[0] = mt_number_value(MT_OCTET, fields->version_major);
	values[1] = mt_number_value(MT_OCTET, fields->version_minor);
	values[2] = mt_table_value(fields->server_properties);
	values[3] = mt_octets_value(MT_LONG_STRING, fields->mechanisms);
	values[4] = mt_octets_value(MT_LONG_STRING, fields->locales);
	return mt_method_write(MT_CONNECTION_START, values, 5, room, capacity, written);
}

/* connection.start-ok, class 10, method 11 */
typedef struct mt_connection_start_ok {
	mt_octets client_properties;
	mt_octets mechanism;
	mt_octets response;
	mt_octets locale;
} mt_connection_start_ok;

static inline bool mt_as_connection_start_ok(const mt_method *method, mt_connection_start_ok *fields)
{
	if (method->kind != MT_CONNECTION_START_OK)
		return false;
	fields->client_properties = mt_octets_of(&method->fields[0]);
	fields->mechanism = mt_octets_of(&method->fields[1]);
	fields->response = mt_octets_of(&method->fields[2]);
	fields->locale = mt_octets_of(&method->fields[3]);
	return true;
}

static inline uint32_t mt_write_connection_start_ok(const mt_connection_start_ok *fields,
		uint8_t *room, size_t capacity, mt_written *written)
{
	mt_value values[4];

	values[0] = mt_table_value(fields->client_properties);
	values[1] = mt_octets_value(MT_SHORT_STRING, fields->mechanism);
	values[2] = mt_octets_value(MT_LONG_STRING, fields->response);
	values[3] = mt_octets_value(MT_SHORT_STRING, fields->locale);
	return mt_method_write(MT_CONNECTION_START_OK, values, 4, room, capacity, written);
}

/* connection.secure, class 10, method 20 */
typedef struct mt_connection_secure {
	mt_octets challenge;
} mt_connection_secure;

static inline bool mt_as_connection_secure(const mt_method *method, mt_connection_secure *fields)
{
	if (method->kind != MT_CONNECTION_SECURE)
		return false;
	fields->challenge = mt_octets_of(&method->fields[0]);
	return true;
}

static inline uint32_t mt_write_connection_secure(const mt_connection_secure *fields,
		uint8_t *room, size_t capacity, mt_written *written)
{
	mt_value values[1];

	values[0] = mt_octets_value(MT_LONG_STRING, fields->challenge);
	return mt_method_write(MT_CONNECTION_SECURE, values, 1, room, capacity, written);
}

/* connection.secure-ok, class 10, method 21 */
typedef struct mt_connection_secure_ok {
	mt_octets response;
} mt_connection_secure_ok;

static inline bool mt_as_connection_secure_ok(const mt_method *method, mt_connection_secure_ok *fields)
{
	if (method->kind != MT_CONNECTION_SECURE_OK)
		return false;
	fields->response = mt_octets_of(&method->fields[0]);
	return true;
}

static inline uint32_t mt_write_connection_secure_ok(const mt_connection_secure_ok *fields,
		uint8_t *room, size_t capacity, mt_written *written)
{
	mt_value values[1];

	values[0] = mt_octets_value(MT_LONG_STRING, fields->response);
	return mt_method_write(MT_CONNECTION_SECURE_OK, values, 1, room, capacity, written);
}

/* connection.tune, class 10, method 30 */
typedef struct mt_connection_tune {
	uint16_t channel_max;
	uint32_t frame_max;
	uint16_t heartbeat;
} mt_connection_tune;

static inline bool mt_as_connection_tune(const mt_method *method, mt_connection_tune *fields)
{
	if (method->kind != MT_CONNECTION_TUNE)
		return false;
	fields->channel_max = (uint16_t)method->fields[0].number;
	fields->frame_max = (uint32_t)method->fields[1].number;
	fields->heartbeat = (uint16_t)method->fields[2].number;
	return true;
}

static inline uint32_t mt_write_connection_tune(const mt_connection_tune *fields,
		uint8_t *room, size_t capacity, mt_written *written)
{
	mt_value values[3];

	values[0] = mt_number_value(MT_SHORT, fields->channel_max);
	values[1] = mt_number_value(MT_LONG, fields->frame_max);
	values[2] = mt_number_value(MT_SHORT, fields->heartbeat);
	return mt_method_write(MT_CONNECTION_TUNE, values, 3, room, capacity, written);
}

/* connection.tune-ok, class 10, method 31 */
typedef struct mt_connection_tune_ok {
	uint16_t channel_max;
	uint32_t frame_max;
	uint16_t heartbeat;
} mt_connection_tune_ok;

static inline bool mt_as_connection_tune_ok(const mt_method *method, mt_connection_tune_ok *fields)
{
	if (method->kind != MT_CONNECTION_TUNE_OK)
		return false;
	fields->channel_max = (uint16_t)method->fields[0].number;
	fields->frame_max = (uint32_t)method->fields[1].number;
	fields->heartbeat = (uint16_t)method->fields[2].number;
	return true;
}

static inline uint32_t mt_write_connection_tune_ok(const mt_connection_tune_ok *fields,
		uint8_t *room, size_t capacity, mt_written *written)
{
	mt_value values[3];

	values[0] = mt_number_value(MT_SHORT, fields->channel_max);
	values[1] = mt_number_value(MT_LONG, fields->frame_max);
	values[2] = mt_number_value(MT_SHORT, fields->heartbeat);
	return mt_method_write(MT_CONNECTION_TUNE_OK, values, 3, room, capacity, written);
}

/* connection.open, class 10, method 40 */
typedef struct mt_connection_open {
	mt_octets virtual_host;
} mt_connection_open;

static inline bool mt_as_connection_open(const mt_method *method, mt_connection_open *fields)
{
	if (method->kind != MT_CONNECTION_OPEN)
		return false;
	fields->virtual_host = mt_octets_of(&method->fields[0]);
	return true;
}

static inline uint32_t mt_write_connection_open(const mt_connection_open *fields,
		uint8_t *room, size_t capacity, mt_written *written)
{
	mt_value values[1];

	values[0] = mt_octets_value(MT_SHORT_STRING, fields->virtual_host);
	return mt_method_write(MT_CONNECTION_OPEN, values, 1, room, capacity, written);
}

/* connection.open-ok, class 10, method 41 */
static inline uint32_t mt_write_connection_open_ok(uint8_t *room, size_t capacity, mt_written *written)
{
	return mt_method_write(MT_CONNECTION_OPEN_OK, NULL, 0, room, capacity, written);
}

/* connection.close, class 10, method 50 */
typedef struct mt_connection_close {
	uint16_t reply_code;
	mt_octets reply_text;
	uint16_t class_id;
	uint16_t method_id;
} mt_connection_close;

static inline bool mt_as_connection_close(const mt_method *method, mt_connection_close *fields)
{
	if (method->kind != MT_CONNECTION_CLOSE)
		return false;
	fields->reply_code = (uint16_t)method->fields[0].number;
	fields->reply_text = mt_octets_of(&method->fields[1]);
	fields->class_id = (uint16_t)method->fields[2].number;
	fields->method_id = (uint16_t)method->fields[3].number;
	return true;
}

static inline uint32_t mt_write_connection_close(const mt_connection_close *fields,
		uint8_t *room, size_t capacity, mt_written *written)
{
	mt_value values[4];

	values[0] = mt_number_value(MT_SHORT, fields->reply_code);
	values[1] = mt_octets_value(MT_SHORT_STRING, fields->reply_text);
	values[2] = mt_number_value(MT_SHORT, fields->class_id);
	values[3] = mt_number_value(MT_SHORT, fields->method_id);
	return mt_method_write(MT_CONNECTION_CLOSE, values, 4, room, capacity, written);
}

/* connection.close-ok, class 10, method 51 */
static inline uint32_t mt_write_connection_close_ok(uint8_t *room, size_t capacity, mt_written *written)
{
	return mt_method_write(MT_CONNECTION_CLOSE_OK, NULL, 0, room, capacity, written);
}

/* connection.blocked, class 10, method 60 */
typedef struct mt_connection_blocked {
	mt_octets reason;
} mt_connection_blocked;

static inline bool mt_as_connection_blocked(const mt_method *method, mt_connection_blocked *fields)
{
	if (method->kind != MT_CONNECTION_BLOCKED)
		return false;
	fields->reason = mt_octets_of(&method->fields[0]);
	return true;
}

static inline uint32_t mt_write_connection_blocked(const mt_connection_blocked *fields,
		uint8_t *room, size_t capacity, mt_written *written)
{
	mt_value values[1];

	values[0] = mt_octets_value(MT_SHORT_STRING, fields->reason);
	return mt_method_write(MT_CONNECTION_BLOCKED, values, 1, room, capacity, written);
}

/* connection.unblocked, class 10, method 61 */
static inline uint32_t mt_write_connection_unblocked(uint8_t *room, size_t capacity, mt_written *written)
{
	return mt_method_write(MT_CONNECTION_UNBLOCKED, NULL, 0, room, capacity, written);
}

/* channel.open, class 20, method 10 */
static inline uint32_t mt_write_channel_open(uint8_t *room, size_t capacity, mt_written *written)
{
	return mt_method_write(MT_CHANNEL_OPEN, NULL, 0, room, capacity, written);
}

/* channel.open-ok, class 20, method 11 */
static inline uint32_t mt_write_channel_open_ok(uint8_t *room, size_t capacity, mt_written *written)
{
	return mt_method_write(MT_CHANNEL_OPEN_OK, NULL, 0, room, capacity, written);
}

/* channel.flow, class 20, method 20 */
typedef struct mt_channel_flow {
	bool active;
} mt_channel_flow;

static inline bool mt_as_channel_flow(const mt_method *method, mt_channel_flow *fields)
{
	if (method->kind != MT_CHANNEL_FLOW)
		return false;
	fields->active = method->fields[0].number != 0;
	return true;
}

static inline uint32_t mt_write_channel_flow(const mt_channel_flow *fields,
		uint8_t *room, size_t capacity, mt_written *written)
{
	mt_value values[1];

	values[0] = mt_number_value(MT_BIT, fields->active);
	return mt_method_write(MT_CHANNEL_FLOW, values, 1, room, capacity, written);
}

/* channel.flow-ok, class 20, method 21 */
typedef struct mt_channel_flow_ok {
	bool active;
} mt_channel_flow_ok;

static inline bool mt_as_channel_flow_ok(const mt_method *method, mt_channel_flow_ok *fields)
{
	if (method->kind != MT_CHANNEL_FLOW_OK)
		return false;
	fields->active = method->fields[0].number != 0;
	return true;
}

static inline uint32_t mt_write_channel_flow_ok(const mt_channel_flow_ok *fields,
		uint8_t *room, size_t capacity, mt_written *written)
{
	mt_value values[1];

	values[0] = mt_number_value(MT_BIT, fields->active);
	return mt_method_write(MT_CHANNEL_FLOW_OK, values, 1, room, capacity, written);
}

/* channel.close, class 20, method 40 */
typedef struct mt_channel_close {
	uint16_t reply_code;
	mt_octets reply_text;
	uint16_t class_id;
	uint16_t method_id;
} mt_channel_close;

static inline bool mt_as_channel_close(const mt_method *method, mt_channel_close *fields)
{
	if (method->kind != MT_CHANNEL_CLOSE)
		return false;
	fields->reply_code = (uint16_t)method->fields[0].number;
	fields->reply_text = mt_octets_of(&method->fields[1]);
	fields->class_id = (uint16_t)method->fields[2].number;
	fields->method_id = (uint16_t)method->fields[3].number;
	return true;
}

static inline uint32_t mt_write_channel_close(const mt_channel_close *fields,
		uint8_t *room, size_t capacity, mt_written *written)
{
	mt_value values[4];

	values[0] = mt_number_value(MT_SHORT, fields->reply_code);
	values[1] = mt_octets_value(MT_SHORT_STRING, fields->reply_text);
	values[2] = mt_number_value(MT_SHORT, fields->class_id);
	values[3] = mt_number_value(MT_SHORT, fields->method_id);
	return mt_method_write(MT_CHANNEL_CLOSE, values, 4, room, capacity, written);
}

/* channel.close-ok, class 20, method 41 */
static inline uint32_t mt_write_channel_close_ok(uint8_t *room, size_t capacity, mt_written *written)
{
	return mt_method_write(MT_CHANNEL_CLOSE_OK, NULL, 0, room, capacity, written);
}

/* exchange.declare, class 40, method 10 */
typedef struct mt_exchange_declare {
	mt_octets exchange;
	mt_octets type;
	bool passive;
	bool durable;
	bool auto_delete;
	bool internal;
	bool no_wait;
	mt_octets arguments;
} mt_exchange_declare;

static inline bool mt_as_exchange_declare(const mt_method *method, mt_exchange_declare *fields)
{
	if (method->kind != MT_EXCHANGE_DECLARE)
		return false;
	fields->exchange = mt_octets_of(&method->fields[0]);
	fields->type = mt_octets_of(&method->fields[1]);
	fields->passive = method->fields[2].number != 0;
	fields->durable = method->fields[3].number != 0;
	fields->auto_delete = method->fields[4].number != 0;
	fields->internal = method->fields[5].number != 0;
	fields->no_wait = method->fields[6].number != 0;
	fields->arguments = mt_octets_of(&method->fields[7]);
	return true;
}

static inline uint32_t mt_write_exchange_declare(const mt_exchange_declare *fields,
		uint8_t *room, size_t capacity, mt_written *written)
{
	mt_value values[8];

	values[0] = mt_octets_value(MT_SHORT_STRING, fields->exchange);
	values[1] = mt_octets_value(MT_SHORT_STRING, fields->type);
	values[2] = mt_number_value(MT_BIT, fields->passive);
	values[3] = mt_number_value(MT_BIT, fields->durable);
	values[4] = mt_number_value(MT_BIT, fields->auto_delete);
	values[5] = mt_number_value(MT_BIT, fields->internal);
	values[6] = mt_number_value(MT_BIT, fields->no_wait);
	values[7] = mt_table_value(fields->arguments);
	return mt_method_write(MT_EXCHANGE_DECLARE, values, 8, room, capacity, written);
}

/* exchange.declare-ok, class 40, method 11 */
static inline uint32_t mt_write_exchange_declare_ok(uint8_t *room, size_t capacity, mt_written *written)
{
	return mt_method_write(MT_EXCHANGE_DECLARE_OK, NULL, 0, room, capacity, written);
}

/* exchange.delete, class 40, method 20 */
typedef struct mt_exchange_delete {
	mt_octets exchange;
	bool if_unused;
	bool no_wait;
} mt_exchange_delete;

static inline bool mt_as_exchange_delete(const mt_method *method, mt_exchange_delete *fields)
{
	if (method->kind != MT_EXCHANGE_DELETE)
		return false;
	fields->exchange = mt_octets_of(&method->fields[0]);
	fields->if_unused = method->fields[1].number != 0;
	fields->no_wait = method->fields[2].number != 0;
	return true;
}

static inline uint32_t mt_write_exchange_delete(const mt_exchange_delete *fields,
		uint8_t *room, size_t capacity, mt_written *written)
{
	mt_value values[3];

	values[0] = mt_octets_value(MT_SHORT_STRING, fields->exchange);
	values[1] = mt_number_value(MT_BIT, fields->if_unused);
	values[2] = mt_number_value(MT_BIT, fields->no_wait);
	return mt_method_write(MT_EXCHANGE_DELETE, values, 3, room, capacity, written);
}

/* exchange.delete-ok, class 40, method 21 */
static inline uint32_t mt_write_exchange_delete_ok(uint8_t *room, size_t capacity, mt_written *written)
{
	return mt_method_write(MT_EXCHANGE_DELETE_OK, NULL, 0, room, capacity, written);
}

/* exchange.bind, class 40, method 30 */
typedef struct mt_exchange_bind {
	mt_octets destination;
	mt_octets source;
	mt_octets routing_key;
	bool no_wait;
	mt_octets arguments;
} mt_exchange_bind;

static inline bool mt_as_exchange_bind(const mt_method *method, mt_exchange_bind *fields)
{
	if (method->kind != MT_EXCHANGE_BIND)
		return false;
	fields->destination = mt_octets_of(&method->fields[0]);
	fields->source = mt_octets_of(&method->fields[1]);
	fields->routing_key = mt_octets_of(&method->fields[2]);
	fields->no_wait = method->fields[3].number != 0;
	fields->arguments = mt_octets_of(&method->fields[4]);
	return true;
}

static inline uint32_t mt_write_exchange_bind(const mt_exchange_bind *fields,
		uint8_t *room, size_t capacity, mt_written *written)
{
	mt_value values[5];

	values[0] = mt_octets_value(MT_SHORT_STRING, fields->destination);
	values[1] = mt_octets_value(MT_SHORT_STRING, fields->source);
	values[2] = mt_octets_value(MT_SHORT_STRING, fields->routing_key);
	values[3] = mt_number_value(MT_BIT, fields->no_wait);
	values[4] = mt_table_value(fields->arguments);
	return mt_method_write(MT_EXCHANGE_BIND, values, 5, room, capacity, written);
}

/* exchange.bind-ok, class 40, method 31 */
static inline uint32_t mt_write_exchange_bind_ok(uint8_t *room, size_t capacity, mt_written *written)
{
	return mt_method_write(MT_EXCHANGE_BIND_OK, NULL, 0, room, capacity, written);
}

/* exchange.unbind, class 40, method 40 */
typedef struct mt_exchange_unbind {
	mt_octets destination;
	mt_octets source;
	mt_octets routing_key;
	bool no_wait;
	mt_octets arguments;
} mt_exchange_unbind;

static inline bool mt_as_exchange_unbind(const mt_method *method, mt_exchange_unbind *fields)
{
	if (method->kind != MT_EXCHANGE_UNBIND)
		return false;
	fields->destination = mt_octets_of(&method->fields[0]);
	fields->source = mt_octets_of(&method->fields[1]);
	fields->routing_key = mt_octets_of(&method->fields[2]);
	fields->no_wait = method->fields[3].number != 0;
	fields->arguments = mt_octets_of(&method->fields[4]);
	return true;
}

static inline uint32_t mt_write_exchange_unbind(const mt_exchange_unbind *fields,
		uint8_t *room, size_t capacity, mt_written *written)
{
	mt_value values[5];

	values[0] = mt_octets_value(MT_SHORT_STRING, fields->destination);
	values[1] = mt_octets_value(MT_SHORT_STRING, fields->source);
	values[2] = mt_octets_value(MT_SHORT_STRING, fields->routing_key);
	values[3] = mt_number_value(MT_BIT, fields->no_wait);
	values[4] = mt_table_value(fields->arguments);
	return mt_method_write(MT_EXCHANGE_UNBIND, values, 5, room, capacity, written);
}

/* exchange.unbind-ok, class 40, method 51 */
static inline uint32_t mt_write_exchange_unbind_ok(uint8_t *room, size_t capacity, mt_written *written)
{
	return mt_method_write(MT_EXCHANGE_UNBIND_OK, NULL, 0, room, capacity, written);
}

/* queue.declare, class 50, method 10 */
typedef struct mt_queue_declare {
	mt_octets queue;
	bool passive;
	bool durable;
	bool exclusive;
	bool auto_delete;
	bool no_wait;
	mt_octets arguments;
} mt_queue_declare;

static inline bool mt_as_queue_declare(const mt_method *method, mt_queue_declare *fields)
{
	if (method->kind != MT_QUEUE_DECLARE)
		return false;
	fields->queue = mt_octets_of(&method->fields[0]);
	fields->passive = method->fields[1].number != 0;
	fields->durable = method->fields[2].number != 0;
	fields->exclusive = method->fields[3].number != 0;
	fields->auto_delete = method->fields[4].number != 0;
	fields->no_wait = method->fields[5].number != 0;
	fields->arguments = mt_octets_of(&method->fields[6]);
	return true;
}

static inline uint32_t mt_write_queue_declare(const mt_queue_declare *fields,
		uint8_t *room, size_t capacity, mt_written *written)
{
	mt_value values[7];

	values[0] = mt_octets_value(MT_SHORT_STRING, fields->queue);
	values[1] = mt_number_value(MT_BIT, fields->passive);
	values[2] = mt_number_value(MT_BIT, fields->durable);
	values[3] = mt_number_value(MT_BIT, fields->exclusive);
	values[4] = mt_number_value(MT_BIT, fields->auto_delete);
	values[5] = mt_number_value(MT_BIT, fields->no_wait);
	values[6] = mt_table_value(fields->arguments);
	return mt_method_write(MT_QUEUE_DECLARE, values, 7, room, capacity, written);
}

/* queue.declare-ok, class 50, method 11 */
typedef struct mt_queue_declare_ok {
	mt_octets queue;
	uint32_t message_count;
	uint32_t consumer_count;
} mt_queue_declare_ok;

static inline bool mt_as_queue_declare_ok(const mt_method *method, mt_queue_declare_ok *fields)
{
	if (method->kind != MT_QUEUE_DECLARE_OK)
		return false;
	fields->queue = mt_octets_of(&method->fields[0]);
	fields->message_count = (uint32_t)method->fields[1].number;
	fields->consumer_count = (uint32_t)method->fields[2].number;
	return true;
}

static inline uint32_t mt_write_queue_declare_ok(const mt_queue_declare_ok *fields,
		uint8_t *room, size_t capacity, mt_written *written)
{
	mt_value values[3];

	values[0] = mt_octets_value(MT_SHORT_STRING, fields->queue);
	values[1] = mt_number_value(MT_LONG, fields->message_count);
	values[2] = mt_number_value(MT_LONG, fields->consumer_count);
	return mt_method_write(MT_QUEUE_DECLARE_OK, values, 3, room, capacity, written);
}

/* queue.bind, class 50, method 20 */
typedef struct mt_queue_bind {
	mt_octets queue;
	mt_octets exchange;
	mt_octets routing_key;
	bool no_wait;
	mt_octets arguments;
} mt_queue_bind;

static inline bool mt_as_queue_bind(const mt_method *method, mt_queue_bind *fields)
{
	if (method->kind != MT_QUEUE_BIND)
		return false;
	fields->queue = mt_octets_of(&method->fields[0]);
	fields->exchange = mt_octets_of(&method->fields[1]);
	fields->routing_key = mt_octets_of(&method->fields[2]);
	fields->no_wait = method->fields[3].number != 0;
	fields->arguments = mt_octets_of(&method->fields[4]);
	return true;
}

static inline uint32_t mt_write_queue_bind(const mt_queue_bind *fields,
		uint8_t *room, size_t capacity, mt_written *written)
{
	mt_value values[5];

	values[0] = mt_octets_value(MT_SHORT_STRING, fields->queue);
	values[1] = mt_octets_value(MT_SHORT_STRING, fields->exchange);
	values[2] = mt_octets_value(MT_SHORT_STRING, fields->routing_key);
	values[3] = mt_number_value(MT_BIT, fields->no_wait);
	values[4] = mt_table_value(fields->arguments);
	return mt_method_write(MT_QUEUE_BIND, values, 5, room, capacity, written);
}

/* queue.bind-ok, class 50, method 21 */
static inline uint32_t mt_write_queue_bind_ok(uint8_t *room, size_t capacity, mt_written *written)
{
	return mt_method_write(MT_QUEUE_BIND_OK, NULL, 0, room, capacity, written);
}

/* queue.unbind, class 50, method 50 */
typedef struct mt_queue_unbind {
	mt_octets queue;
	mt_octets exchange;
	mt_octets routing_key;
	mt_octets arguments;
} mt_queue_unbind;

static inline bool mt_as_queue_unbind(const mt_method *method, mt_queue_unbind *fields)
{
	if (method->kind != MT_QUEUE_UNBIND)
		return false;
	fields->queue = mt_octets_of(&method->fields[0]);
	fields->exchange = mt_octets_of(&method->fields[1]);
	fields->routing_key = mt_octets_of(&method->fields[2]);
	fields->arguments = mt_octets_of(&method->fields[3]);
	return true;
}

static inline uint32_t mt_write_queue_unbind(const mt_queue_unbind *fields,
		uint8_t *room, size_t capacity, mt_written *written)
{
	mt_value values[4];

	values[0] = mt_octets_value(MT_SHORT_STRING, fields->queue);
	values[1] = mt_octets_value(MT_SHORT_STRING, fields->exchange);
	values[2] = mt_octets_value(MT_SHORT_STRING, fields->routing_key);
	values[3] = mt_table_value(fields->arguments);
	return mt_method_write(MT_QUEUE_UNBIND, values, 4, room, capacity, written);
}

/* queue.unbind-ok, class 50, method 51 */
static inline uint32_t mt_write_queue_unbind_ok(uint8_t *room, size_t capacity, mt_written *written)
{
	return mt_method_write(MT_QUEUE_UNBIND_OK, NULL, 0, room, capacity, written);
}

/* queue.purge, class 50, method 30 */
typedef struct mt_queue_purge {
	mt_octets queue;
	bool no_wait;
} mt_queue_purge;

static inline bool mt_as_queue_purge(const mt_method *method, mt_queue_purge *fields)
{
	if (method->kind != MT_QUEUE_PURGE)
		return false;
	fields->queue = mt_octets_of(&method->fields[0]);
	fields->no_wait = method->fields[1].number != 0;
	return true;
}

static inline uint32_t mt_write_queue_purge(const mt_queue_purge *fields,
		uint8_t *room, size_t capacity, mt_written *written)
{
	mt_value values[2];

	values[0] = mt_octets_value(MT_SHORT_STRING, fields->queue);
	values[1] = mt_number_value(MT_BIT, fields->no_wait);
	return mt_method_write(MT_QUEUE_PURGE, values, 2, room, capacity, written);
}

/* queue.purge-ok, class 50, method 31 */
typedef struct mt_queue_purge_ok {
	uint32_t message_count;
} mt_queue_purge_ok;

static inline bool mt_as_queue_purge_ok(const mt_method *method, mt_queue_purge_ok *fields)
{
	if (method->kind != MT_QUEUE_PURGE_OK)
		return false;
	fields->message_count = (uint32_t)method->fields[0].number;
	return true;
}

static inline uint32_t mt_write_queue_purge_ok(const mt_queue_purge_ok *fields,
		uint8_t *room, size_t capacity, mt_written *written)
{
	mt_value values[1];

	values[0] = mt_number_value(MT_LONG, fields->message_count);
	return mt_method_write(MT_QUEUE_PURGE_OK, values, 1, room, capacity, written);
}

/* queue.delete, class 50, method 40 */
typedef struct mt_queue_delete {
	mt_octets queue;
	bool if_unused;
	bool if_empty;
	bool no_wait;
} mt_queue_delete;

static inline bool mt_as_queue_delete(const mt_method *method, mt_queue_delete *fields)
{
	if (method->kind != MT_QUEUE_DELETE)
		return false;
	fields->queue = mt_octets_of(&method->fields[0]);
	fields->if_unused = method->fields[1].number != 0;
	fields->if_empty = method->fields[2].number != 0;
	fields->no_wait = method->fields[3].number != 0;
	return true;
}

static inline uint32_t mt_write_queue_delete(const mt_queue_delete *fields,
		uint8_t *room, size_t capacity, mt_written *written)
{
	mt_value values[4];

	values[0] = mt_octets_value(MT_SHORT_STRING, fields->queue);
	values[1] = mt_number_value(MT_BIT, fields->if_unused);
	values[2] = mt_number_value(MT_BIT, fields->if_empty);
	values[3] = mt_number_value(MT_BIT, fields->no_wait);
	return mt_method_write(MT_QUEUE_DELETE, values, 4, room, capacity, written);
}

/* queue.delete-ok, class 50, method 41 */
typedef struct mt_queue_delete_ok {
	uint32_t message_count;
} mt_queue_delete_ok;

static inline bool mt_as_queue_delete_ok(const mt_method *method, mt_queue_delete_ok *fields)
{
	if (method->kind != MT_QUEUE_DELETE_OK)
		return false;
	fields->message_count = (uint32_t)method->fields[0].number;
	return true;
}

static inline uint32_t mt_write_queue_delete_ok(const mt_queue_delete_ok *fields,
		uint8_t *room, size_t capacity, mt_written *written)
{
	mt_value values[1];

	values[0] = mt_number_value(MT_LONG, fields->message_count);
	return mt_method_write(MT_QUEUE_DELETE_OK, values, 1, room, capacity, written);
}

/* basic.qos, class 60, method 10 */
typedef struct mt_basic_qos {
	uint32_t prefetch_size;
	uint16_t prefetch_count;
	bool global;
} mt_basic_qos;

static inline bool mt_as_basic_qos(const mt_method *method, mt_basic_qos *fields)
{
	if (method->kind != MT_BASIC_QOS)
		return false;
	fields->prefetch_size = (uint32_t)method->fields[0].number;
	fields->prefetch_count = (uint16_t)method->fields[1].number;
	fields->global = method->fields[2].number != 0;
	return true;
}

static inline uint32_t mt_write_basic_qos(const mt_basic_qos *fields,
		uint8_t *room, size_t capacity, mt_written *written)
{
	mt_value values[3];

	values[0] = mt_number_value(MT_LONG, fields->prefetch_size);
	values[1] = mt_number_value(MT_SHORT, fields->prefetch_count);
	values[2] = mt_number_value(MT_BIT, fields->global);
	return mt_method_write(MT_BASIC_QOS, values, 3, room, capacity, written);
}

/* basic.qos-ok, class 60, method 11 */
static inline uint32_t mt_write_basic_qos_ok(uint8_t *room, size_t capacity, mt_written *written)
{
	return mt_method_write(MT_BASIC_QOS_OK, NULL, 0, room, capacity, written);
}

/* basic.consume, class 60, method 20 */
typedef struct mt_basic_consume {
	mt_octets queue;
	mt_octets consumer_tag;
	bool no_local;
	bool no_ack;
	bool exclusive;
	bool no_wait;
	mt_octets arguments;
} mt_basic_consume;

static inline bool mt_as_basic_consume(const mt_method *method, mt_basic_consume *fields)
{
	if (method->kind != MT_BASIC_CONSUME)
		return false;
	fields->queue = mt_octets_of(&method->fields[0]);
	fields->consumer_tag = mt_octets_of(&method->fields[1]);
	fields->no_local = method->fields[2].number != 0;
	fields->no_ack = method->fields[3].number != 0;
	fields->exclusive = method->fields[4].number != 0;
	fields->no_wait = method->fields[5].number != 0;
	fields->arguments = mt_octets_of(&method->fields[6]);
	return true;
}

static inline uint32_t mt_write_basic_consume(const mt_basic_consume *fields,
		uint8_t *room, size_t capacity, mt_written *written)
{
	mt_value values[7];

	values[0] = mt_octets_value(MT_SHORT_STRING, fields->queue);
	values[1] = mt_octets_value(MT_SHORT_STRING, fields->consumer_tag);
	values[2] = mt_number_value(MT_BIT, fields->no_local);
	values[3] = mt_number_value(MT_BIT, fields->no_ack);
	values[4] = mt_number_value(MT_BIT, fields->exclusive);
	values[5] = mt_number_value(MT_BIT, fields->no_wait);
	values[6] = mt_table_value(fields->arguments);
	return mt_method_write(MT_BASIC_CONSUME, values, 7, room, capacity, written);
}

/* basic.consume-ok, class 60, method 21 */
typedef struct mt_basic_consume_ok {
	mt_octets consumer_tag;
} mt_basic_consume_ok;

static inline bool mt_as_basic_consume_ok(const mt_method *method, mt_basic_consume_ok *fields)
{
	if (method->kind != MT_BASIC_CONSUME_OK)
		return false;
	fields->consumer_tag = mt_octets_of(&method->fields[0]);
	return true;
}

static inline uint32_t mt_write_basic_consume_ok(const mt_basic_consume_ok *fields,
		uint8_t *room, size_t capacity, mt_written *written)
{
	mt_value values[1];

	values[0] = mt_octets_value(MT_SHORT_STRING, fields->consumer_tag);
	return mt_method_write(MT_BASIC_CONSUME_OK, values, 1, room, capacity, written);
}

/* basic.cancel, class 60, method 30 */
typedef struct mt_basic_cancel {
	mt_octets consumer_tag;
	bool no_wait;
} mt_basic_cancel;

static inline bool mt_as_basic_cancel(const mt_method *method, mt_basic_cancel *fields)
{
	if (method->kind != MT_BASIC_CANCEL)
		return false;
	fields->consumer_tag = mt_octets_of(&method->fields[0]);
	fields->no_wait = method->fields[1].number != 0;
	return true;
}

static inline uint32_t mt_write_basic_cancel(const mt_basic_cancel *fields,
		uint8_t *room, size_t capacity, mt_written *written)
{
	mt_value values[2];

	values[0] = mt_octets_value(MT_SHORT_STRING, fields->consumer_tag);
	values[1] = mt_number_value(MT_BIT, fields->no_wait);
	return mt_method_write(MT_BASIC_CANCEL, values, 2, room, capacity, written);
}

/* basic.cancel-ok, class 60, method 31 */
typedef struct mt_basic_cancel_ok {
	mt_octets consumer_tag;
} mt_basic_cancel_ok;

static inline bool mt_as_basic_cancel_ok(const mt_method *method, mt_basic_cancel_ok *fields)
{
	if (method->kind != MT_BASIC_CANCEL_OK)
		return false;
	fields->consumer_tag = mt_octets_of(&method->fields[0]);
	return true;
}

static inline uint32_t mt_write_basic_cancel_ok(const mt_basic_cancel_ok *fields,
		uint8_t *room, size_t capacity, mt_written *written)
{
	mt_value values[1];

	values[0] = mt_octets_value(MT_SHORT_STRING, fields->consumer_tag);
	return mt_method_write(MT_BASIC_CANCEL_OK, values, 1, room, capacity, written);
}

/* basic.publish, class 60, method 40 */
typedef struct mt_basic_publish {
	mt_octets exchange;
	mt_octets routing_key;
	bool mandatory;
	bool immediate;
} mt_basic_publish;

static inline bool mt_as_basic_publish(const mt_method *method, mt_basic_publish *fields)
{
	if (method->kind != MT_BASIC_PUBLISH)
		return false;
	fields->exchange = mt_octets_of(&method->fields[0]);
	fields->routing_key = mt_octets_of(&method->fields[1]);
	fields->mandatory = method->fields[2].number != 0;
	fields->immediate = method->fields[3].number != 0;
	return true;
}

static inline uint32_t mt_write_basic_publish(const mt_basic_publish *fields,
		uint8_t *room, size_t capacity, mt_written *written)
{
	mt_value values[4];

	values[0] = mt_octets_value(MT_SHORT_STRING, fields->exchange);
	values[1] = mt_octets_value(MT_SHORT_STRING, fields->routing_key);
	values[2] = mt_number_value(MT_BIT, fields->mandatory);
	values[3] = mt_number_value(MT_BIT, fields->immediate);
	return mt_method_write(MT_BASIC_PUBLISH, values, 4, room, capacity, written);
}

/* basic.return, class 60, method 50 */
typedef struct mt_basic_return {
	uint16_t reply_code;
	mt_octets reply_text;
	mt_octets exchange;
	mt_octets routing_key;
} mt_basic_return;

static inline bool mt_as_basic_return(const mt_method *method, mt_basic_return *fields)
{
	if (method->kind != MT_BASIC_RETURN)
		return false;
	fields->reply_code = (uint16_t)method->fields[0].number;
	fields->reply_text = mt_octets_of(&method->fields[1]);
	fields->exchange = mt_octets_of(&method->fields[2]);
	fields->routing_key = mt_octets_of(&method->fields[3]);
	return true;
}

static inline uint32_t mt_write_basic_return(const mt_basic_return *fields,
		uint8_t *room, size_t capacity, mt_written *written)
{
	mt_value values[4];

	values[0] = mt_number_value(MT_SHORT, fields->reply_code);
	values[1] = mt_octets_value(MT_SHORT_STRING, fields->reply_text);
	values[2] = mt_octets_value(MT_SHORT_STRING, fields->exchange);
	values[3] = mt_octets_value(MT_SHORT_STRING, fields->routing_key);
	return mt_method_write(MT_BASIC_RETURN, values, 4, room, capacity, written);
}

/* basic.deliver, class 60, method 60 */
typedef struct mt_basic_deliver {
	mt_octets consumer_tag;
	uint64_t delivery_tag;
	bool redelivered;
	mt_octets exchange;
	mt_octets routing_key;
} mt_basic_deliver;

static inline bool mt_as_basic_deliver(const mt_method *method, mt_basic_deliver *fields)
{
	if (method->kind != MT_BASIC_DELIVER)
		return false;
	fields->consumer_tag = mt_octets_of(&method->fields[0]);
	fields->delivery_tag = (uint64_t)method->fields[1].number;
	fields->redelivered = method->fields[2].number != 0;
	fields->exchange = mt_octets_of(&method->fields[3]);
	fields->routing_key = mt_octets_of(&method->fields[4]);
	return true;
}

static inline uint32_t mt_write_basic_deliver(const mt_basic_deliver *fields,
		uint8_t *room, size_t capacity, mt_written *written)
{
	mt_value values[5];

	values[0] = mt_octets_value(MT_SHORT_STRING, fields->consumer_tag);
	values[1] = mt_number_value(MT_LONG_LONG, fields->delivery_tag);
	values[2] = mt_number_value(MT_BIT, fields->redelivered);
	values[3] = mt_octets_value(MT_SHORT_STRING, fields->exchange);
	values[4] = mt_octets_value(MT_SHORT_STRING, fields->routing_key);
	return mt_method_write(MT_BASIC_DELIVER, values, 5, room, capacity, written);
}

/* basic.get, class 60, method 70 */
typedef struct mt_basic_get {
	mt_octets queue;
	bool no_ack;
} mt_basic_get;

static inline bool mt_as_basic_get(const mt_method *method, mt_basic_get *fields)
{
	if (method->kind != MT_BASIC_GET)
		return false;
	fields->queue = mt_octets_of(&method->fields[0]);
	fields->no_ack = method->fields[1].number != 0;
	return true;
}

static inline uint32_t mt_write_basic_get(const mt_basic_get *fields,
		uint8_t *room, size_t capacity, mt_written *written)
{
	mt_value values[2];

	values[0] = mt_octets_value(MT_SHORT_STRING, fields->queue);
	values[1] = mt_number_value(MT_BIT, fields->no_ack);
	return mt_method_write(MT_BASIC_GET, values, 2, room, capacity, written);
}

/* basic.get-ok, class 60, method 71 */
typedef struct mt_basic_get_ok {
	uint64_t delivery_tag;
	bool redelivered;
	mt_octets exchange;
	mt_octets routing_key;
	uint32_t message_count;
} mt_basic_get_ok;

static inline bool mt_as_basic_get_ok(const mt_method *method, mt_basic_get_ok *fields)
{
	if (method->kind != MT_BASIC_GET_OK)
		return false;
	fields->delivery_tag = (uint64_t)method->fields[0].number;
	fields->redelivered = method->fields[1].number != 0;
	fields->exchange = mt_octets_of(&method->fields[2]);
	fields->routing_key = mt_octets_of(&method->fields[3]);
	fields->message_count = (uint32_t)method->fields[4].number;
	return true;
}

static inline uint32_t mt_write_basic_get_ok(const mt_basic_get_ok *fields,
		uint8_t *room, size_t capacity, mt_written *written)
{
	mt_value values[5];

	values[0] = mt_number_value(MT_LONG_LONG, fields->delivery_tag);
	values[1] = mt_number_value(MT_BIT, fields->redelivered);
	values[2] = mt_octets_value(MT_SHORT_STRING, fields->exchange);
	values[3] = mt_octets_value(MT_SHORT_STRING, fields->routing_key);
	values[4] = mt_number_value(MT_LONG, fields->message_count);
	return mt_method_write(MT_BASIC_GET_OK, values, 5, room, capacity, written);
}

/* basic.get-empty, class 60, method 72 */
static inline uint32_t mt_write_basic_get_empty(uint8_t *room, size_t capacity, mt_written *written)
{
	return mt_method_write(MT_BASIC_GET_EMPTY, NULL, 0, room, capacity, written);
}

/* basic.ack, class 60, method 80 */
typedef struct mt_basic_ack {
	uint64_t delivery_tag;
	bool multiple;
} mt_basic_ack;

static inline bool mt_as_basic_ack(const mt_method *method, mt_basic_ack *fields)
{
	if (method->kind != MT_BASIC_ACK)
		return false;
	fields->delivery_tag = (uint64_t)method->fields[0].number;
	fields->multiple = method->fields[1].number != 0;
	return true;
}

static inline uint32_t mt_write_basic_ack(const mt_basic_ack *fields,
		uint8_t *room, size_t capacity, mt_written *written)
{
	mt_value values[2];

	values[0] = mt_number_value(MT_LONG_LONG, fields->delivery_tag);
	values[1] = mt_number_value(MT_BIT, fields->multiple);
	return mt_method_write(MT_BASIC_ACK, values, 2, room, capacity, written);
}

/* basic.reject, class 60, method 90 */
typedef struct mt_basic_reject {
	uint64_t delivery_tag;
	bool requeue;
} mt_basic_reject;

static inline bool mt_as_basic_reject(const mt_method *method, mt_basic_reject *fields)
{
	if (method->kind != MT_BASIC_REJECT)
		return false;
	fields->delivery_tag = (uint64_t)method->fields[0].number;
	fields->requeue = method->fields[1].number != 0;
	return true;
}

static inline uint32_t mt_write_basic_reject(const mt_basic_reject *fields,
		uint8_t *room, size_t capacity, mt_written *written)
{
	mt_value values[2];

	values[0] = mt_number_value(MT_LONG_LONG, fields->delivery_tag);
	values[1] = mt_number_value(MT_BIT, fields->requeue);
	return mt_method_write(MT_BASIC_REJECT, values, 2, room, capacity, written);
}

/* basic.recover-async, class 60, method 100 */
typedef struct mt_basic_recover_async {
	bool requeue;
} mt_basic_recover_async;

static inline bool mt_as_basic_recover_async(const mt_method *method, mt_basic_recover_async *fields)
{
	if (method->kind != MT_BASIC_RECOVER_ASYNC)
		return false;
	fields->requeue = method->fields[0].number != 0;
	return true;
}

static inline uint32_t mt_write_basic_recover_async(const mt_basic_recover_async *fields,
		uint8_t *room, size_t capacity, mt_written *written)
{
	mt_value values[1];

	values[0] = mt_number_value(MT_BIT, fields->requeue);
	return mt_method_write(MT_BASIC_RECOVER_ASYNC, values, 1, room, capacity, written);
}

/* basic.recover, class 60, method 110 */
typedef struct mt_basic_recover {
	bool requeue;
} mt_basic_recover;

static inline bool mt_as_basic_recover(const mt_method *method, mt_basic_recover *fields)
{
	if (method->kind != MT_BASIC_RECOVER)
		return false;
	fields->requeue = method->fields[0].number != 0;
	return true;
}

static inline uint32_t mt_write_basic_recover(const mt_basic_recover *fields,
		uint8_t *room, size_t capacity, mt_written *written)
{
	mt_value values[1];

	values[0] = mt_number_value(MT_BIT, fields->requeue);
	return mt_method_write(MT_BASIC_RECOVER, values, 1, room, capacity, written);
}

/* basic.recover-ok, class 60, method 111 */
static inline uint32_t mt_write_basic_recover_ok(uint8_t *room, size_t capacity, mt_written *written)
{
	return mt_method_write(MT_BASIC_RECOVER_OK, NULL, 0, room, capacity, written);
}

/* basic.nack, class 60, method 120 */
typedef struct mt_basic_nack {
	uint64_t delivery_tag;
	bool multiple;
	bool requeue;
} mt_basic_nack;

static inline bool mt_as_basic_nack(const mt_method *method, mt_basic_nack *fields)
{
	if (method->kind != MT_BASIC_NACK)
		return false;
	fields->delivery_tag = (uint64_t)method->fields[0].number;
	fields->multiple = method->fields[1].number != 0;
	fields->requeue = method->fields[2].number != 0;
	return true;
}

static inline uint32_t mt_write_basic_nack(const mt_basic_nack *fields,
		uint8_t *room, size_t capacity, mt_written *written)
{
	mt_value values[3];

	values[0] = mt_number_value(MT_LONG_LONG, fields->delivery_tag);
	values[1] = mt_number_value(MT_BIT, fields->multiple);
	values[2] = mt_number_value(MT_BIT, fields->requeue);
	return mt_method_write(MT_BASIC_NACK, values, 3, room, capacity, written);
}

/* tx.select, class 90, method 10 */
static inline uint32_t mt_write_tx_select(uint8_t *room, size_t capacity, mt_written *written)
{
	return mt_method_write(MT_TX_SELECT, NULL, 0, room, capacity, written);
}

/* tx.select-ok, class 90, method 11 */
static inline uint32_t mt_write_tx_select_ok(uint8_t *room, size_t capacity, mt_written *written)
{
	return mt_method_write(MT_TX_SELECT_OK, NULL, 0, room, capacity, written);
}

/* tx.commit, class 90, method 20 */
static inline uint32_t mt_write_tx_commit(uint8_t *room, size_t capacity, mt_written *written)
{
	return mt_method_write(MT_TX_COMMIT, NULL, 0, room, capacity, written);
}

/* tx.commit-ok, class 90, method 21 */
static inline uint32_t mt_write_tx_commit_ok(uint8_t *room, size_t capacity, mt_written *written)
{
	return mt_method_write(MT_TX_COMMIT_OK, NULL, 0, room, capacity, written);
}

/* tx.rollback, class 90, method 30 */
static inline uint32_t mt_write_tx_rollback(uint8_t *room, size_t capacity, mt_written *written)
{
	return mt_method_write(MT_TX_ROLLBACK, NULL, 0, room, capacity, written);
}

/* tx.rollback-ok, class 90, method 31 */
static inline uint32_t mt_write_tx_rollback_ok(uint8_t *room, size_t capacity, mt_written *written)
{
	return mt_method_write(MT_TX_ROLLBACK_OK, NULL, 0, room, capacity, written);
}

/* confirm.select, class 85, method 10 */
typedef struct mt_confirm_select {
	bool no_wait;
} mt_confirm_select;

static inline bool mt_as_confirm_select(const mt_method *method, mt_confirm_select *fields)
{
	if (method->kind != MT_CONFIRM_SELECT)
		return false;
	fields->no_wait = method->fields[0].number != 0;
	return true;
}

static inline uint32_t mt_write_confirm_select(const mt_confirm_select *fields,
		uint8_t *room, size_t capacity, mt_written *written)
{
	mt_value values[1];

	values[0] = mt_number_value(MT_BIT, fields->no_wait);
	return mt_method_write(MT_CONFIRM_SELECT, values, 1, room, capacity, written);
}

/* confirm.select-ok, class 85, method 11 */
static inline uint32_t mt_write_confirm_select_ok(uint8_t *room, size_t capacity, mt_written *written)
{
	return mt_method_write(MT_CONFIRM_SELECT_OK, NULL, 0, room, capacity, written);
}

#ifdef __cplusplus
}
#endif

#endif
