/* The names of methods, of their fields, and of properties.
 *
 * Written by tools/c_methods.py from the tables in docs/PROTOCOL.md: change those and run it again. */
#include "meadowtray.h"

#include <string.h>

static const struct {
	uint32_t kind;
	const char *name;
	const char *fields[MT_MOST_FIELDS];
} METHODS[] = {
	{MT_CONNECTION_START, "connection.start",
	 {"version-major", "version-minor", "server-properties", "mechanisms", "locales"}},
	{MT_CONNECTION_START_OK, "connection.start-ok",
	 {"client-properties", "mechanism", "response", "locale"}},
	{MT_CONNECTION_SECURE, "connection.secure",
	 {"challenge"}},
	{MT_CONNECTION_SECURE_OK, "connection.secure-ok",
	 {"response"}},
	{MT_CONNECTION_TUNE, "connection.tune",
	 {"channel-max", "frame-max", "heartbeat"}},
	{MT_CONNECTION_TUNE_OK, "connection.tune-ok",
	 {"channel-max", "frame-max", "heartbeat"}},
	{MT_CONNECTION_OPEN, "connection.open",
	 {"virtual-host"}},
	{MT_CONNECTION_OPEN_OK, "connection.open-ok",
	 {NULL}},
	{MT_CONNECTION_CLOSE, "connection.close",
	 {"reply-code", "reply-text", "class-id", "method-id"}},
	{MT_CONNECTION_CLOSE_OK, "connection.close-ok",
	 {NULL}},
	{MT_CONNECTION_BLOCKED, "connection.blocked",
	 {"reason"}},
	{MT_CONNECTION_UNBLOCKED, "connection.unblocked",
	 {NULL}},
	{MT_CHANNEL_OPEN, "channel.open",
	 {NULL}},
	{MT_CHANNEL_OPEN_OK, "channel.open-ok",
	 {NULL}},
	{MT_CHANNEL_FLOW, "channel.flow",
	 {"active"}},
	{MT_CHANNEL_FLOW_OK, "channel.flow-ok",
	 {"active"}},
	{MT_CHANNEL_CLOSE, "channel.close",
	 {"reply-code", "reply-text", "class-id", "method-id"}},
	{MT_CHANNEL_CLOSE_OK, "channel.close-ok",
	 {NULL}},
	{MT_EXCHANGE_DECLARE, "exchange.declare",
	 {"exchange", "type", "passive", "durable", "auto-delete", "internal", "no-wait", "arguments"}},
	{MT_EXCHANGE_DECLARE_OK, "exchange.declare-ok",
	 {NULL}},
	{MT_EXCHANGE_DELETE, "exchange.delete",
	 {"exchange", "if-unused", "no-wait"}},
	{MT_EXCHANGE_DELETE_OK, "exchange.delete-ok",
	 {NULL}},
	{MT_EXCHANGE_BIND, "exchange.bind",
	 {"destination", "source", "routing-key", "no-wait", "arguments"}},
	{MT_EXCHANGE_BIND_OK, "exchange.bind-ok",
	 {NULL}},
	{MT_EXCHANGE_UNBIND, "exchange.unbind",
	 {"destination", "source", "routing-key", "no-wait", "arguments"}},
	{MT_EXCHANGE_UNBIND_OK, "exchange.unbind-ok",
	 {NULL}},
	{MT_QUEUE_DECLARE, "queue.declare",
	 {"queue", "passive", "durable", "exclusive", "auto-delete", "no-wait", "arguments"}},
	{MT_QUEUE_DECLARE_OK, "queue.declare-ok",
	 {"queue", "message-count", "consumer-count"}},
	{MT_QUEUE_BIND, "queue.bind",
	 {"queue", "exchange", "routing-key", "no-wait", "arguments"}},
	{MT_QUEUE_BIND_OK, "queue.bind-ok",
	 {NULL}},
	{MT_QUEUE_UNBIND, "queue.unbind",
	 {"queue", "exchange", "routing-key", "arguments"}},
	{MT_QUEUE_UNBIND_OK, "queue.unbind-ok",
	 {NULL}},
	{MT_QUEUE_PURGE, "queue.purge",
	 {"queue", "no-wait"}},
	{MT_QUEUE_PURGE_OK, "queue.purge-ok",
	 {"message-count"}},
	{MT_QUEUE_DELETE, "queue.delete",
	 {"queue", "if-unused", "if-empty", "no-wait"}},
	{MT_QUEUE_DELETE_OK, "queue.delete-ok",
	 {"message-count"}},
	{MT_BASIC_QOS, "basic.qos",
	 {"prefetch-size", "prefetch-count", "global"}},
	{MT_BASIC_QOS_OK, "basic.qos-ok",
	 {NULL}},
	{MT_BASIC_CONSUME, "basic.consume",
	 {"queue", "consumer-tag", "no-local", "no-ack", "exclusive", "no-wait", "arguments"}},
	{MT_BASIC_CONSUME_OK, "basic.consume-ok",
	 {"consumer-tag"}},
	{MT_BASIC_CANCEL, "basic.cancel",
	 {"consumer-tag", "no-wait"}},
	{MT_BASIC_CANCEL_OK, "basic.cancel-ok",
	 {"consumer-tag"}},
	{MT_BASIC_PUBLISH, "basic.publish",
	 {"exchange", "routing-key", "mandatory", "immediate"}},
	{MT_BASIC_RETURN, "basic.return",
	 {"reply-code", "reply-text", "exchange", "routing-key"}},
	{MT_BASIC_DELIVER, "basic.deliver",
	 {"consumer-tag", "delivery-tag", "redelivered", "exchange", "routing-key"}},
	{MT_BASIC_GET, "basic.get",
	 {"queue", "no-ack"}},
	{MT_BASIC_GET_OK, "basic.get-ok",
	 {"delivery-tag", "redelivered", "exchange", "routing-key", "message-count"}},
	{MT_BASIC_GET_EMPTY, "basic.get-empty",
	 {NULL}},
	{MT_BASIC_ACK, "basic.ack",
	 {"delivery-tag", "multiple"}},
	{MT_BASIC_REJECT, "basic.reject",
	 {"delivery-tag", "requeue"}},
	{MT_BASIC_RECOVER_ASYNC, "basic.recover-async",
	 {"requeue"}},
	{MT_BASIC_RECOVER, "basic.recover",
	 {"requeue"}},
	{MT_BASIC_RECOVER_OK, "basic.recover-ok",
	 {NULL}},
	{MT_BASIC_NACK, "basic.nack",
	 {"delivery-tag", "multiple", "requeue"}},
	{MT_TX_SELECT, "tx.select",
	 {NULL}},
	{MT_TX_SELECT_OK, "tx.select-ok",
	 {NULL}},
	{MT_TX_COMMIT, "tx.commit",
	 {NULL}},
	{MT_TX_COMMIT_OK, "tx.commit-ok",
	 {NULL}},
	{MT_TX_ROLLBACK, "tx.rollback",
	 {NULL}},
	{MT_TX_ROLLBACK_OK, "tx.rollback-ok",
	 {NULL}},
	{MT_CONFIRM_SELECT, "confirm.select",
	 {"no-wait"}},
	{MT_CONFIRM_SELECT_OK, "confirm.select-ok",
	 {NULL}},
};

static const char *const PROPERTIES[MT_PROPERTIES] = {
	"content-type",
	"content-encoding",
	"headers",
	"delivery-mode",
	"priority",
	"correlation-id",
	"reply-to",
	"expiration",
	"message-id",
	"timestamp",
	"type",
	"user-id",
	"app-id",
	"cluster-id",
};

enum { KINDS = sizeof METHODS / sizeof METHODS[0] };

const char *mt_method_name(uint32_t kind)
{
	for (size_t i = 0; i < KINDS; ++i)
		if (METHODS[i].kind == kind)
			return METHODS[i].name;
	return NULL;
}

uint32_t mt_method_kind(const char *name)
{
	for (size_t i = 0; i < KINDS && name; ++i)
		if (strcmp(METHODS[i].name, name) == 0)
			return METHODS[i].kind;
	return 0;
}

const char *mt_field_name(uint32_t kind, size_t place)
{
	for (size_t i = 0; i < KINDS && place < MT_MOST_FIELDS; ++i)
		if (METHODS[i].kind == kind)
			return METHODS[i].fields[place];
	return NULL;
}

const mt_value *mt_method_field(const mt_method *method, const char *name)
{
	if (!method || !name)
		return NULL;
	for (size_t place = 0; place < method->count && place < MT_MOST_FIELDS; ++place) {
		const char *held = mt_field_name(method->kind, place);

		if (held && strcmp(held, name) == 0)
			return &method->fields[place];
	}
	return NULL;
}

const char *mt_property_name(size_t place)
{
	return place < MT_PROPERTIES ? PROPERTIES[place] : NULL;
}
