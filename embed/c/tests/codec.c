/* Methods, content headers and tables through their C calls: what stands in them, faults with their places, and
 * misuse. Each payload lies in memory of its own size, so that a sanitizer sees what is read beside it. */
#include "check.h"
#include "meadowtray.h"

#include <string.h>

/* Octets in memory of their own; freed by the caller. */
static uint8_t *own(const void *octets, size_t length)
{
	uint8_t *copy = malloc(length > 0 ? length : 1);

	CHECK(copy != NULL);
	memcpy(copy, octets, length);
	return copy;
}

static bool is(mt_octets octets, const char *text)
{
	return octets.length == strlen(text) && memcmp(octets.at, text, octets.length) == 0;
}

static bool is_text(const mt_value *value, uint8_t kind, const char *text)
{
	return value->kind == kind && is(mt_octets_of(value), text);
}

static void publish(void)
{
	uint8_t *payload = own("\0\74\0\50\0\0\3amq\1k\2", 13);
	mt_method method;
	mt_basic_publish fields;
	mt_basic_deliver other;
	uint32_t kind = 0;

	CHECK(mt_method_peek(payload, 13, &kind) == MT_OK && kind == MT_BASIC_PUBLISH);
	CHECK(mt_method_read(payload, 13, &method) == MT_OK);
	CHECK(method.kind == MT_BASIC_PUBLISH && method.kind == 60 * 65536 + 40 && method.count == 4);
	CHECK(is_text(&method.fields[0], MT_SHORT_STRING, "amq"));
	CHECK(is_text(&method.fields[1], MT_SHORT_STRING, "k"));
	CHECK(method.fields[0].octets == payload + 7);
	CHECK(method.fields[2].kind == MT_BIT && method.fields[2].number == 0);
	CHECK(method.fields[3].kind == MT_BIT && method.fields[3].number == 1);
	CHECK(mt_as_basic_publish(&method, &fields));
	CHECK(is(fields.exchange, "amq") && is(fields.routing_key, "k") && !fields.mandatory && fields.immediate);
	CHECK(!mt_as_basic_deliver(&method, &other));
	free(payload);
}

static void deliver(void)
{
	uint8_t *payload = own("\0\74\0\74\2ct\1\2\3\4\5\6\7\10\1\0\1r", 19);
	mt_method method;
	mt_basic_deliver fields;

	CHECK(mt_method_read(payload, 19, &method) == MT_OK && method.count == 5);
	CHECK(mt_as_basic_deliver(&method, &fields));
	CHECK(is(fields.consumer_tag, "ct") && fields.delivery_tag == 0x0102030405060708 && fields.redelivered);
	CHECK(is(fields.exchange, "") && is(fields.routing_key, "r"));
	free(payload);
}

static void tune(void)
{
	uint8_t *payload = own("\0\12\0\36\7\377\0\2\0\0\0\74", 12);
	mt_method method;
	mt_connection_tune fields;

	CHECK(mt_method_read(payload, 12, &method) == MT_OK && method.count == 3);
	CHECK(method.fields[0].kind == MT_SHORT && method.fields[1].kind == MT_LONG &&
	      method.fields[2].kind == MT_SHORT);
	CHECK(mt_as_connection_tune(&method, &fields));
	CHECK(fields.channel_max == 2047 && fields.frame_max == 131072 && fields.heartbeat == 60);
	free(payload);
}

/* Eight fields, the most that there are: five bits share an octet, and a table follows. */
static void declare(void)
{
	uint8_t *payload = own("\0\50\0\12\0\0\1e\6direct\22\0\0\0\10\1xt\1\1yB\7", 28);
	mt_method method;
	mt_exchange_declare fields;
	mt_value value;
	size_t at;

	CHECK(mt_method_read(payload, 28, &method) == MT_OK && method.count == MT_MOST_FIELDS);
	CHECK(mt_as_exchange_declare(&method, &fields));
	CHECK(is(fields.exchange, "e") && is(fields.type, "direct"));
	CHECK(!fields.passive && fields.durable && !fields.auto_delete && !fields.internal && fields.no_wait);
	CHECK(method.fields[7].kind == MT_TABLE && fields.arguments.length == 12 &&
	      fields.arguments.at == payload + 16);
	CHECK(mt_table_get(fields.arguments.at, fields.arguments.length, "y", 1, &value, &at) == MT_OK);
	CHECK(value.kind == MT_TAG_SHORT_SHORT_UINT && value.number == 7);
	CHECK(mt_table_get(fields.arguments.at, fields.arguments.length, "x", 1, &value, NULL) == MT_OK);
	CHECK(value.kind == MT_TAG_BOOLEAN && value.number == 1);
	CHECK(mt_table_get(fields.arguments.at, fields.arguments.length, "z", 1, &value, &at) == MT_NOT_THERE);
	free(payload);
}

static void method_faults(void)
{
	static const struct {
		const char *octets;
		size_t length;
		uint32_t status;
		size_t at;
	} ROWS[] = {
		{"", 0, MT_VALUE_ENDS, 0},
		{"\0\74\0", 3, MT_VALUE_ENDS, 2},
		{"\0\74\0\1", 4, MT_UNKNOWN_METHOD, 0},
		{"\0\74\0\50\0\0\3am", 9, MT_VALUE_ENDS, 6},
		{"\0\74\0\120\0\0\0\0\0\0\0\1", 12, MT_VALUE_ENDS, 12},
		{"\0\74\0\120\0\0\0\0\0\0\0\1\1\0", 14, MT_TRAILING, 13},
		{"\0\24\0\13\0\0\0\1", 8, MT_VALUE_ENDS, 4},
		{"\0\50\0\12\0\0\1e\6direct\22\0\0\0\10\1xt\1\1y?\7", 28, MT_VALUE_UNKNOWN_TAG, 26},
		{"\0\50\0\12\0\0\1e\6direct\22\0\0\0\10\1xt\1\1yI\7", 28, MT_VALUE_PASSES_ITS_END, 27},
	};

	for (size_t i = 0; i < sizeof ROWS / sizeof ROWS[0]; ++i) {
		uint8_t *payload = own(ROWS[i].octets, ROWS[i].length);
		mt_method method;

		CHECK(mt_method_read(payload, ROWS[i].length, &method) == ROWS[i].status);
		CHECK(method.at == ROWS[i].at);
		free(payload);
	}
}

/* A body of 5 octets, and the properties of bits 15, 13, 12 and 6. */
static const uint8_t HEADER[] = {
	0,   60, 0, 0, 0, 0, 0,   0,   0, 0, 0, 5, 0xb0, 0x40, 3, 'a', '/',
	'b', 0,  0, 0, 3, 1, 'k', 'V', 2, 0, 0, 0, 0,    0,    0, 1,   0,
};

static void header(void)
{
	uint8_t *payload = own(HEADER, sizeof HEADER);
	mt_header header;
	const mt_value *properties = header.properties;

	CHECK(mt_header_read(payload, sizeof HEADER, &header) == MT_OK);
	CHECK(header.body_size == 5 && header.flags == 0xb040);
	for (int place = 0; place < MT_PROPERTIES; ++place)
		if ((header.flags >> (15 - place)) % 2 == 0)
			CHECK(properties[place].kind == MT_NONE);
	CHECK(is_text(&properties[MT_CONTENT_TYPE], MT_SHORT_STRING, "a/b"));
	CHECK(properties[MT_HEADERS].kind == MT_TABLE && properties[MT_HEADERS].length == 7);
	CHECK(properties[MT_HEADERS].octets == payload + 18);
	CHECK(properties[MT_DELIVERY_MODE].kind == MT_OCTET && properties[MT_DELIVERY_MODE].number == 2);
	CHECK(properties[MT_TIMESTAMP].kind == MT_LONG_LONG && properties[MT_TIMESTAMP].number == 256);
	free(payload);
}

static void header_faults(void)
{
	static const struct {
		size_t length;
		size_t changed;
		uint8_t octet;
		uint32_t status;
		size_t at;
	} ROWS[] = {
		{1, 0, 0, MT_VALUE_ENDS, 0},
		{33, 0, 0, MT_VALUE_ENDS, 26},
		{sizeof HEADER, 1, 61, MT_UNKNOWN_METHOD, 0},
		{sizeof HEADER, 3, 1, MT_BAD_WEIGHT, 2},
		{sizeof HEADER, 13, 0x41, MT_BAD_FLAGS, 12},
		{sizeof HEADER, 13, 0, MT_TRAILING, 26},
		{sizeof HEADER, 24, 'I', MT_VALUE_PASSES_ITS_END, 25},
	};

	for (size_t i = 0; i < sizeof ROWS / sizeof ROWS[0]; ++i) {
		uint8_t *payload = own(HEADER, ROWS[i].length);
		mt_header header;

		payload[ROWS[i].changed] = ROWS[i].octet;
		CHECK(mt_header_read(payload, ROWS[i].length, &header) == ROWS[i].status);
		CHECK(header.at == ROWS[i].at);
		free(payload);
	}
}

/* A pair of each tag, in the order of the standard's errata; names are the tags themselves. */
static const uint8_t ALL_TAGS[] = {
	0,    0,    0,    137, 1,   't',  't',  1,    1,    'b',  'b',  0xff, 1,    'B', 'B', 0xff, 1,    's',
	's',  0xff, 0xfe, 1,   'U', 'U',  0x80, 0,    1,    'u',  'u',  0x80, 0,    1,   'I', 'I',  0xff, 0xff,
	0xff, 0xfd, 1,    'i', 'i', 0xff, 0xff, 0xff, 0xfd, 1,    'l',  'l',  0x80, 0,   0,   0,    0,    0,
	0,    0,    1,    'L', 'L', 0xff, 0xff, 0xff, 0xff, 0xff, 0xff, 0xff, 0xfe, 1,   'f', 'f',  0x3f, 0xc0,
	0,    0,    1,    'd', 'd', 0x3f, 0xf8, 0,    0,    0,    0,    0,    0,    1,   'D', 'D',  2,    0,
	0,    1,    0,    1,   'T', 'T',  0,    0,    0,    0,    0,    0,    0,    9,   1,   'V',  'V',  1,
	'S',  'S',  0,    0,   0,   1,    'y',  1,    'x',  'x',  0,    0,    0,    0,   1,   'A',  'A',  0,
	0,    0,    2,    'V', 'V', 1,    'F',  'F',  0,    0,    0,    3,    0,    't', 0,
};

static void tags(void)
{
	static const struct {
		uint8_t tag;
		int64_t number;
		size_t length;
	} ROWS[] = {
		{'t', 1, 0},         {'b', -1, 0},    {'B', 255, 0},        {'s', -2, 0},
		{'U', -32768, 0},    {'u', 32768, 0}, {'I', -3, 0},         {'i', 4294967293, 0},
		{'l', INT64_MIN, 0}, {'L', -2, 0},    {'f', 0x3fc00000, 0}, {'d', 0x3ff8000000000000, 0},
		{'D', 256, 0},       {'T', 9, 0},     {'V', 0, 0},          {'S', 0, 1},
		{'x', 0, 0},         {'A', 0, 2},     {'F', 0, 7},
	};
	enum { TAGS = sizeof ROWS / sizeof ROWS[0] };
	uint8_t *octets = own(ALL_TAGS, sizeof ALL_TAGS);
	mt_pair pairs[TAGS];
	mt_table table;

	CHECK(sizeof ALL_TAGS == 4 + 137);
	CHECK(mt_table_read(octets, sizeof ALL_TAGS, pairs, TAGS, &table) == MT_OK);
	CHECK(table.length == sizeof ALL_TAGS && table.count == TAGS && table.placed == TAGS);
	for (size_t i = 0; i < TAGS; ++i) {
		mt_value value;

		CHECK(pairs[i].name_length == 1 && pairs[i].name[0] == ROWS[i].tag &&
		      pairs[i].value.kind == ROWS[i].tag);
		CHECK((int64_t)pairs[i].value.number == ROWS[i].number && pairs[i].value.length == ROWS[i].length);
		CHECK(pairs[i].value.scale == (ROWS[i].tag == 'D' ? 2 : 0));
		CHECK(mt_table_get(octets, sizeof ALL_TAGS, &ROWS[i].tag, 1, &value, NULL) == MT_OK);
		CHECK(value.kind == ROWS[i].tag && (int64_t)value.number == ROWS[i].number &&
		      value.octets == pairs[i].value.octets);
	}
	free(octets);
}

/* Octets that are lent of a table or an array are read in the same way. */
static void nested(void)
{
	static const uint8_t OCTETS[] = {0, 0, 0, 20, 1, 'a', 'A', 0,   0, 0, 13, 'F',
					 0, 0, 0, 3,  1, 'n', 'V', 'A', 0, 0, 0,  0};
	uint8_t *octets = own(OCTETS, sizeof OCTETS);
	mt_value array, values[2], found;
	mt_pair pair;
	mt_table told;

	CHECK(mt_table_get(octets, sizeof OCTETS, "a", 1, &array, NULL) == MT_OK && array.kind == MT_TAG_ARRAY);
	CHECK(mt_array_read(array.octets, array.length, values, 1, &told) == MT_NO_ROOM);
	CHECK(told.count == 2 && told.placed == 1 && values[0].kind == MT_TAG_TABLE);
	CHECK(mt_array_read(array.octets, array.length, values, 2, &told) == MT_OK && told.count == 2);
	CHECK(values[0].kind == MT_TAG_TABLE && values[1].kind == MT_TAG_ARRAY && values[1].length == 0);
	CHECK(mt_table_read(values[0].octets, values[0].length, &pair, 1, &told) == MT_OK && told.count == 1);
	CHECK(pair.name_length == 1 && pair.name[0] == 'n' && pair.value.kind == MT_TAG_VOID);
	CHECK(mt_table_get(values[0].octets, values[0].length, "n", 1, &found, NULL) == MT_OK &&
	      found.kind == MT_TAG_VOID);
	CHECK(mt_array_read(values[1].octets, values[1].length, NULL, 0, &told) == MT_OK && told.count == 0);
	free(octets);
}

static void table_faults(void)
{
	static const struct {
		const char *octets;
		size_t length;
		uint32_t status;
		size_t at;
	} ROWS[] = {
		{"\0\0\0", 3, MT_VALUE_ENDS, 0},
		{"\0\0\0\2\1", 5, MT_VALUE_ENDS, 0},
		{"\0\0\0\2\5a", 6, MT_VALUE_PASSES_ITS_END, 4},
		{"\0\0\0\3\1a?", 7, MT_VALUE_UNKNOWN_TAG, 6},
		{"\0\0\0\7\1aS\0\0\0\1", 11, MT_VALUE_PASSES_ITS_END, 7},
	};
	uint8_t deep[4 + 33 * 5];
	mt_table told;
	mt_pair pairs[2];

	for (size_t i = 0; i < sizeof ROWS / sizeof ROWS[0]; ++i) {
		uint8_t *octets = own(ROWS[i].octets, ROWS[i].length);
		mt_value value;
		size_t at = 99;

		CHECK(mt_table_read(octets, ROWS[i].length, NULL, 0, &told) == ROWS[i].status &&
		      told.at == ROWS[i].at);
		CHECK(mt_table_get(octets, ROWS[i].length, "a", 1, &value, &at) == ROWS[i].status &&
		      at == ROWS[i].at);
		free(octets);
	}

	/* arrays in arrays in a table: 31 of them nest 32 deep, and one more is too deep */
	memcpy(deep, "\0\0\0\0\0", 5);
	for (int arrays = 31; arrays <= 32; ++arrays) {
		size_t length = 5;

		for (int left = arrays - 1; left >= 0; --left) {
			deep[length] = 'A';
			memset(deep + length + 1, 0, 3);
			deep[length + 4] = (uint8_t)(left * 5);
			length += 5;
		}
		deep[3] = (uint8_t)(length - 4);
		CHECK(mt_table_read(deep, length, pairs, 2, &told) == (arrays == 31 ? MT_OK : MT_VALUE_TOO_DEEP));
		CHECK(told.at == (arrays == 31 ? 0 : length - 5));
	}

	/* what stands after a table isn't its own, and two pairs of one name are both there */
	CHECK(mt_table_read((const uint8_t *)"\0\0\0\6\1aV\1aVxyz", 13, pairs, 2, &told) == MT_OK);
	CHECK(told.length == 10 && told.count == 2 && pairs[0].name[0] == 'a' && pairs[1].name[0] == 'a');
	CHECK(mt_table_read((const uint8_t *)"\0\0\0\6\1aV\1aVxyz", 13, pairs, 1, &told) == MT_NO_ROOM);
	CHECK(told.length == 10 && told.count == 2 && told.placed == 1);
	CHECK(mt_array_read((const uint8_t *)"V?", 2, NULL, 0, &told) == MT_VALUE_UNKNOWN_TAG && told.at == 1);
}

static void names(void)
{
	uint8_t *payload = own("\0\74\0\50\0\0\3amq\1k\2", 13);
	mt_method method;

	CHECK(strcmp(mt_method_name(MT_BASIC_GET_OK), "basic.get-ok") == 0 && mt_method_name(0) == NULL);
	CHECK(mt_method_kind("basic.get-ok") == MT_BASIC_GET_OK && mt_method_kind("basic") == 0 &&
	      mt_method_kind(NULL) == 0);
	CHECK(strcmp(mt_field_name(MT_EXCHANGE_DECLARE, 7), "arguments") == 0 &&
	      mt_field_name(MT_EXCHANGE_DECLARE, 8) == NULL);
	CHECK(mt_field_name(MT_TX_SELECT, 0) == NULL && mt_field_name(1, 0) == NULL);
	CHECK(strcmp(mt_property_name(MT_TYPE_NAME), "type") == 0 &&
	      strcmp(mt_property_name(MT_CLUSTER_ID), "cluster-id") == 0);
	CHECK(mt_property_name(MT_PROPERTIES) == NULL);
	CHECK(mt_method_read(payload, 13, &method) == MT_OK);
	CHECK(mt_method_field(&method, "routing-key") == &method.fields[1]);
	CHECK(mt_method_field(&method, "immediate") == &method.fields[3]);
	CHECK(mt_method_field(&method, "queue") == NULL && mt_method_field(NULL, "queue") == NULL);
	free(payload);
}

/* Methods as they are written: each octet, by hand. */
static void written(void)
{
	static const uint8_t PUBLISH[] = {0, 60, 0, 40, 0, 0, 3, 'a', 'm', 'q', 1, 'k', 2};
	static const uint8_t DECLARE[] = {
		0, 40, 0, 10, 0, 0, 1, 'e', 6, 'd', 'i', 'r', 'e', 'c', 't', 0x12, 0, 0, 0, 4, 1, 'y', 'B', 7,
	};
	static const uint8_t ACK[] = {0, 60, 0, 80, 1, 2, 3, 4, 5, 6, 7, 8, 1};
	static const uint8_t OPEN[] = {0, 10, 0, 40, 1, '/', 0, 0};
	static const uint8_t SELECT[] = {0, 90, 0, 10};
	static const uint8_t ARGUMENTS[] = {0, 0, 0, 4, 1, 'y', 'B', 7};
	mt_basic_publish publish = {{NULL, 0}, {NULL, 0}, false, true};
	mt_exchange_declare declare = {{NULL, 0}, {NULL, 0}, false, true, false, false, true, {NULL, 0}};
	mt_basic_ack ack = {0x0102030405060708, true};
	mt_connection_open open = {{NULL, 0}};
	mt_written written;
	uint8_t room[64];

	publish.exchange = mt_text("amq");
	publish.routing_key = mt_text("k");
	for (size_t capacity = 0; capacity <= sizeof PUBLISH; ++capacity) {
		uint8_t *exact = own(room, capacity);

		memset(exact, 0xaa, capacity);
		if (capacity < sizeof PUBLISH) {
			CHECK(mt_write_basic_publish(&publish, exact, capacity, &written) == MT_NO_ROOM);
			for (size_t i = 0; i < capacity; ++i)
				CHECK(exact[i] == 0xaa);
		} else {
			CHECK(mt_write_basic_publish(&publish, exact, capacity, &written) == MT_OK);
			CHECK(written.length == sizeof PUBLISH && memcmp(exact, PUBLISH, sizeof PUBLISH) == 0);
		}
		free(exact);
	}
	declare.exchange = mt_text("e");
	declare.type = mt_text("direct");
	declare.arguments = mt_octets_at(ARGUMENTS, sizeof ARGUMENTS);
	memset(room, 0xaa, sizeof room);
	CHECK(mt_write_exchange_declare(&declare, room, sizeof room, &written) == MT_OK);
	CHECK(written.length == sizeof DECLARE && memcmp(room, DECLARE, sizeof DECLARE) == 0);
	for (size_t i = sizeof DECLARE; i < sizeof room; ++i)
		CHECK(room[i] == 0xaa);
	CHECK(mt_write_basic_ack(&ack, room, sizeof room, &written) == MT_OK);
	CHECK(written.length == sizeof ACK && memcmp(room, ACK, sizeof ACK) == 0);
	open.virtual_host = mt_text("/");
	CHECK(mt_write_connection_open(&open, room, sizeof room, &written) == MT_OK);
	CHECK(written.length == sizeof OPEN && memcmp(room, OPEN, sizeof OPEN) == 0);
	CHECK(mt_write_tx_select(room, sizeof room, &written) == MT_OK);
	CHECK(written.length == sizeof SELECT && memcmp(room, SELECT, sizeof SELECT) == 0);
}

/* What can't be written, with the place of the value. */
static void misfits(void)
{
	static const uint8_t BAD[] = {0, 0, 0, 3, 1, 'a', '?'};
	mt_value values[10];
	mt_written written;
	uint8_t room[512], long_text[256];

	memset(long_text, 'x', sizeof long_text);
	for (int i = 0; i < 10; ++i)
		values[i] = mt_number_value(MT_BIT, 1);
	CHECK(mt_method_write(0, values, 0, room, sizeof room, &written) == MT_UNKNOWN_METHOD);
	CHECK(mt_method_write(MT_BASIC_QOS, values, 3, room, sizeof room, &written) == MT_MISFIT &&
	      written.value == 0);
	values[0] = mt_number_value(MT_LONG, 7);
	CHECK(mt_method_write(MT_BASIC_QOS, values, 3, room, sizeof room, &written) == MT_MISFIT &&
	      written.value == 1);
	values[1] = mt_number_value(MT_SHORT, 65536);
	CHECK(mt_method_write(MT_BASIC_QOS, values, 3, room, sizeof room, &written) == MT_MISFIT &&
	      written.value == 1);
	values[1].number = 65535;
	CHECK(mt_method_write(MT_BASIC_QOS, values, 2, room, sizeof room, &written) == MT_MISFIT &&
	      written.value == 2);
	CHECK(mt_method_write(MT_BASIC_QOS, values, 4, room, sizeof room, &written) == MT_MISFIT &&
	      written.value == 3);
	CHECK(mt_method_write(MT_BASIC_QOS, values, 10, room, sizeof room, &written) == MT_MISFIT &&
	      written.value == 3);
	CHECK(mt_method_write(MT_BASIC_QOS, values, 3, room, sizeof room, &written) == MT_OK && written.length == 11);
	CHECK(memcmp(room, "\0\74\0\12\0\0\0\7\377\377\1", 11) == 0);
	values[0] = mt_octets_value(MT_SHORT_STRING, mt_octets_at(long_text, 256));
	CHECK(mt_method_write(MT_BASIC_CANCEL_OK, values, 1, room, sizeof room, &written) == MT_MISFIT &&
	      written.value == 0);
	values[0].length = 255;
	CHECK(mt_method_write(MT_BASIC_CANCEL_OK, values, 1, room, sizeof room, &written) == MT_OK &&
	      written.length == 260);
	values[0] = mt_octets_value(MT_LONG_STRING, mt_octets_at(long_text, 256));
	CHECK(mt_method_write(MT_CONNECTION_SECURE, values, 1, room, sizeof room, &written) == MT_OK &&
	      written.length == 264);
	values[0] = mt_table_value(mt_octets_at(NULL, 0));
	values[1] = mt_octets_value(MT_SHORT_STRING, mt_octets_at(NULL, 0));
	values[2] = mt_octets_value(MT_LONG_STRING, mt_octets_at(NULL, 0));
	values[3] = values[1];
	CHECK(mt_method_write(MT_CONNECTION_START_OK, values, 4, room, sizeof room, &written) == MT_OK &&
	      written.length == 14);
	values[0] = mt_table_value(mt_octets_at(BAD, sizeof BAD));
	CHECK(mt_method_write(MT_CONNECTION_START_OK, values, 4, room, sizeof room, &written) ==
	      MT_VALUE_UNKNOWN_TAG);
	CHECK(written.value == 0 && written.at == 6);
	values[0] = mt_table_value(mt_octets_at("\0\0\0\0\0", 5));
	CHECK(mt_method_write(MT_CONNECTION_START_OK, values, 4, room, sizeof room, &written) == MT_MISFIT &&
	      written.value == 0);
	values[0].octets = NULL;
	CHECK(mt_method_write(MT_CONNECTION_START_OK, values, 4, room, sizeof room, &written) == MT_NULL);
	CHECK(mt_method_write(MT_BASIC_QOS, NULL, 1, room, sizeof room, &written) == MT_NULL);
	CHECK(mt_method_write(MT_BASIC_QOS, values, 1, NULL, 1, &written) == MT_NULL);
	CHECK(mt_method_write(MT_BASIC_QOS, values, 1, room, sizeof room, NULL) == MT_NULL);
}

/* A zero or empty value for each field of each method is written, and read again as it was. */
static void every_method(void)
{
	size_t methods = 0;

	for (uint32_t class_id = 0; class_id <= 100; ++class_id)
		for (uint32_t method_id = 0; method_id <= 130; ++method_id) {
			uint32_t kind = class_id << 16 | method_id;
			mt_value values[MT_MOST_FIELDS];
			size_t count = 0;
			uint8_t room[512];
			mt_written written;
			mt_method method;

			if (!mt_method_name(kind))
				continue;
			++methods;
			while (mt_method_write(kind, values, count, room, sizeof room, &written) != MT_OK) {
				CHECK(count < MT_MOST_FIELDS);
				values[count] = mt_number_value(MT_NONE, 0);
				++count;
				for (uint8_t tried = MT_BIT; tried <= MT_TABLE; ++tried) {
					values[count - 1] = tried == MT_TABLE ? mt_table_value(mt_octets_at(NULL, 0))
									      : mt_number_value(tried, 0);
					if (mt_method_write(kind, values, count, room, sizeof room, &written) !=
						    MT_MISFIT ||
					    written.value >= count)
						break;
				}
			}
			CHECK(mt_method_read(room, written.length, &method) == MT_OK);
			CHECK(method.kind == kind && method.count == count);
			for (size_t i = 0; i < count; ++i) {
				CHECK(method.fields[i].kind == values[i].kind && method.fields[i].number == 0);
				CHECK(mt_field_name(kind, i) != NULL);
			}
			CHECK(count == MT_MOST_FIELDS || mt_field_name(kind, count) == NULL);
		}
	CHECK(methods == 62);
}

static void header_written(void)
{
	mt_value properties[MT_PROPERTIES];
	mt_header header;
	mt_written written;
	uint8_t room[512];
	uint8_t *payload = own(HEADER, sizeof HEADER);

	CHECK(mt_header_read(payload, sizeof HEADER, &header) == MT_OK);
	for (size_t capacity = 0; capacity < sizeof HEADER; ++capacity)
		CHECK(mt_header_write(5, header.properties, room, capacity, &written) == MT_NO_ROOM);
	CHECK(mt_header_write(5, header.properties, room, sizeof HEADER, &written) == MT_OK);
	CHECK(written.length == sizeof HEADER && memcmp(room, HEADER, sizeof HEADER) == 0);
	free(payload);

	for (int place = 0; place < MT_PROPERTIES; ++place)
		properties[place] = mt_number_value(MT_NONE, 0);
	CHECK(mt_header_write(0x0102030405060708, properties, room, sizeof room, &written) == MT_OK &&
	      written.length == 14);
	CHECK(memcmp(room, "\0\74\0\0\1\2\3\4\5\6\7\10\0\0", 14) == 0);
	for (int place = 0; place < MT_PROPERTIES; ++place) {
		const bool text = place != MT_HEADERS && place != MT_DELIVERY_MODE && place != MT_PRIORITY &&
				  place != MT_TIMESTAMP;

		properties[place] = mt_number_value(MT_BIT, 0);
		CHECK(mt_header_write(0, properties, room, sizeof room, &written) == MT_MISFIT &&
		      written.value == (size_t)place);
		if (text)
			properties[place] =
				mt_octets_value(MT_SHORT_STRING, mt_text(mt_property_name((size_t)place)));
		else if (place == MT_HEADERS)
			properties[place] = mt_table_value(mt_octets_at(NULL, 0));
		else
			properties[place] =
				mt_number_value(place == MT_TIMESTAMP ? MT_LONG_LONG : MT_OCTET, (uint64_t)place);
		CHECK(mt_header_write(0, properties, room, sizeof room, &written) == MT_OK);
		CHECK(mt_header_read(room, written.length, &header) == MT_OK);
		CHECK(header.flags == (0xffff0000U >> (place + 1) & 0xffff));
		for (int i = 0; i < MT_PROPERTIES; ++i)
			CHECK(header.properties[i].kind == properties[i].kind &&
			      header.properties[i].number == properties[i].number);
	}
	CHECK(is_text(&header.properties[MT_CLUSTER_ID], MT_SHORT_STRING, "cluster-id"));
	properties[MT_PRIORITY].number = 256;
	CHECK(mt_header_write(0, properties, room, sizeof room, &written) == MT_MISFIT &&
	      written.value == MT_PRIORITY);
	CHECK(mt_header_write(0, NULL, room, sizeof room, &written) == MT_NULL);
}

/* What is read of a table is written again as it was, with tables and arrays in it. */
static void table_written(void)
{
	static const uint8_t NESTED[] = {0, 0, 0, 20, 1, 'a', 'A', 0,   0, 0, 13, 'F',
					 0, 0, 0, 3,  1, 'n', 'V', 'A', 0, 0, 0,  0};
	static const struct {
		uint8_t tag;
		int64_t number;
		bool fits;
	} ROWS[] = {
		{'t', 2, true},           {'b', 127, true},       {'b', 128, false},        {'b', -128, true},
		{'b', -129, false},       {'B', 255, true},       {'B', 256, false},        {'s', 32767, true},
		{'s', 32768, false},      {'U', -32768, true},    {'U', -32769, false},     {'u', 65535, true},
		{'u', 65536, false},      {'I', INT32_MIN, true}, {'I', 2147483648, false}, {'i', UINT32_MAX, true},
		{'i', 4294967296, false}, {'l', INT64_MIN, true}, {'L', INT64_MAX, true},   {'f', UINT32_MAX, true},
		{'f', 4294967296, false}, {'d', -1, true},        {'D', 4294967296, false}, {'T', -1, true},
		{'V', 7, true},           {'?', 0, false},
	};
	mt_pair pairs[20];
	mt_table table;
	mt_written written;
	uint8_t room[512], deep[512], name[256];
	size_t length;

	CHECK(mt_table_read(ALL_TAGS, sizeof ALL_TAGS, pairs, 20, &table) == MT_OK);
	for (size_t capacity = 0; capacity < sizeof ALL_TAGS; ++capacity)
		CHECK(mt_table_write(pairs, table.count, room, capacity, &written) == MT_NO_ROOM);
	CHECK(mt_table_write(pairs, table.count, room, sizeof ALL_TAGS, &written) == MT_OK);
	CHECK(written.length == sizeof ALL_TAGS && memcmp(room, ALL_TAGS, sizeof ALL_TAGS) == 0);
	CHECK(mt_table_read(NESTED, sizeof NESTED, pairs, 1, &table) == MT_OK);
	CHECK(mt_table_write(pairs, 1, room, sizeof room, &written) == MT_OK);
	CHECK(written.length == sizeof NESTED && memcmp(room, NESTED, sizeof NESTED) == 0);
	CHECK(mt_table_write(NULL, 0, room, sizeof room, &written) == MT_OK && written.length == 4);
	CHECK(memcmp(room, "\0\0\0\0", 4) == 0);

	for (size_t i = 0; i < sizeof ROWS / sizeof ROWS[0]; ++i) {
		mt_value value;

		pairs[0].name = (const uint8_t *)"n";
		pairs[0].name_length = 1;
		pairs[0].value = mt_number_value(ROWS[i].tag, (uint64_t)ROWS[i].number);
		if (!ROWS[i].fits) {
			CHECK(mt_table_write(pairs, 1, room, sizeof room, &written) == MT_MISFIT &&
			      written.value == 0);
			continue;
		}
		CHECK(mt_table_write(pairs, 1, room, sizeof room, &written) == MT_OK);
		CHECK(mt_table_get(room, written.length, "n", 1, &value, NULL) == MT_OK && value.kind == ROWS[i].tag);
		if (ROWS[i].tag == 't')
			CHECK(value.number == 1);
		else if (ROWS[i].tag != 'V')
			CHECK((int64_t)value.number == ROWS[i].number);
	}

	/* names, and octets that are no table or no array */
	memset(name, 'n', sizeof name);
	pairs[0].name = name;
	pairs[0].name_length = 256;
	pairs[0].value = mt_number_value(MT_TAG_VOID, 0);
	CHECK(mt_table_write(pairs, 1, room, sizeof room, &written) == MT_MISFIT && written.value == 0);
	pairs[0].name_length = 255;
	CHECK(mt_table_write(pairs, 1, room, sizeof room, &written) == MT_OK && written.length == 261);
	pairs[0].name_length = 0;
	pairs[0].name = NULL;
	pairs[1] = pairs[0];
	pairs[1].value = mt_octets_value(MT_TAG_ARRAY, mt_octets_at("V?", 2));
	CHECK(mt_table_write(pairs, 2, room, sizeof room, &written) == MT_VALUE_UNKNOWN_TAG);
	CHECK(written.value == 1 && written.at == 1);
	pairs[1].value = mt_octets_value(MT_TAG_TABLE, mt_octets_at("\0\0\0\0\0", 5));
	CHECK(mt_table_write(pairs, 2, room, sizeof room, &written) == MT_MISFIT && written.value == 1);
	pairs[1].name_length = 1;
	CHECK(mt_table_write(pairs, 2, room, sizeof room, &written) == MT_NULL);

	/* tables in tables: 32 of them nest as deep as may be */
	memset(deep, 0, 4);
	length = 4;
	for (int depth = 2; depth <= 33; ++depth) {
		pairs[0].name_length = 0;
		pairs[0].value = mt_octets_value(MT_TAG_TABLE, mt_octets_at(deep, length));
		CHECK(mt_table_write(pairs, 1, room, sizeof room, &written) ==
		      (depth <= 32 ? MT_OK : MT_VALUE_TOO_DEEP));
		if (depth <= 32) {
			length = written.length;
			memcpy(deep, room, length);
		} else {
			CHECK(written.value == 1);
		}
	}
	CHECK(mt_table_write(pairs, 1, NULL, 1, &written) == MT_NULL &&
	      mt_table_write(NULL, 1, room, 1, &written) == MT_NULL);
	CHECK(mt_table_write(pairs, 1, room, 1, NULL) == MT_NULL);
}

static void *refuse(size_t size)
{
	(void)size;
	return NULL;
}

static void *refuse_more(void *block, size_t size)
{
	(void)block;
	(void)size;
	return NULL;
}

/* A write asks for memory, and answers where it is refused; a read asks for none. */
static void memory(void)
{
	mt_memory refusing = {refuse, refuse_more, free};
	mt_value values[MT_PROPERTIES];
	mt_written written;
	mt_pair pairs[20];
	mt_method method;
	mt_header header;
	mt_table table;
	uint8_t room[64];

	for (int i = 0; i < MT_PROPERTIES; ++i)
		values[i] = mt_number_value(MT_NONE, 0);
	mt_set_memory(&refusing);
	CHECK(mt_method_read((const uint8_t *)"\0\132\0\12", 4, &method) == MT_OK);
	CHECK(mt_header_read(HEADER, sizeof HEADER, &header) == MT_OK);
	CHECK(mt_table_read(ALL_TAGS, sizeof ALL_TAGS, pairs, 20, &table) == MT_OK && table.count == 19);
	CHECK(mt_write_tx_select(room, sizeof room, &written) == MT_OUT_OF_MEMORY);
	CHECK(mt_header_write(0, values, room, sizeof room, &written) == MT_OUT_OF_MEMORY);
	CHECK(mt_table_write(pairs, 1, room, sizeof room, &written) == MT_OUT_OF_MEMORY);
	CHECK(mt_table_write(pairs, 19, room, sizeof room, &written) == MT_OUT_OF_MEMORY);
	mt_set_memory(NULL);
	CHECK(mt_write_tx_select(room, sizeof room, &written) == MT_OK);
}

static void misuse(void)
{
	mt_method method;
	mt_header header;
	mt_table table;
	mt_value value;
	uint32_t kind;

	CHECK(mt_method_peek(NULL, 1, &kind) == MT_NULL && mt_method_peek(NULL, 0, NULL) == MT_NULL);
	CHECK(mt_method_peek(NULL, 0, &kind) == MT_UNKNOWN_METHOD);
	CHECK(mt_method_read(NULL, 4, &method) == MT_NULL && mt_method_read(NULL, 0, NULL) == MT_NULL);
	CHECK(mt_method_read(NULL, 0, &method) == MT_VALUE_ENDS);
	CHECK(mt_header_read(NULL, 14, &header) == MT_NULL && mt_header_read(HEADER, sizeof HEADER, NULL) == MT_NULL);
	CHECK(mt_table_read(ALL_TAGS, sizeof ALL_TAGS, NULL, 1, &table) == MT_NULL);
	CHECK(mt_table_read(ALL_TAGS, sizeof ALL_TAGS, NULL, 0, NULL) == MT_NULL);
	CHECK(mt_table_read(ALL_TAGS, sizeof ALL_TAGS, NULL, 0, &table) == MT_NO_ROOM && table.count == 19 &&
	      table.placed == 0);
	CHECK(mt_table_get(NULL, 4, "a", 1, &value, NULL) == MT_NULL);
	CHECK(mt_table_get(ALL_TAGS, sizeof ALL_TAGS, NULL, 1, &value, NULL) == MT_NULL);
	CHECK(mt_table_get(ALL_TAGS, sizeof ALL_TAGS, "t", 1, NULL, NULL) == MT_NULL);
	CHECK(mt_table_get(ALL_TAGS, sizeof ALL_TAGS, NULL, 0, &value, NULL) == MT_NOT_THERE);
	CHECK(mt_array_read(NULL, 1, &value, 1, &table) == MT_NULL &&
	      mt_array_read(NULL, 0, NULL, 0, NULL) == MT_NULL);
}

int main(void)
{
	publish();
	deliver();
	tune();
	declare();
	method_faults();
	header();
	header_faults();
	tags();
	nested();
	table_faults();
	names();
	written();
	misfits();
	every_method();
	header_written();
	table_written();
	memory();
	misuse();
	printf("codec: %lu checks\n", checked);
	return 0;
}
