/* What C programs call: null pointers are refused here, and all else is done by the proved functions, whose names
 * begin with proved_. */
#include "meadowtray.h"

/* The room of a handle, whichever it is. */
typedef struct slot {
	void *at;
	bool open;
} slot;

/* What a piece gave that was split. */
typedef struct split_piece {
	size_t taken;
	size_t count;
	uint64_t at;
	bool cut;
} split_piece;

uint32_t proved_splitter_open(slot *slot, uint32_t limit);
uint32_t proved_splitter_feed(slot *slot, const uint8_t *piece, size_t length, mt_frame *frame);
uint32_t proved_splitter_split(slot *slot, const uint8_t *piece, size_t length, mt_frame *frames, size_t capacity,
			       split_piece *split);
uint32_t proved_splitter_pending(slot *slot, size_t *pending);
uint32_t proved_splitter_set_limit(slot *slot, uint32_t limit);
uint32_t proved_close(slot *slot);

/* What a read tells beside the values: the first members of mt_method and mt_header. */
typedef struct method_read {
	size_t at;
	size_t count;
	uint32_t kind;
} method_read;

typedef struct header_read {
	uint64_t body_size;
	size_t at;
	uint16_t flags;
} header_read;

uint32_t proved_method_peek(const uint8_t *payload, size_t length, uint32_t *kind);
uint32_t proved_method_read(const uint8_t *payload, size_t length, mt_value *fields, size_t capacity,
			    method_read *method);
uint32_t proved_header_read(const uint8_t *payload, size_t length, mt_value *properties, size_t capacity,
			    header_read *header);
uint32_t proved_table_read(const uint8_t *octets, size_t length, mt_pair *pairs, size_t capacity, mt_table *table);
uint32_t proved_table_get(const uint8_t *octets, size_t length, const uint8_t *name, size_t name_length,
			  mt_value *value, size_t *at);
uint32_t proved_array_read(const uint8_t *octets, size_t length, mt_value *values, size_t capacity, mt_table *array);
uint32_t proved_method_write(uint32_t kind, const mt_value *fields, size_t count, uint8_t *room, size_t capacity,
			     mt_written *written);
uint32_t proved_header_write(uint64_t body_size, const mt_value *properties, size_t count, uint8_t *room,
			     size_t capacity, mt_written *written);
uint32_t proved_table_write(const mt_pair *pairs, size_t count, uint8_t *room, size_t capacity, mt_written *written);

/* Each handle of the header is a slot. */
_Static_assert(sizeof(mt_splitter) == sizeof(slot), "a splitter is a slot");
_Static_assert(offsetof(mt_splitter, open) == offsetof(slot, open), "a splitter is a slot");

/* Memory, from where the library takes it (memory.c). */
void *take_memory(size_t size);
void give_memory(void *block);

/* No octets, where a pointer is wanted that isn't null. */
static const uint8_t NOTHING[1];

/* The octets that a caller gives: null stands for none. */
#define OCTETS(at) ((at) != NULL ? (at) : NOTHING)

/* Answers MT_NULL where one of these is null. */
#define WANTED(condition)                                                                                            \
	do {                                                                                                         \
		if (!(condition))                                                                                    \
			return MT_NULL;                                                                              \
	} while (0)

/* A frame before anything is known of it: its payload is lent, so it points somewhere. */
static const mt_frame NO_FRAME = {0, 0, NOTHING, 0, 0, MT_NO_FRAME};

static const mt_value NO_VALUE = {NOTHING, 0, 0, MT_NONE, 0};

static const mt_table NO_TABLE = {0, 0, 0, 0};

static const mt_written NOT_WRITTEN = {0, 0, 0};

/* Whether a value of this kind holds octets. */
static bool holds_octets(uint8_t kind)
{
	switch (kind) {
	case MT_SHORT_STRING:
	case MT_LONG_STRING:
	case MT_TABLE:
	case MT_TAG_LONG_STRING:
	case MT_TAG_BYTE_ARRAY:
	case MT_TAG_ARRAY:
	case MT_TAG_TABLE:
		return true;
	default:
		return false;
	}
}

/* Makes of values that a caller gave those that are handed on, whose pointers are never null. False where a pointer
 * is null that may not be. */
static bool take_values(const mt_value *given, size_t count, mt_value *values)
{
	for (size_t i = 0; i < count; ++i) {
		bool octets = holds_octets(given[i].kind);

		if (octets && !given[i].octets && given[i].length > 0)
			return false;
		values[i] = given[i];
		values[i].octets = octets ? OCTETS(given[i].octets) : NOTHING;
		values[i].length = octets ? given[i].length : 0;
	}
	return true;
}

uint32_t mt_splitter_open(mt_splitter *splitter, uint32_t limit)
{
	WANTED(splitter);
	return proved_splitter_open((slot *)splitter, limit);
}

uint32_t mt_splitter_feed(mt_splitter *splitter, const uint8_t *piece, size_t length, mt_frame *frame)
{
	WANTED(splitter && frame && (piece || length == 0));
	*frame = NO_FRAME;
	return proved_splitter_feed((slot *)splitter, OCTETS(piece), length, frame);
}

/* A frame that began in an earlier piece is the splitter's, and is fed alone. All others lie in the piece. */
uint32_t mt_splitter_feed_batch(mt_splitter *splitter, const uint8_t *piece, size_t length, mt_frame *frames,
				size_t capacity, size_t *count, size_t *taken)
{
	split_piece split = {0, 0, 0, false};
	uint32_t status;

	WANTED(splitter && frames && count && taken && (piece || length == 0));
	status = proved_splitter_split((slot *)splitter, OCTETS(piece), length, frames, capacity, &split);
	if (split.cut && capacity > 0 && length > 0) {
		status = mt_splitter_feed(splitter, piece, length, frames);
		*count = status == MT_OK && frames->kind != MT_NO_FRAME;
		*taken = frames->taken;
		return status;
	}
	if (status != MT_OK && split.count < capacity) {
		frames[split.count] = NO_FRAME;
		frames[split.count].at = split.at;
	}
	*count = split.count;
	*taken = split.taken;
	return status;
}

uint32_t mt_splitter_pending(mt_splitter *splitter, size_t *pending)
{
	WANTED(splitter && pending);
	return proved_splitter_pending((slot *)splitter, pending);
}

uint32_t mt_splitter_set_limit(mt_splitter *splitter, uint32_t limit)
{
	WANTED(splitter);
	return proved_splitter_set_limit((slot *)splitter, limit);
}

uint32_t mt_splitter_close(mt_splitter *splitter)
{
	WANTED(splitter);
	return proved_close((slot *)splitter);
}

uint32_t mt_method_peek(const uint8_t *payload, size_t length, uint32_t *kind)
{
	WANTED(kind && (payload || length == 0));
	return proved_method_peek(OCTETS(payload), length, kind);
}

uint32_t mt_method_read(const uint8_t *payload, size_t length, mt_method *method)
{
	method_read told = {0, 0, 0};
	uint32_t status;

	WANTED(method && (payload || length == 0));
	status = proved_method_read(OCTETS(payload), length, method->fields, MT_MOST_FIELDS, &told);
	method->at = told.at;
	method->count = told.count;
	method->kind = told.kind;
	return status;
}

uint32_t mt_header_read(const uint8_t *payload, size_t length, mt_header *header)
{
	header_read told = {0, 0, 0};
	uint32_t status;

	WANTED(header && (payload || length == 0));
	status = proved_header_read(OCTETS(payload), length, header->properties, MT_PROPERTIES, &told);
	header->body_size = told.body_size;
	header->at = told.at;
	header->flags = told.flags;
	return status;
}

uint32_t mt_table_read(const uint8_t *octets, size_t length, mt_pair *pairs, size_t capacity, mt_table *table)
{
	mt_pair none;

	WANTED(table && (octets || length == 0) && (pairs || capacity == 0));
	*table = NO_TABLE;
	return proved_table_read(OCTETS(octets), length, pairs ? pairs : &none, capacity, table);
}

uint32_t mt_table_get(const uint8_t *octets, size_t length, const void *name, size_t name_length, mt_value *value,
		      size_t *at)
{
	size_t place = 0;
	uint32_t status;

	WANTED(value && (octets || length == 0) && (name || name_length == 0));
	*value = NO_VALUE;
	status = proved_table_get(OCTETS(octets), length, OCTETS((const uint8_t *)name), name_length, value, &place);
	if (at)
		*at = place;
	return status;
}

uint32_t mt_array_read(const uint8_t *octets, size_t length, mt_value *values, size_t capacity, mt_table *array)
{
	mt_value none;

	WANTED(array && (octets || length == 0) && (values || capacity == 0));
	*array = NO_TABLE;
	return proved_array_read(OCTETS(octets), length, values ? values : &none, capacity, array);
}

/* More values than the most that there are don't fit, whatever stands behind the first of them. */
enum { FIELDS_TAKEN = MT_MOST_FIELDS + 1 };

uint32_t mt_method_write(uint32_t kind, const mt_value *fields, size_t count, uint8_t *room, size_t capacity,
			 mt_written *written)
{
	mt_value values[FIELDS_TAKEN];
	uint8_t none;

	WANTED(written && (fields || count == 0) && (room || capacity == 0));
	*written = NOT_WRITTEN;
	if (count > FIELDS_TAKEN)
		count = FIELDS_TAKEN;
	WANTED(take_values(fields, count, values));
	return proved_method_write(kind, values, count, room ? room : &none, capacity, written);
}

uint32_t mt_header_write(uint64_t body_size, const mt_value *properties, uint8_t *room, size_t capacity,
			 mt_written *written)
{
	mt_value values[MT_PROPERTIES];
	uint8_t none;

	WANTED(written && properties && (room || capacity == 0));
	*written = NOT_WRITTEN;
	WANTED(take_values(properties, MT_PROPERTIES, values));
	return proved_header_write(body_size, values, MT_PROPERTIES, room ? room : &none, capacity, written);
}

/* As take_values, of pairs. */
static bool take_pairs(const mt_pair *given, size_t count, mt_pair *pairs)
{
	for (size_t i = 0; i < count; ++i) {
		if (!given[i].name && given[i].name_length > 0)
			return false;
		pairs[i].name = OCTETS(given[i].name);
		pairs[i].name_length = given[i].name_length;
		if (!take_values(&given[i].value, 1, &pairs[i].value))
			return false;
	}
	return true;
}

uint32_t mt_table_write(const mt_pair *pairs, size_t count, uint8_t *room, size_t capacity, mt_written *written)
{
	mt_pair few[8];
	mt_pair *taken = few;
	uint32_t status = MT_NULL;
	uint8_t none;

	WANTED(written && (pairs || count == 0) && (room || capacity == 0));
	*written = NOT_WRITTEN;
	if (count > sizeof few / sizeof *few)
		taken = count <= SIZE_MAX / sizeof *taken ? take_memory(count * sizeof *taken) : NULL;
	if (!taken)
		return MT_OUT_OF_MEMORY;
	if (take_pairs(pairs, count, taken))
		status = proved_table_write(taken, count, room ? room : &none, capacity, written);
	if (taken != few)
		give_memory(taken);
	return status;
}
