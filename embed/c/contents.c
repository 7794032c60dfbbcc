/* Contents whose bodies come part by part, or are lent where they lie, as C programs call them: null pointers are refused
 * here, and too few places. */
#include "meadowtray.h"

/* The room of a handle, whichever it is. */
typedef struct slot {
	void *at;
	bool open;
} slot;

_Static_assert(sizeof(mt_content) == sizeof(slot), "a content is a slot");
_Static_assert(offsetof(mt_content, open) == offsetof(slot, open), "a content is a slot");

uint32_t proved_content_open(slot *slot);
uint32_t proved_content_left(slot *slot, uint64_t *left);
uint32_t proved_content_add_to(slot *slot, uint64_t *count);
uint32_t proved_content_write(slot *slot, const uint8_t *part, size_t length);
uint32_t proved_content_octets(slot *slot, mt_octets *octets);
uint32_t proved_close(slot *slot);
uint32_t proved_end_begin_content(slot *end, slot *content, uint16_t channel, const uint8_t *method, size_t method_length,
				  const uint8_t *header, size_t header_length);
uint32_t proved_end_lend_content(slot *end, slot *content, uint16_t channel, const uint8_t *method, size_t method_length,
				 const uint8_t *header, size_t header_length, const uint8_t *body, size_t body_length,
				 mt_octets *pieces, size_t capacity, size_t *count);

/* No octets, where a pointer is wanted that isn't null. */
static const uint8_t NOTHING[1];

#define WANTED(condition)                                                                                            \
	do {                                                                                                         \
		if (!(condition))                                                                                    \
			return MT_NULL;                                                                              \
	} while (0)

static bool are_there(mt_octets octets)
{
	return octets.at != NULL || octets.length == 0;
}

static mt_octets taken_from(mt_octets octets)
{
	return octets.at != NULL ? octets : (mt_octets){NOTHING, 0};
}

uint32_t mt_content_open(mt_content *content)
{
	WANTED(content);
	return proved_content_open((slot *)content);
}

/* The octets to write, once a call went well. */
static uint32_t lent(mt_content *content, uint32_t status, mt_octets *octets)
{
	return status == MT_OK ? proved_content_octets((slot *)content, octets) : status;
}

uint32_t mt_end_begin_content(mt_end *end, mt_content *content, uint16_t channel, mt_octets method, mt_octets header,
			      mt_octets *octets)
{
	WANTED(end && content && octets && are_there(method) && are_there(header));
	method = taken_from(method);
	header = taken_from(header);
	*octets = (mt_octets){NOTHING, 0};
	return lent(content,
		    proved_end_begin_content((slot *)end, (slot *)content, channel, method.at, method.length, header.at,
					     header.length),
		    octets);
}

/* What stands around the parts of the body, and each part, where a frame has 8 octets beside its payload. */
uint32_t mt_end_pieces(mt_end *end, size_t length, size_t *count)
{
	mt_agreed agreed;
	uint32_t status;

	WANTED(end && count);
	*count = 0;
	status = mt_end_agreed(end, &agreed);
	if (status != MT_OK)
		return status;
	if (agreed.frame_max <= 8)
		return MT_ASK_NOT_RUNNING;
	*count = length == 0 ? 1 : 2 * ((length - 1) / (agreed.frame_max - 8) + 1) + 1;
	return MT_OK;
}

uint32_t mt_end_lend_content(mt_end *end, mt_content *content, uint16_t channel, const mt_message *message,
			     mt_octets *pieces, size_t capacity, size_t *count)
{
	mt_octets method, header, body;
	size_t wanted;

	WANTED(end && content && message && pieces && count);
	WANTED(are_there(message->method) && are_there(message->header) && are_there(message->body));
	*count = 0;
	method = taken_from(message->method);
	header = taken_from(message->header);
	body = taken_from(message->body);
	if (mt_end_pieces(end, body.length, &wanted) == MT_OK && capacity < wanted)
		return MT_NO_ROOM;
	return proved_end_lend_content((slot *)end, (slot *)content, channel, method.at, method.length, header.at,
				       header.length, body.at, body.length, pieces, capacity, count);
}

uint32_t mt_content_write(mt_content *content, const uint8_t *part, size_t length, mt_octets *octets)
{
	WANTED(content && octets && (part || length == 0));
	*octets = (mt_octets){NOTHING, 0};
	return lent(content, proved_content_write((slot *)content, part ? part : NOTHING, length), octets);
}

uint32_t mt_content_left(mt_content *content, uint64_t *left)
{
	WANTED(content && left);
	return proved_content_left((slot *)content, left);
}

uint32_t mt_content_add_to(mt_content *content, uint64_t *count)
{
	WANTED(content && count);
	return proved_content_add_to((slot *)content, count);
}

uint32_t mt_content_close(mt_content *content)
{
	WANTED(content);
	return proved_close((slot *)content);
}
