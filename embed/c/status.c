/* The texts of the statuses. */
#include "meadowtray.h"

const char *mt_status_text(uint32_t status)
{
	switch (status) {
	case MT_OK:
		return "ok";
	case MT_NOT_OPEN:
		return "the handle isn't open";
	case MT_ALREADY_OPEN:
		return "the handle is open";
	case MT_OTHER_KIND:
		return "a handle of another kind";
	case MT_OUT_OF_MEMORY:
		return "out of memory";
	case MT_LIMIT:
		return "a limit that can't be set";
	case MT_NULL:
		return "a null pointer";
	case MT_NO_ROOM:
		return "too little room";
	case MT_NOT_THERE:
		return "no pair with this name";
	case MT_MISFIT:
		return "a value that doesn't fit its place";
	case MT_PAST_OUTPUT:
		return "more octets than the output has";
	case MT_WAITS:
		return "octets wait to be written";
	case MT_CUT:
		return "no place for all pieces";
	case MT_FRAME_UNKNOWN_TYPE:
		return "unknown frame type";
	case MT_FRAME_TOO_LARGE:
		return "frame longer than the limit";
	case MT_FRAME_BAD_END:
		return "wrong frame end octet";
	case MT_FRAME_OUT_OF_MEMORY:
		return "out of memory";
	case MT_FRAME_FAILED:
		return "fed after a fault";
	case MT_UNKNOWN_METHOD:
		return "unknown method";
	case MT_TRAILING:
		return "octets after the last field";
	case MT_BAD_WEIGHT:
		return "weight other than 0";
	case MT_BAD_FLAGS:
		return "flag 1 or 0 set";
	case MT_VALUE_ENDS:
		return "the octets end early";
	case MT_VALUE_UNKNOWN_TAG:
		return "unknown tag";
	case MT_VALUE_PASSES_ITS_END:
		return "an element passes the end of its table or array";
	case MT_VALUE_TOO_DEEP:
		return "tables and arrays nest too deep";
	case MT_VALUE_TOO_LONG:
		return "too long to be written";
	case MT_END_PEER:
		return "the other end broke the protocol";
	case MT_END_FATAL:
		return "the other end can't be answered";
	case MT_END_OUT_OF_MEMORY:
		return "out of memory";
	case MT_END_FAILED:
		return "fed after a fault";
	case MT_END_CLOSED:
		return "fed after the connection was closed";
	case MT_SETTINGS_FRAME_MAX:
		return "frame size outside 4096 to 1048576";
	case MT_SETTINGS_CHANNEL_MAX:
		return "no channel";
	case MT_SETTINGS_HELLO_TOO_LONG:
		return "hello longer than a frame of 4096 octets";
	case MT_SETTINGS_OUT_OF_MEMORY:
		return "out of memory";
	case MT_ASK_NOT_RUNNING:
		return "the connection isn't running";
	case MT_ASK_BAD_CHANNEL:
		return "no such channel";
	case MT_ASK_NOT_OPEN:
		return "the channel isn't open";
	case MT_ASK_PAUSED:
		return "the other end takes no contents now";
	case MT_ASK_NOT_SENDABLE:
		return "not sent by this side, or not as a message";
	case MT_ASK_TOO_LARGE:
		return "longer than a frame";
	case MT_ASK_FLOW_PENDING:
		return "a flow is unanswered";
	case MT_ASK_NO_FREE_CHANNEL:
		return "no free channel";
	case MT_ASK_OUT_OF_MEMORY:
		return "out of memory";
	case MT_ASK_REPLY_PENDING:
		return "a request waits for its reply";
	case MT_ASK_NO_SUCH_REQUEST:
		return "no request for this reply";
	case MT_ASK_NOT_AWAITED:
		return "no decision is awaited";
	default:
		return "unknown status";
	}
}
