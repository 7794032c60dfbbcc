/* The memory of the library, by three functions that a program may set. */
#include "meadowtray.h"

#include <stdlib.h>

static mt_memory memory = {malloc, realloc, free};

void mt_set_memory(const mt_memory *set)
{
	static const mt_memory standard = {malloc, realloc, free};
	bool given = set != NULL && set->allocate != NULL && set->resize != NULL && set->release != NULL;

	memory = given ? *set : standard;
}

/* What a request for memory gave. */
struct tried {
	bool ok;
	void *at;
};

struct tried rattle_alloc(size_t size, size_t align);
struct tried rattle_realloc(void *block, size_t kept, size_t size, size_t align);
void rattle_dealloc(void *block);

struct tried rattle_alloc(size_t size, size_t align)
{
	void *at = align > 16 ? NULL : memory.allocate(size > 0 ? size : 1);

	return (struct tried){at != NULL, at};
}

struct tried rattle_realloc(void *block, size_t kept, size_t size, size_t align)
{
	void *at = align > 16 ? NULL : memory.resize(block, size > 0 ? size : 1);

	(void)kept;
	return (struct tried){at != NULL, at};
}

void rattle_dealloc(void *block)
{
	memory.release(block);
}

/* The same for the C part of the library. */
void *take_memory(size_t size);
void give_memory(void *block);

void *take_memory(size_t size)
{
	return memory.allocate(size);
}

void give_memory(void *block)
{
	memory.release(block);
}
