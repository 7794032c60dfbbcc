/* What the tests share: a check that says where it failed. */
#ifndef CHECK_H
#define CHECK_H

#include <stdio.h>
#include <stdlib.h>

static unsigned long checked;

#define CHECK(condition)                                                                                             \
	do {                                                                                                         \
		++checked;                                                                                           \
		if (!(condition)) {                                                                                  \
			fprintf(stderr, "%s:%d: %s\n", __FILE__, __LINE__, #condition);                              \
			exit(1);                                                                                     \
		}                                                                                                    \
	} while (0)

#endif
