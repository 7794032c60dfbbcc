// The header, as C++17 reads it.
#include "meadowtray.h"

#include <cstring>

int main()
{
	mt_splitter splitter = MT_SPLITTER_INIT;

	if (mt_splitter_close(&splitter) != MT_NOT_OPEN)
		return 1;
	return std::strcmp(mt_status_text(MT_NOT_OPEN), "the handle isn't open");
}
