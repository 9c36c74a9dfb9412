/* Which version of the library is linked or loaded; the number itself stands in the header. */
#include "shahfureel.h"

const char *shahfureel_version(void) { return SHAHFUREEL_VERSION; }
