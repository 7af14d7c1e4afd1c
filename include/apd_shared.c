/* The functions of apd.h as exports of libapd.so, for languages that read no header of C. */
#define APD_INLINE
#include "apd.h"

/* The version of the library, as APD_VERSION has it. */
const char apd_version[] = APD_VERSION;
