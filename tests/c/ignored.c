/* One call whose reply is used or, with IGNORED, is not. CALL is the call. */
#include "doorclover.h"

static doorclover_state s;
static doorclover_map m;
static uint8_t a[8], b[8], c[8], d[8], e[8];
static uint64_t x[8];
static uint32_t n[8];

int use(void);
int use(void)
{
#ifdef IGNORED
    CALL;
    return a[0] + b[0] + c[0] + d[0] + e[0] + (x[0] == n[0]) + s.words[0] + m.values[0];
#else
    return sizeof(CALL) > 0 ? a[0] + b[0] + c[0] + d[0] + e[0] + (x[0] == n[0]) + s.words[0] + m.values[0]
                            : 0;
#endif
}
