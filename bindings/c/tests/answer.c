/* One CALL, whose answer is looked at; with IGNORED defined it is not, and then this must not compile. */
#include "tuilarder.h"

uint32_t call(struct tuilarder_session *record, uint32_t *numbers, uint8_t *bytes, size_t *count);

uint32_t call(struct tuilarder_session *record, uint32_t *numbers, uint8_t *bytes, size_t *count)
{
    (void)record, (void)numbers, (void)bytes, (void)count;
#ifdef IGNORED
    CALL;
    return 0;
#else
    return CALL;
#endif
}
