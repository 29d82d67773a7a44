// Reading with sofia-sip.
#include "calls.h"

#include <sofia-sip/sdp.h>
#include <sofia-sip/su_alloc.h>

static int is_read(const uint8_t *text, size_t length)
{
    su_home_t home[1] = {SU_HOME_INIT(home)};
    su_home_init(home);
    sdp_parser_t *parser = sdp_parse(home, (const char *)text, (issize_t)length, 0);
    int result = sdp_session(parser) != NULL;
    sdp_parser_free(parser);
    su_home_deinit(home);
    return result;
}

uint64_t sofia_read(const uint8_t *text, size_t length, uint32_t more)
{
    for (uint32_t i = 0; i < more; i++)
        if (!is_read(text, length))
            return UINT64_MAX;
    return is_read(text, length) ? 0 : UINT64_MAX;
}
