// Reading with gst-plugins-base.
#include "calls.h"

#include <gst/sdp/gstsdpmessage.h>

static int is_read(const uint8_t *text, size_t length)
{
    GstSDPMessage *message;
    if (gst_sdp_message_new(&message) != GST_SDP_OK)
        return 0;
    GstSDPResult result = gst_sdp_message_parse_buffer(text, length, message);
    gst_sdp_message_free(message);
    return result == GST_SDP_OK;
}

uint64_t gstreamer_read(const uint8_t *text, size_t length, uint32_t more)
{
    for (uint32_t i = 0; i < more; i++)
        if (!is_read(text, length))
            return UINT64_MAX;
    return is_read(text, length) ? 0 : UINT64_MAX;
}
