/* Frames of requests, for the examples. */
#include "frames.h"

/* A frame is a header, with the length of its payload in the last four bytes, and the payload. */
enum { HEADER = 12, PAYLOAD_MAX = BOOTKEEP_FRAME_MAX - HEADER };

long read_frame(FILE *stream, uint8_t frame[BOOTKEEP_FRAME_MAX])
{
    size_t count = fread(frame, 1, HEADER, stream), len;

    if (count == 0 && feof(stream))
        return 0;
    if (count != HEADER)
        return -1;
    len = frame[8] | frame[9] << 8 | (size_t)frame[10] << 16 | (size_t)frame[11] << 24;
    if (len > PAYLOAD_MAX || fread(frame + HEADER, 1, len, stream) != len)
        return -1;
    return (long)(HEADER + len);
}
