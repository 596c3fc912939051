/* Frames of requests, for the examples. */
#ifndef FRAMES_H
#define FRAMES_H

#include <bootkeep.h>
#include <stdio.h>

/* Reads the next frame of a stream: how many bytes it has, 0 at the stream's end, or -1 if there is no whole frame. */
long read_frame(FILE *stream, uint8_t frame[BOOTKEEP_FRAME_MAX]);

#endif
