/*
 * Takes frames from standard input, one after the other, and keeps a set file by them: after each frame the file is
 * replaced, and only then is the reply printed. So whoever has read a reply knows that its request is stored, also if
 * the program is killed: the frames are then sent again. Programs over files of one folder wait for each other, and
 * `bootkeep run` over the set file waits too.
 *
 *     keep SET <FRAMES
 */
#include "files.h"
#include "frames.h"
#include "tell.h"

#include <stdlib.h>

static uint8_t frame[BOOTKEEP_FRAME_MAX], line[4096];

/* Stores the variables of the keeper in the file, which is locked. */
static int store(struct bootkeep_keeper *keeper, const char *name, int *locked)
{
    size_t len = 0;
    uint8_t *set = NULL, *grown;
    uint32_t status;
    int failed;

    while ((status = bootkeep_keeper_set(keeper, set, len, &len)) == BOOTKEEP_NO_ROOM && (grown = realloc(set, len)))
        set = grown;
    failed = status != BOOTKEEP_DONE || replace_whole(name, set, len, locked) != 0;
    free(set);
    return failed;
}

int main(int count, char **words)
{
    struct bootkeep_keeper keeper = {0};
    struct bootkeep_refusal why;
    size_t len = 0, line_len;
    int locked = count == 2 ? lock_whole(words[1]) : -1, failed = 0;
    uint8_t *set = locked >= 0 ? read_whole(words[1], &len) : NULL;
    uint32_t status = bootkeep_keeper_open(&keeper, set, set != NULL ? len : 0, &why);
    long frame_len = 0;

    while (status == BOOTKEEP_DONE && !failed && (frame_len = read_frame(stdin, frame)) > 0) {
        status = bootkeep_keeper_deliver(&keeper, frame, (size_t)frame_len, line, sizeof line, &line_len);
        failed = status != BOOTKEEP_DONE || store(&keeper, words[1], &locked) != 0 ||
                 printf("%.*s\n", (int)line_len, (char *)line) < 0 || fflush(stdout) != 0;
    }
    bootkeep_keeper_close(&keeper);
    free(set);
    if (status == BOOTKEEP_DONE && (failed || frame_len != 0))
        fputs("keep: something failed; what was replied to is stored\n", stderr);
    return status != BOOTKEEP_DONE ? tell("keep: a set file is wanted", status, &why) : failed || frame_len != 0;
}
