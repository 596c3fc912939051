/*
 * Hands a keeper from thread to thread: `turns SET STREAM`, with a set file and a stream of frames of one length each.
 *
 * Each of a thousand threads waits for its turn, delivers one frame to the one keeper and hands it on; the last one
 * closes it. Meanwhile each of a few more keeps a set of its own. All come to the set that one run comes to, or the
 * status is 1. The program is compiled with -fsanitize=thread.
 */
#include <bootkeep.h>
#include <pthread.h>
#include <stdio.h>
#include <stdlib.h>
#include <string.h>

enum { TURNS = 1000, OWN = 4, ROOM = 1 << 20, HEADER = 12 };

struct file {
    uint8_t bytes[ROOM];
    size_t len;
};

static struct file set, stream, after, kept;
static const uint8_t *frames[TURNS];
static size_t lens[TURNS];
static size_t count;

static pthread_mutex_t lock = PTHREAD_MUTEX_INITIALIZER;
static pthread_cond_t moved = PTHREAD_COND_INITIALIZER;
static size_t turn;
static struct bootkeep_keeper shared;
static int failed;

static void fail(const char *what)
{
    fprintf(stderr, "turns: %s\n", what);
    exit(1);
}

static void read_file(const char *path, struct file *file)
{
    FILE *from = fopen(path, "rb");
    if (from == NULL)
        fail(path);
    file->len = fread(file->bytes, 1, ROOM, from);
    fclose(from);
}

/* Finds where the frames of the stream are. */
static void cut(void)
{
    size_t at = 0;
    while (count < TURNS && at + HEADER <= stream.len) {
        const uint8_t *frame = stream.bytes + at;
        frames[count] = frame;
        lens[count] = HEADER + ((size_t)frame[8] | (size_t)frame[9] << 8 | (size_t)frame[10] << 16);
        at += lens[count++];
    }
    stream.len = at;
}

/* Delivers a frame, and gives up if that fails. */
static void deliver(struct bootkeep_keeper *keeper, size_t which)
{
    struct bootkeep_reply reply;
    uint16_t numbers[1];
    size_t len;
    reply.size = sizeof reply;
    if (bootkeep_keeper_deliver_reply(keeper, frames[which], lens[which], &reply, numbers, 1, &len) != BOOTKEEP_DONE)
        failed = 1;
}

/* Closes a keeper, after it gave its set. */
static void end(struct bootkeep_keeper *keeper, struct file *into)
{
    if (bootkeep_keeper_set(keeper, into->bytes, ROOM, &into->len) != BOOTKEEP_DONE)
        failed = 1;
    bootkeep_keeper_close(keeper);
}

static void *take_turn(void *number)
{
    size_t mine = (size_t)(uintptr_t)number;
    pthread_mutex_lock(&lock);
    while (turn != mine)
        pthread_cond_wait(&moved, &lock);
    deliver(&shared, mine);
    if (++turn == count)
        end(&shared, &kept);
    pthread_cond_broadcast(&moved);
    pthread_mutex_unlock(&lock);
    return NULL;
}

/* Keeps a set of its own. */
static void *keep_alone(void *nothing)
{
    struct file *own = malloc(sizeof *own);
    struct bootkeep_keeper keeper;
    struct bootkeep_refusal why;
    (void)nothing;
    if (own == NULL || bootkeep_keeper_open(&keeper, set.bytes, set.len, &why) != BOOTKEEP_DONE)
        fail("a keeper isn't opened");
    for (size_t at = 0; at < count; at++)
        deliver(&keeper, at);
    end(&keeper, own);
    if (own->len != after.len || memcmp(own->bytes, after.bytes, after.len) != 0)
        fail("a keeper comes to another set");
    free(own);
    return NULL;
}

int main(int argc, char **argv)
{
    static uint8_t lines[ROOM];
    static pthread_t threads[TURNS + OWN];
    struct bootkeep_refusal why;
    size_t lines_len;

    if (argc != 3)
        fail("the words are missing");
    read_file(argv[1], &set);
    read_file(argv[2], &stream);
    cut();
    if (bootkeep_run(set.bytes, set.len, stream.bytes, stream.len, after.bytes, ROOM, &after.len, lines, ROOM,
                     &lines_len, &why) != BOOTKEEP_DONE ||
        bootkeep_keeper_open(&shared, set.bytes, set.len, &why) != BOOTKEEP_DONE)
        fail("the stream isn't run, or the keeper isn't opened");
    for (size_t at = 0; at < count + OWN; at++) {
        void *(*work)(void *) = at < count ? take_turn : keep_alone;
        if (pthread_create(&threads[at], NULL, work, (void *)(uintptr_t)at) != 0)
            fail("a thread isn't started");
    }
    for (size_t at = 0; at < count + OWN; at++)
        pthread_join(threads[at], NULL);
    if (failed || kept.len != after.len || memcmp(kept.bytes, after.bytes, after.len) != 0)
        fail("the keeper that went from thread to thread comes to another set");
    printf("%zu threads took their turns\n", count);
    return 0;
}
