/*
 * What a journal has left to do, as far as a person is told of it before that is done. The journal is one that
 * bootkeep_journal_is_idle took (docs/formats/machine.md, "The inner file").
 */
#include "machine.h"

#include <stdio.h>
#include <string.h>

/* What remains to be read of a journal. */
struct reader {
    const uint8_t *at;
    size_t len;
};

/* A change of the journal. */
struct left_change {
    char name[BOOT_NAME_ROOM];
    struct bytes before;
    struct bytes after;
};

/* Takes so many bytes: NULL if there are fewer. */
static const uint8_t *take(struct reader *reader, size_t len)
{
    const uint8_t *at = reader->at;

    if (len > reader->len)
        return NULL;
    reader->at += len;
    reader->len -= len;
    return at;
}

/* Takes a value, which has its length in four bytes before it. */
static bool take_value(struct reader *reader, struct bytes *value)
{
    const uint8_t *size = take(reader, 4);

    if (size == NULL)
        return false;
    value->len = (size_t)size[0] | (size_t)size[1] << 8 | (size_t)size[2] << 16 | (size_t)size[3] << 24;
    value->at = (uint8_t *)take(reader, value->len);
    return value->at != NULL;
}

/* Takes a text, which has its length in a byte before it, of this room. */
static bool take_text(struct reader *reader, char *text, size_t room)
{
    const uint8_t *size = take(reader, 1);
    const uint8_t *at = size == NULL ? NULL : take(reader, *size);

    if (at == NULL || *size >= room)
        return false;
    memcpy(text, at, *size);
    text[*size] = '\0';
    return true;
}

static bool take_change(struct reader *reader, struct left_change *change)
{
    return take_text(reader, change->name, sizeof change->name) && take_value(reader, &change->before) &&
           take_value(reader, &change->after);
}

/* Whether a variable has this value, of which no bytes stand for none. */
static bool is_now(struct bytes now, struct bytes value)
{
    return bytes_equal(now, value);
}

/* Whether the change is of a variable that is neither what it was before nor what it was to be. */
static bool is_overwriting(const struct session *session, const struct left_change *change, bool is_same_start)
{
    const bool is_next = strcmp(change->name, "BootNext") == 0;
    const struct bytes none = {NULL, 0};
    struct bytes now;
    bool is;

    (void)set_get(session->store.kept, change->name, &now);
    is = !is_now(now, change->before) && !is_now(now, change->after) &&
         !(is_next && !is_same_start && is_now(now, none));
    bytes_free(&now);
    return is;
}

/* Tells of one change. */
static bool tell_change(const struct session *session, const struct left_change *change, bool is_same_start)
{
    char text[128], shown[FAMILY_NAME_ROOM];

    if (is_overwriting(session, change, is_same_start)) {
        snprintf(text, sizeof text,
                 "%s was changed meanwhile, and is overwritten by what an earlier change has left to do",
                 shown_name(session->machine, change->name, shown));
        if (!remark(session->machine, session->machine->place, text))
            return false;
    }
    if (is_same_start || strcmp(change->name, "BootNext") != 0 || change->after.len == 0)
        return true;
    return remark(session->machine, session->machine->place,
                  "BootNext not set again: the machine was started in between");
}

uint32_t pending_tell(struct session *session)
{
    size_t state_len;
    const uint8_t *state = journal_state(session->store.journal, &state_len);
    const uint8_t *rest = state == NULL ? journal_end_of_name(session->store.journal) + 4 : state + state_len;
    struct reader reader = {rest, session->store.journal.len - (size_t)(rest - session->store.journal.at)};
    const uint8_t *course = take(&reader, 1);
    struct left_change change;
    struct bytes was;
    char start[START_ROOM];
    bool told = true;

    if (course == NULL || !take_text(&reader, start, sizeof start) || (*course == 1 && !take_value(&reader, &was)))
        return BOOTKEEP_DONE;
    while (told && reader.len > 0 && take_change(&reader, &change))
        told = tell_change(session, &change, strcmp(start, session->identity.start) == 0);
    return told ? BOOTKEEP_DONE : call_no_memory(session->machine);
}
