/*
 * Changes of a variable file by the journal: they are kept in mind until the journal has them done, and the file is
 * replaced as a whole before that. So a cut before that leaves none of them made, and a journal that has all of them to
 * be made. It goes the way of crates/machine_changes.
 */
#include "machine.h"

#include <errno.h>
#include <stdlib.h>
#include <string.h>

/* A copy of bytes, or none of none. */
static bool copy_value(struct bytes *copy, const uint8_t *at, size_t len)
{
    *copy = (struct bytes){NULL, 0};
    return at == NULL || bytes_copy(copy, at, len);
}

bool due_add(struct session *session, const struct wanted_value *wanted)
{
    struct due_change *grown = realloc(session->due, (session->due_len + 1) * sizeof *grown);
    struct due_change *added;

    if (grown == NULL)
        return false;
    session->due = grown;
    added = &grown[session->due_len];
    memset(added, 0, sizeof *added);
    memcpy(added->name, wanted->name, strlen(wanted->name) + 1);
    added->checks_before = wanted->checks_before;
    if (!copy_value(&added->before, wanted->before, wanted->before_len) ||
        !copy_value(&added->after, wanted->after, wanted->after_len)) {
        bytes_free(&added->before);
        return false;
    }
    session->due_len++;
    return true;
}

void due_free(struct session *session)
{
    for (size_t i = 0; i < session->due_len; i++) {
        bytes_free(&session->due[i].before);
        bytes_free(&session->due[i].after);
    }
    free(session->due);
    session->due = NULL;
    session->due_len = 0;
}

void due_forget(struct session *session)
{
    if (session->due_len > 0)
        texts_free(&session->begun);
    due_free(session);
}

/* Reads the file, and what it has as a machine keeps it: false with `why` if that can't be. */
static bool read_stored(const struct session *session, struct bytes *file, struct bytes *kept, struct reason *why)
{
    const char *place = session->machine->place;
    struct bootkeep_refusal refusal;
    int what = read_regular(place, READ_MAX, file);
    uint32_t status;

    *kept = (struct bytes){NULL, 0};
    reason_set(why, place, what > 0 ? what : 0,
               what == READ_IRREGULAR  ? BOOTKEEP_MACHINE_FAULT_IRREGULAR
               : what == READ_TOO_MUCH ? BOOTKEEP_MACHINE_FAULT_TOO_MUCH
                                       : BOOTKEEP_NO_KIND);
    if (what != READ_DONE)
        return false;
    ANSWER(status, kept, bootkeep_store_vars(file->at, file->len, INTO(kept), &refusal));
    if (status == BOOTKEEP_REFUSED)
        why->refusal = refusal;
    else if (status != BOOTKEEP_DONE)
        why->system_error = ENOMEM;
    return status == BOOTKEEP_DONE;
}

/* Whether a set has this value under a name: false also if memory is refused. */
static bool has_value(struct bytes kept, const char *name, struct bytes value)
{
    struct bytes stored;
    uint32_t status = set_get(kept, name, &stored);
    const bool has = (status == BOOTKEEP_DONE && value.at != NULL && bytes_equal(stored, value)) ||
                     (status == BOOTKEEP_ABSENT && value.at == NULL);

    bytes_free(&stored);
    return has;
}

/* Whether a set has the data of this value under a name, and other attributes. */
static bool has_other_attributes(struct bytes kept, const char *name, struct bytes value)
{
    struct bytes stored;
    bool has = set_get(kept, name, &stored) == BOOTKEEP_DONE && value.at != NULL && stored.len == value.len &&
               memcmp(stored.at, value.at, ATTRIBUTES_LEN) != 0;

    has = has && memcmp(stored.at + ATTRIBUTES_LEN, value.at + ATTRIBUTES_LEN, value.len - ATTRIBUTES_LEN) == 0;
    bytes_free(&stored);
    return has;
}

/* Whether all of the changes are made. */
static bool are_made(const struct session *session, struct bytes kept)
{
    for (size_t i = 0; i < session->due_len; i++)
        if (!has_value(kept, session->due[i].name, session->due[i].after))
            return false;
    return true;
}

/* Whether a variable that is changed for the first time isn't what was read of it any more. */
static bool is_changed_meanwhile(const struct session *session, struct bytes kept)
{
    for (size_t i = 0; i < session->due_len; i++) {
        const struct due_change *due = &session->due[i];

        if (due->checks_before && !has_value(kept, due->name, due->before) && !has_value(kept, due->name, due->after))
            return true;
    }
    return false;
}

/*
 * The sets of what is kept once the changes are made, and before that without those variables whose attributes alone
 * change: a record with the same data isn't written anew.
 */
static uint32_t make_sets(const struct session *session, struct bytes kept, struct bytes *renewed, struct bytes *made,
                          struct bootkeep_refusal *refusal)
{
    uint32_t status = bytes_copy(renewed, kept.at, kept.len) ? BOOTKEEP_DONE : BOOTKEEP_NO_MEMORY;

    if (status == BOOTKEEP_DONE && !bytes_copy(made, kept.at, kept.len))
        status = BOOTKEEP_NO_MEMORY;
    for (size_t i = 0; status == BOOTKEEP_DONE && i < session->due_len; i++) {
        const struct due_change *due = &session->due[i];

        if (has_other_attributes(kept, due->name, due->after))
            status = set_put(renewed, due->name, NULL, 0, refusal);
        if (status == BOOTKEEP_DONE)
            status = set_put(made, due->name, due->after.at, due->after.len, refusal);
    }
    return status;
}

/* The bytes of the file once the changes are made. */
static uint32_t make_bytes(const struct session *session, struct bytes file, struct bytes kept, struct bytes *bytes,
                           struct bootkeep_refusal *refusal)
{
    struct bytes renewed = {NULL, 0}, made = {NULL, 0}, between = {NULL, 0};
    uint32_t status = make_sets(session, kept, &renewed, &made, refusal);

    *bytes = (struct bytes){NULL, 0};
    if (status == BOOTKEEP_DONE)
        status = store_with(file, renewed, NULL, &between, refusal);
    if (status == BOOTKEEP_DONE)
        status = store_with(between, made, NULL, bytes, refusal);
    bytes_free(&between);
    bytes_free(&renewed);
    bytes_free(&made);
    return status;
}

/* Writes the changes over a file that has these bytes and keeps this: `*is_new` is whether it has them then. */
static bool write_over(struct session *session, struct bytes file, struct bytes kept, struct reason *why, bool *is_new)
{
    struct bootkeep_refusal refusal;
    struct bytes bytes;
    int error;
    uint32_t status = make_bytes(session, file, kept, &bytes, &refusal);

    reason_set(why, session->machine->place, 0, BOOTKEEP_NO_KIND);
    if (status != BOOTKEEP_DONE) {
        if (status == BOOTKEEP_REFUSED)
            why->refusal = refusal;
        else
            why->system_error = ENOMEM;
        return false;
    }
    error = replace_locked(session->file_path, &session->place_lock, true, bytes, is_new);
    why->system_error = error;
    bytes_free(&bytes);
    return error == 0;
}

bool due_write(struct session *session, struct reason *why)
{
    struct bytes file, kept;
    bool written, is_new = false;

    if (session->due_len == 0)
        return true;
    written = read_stored(session, &file, &kept, why);
    if (written && is_changed_meanwhile(session, kept)) {
        reason_set(why, session->machine->place, 0, BOOTKEEP_MACHINE_FAULT_CHANGED_MEANWHILE);
        written = false;
    } else if (written && !are_made(session, kept)) {
        written = write_over(session, file, kept, why, &is_new);
    }
    /* Nothing of this call was written, so nothing of it is to be taken back: somebody else may have replaced the file.
     */
    if (!written && !is_new && session->doing == DOING_FIRST)
        texts_free(&session->begun);
    due_free(session);
    bytes_free(&kept);
    bytes_free(&file);
    return written;
}

bool due_is_made(const struct session *session, const struct wanted_value *wanted)
{
    const struct bytes value = {(uint8_t *)wanted->after, wanted->after_len};
    struct reason *why = malloc(sizeof *why);
    struct bytes file = {NULL, 0}, kept = {NULL, 0};
    const bool is = why != NULL && read_stored(session, &file, &kept, why) && has_value(kept, wanted->name, value);

    bytes_free(&kept);
    bytes_free(&file);
    free(why);
    return is;
}
