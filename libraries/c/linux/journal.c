/*
 * The journal of the state folder: what an interrupted change still has to do, and which requests were applied
 * (docs/formats/machine.md). Whose it is, is settled as crates/machine_changes does it.
 */
#include "machine.h"

#include <errno.h>
#include <fcntl.h>
#include <stdio.h>
#include <stdlib.h>
#include <string.h>
#include <unistd.h>

#define RANDOM "/dev/urandom"

/* The letters that a journal begins with, which names its machine, and the length of a number in it. */
static const uint8_t named_magic[] = {'B', 'K', 'J', '2'};
enum { MAGIC_LEN = 4, NUMBER_LEN = 4 };

static bool path_of_journal(const struct bootkeep_machine *machine, char path[PATH_MAX])
{
    return path_join(path, machine->state, "journal");
}

/* The number at this place, little-endian. */
static size_t number_at(const uint8_t *at)
{
    return (size_t)at[0] | (size_t)at[1] << 8 | (size_t)at[2] << 16 | (size_t)at[3] << 24;
}

static void put_number(uint8_t *at, size_t number)
{
    for (size_t i = 0; i < NUMBER_LEN; i++)
        at[i] = (uint8_t)(number >> (8 * i));
}

/* Parts the notes from the journal, and looks whether something is left to do. */
static uint32_t part(struct bootkeep_machine *machine, const char *path, struct bytes whole, struct journal *journal)
{
    const uint32_t at = BOOTKEEP_MACHINE_AT_JOURNAL;
    struct bootkeep_refusal refusal;
    size_t taken = 0;
    uint32_t idle = 0;
    uint32_t status = bootkeep_notes_len(whole.at, whole.len, &taken, &refusal);

    if (status == BOOTKEEP_DONE)
        status = bootkeep_journal_is_idle(whole.at + taken, whole.len - taken, &idle, &refusal);
    if (status == BOOTKEEP_REFUSED && refusal.place != BOOTKEEP_NO_PLACE)
        refusal.place += taken;
    if (status != BOOTKEEP_DONE)
        return call_answered(machine, at, path, status, &refusal);
    journal->is_idle = idle != 0;
    if (!bytes_copy(&journal->file, whole.at + taken, whole.len - taken))
        return call_no_memory(machine);
    if (taken > 0 && !bytes_copy(&journal->notes, whole.at, taken))
        return call_no_memory(machine);
    return BOOTKEEP_DONE;
}

uint32_t journal_read(struct bootkeep_machine *machine, bool dry_run, struct journal *journal)
{
    const uint32_t at = BOOTKEEP_MACHINE_AT_JOURNAL;
    char path[PATH_MAX];
    struct bytes whole;
    uint32_t status;
    int what;

    *journal = (struct journal){{NULL, 0}, {NULL, 0}, true};
    if (!path_of_journal(machine, path))
        return call_system(machine, at, machine->state, ENAMETOOLONG);
    what = read_regular(path, READ_MAX, &whole);
    if (what == ENOENT)
        return BOOTKEEP_DONE;
    if (dry_run && (what == EACCES || what == EPERM))
        return remark(machine, path, "it may not be read, so what an earlier change has left to do isn't counted")
                   ? BOOTKEEP_DONE
                   : call_no_memory(machine);
    if (what == READ_IRREGULAR)
        return call_refused(machine, at, path, BOOTKEEP_MACHINE_FAULT_IRREGULAR);
    if (what == READ_TOO_MUCH)
        return call_refused(machine, at, path, BOOTKEEP_MACHINE_FAULT_TOO_MUCH);
    if (what != READ_DONE)
        return call_system(machine, at, path, what);
    status = part(machine, path, whole, journal);
    bytes_free(&whole);
    return status;
}

void journal_free(struct journal *journal)
{
    bytes_free(&journal->file);
    bytes_free(&journal->notes);
}

/* Whether the journal names its machine, as all do but those of version 1. It isn't damaged. */
static bool is_named(struct bytes file)
{
    return memcmp(file.at, named_magic, MAGIC_LEN) == 0;
}

/* A journal that names this machine, with the rest of one after its name: of none what a journal has at first. */
static bool make_named(struct bytes *made, const char *name, const uint8_t *rest, size_t rest_len)
{
    static const uint8_t no_state[NUMBER_LEN] = {0};
    const size_t len = strlen(name);

    if (rest_len == 0) {
        rest = no_state;
        rest_len = sizeof no_state;
    }
    if (!bytes_make(made, MAGIC_LEN + NUMBER_LEN + len + rest_len))
        return false;
    memcpy(made->at, named_magic, MAGIC_LEN);
    put_number(made->at + MAGIC_LEN, len);
    memcpy(made->at + MAGIC_LEN + NUMBER_LEN, name, len);
    memcpy(made->at + MAGIC_LEN + NUMBER_LEN + len, rest, rest_len);
    return true;
}

/* Whether the journal's machine has this name, which may be NULL. */
static bool is_of(struct bytes file, const char *name)
{
    const size_t len = number_at(file.at + MAGIC_LEN);

    return name != NULL && len == strlen(name) && memcmp(file.at + MAGIC_LEN + NUMBER_LEN, name, len) == 0;
}

/* Gives the journal the name of this machine, in memory, and unless it is a dry run in its file. */
static uint32_t rename_journal(struct bootkeep_machine *machine, const struct identity *identity, bool dry_run,
                               struct journal *journal)
{
    const size_t skipped =
        is_named(journal->file) ? MAGIC_LEN + NUMBER_LEN + number_at(journal->file.at + MAGIC_LEN) : MAGIC_LEN;
    struct bytes made;

    if (!make_named(&made, identity->name, journal->file.at + skipped, journal->file.len - skipped))
        return call_no_memory(machine);
    bytes_take(&journal->file, &made);
    if (dry_run || journal_replace(machine, journal->notes, journal->file, &machine->outcome.why))
        return BOOTKEEP_DONE;
    if (machine->outcome.why.refusal.kind != BOOTKEEP_NO_KIND)
        return call_ended(machine, BOOTKEEP_MACHINE_AT_JOURNAL, BOOTKEEP_REFUSED, BOOTKEEP_MACHINE_LEFT_NOTHING);
    return call_system(machine, BOOTKEEP_MACHINE_AT_JOURNAL, machine->outcome.why.path,
                       machine->outcome.why.system_error);
}

/* Refuses another machine's journal, unless it is to be taken over and has nothing left to do. */
static uint32_t check_adoption(struct bootkeep_machine *machine, const struct identity *identity,
                               const struct journal *journal)
{
    const uint32_t at = BOOTKEEP_MACHINE_AT_JOURNAL;
    char path[PATH_MAX];

    if (!path_of_journal(machine, path))
        return call_system(machine, at, machine->state, ENAMETOOLONG);
    if (identity->unread != 0)
        return call_refused(machine, at, path, BOOTKEEP_MACHINE_FAULT_UNKNOWN_MACHINE);
    if ((machine->flags & BOOTKEEP_MACHINE_ADOPT) != 0 && journal->is_idle)
        return BOOTKEEP_DONE;
    return call_refused(machine, at, path, BOOTKEEP_MACHINE_FAULT_OF_ANOTHER);
}

bool journal_is_of_another(const struct identity *identity, const struct journal *journal)
{
    return journal->file.len > 0 && is_named(journal->file) && !is_of(journal->file, identity->name) &&
           !is_of(journal->file, identity->former);
}

uint32_t journal_own(struct bootkeep_machine *machine, const struct identity *identity, bool dry_run,
                     struct journal *journal)
{
    uint32_t status;

    if (journal->file.len == 0 || (is_named(journal->file) && is_of(journal->file, identity->name)))
        return BOOTKEEP_DONE;
    if (is_named(journal->file) && is_of(journal->file, identity->former))
        return rename_journal(machine, identity, dry_run, journal);
    if (is_named(journal->file)) {
        status = check_adoption(machine, identity, journal);
        if (status != BOOTKEEP_DONE)
            return status;
    }
    /* The identity was that of another journal. */
    bytes_free(&journal->notes);
    /* What one of version 1 has left to do has no attributes: the first move of settling it writes it anew. */
    if (!is_named(journal->file) && !journal->is_idle)
        return BOOTKEEP_DONE;
    return rename_journal(machine, identity, dry_run, journal);
}

bool journal_replace(const struct bootkeep_machine *machine, struct bytes notes, struct bytes file, struct reason *why)
{
    char path[PATH_MAX];
    struct bytes whole;
    int error;

    if (!path_of_journal(machine, path)) {
        reason_set(why, machine->state, ENAMETOOLONG, BOOTKEEP_NO_KIND);
        return false;
    }
    if (notes.len + file.len > READ_MAX) {
        reason_set(why, path, 0, BOOTKEEP_MACHINE_FAULT_TOO_LONG);
        return false;
    }
    error = bytes_join(&whole, notes, file) ? replace_file(path, whole) : ENOMEM;
    bytes_free(&whole);
    reason_set(why, path, error, BOOTKEEP_NO_KIND);
    return error == 0;
}

bool journal_may_have(const struct bootkeep_machine *machine, struct bytes notes, struct bytes file)
{
    char path[PATH_MAX];
    struct bytes whole, stored;
    bool may;
    int what;

    if (!path_of_journal(machine, path))
        return false;
    if (!bytes_join(&whole, notes, file))
        return true;
    what = read_regular(path, READ_MAX, &stored);
    if (what == READ_DONE)
        may = bytes_equal(stored, whole);
    else
        may = what != READ_TOO_MUCH && what != READ_IRREGULAR && what != ENOENT;
    bytes_free(&stored);
    bytes_free(&whole);
    return may;
}

/* Draws the bytes of an identity: false if the system draws none. */
static bool draw(uint8_t identity[BOOTKEEP_IDENTITY_LEN])
{
    int file = open_again(RANDOM, O_RDONLY, 0);
    size_t done = 0;
    ssize_t got = 1;

    while (file >= 0 && done < BOOTKEEP_IDENTITY_LEN && (got > 0 || (got < 0 && errno == EINTR))) {
        got = read(file, identity + done, BOOTKEEP_IDENTITY_LEN - done);
        done += got > 0 ? (size_t)got : 0;
    }
    if (file >= 0)
        close(file);
    return done == BOOTKEEP_IDENTITY_LEN;
}

uint32_t journal_begin_notes(struct bootkeep_machine *machine, const struct identity *identity, struct journal *journal)
{
    const uint32_t at = BOOTKEEP_MACHINE_AT_JOURNAL;
    uint8_t drawn[BOOTKEEP_IDENTITY_LEN];
    struct bootkeep_refusal refusal;
    struct bytes first = {NULL, 0};
    uint32_t status;

    if (journal->notes.len > 0 || !draw(drawn))
        return BOOTKEEP_DONE;
    ANSWER(status, &journal->notes, bootkeep_notes_make(drawn, sizeof drawn, INTO(&journal->notes), &refusal));
    if (status != BOOTKEEP_DONE)
        return call_answered(machine, at, machine->state, status, &refusal);
    if (journal->file.len == 0 && !make_named(&first, identity->name, NULL, 0))
        return call_no_memory(machine);
    if (!journal_replace(machine, journal->notes, journal->file.len == 0 ? first : journal->file,
                         &machine->outcome.why)) {
        bytes_free(&first);
        bytes_free(&journal->notes);
        return call_system(machine, at, machine->outcome.why.path, machine->outcome.why.system_error);
    }
    if (journal->file.len == 0)
        bytes_take(&journal->file, &first);
    return BOOTKEEP_DONE;
}

const uint8_t *journal_end_of_name(struct bytes file)
{
    const uint8_t *rest = file.at + MAGIC_LEN;

    return is_named(file) ? rest + NUMBER_LEN + number_at(rest) : rest;
}

const uint8_t *journal_state(struct bytes file, size_t *len)
{
    const uint8_t *at = file.len == 0 ? NULL : journal_end_of_name(file);

    *len = at == NULL ? 0 : number_at(at);
    return *len == 0 ? NULL : at + NUMBER_LEN;
}

uint32_t journal_next_number(struct bytes file, uint32_t *number)
{
    struct bootkeep_keeper keeper = {0};
    struct bootkeep_refusal refusal;
    struct bytes set;
    size_t len;
    const uint8_t *state = journal_state(file, &len);
    uint32_t status = set_empty(&set) ? BOOTKEEP_DONE : BOOTKEEP_NO_MEMORY;

    if (status == BOOTKEEP_DONE && state != NULL)
        status = set_put(&set, "BootKeepState", state, len, &refusal);
    if (status == BOOTKEEP_DONE)
        status = bootkeep_keeper_open(&keeper, set.at, set.len, &refusal);
    if (status == BOOTKEEP_DONE) {
        status = bootkeep_keeper_next_number(&keeper, number);
        bootkeep_keeper_close(&keeper);
    }
    bytes_free(&set);
    return status;
}
