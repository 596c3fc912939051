/* What an earlier change has left to do. */
#include "machine.h"

#include <errno.h>
#include <stdlib.h>
#include <string.h>
#include <sys/stat.h>

/* The journal as this machine's own, read without a lock. */
static uint32_t look_at_journal(struct bootkeep_machine *machine, struct journal *journal)
{
    struct identity identity;
    uint32_t status = identity_read(machine, &identity);

    *journal = (struct journal){{NULL, 0}, {NULL, 0}, true};
    if (status == BOOTKEEP_DONE)
        status = journal_read(machine, false, journal);
    if (status == BOOTKEEP_DONE)
        status = journal_own(machine, &identity, true, journal);
    identity_free(&identity);
    return status;
}

/* ---- Other families of entries ------------------------------------------------------------------------------------
 */

/* A family of entries that has a journal of its own, in a folder of the state folder: changes of them are made by
 * `bootvars efibootmgr`. */
struct family {
    const char *name;
    const char *folder;
};

static const struct family families[] = {{"Driver", "driver"}, {"SysPrep", "sysprep"}};

enum { FAMILIES = sizeof families / sizeof *families };

/* Whether the variables are in a folder: other families are changed only there. */
static bool is_in_folder(const struct bootkeep_machine *machine)
{
    struct stat found;

    return stat(machine->place, &found) == 0 && S_ISDIR(found.st_mode);
}

/* Does something with the machine as one of this family, if it has a state folder of that: BOOTKEEP_DONE otherwise. */
static uint32_t as_family(struct bootkeep_machine *machine, const struct family *family,
                          uint32_t (*act)(struct bootkeep_machine *machine, void *with), void *with)
{
    char *state = machine->state;
    char path[PATH_MAX];
    struct stat found;
    uint32_t status;

    if (!path_join(path, state, family->folder) || stat(path, &found) != 0)
        return BOOTKEEP_DONE;
    machine->state = path;
    machine->family = family->name;
    status = act(machine, with);
    machine->state = state;
    machine->family = BOOT_FAMILY;
    return status;
}

/* ---- What is owed --------------------------------------------------------------------------------------------------
 */

/* Looks whether something is owed, and counts it. */
static uint32_t look_owed(struct bootkeep_machine *machine, void *with)
{
    uint32_t *owed = (uint32_t *)with;
    struct journal journal;
    uint32_t status = look_at_journal(machine, &journal);

    if (status == BOOTKEEP_DONE && !journal.is_idle)
        *owed = 1;
    journal_free(&journal);
    return status;
}

uint32_t bootkeep_machine_owed(struct bootkeep_machine *machine, uint32_t *owed)
{
    const bool has_families = is_in_folder(machine);
    uint32_t found = 0, status;

    call_begin(machine);
    status = look_owed(machine, &found);
    for (size_t i = 0; status == BOOTKEEP_DONE && has_families && i < FAMILIES; i++)
        status = as_family(machine, &families[i], look_owed, &found);
    if (status == BOOTKEEP_DONE)
        *owed = found;
    return status;
}

/* What the journal says of requests. */
static uint32_t tell_journal(struct bootkeep_machine *machine, const struct journal *found,
                             struct bootkeep_machine_journal *journal)
{
    struct bootkeep_refusal refusal;
    size_t len = 0;
    uint32_t status = bootkeep_notes_identity(found->notes.at, found->notes.len, journal->identity,
                                              sizeof journal->identity, &len, &refusal);

    if (status != BOOTKEEP_DONE && status != BOOTKEEP_ABSENT)
        return call_answered(machine, BOOTKEEP_MACHINE_AT_JOURNAL, machine->state, status, &refusal);
    journal->has_identity = status == BOOTKEEP_DONE;
    journal->is_owed = !found->is_idle;
    if (journal_next_number(found->file, &journal->next_number) == BOOTKEEP_DONE)
        return BOOTKEEP_DONE;
    return call_refused(machine, BOOTKEEP_MACHINE_AT_JOURNAL, machine->state, BOOTKEEP_FAULT_VARS_BAD_STATE);
}

uint32_t bootkeep_machine_journal(struct bootkeep_machine *machine, struct bootkeep_machine_journal *journal)
{
    struct bootkeep_machine_journal made = {.size = journal->size};
    struct journal found;
    uint32_t status;

    call_begin(machine);
    if (journal->size < sizeof *journal)
        return call_bad_size(machine);
    status = look_at_journal(machine, &found);
    if (status == BOOTKEEP_DONE)
        status = tell_journal(machine, &found, &made);
    if (status == BOOTKEEP_DONE)
        *journal = made;
    journal_free(&found);
    return status;
}

/* ---- Settling ------------------------------------------------------------------------------------------------------
 */

/* A settling of all families. */
struct settling {
    uint32_t flags;
    /* What came of the settling of the last family that there was. */
    struct bootkeep_machine_change change;
};

/* Does what is left to do of one family. */
static uint32_t settle_one(struct bootkeep_machine *machine, void *with)
{
    struct settling *settling = (struct settling *)with;
    struct wanted wanted = {.call = "settle", .flags = settling->flags};

    return change_make(machine, &wanted, &settling->change);
}

/* Does what is left to do of the others too, also if one can't be: the first fault is told, and others are remarks. */
static uint32_t settle_others(struct bootkeep_machine *machine, uint32_t status, struct settling *settling,
                              struct bootkeep_machine_change *change)
{
    struct outcome *first = malloc(sizeof *first);

    if (first == NULL)
        return call_no_memory(machine);
    *first = machine->outcome;
    for (size_t i = 0; i < FAMILIES; i++) {
        uint32_t next;

        (void)call_done(machine);
        settling->change.settled = 0;
        next = as_family(machine, &families[i], settle_one, settling);
        change->settled = change->settled || settling->change.settled;
        if (next != BOOTKEEP_DONE && status == BOOTKEEP_DONE)
            *first = machine->outcome;
        else if (next != BOOTKEEP_DONE &&
                 !texts_add(&machine->remarks, machine->outcome.text, strlen(machine->outcome.text)))
            next = BOOTKEEP_NO_MEMORY;
        status = status == BOOTKEEP_DONE ? next : status;
    }
    machine->outcome = *first;
    free(first);
    return status;
}

uint32_t bootkeep_machine_settle(struct bootkeep_machine *machine, uint32_t flags,
                                 struct bootkeep_machine_change *change)
{
    struct settling settling = {flags, {.size = sizeof settling.change, .entry = BOOTKEEP_NO_ENTRY}};
    struct bootkeep_machine_change made = settling.change;
    struct stat found;
    uint32_t status;

    call_begin(machine);
    status = check_flags(machine, flags, BOOTKEEP_MACHINE_DRY_RUN);
    if (status != BOOTKEEP_DONE)
        return status;
    if (change != NULL && change->size < sizeof *change)
        return call_bad_size(machine);
    /* Without a state folder nothing is left to do. */
    if (stat(machine->state, &found) == 0 || errno != ENOENT) {
        status = settle_one(machine, &settling);
        made = settling.change;
        if (is_in_folder(machine))
            status = settle_others(machine, status, &settling, &made);
    }
    if (change != NULL) {
        made.size = change->size;
        *change = made;
    }
    return status;
}
