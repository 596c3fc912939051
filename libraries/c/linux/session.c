/*
 * A call over a machine: the locks, what is read under them, what was left to do before, and the change. It goes the
 * way of crates/machine_changes.
 */
#include "machine.h"

#include <errno.h>
#include <stdio.h>
#include <stdlib.h>
#include <string.h>
#include <unistd.h>

uint32_t check_flags(struct bootkeep_machine *machine, uint32_t flags, uint32_t known)
{
    if ((flags & ~known) == 0)
        return BOOTKEEP_DONE;
    return call_refused(machine, BOOTKEEP_MACHINE_AT_NONE, NULL, BOOTKEEP_MACHINE_FAULT_BAD_WORDS);
}

/* The identity of the machine's start, which of a variable file's machine nothing but the caller tells. */
static uint32_t read_start(struct session *session)
{
    struct bootkeep_machine *machine = session->machine;

    if (session->variables.is_file && machine->given_start == NULL)
        return call_refused(machine, BOOTKEEP_MACHINE_AT_NAME, machine->place, BOOTKEEP_MACHINE_FAULT_NO_START);
    return identity_start(machine, &session->identity);
}

/* Takes over a journal, and what is left to do in it. */
static void take_journal(struct session *session, struct journal *journal)
{
    session->doing = journal->is_idle ? DOING_NOTHING : DOING_SETTLING;
    bytes_take(&session->store.journal, &journal->file);
    bytes_take(&session->notes, &journal->notes);
}

/* Reads the journal, which is this machine's own then. */
static uint32_t open_journal(struct session *session, const struct wanted *wanted)
{
    struct bootkeep_machine *machine = session->machine;
    struct journal journal;
    uint32_t status = read_start(session);

    if (status != BOOTKEEP_DONE)
        return status;
    status = journal_read(machine, session->dry_run, &journal);
    if (status == BOOTKEEP_DONE)
        status = journal_own(machine, &session->identity, session->dry_run, &journal);
    session->had_notes = journal.notes.len > 0;
    if (status == BOOTKEEP_DONE && wanted->has_requests && !session->dry_run)
        status = journal_begin_notes(machine, &session->identity, &journal);
    take_journal(session, &journal);
    return status;
}

/*
 * The same of a variable file that is replaced as a whole. All that counts of the journal is what it has left to do
 * there: another machine's, or one that is idle, stays as it is, and the start is of no account then.
 */
static uint32_t open_journal_of_whole(struct session *session)
{
    struct bootkeep_machine *machine = session->machine;
    struct journal journal = {{NULL, 0}, {NULL, 0}, true};
    uint32_t status = BOOTKEEP_DONE;

    if (session->has_state || session->dry_run)
        status = journal_read(machine, session->dry_run, &journal);
    if (status == BOOTKEEP_DONE && !journal.is_idle && !journal_is_of_another(&session->identity, &journal)) {
        status = read_start(session);
        if (status == BOOTKEEP_DONE)
            status = journal_own(machine, &session->identity, session->dry_run, &journal);
        take_journal(session, &journal);
    } else if (status == BOOTKEEP_DONE) {
        memcpy(session->identity.start, "-", sizeof "-");
    }
    journal_free(&journal);
    return status;
}

/* Reads the variables, and looks whether those that no set can hold allow the change. */
static uint32_t read_variables(struct session *session, struct wanted *wanted)
{
    struct bootkeep_machine *machine = session->machine;
    const bool is_file = session->variables.is_file;
    uint32_t status;

    variables_free(&session->variables);
    status = variables_read(machine, true, &session->variables);
    /* Something else is there than what was locked. */
    if (status == BOOTKEEP_DONE && session->variables.is_file != is_file)
        status = call_refused(machine, BOOTKEEP_MACHINE_AT_VARIABLES, machine->place,
                              BOOTKEEP_MACHINE_FAULT_CHANGED_MEANWHILE);
    if (status == BOOTKEEP_DONE && wanted->given.at != NULL &&
        variables_let_go(&session->variables, wanted->given) != BOOTKEEP_DONE)
        status = call_no_memory(machine);
    if (status == BOOTKEEP_DONE && wanted->check != NULL)
        status = wanted->check(wanted, session);
    bytes_free(&session->store.kept);
    if (status == BOOTKEEP_DONE &&
        !bytes_copy(&session->store.kept, session->variables.kept.at, session->variables.kept.len))
        status = call_no_memory(machine);
    return status;
}

uint32_t session_open(struct session *session, struct bootkeep_machine *machine, struct wanted *wanted)
{
    uint32_t status;

    memset(session, 0, sizeof *session);
    session->machine = machine;
    session->dry_run = (wanted->flags & BOOTKEEP_MACHINE_DRY_RUN) != 0;
    session->state_lock = -1;
    session->place_lock = -1;
    status = place_look(machine, &session->variables.is_file);
    session->is_whole = session->variables.is_file && !wanted->has_requests && wanted->begin != NULL;
    if (status == BOOTKEEP_DONE)
        status = session_lock(session, wanted);
    if (status == BOOTKEEP_DONE)
        status = read_variables(session, wanted);
    if (status == BOOTKEEP_DONE)
        status = identity_read(machine, &session->identity);
    if (status == BOOTKEEP_DONE)
        status = session->is_whole ? open_journal_of_whole(session) : open_journal(session, wanted);
    return status;
}

void session_close(struct session *session)
{
    variables_free(&session->variables);
    store_free(&session->store);
    bytes_free(&session->notes);
    identity_free(&session->identity);
    texts_free(&session->begun);
    due_free(session);
    if (session->place_lock >= 0)
        close(session->place_lock);
    if (session->state_lock >= 0)
        close(session->state_lock);
}

/* Takes over why moves failed, by the numbers of their reasons. */
static void take_reasons(struct session *session, const struct bootkeep_moves_end *end)
{
    struct bootkeep_machine *machine = session->machine;

    if (end->reason > 0 && end->reason <= session->failed_len)
        machine->outcome.why = session->failed[end->reason - 1];
    if (end->second_reason > 0 && end->second_reason <= session->failed_len)
        machine->outcome.second = session->failed[end->second_reason - 1];
}

/* Tells how a command ended that was made for real. */
static uint32_t tell_end(struct session *session, const struct bootkeep_moves_end *end)
{
    struct bootkeep_machine *machine = session->machine;

    take_reasons(session, end);
    switch (end->kind) {
    case BOOTKEEP_END_DONE: return BOOTKEEP_DONE;
    case BOOTKEEP_END_NOT_RUN:
        return call_ended(machine, BOOTKEEP_MACHINE_AT_SETTLING, BOOTKEEP_MACHINE_TAKEN_BACK,
                          BOOTKEEP_MACHINE_LEFT_TAKEN_BACK);
    case BOOTKEEP_END_NOT_SETTLED:
        return call_ended(machine, BOOTKEEP_MACHINE_AT_SETTLING, BOOTKEEP_MACHINE_UNSETTLED,
                          BOOTKEEP_MACHINE_LEFT_OWED);
    case BOOTKEEP_END_RUN_REFUSED: return call_refused(machine, BOOTKEEP_MACHINE_AT_RUN, machine->place, end->fault);
    case BOOTKEEP_END_TAKEN_BACK:
        return call_ended(machine, BOOTKEEP_MACHINE_AT_CHANGE, BOOTKEEP_MACHINE_TAKEN_BACK,
                          BOOTKEEP_MACHINE_LEFT_TAKEN_BACK);
    case BOOTKEEP_END_UNSETTLED:
        return call_ended(machine, BOOTKEEP_MACHINE_AT_CHANGE, BOOTKEEP_MACHINE_UNSETTLED, BOOTKEEP_MACHINE_LEFT_OWED);
    default: return call_no_memory(machine);
    }
}

/* Tells what a command came to that was made for real, and to which memory was refused between two moves, or after
 * all. */
static uint32_t tell_without_memory(struct session *session)
{
    struct bootkeep_machine *machine = session->machine;

    if (session->ended == ENDED_DONE)
        return BOOTKEEP_DONE;
    if (session->ended == ENDED_TAKEN_BACK && session->failed_len > 0) {
        machine->outcome.why = session->failed[0];
        return call_ended(machine, BOOTKEEP_MACHINE_AT_CHANGE, BOOTKEEP_MACHINE_TAKEN_BACK,
                          BOOTKEEP_MACHINE_LEFT_TAKEN_BACK);
    }
    if (session->doing == DOING_NOTHING)
        return call_no_memory(machine);
    /* What the journal tells is done by the next change. */
    reason_set(&machine->outcome.why, machine->state, ENOMEM, BOOTKEEP_NO_KIND);
    return call_ended(machine, BOOTKEEP_MACHINE_AT_CHANGE, BOOTKEEP_MACHINE_UNSETTLED, BOOTKEEP_MACHINE_LEFT_OWED);
}

/* Makes the moves of a command that was begun, closes it, and tells how it ended. */
static uint32_t make_moves(struct session *session, struct bootkeep_moves *moves, struct bootkeep_moves_end *end)
{
    uint32_t status;

    session->ended = ENDED_NOT;
    status = moves_make(session, moves, &session->store, session->dry_run, end);
    bootkeep_moves_close(moves);
    if (status == BOOTKEEP_DONE)
        return tell_end(session, end);
    return session->dry_run ? call_no_memory(session->machine) : tell_without_memory(session);
}

/* The fault of a command that can't be begun. */
static uint32_t not_begun(struct session *session, uint32_t status, const struct bootkeep_refusal *refusal)
{
    return call_answered(session->machine, BOOTKEEP_MACHINE_AT_RUN, session->machine->place, status, refusal);
}

/* Does what an earlier change has left to do, or in a dry run looks what is there then. */
static uint32_t settle_left(struct session *session, uint32_t *settled)
{
    const struct identity *identity = &session->identity;
    const struct store *store = &session->store;
    struct bootkeep_moves_end end;
    struct bootkeep_moves moves = {0};
    struct bootkeep_refusal refusal;
    uint32_t status;

    *settled = session->doing == DOING_SETTLING;
    if (*settled == 0)
        return BOOTKEEP_DONE;
    if (!remark(session->machine, session->machine->state, "an earlier change had something left to do"))
        return call_no_memory(session->machine);
    status = pending_tell(session);
    if (status != BOOTKEEP_DONE)
        return status;
    status = bootkeep_moves_settle(&moves, (const uint8_t *)identity->name, strlen(identity->name),
                                   (const uint8_t *)identity->start, strlen(identity->start), store->kept.at,
                                   store->kept.len, store->journal.at, store->journal.len, &refusal);
    if (status != BOOTKEEP_DONE)
        return not_begun(session, status, &refusal);
    status = make_moves(session, &moves, &end);
    if (status == BOOTKEEP_DONE)
        session->doing = DOING_NOTHING;
    return status;
}

/* Runs the change in memory alone: what it leads to, and how it ends. */
static uint32_t run_in_memory(struct session *session, struct wanted *wanted, struct store *after,
                              struct bootkeep_moves_end *end)
{
    struct bootkeep_moves moves = {0};
    struct bootkeep_refusal refusal;
    uint32_t status;

    if (!store_copy(after, &session->store))
        return call_no_memory(session->machine);
    status = wanted->begin(wanted, session, &session->store, &moves, &refusal);
    if (status != BOOTKEEP_DONE)
        return not_begun(session, status, &refusal);
    status = moves_make(session, &moves, after, true, end);
    if (status != BOOTKEEP_DONE)
        status = call_no_memory(session->machine);
    else
        status = tell_end(session, end);
    if (status == BOOTKEEP_REFUSED && wanted->explain != NULL)
        wanted->explain(wanted, session);
    if (status == BOOTKEEP_DONE && wanted->look != NULL)
        status = wanted->look(wanted, session, &moves);
    bootkeep_moves_close(&moves);
    return status;
}

/* Makes the change for real. */
static uint32_t run_really(struct session *session, struct wanted *wanted)
{
    struct bootkeep_moves moves = {0};
    struct bootkeep_moves_end end;
    struct bootkeep_refusal refusal;
    uint32_t status;

    if (wanted->has_requests && session->notes.len > 0)
        bytes_take(&session->notes, &wanted->notes_after);
    status = wanted->begin(wanted, session, &session->store, &moves, &refusal);
    if (status != BOOTKEEP_DONE)
        return not_begun(session, status, &refusal);
    status = make_moves(session, &moves, &end);
    if (status == BOOTKEEP_MACHINE_TAKEN_BACK && wanted->keeps_record) {
        /* How the change ended is told, and not what comes of its record. */
        const struct outcome outcome = session->machine->outcome;

        record_forget_unmade(session, session->store.kept);
        session->machine->outcome = outcome;
    }
    return status;
}

/* Keeps what was before and after a change of a variable file. If that can't be, it is told, and the change is made. */
static uint32_t keep_or_tell(struct session *session, struct wanted *wanted, const struct store *after,
                             uint64_t *number)
{
    struct bootkeep_machine *machine = session->machine;
    char text[PATH_MAX + 256];
    uint32_t status = BOOTKEEP_DONE;

    if (wanted->keeps_record && session->has_state)
        status = record_keep(session, session->store.kept, after->kept, wanted->call, number);
    if (status == BOOTKEEP_DONE || status == BOOTKEEP_NO_MEMORY)
        return status;
    *number = 0;
    snprintf(text, sizeof text, "there is no undo of this change: %.*s", PATH_MAX, machine->outcome.text);
    (void)call_done(machine);
    return remark(machine, machine->place, text) ? BOOTKEEP_DONE : call_no_memory(machine);
}

/* Replaces the variable file. */
static uint32_t replace_whole(struct session *session, struct bytes made)
{
    struct bootkeep_machine *machine = session->machine;
    bool is_new;
    int error = replace_locked(session->file_path, &session->place_lock, false, made, &is_new);

    if (error == 0)
        return BOOTKEEP_DONE;
    if (error == ENOMEM)
        return call_no_memory(machine);
    if (!is_new)
        return call_system(machine, BOOTKEEP_MACHINE_AT_CHANGE, machine->place, error);
    reason_set(&machine->outcome.why, machine->place, error, BOOTKEEP_NO_KIND);
    return call_ended(machine, BOOTKEEP_MACHINE_AT_CHANGE, BOOTKEEP_MACHINE_UNSETTLED, BOOTKEEP_MACHINE_LEFT_UNSURE);
}

/* Makes the change in a variable file, which is replaced as a whole. */
static uint32_t make_whole(struct session *session, struct wanted *wanted, const struct store *after,
                           struct bootkeep_machine_change *change)
{
    struct bootkeep_machine *machine = session->machine;
    struct bootkeep_refusal refusal;
    struct bytes made = {NULL, 0};
    uint32_t status = BOOTKEEP_DONE;

    if (change->changed != 0) {
        status = store_with(session->variables.file, after->kept, &session->variables.left_out, &made, &refusal);
        if (status != BOOTKEEP_DONE)
            return call_answered(machine, BOOTKEEP_MACHINE_AT_CHANGE, machine->place, status, &refusal);
        status = keep_or_tell(session, wanted, after, &change->record);
        if (status == BOOTKEEP_DONE)
            status = replace_whole(session, made);
        bytes_free(&made);
    }
    if (status == BOOTKEEP_DONE && wanted->end != NULL)
        wanted->end(wanted, session);
    return status;
}

/* Keeps what was before and after the change, and makes it. */
static uint32_t keep_and_make(struct session *session, struct wanted *wanted, const struct store *after,
                              struct bootkeep_machine_change *change)
{
    uint32_t status = BOOTKEEP_DONE;

    if (wanted->keeps_record && change->changed != 0)
        status = record_keep(session, session->store.kept, after->kept, wanted->call, &change->record);
    if (status == BOOTKEEP_DONE)
        status = run_really(session, wanted);
    if (status == BOOTKEEP_DONE && wanted->end != NULL)
        wanted->end(wanted, session);
    return status;
}

/* Makes the change in a session that is open, once what was left is done. */
static uint32_t make_settled(struct session *session, struct wanted *wanted, struct bootkeep_machine_change *change)
{
    struct bootkeep_machine *machine = session->machine;
    struct store after = {{NULL, 0}, {NULL, 0}};
    struct bootkeep_moves_end end = {.size = sizeof end};
    uint32_t status = wanted->prepare == NULL ? BOOTKEEP_DONE : wanted->prepare(wanted, session);
    bool same = true;

    if (status == BOOTKEEP_DONE)
        status = run_in_memory(session, wanted, &after, &end);
    if (status == BOOTKEEP_DONE && sets_are_same(session->store.kept, after.kept, &same) != BOOTKEEP_DONE)
        status = call_no_memory(machine);
    if (status == BOOTKEEP_DONE && (!bytes_copy(&machine->before, session->store.kept.at, session->store.kept.len) ||
                                    !bytes_copy(&machine->after, after.kept.at, after.kept.len)))
        status = call_no_memory(machine);
    if (status == BOOTKEEP_DONE) {
        change->changed = !same;
        change->edited = end.edited;
        change->entry = end.entry;
        change->replies = machine->replies_len;
        if (!session->dry_run)
            status = session->is_whole ? make_whole(session, wanted, &after, change)
                                       : keep_and_make(session, wanted, &after, change);
    }
    store_free(&after);
    return status;
}

/* Leaves the journal of a variable file that is replaced as a whole, once what it had left is done there. */
static uint32_t leave_journal(struct session *session, struct wanted *wanted)
{
    bytes_free(&session->store.journal);
    bytes_free(&session->notes);
    return session->dry_run ? BOOTKEEP_DONE : read_variables(session, wanted);
}

/* Hands what came of a change to the caller. */
static void tell_change(const struct bootkeep_machine *machine, const struct bootkeep_machine_change *made,
                        struct bootkeep_machine_change *change)
{
    const size_t size = change->size;

    *change = *made;
    change->size = size;
    change->before = machine->before.at;
    change->before_len = machine->before.len;
    change->after = machine->after.at;
    change->after_len = machine->after.len;
}

uint32_t change_make(struct bootkeep_machine *machine, struct wanted *wanted, struct bootkeep_machine_change *change)
{
    struct bootkeep_machine_change made = {.size = sizeof made, .entry = BOOTKEEP_NO_ENTRY};
    struct session *session;
    uint32_t status;

    if (change != NULL && change->size < sizeof *change)
        return call_bad_size(machine);
    session = malloc(sizeof *session);
    if (session == NULL)
        return call_no_memory(machine);
    wanted->keeps_record = wanted->keeps_record && (machine->flags & BOOTKEEP_MACHINE_NO_RECORD) == 0;
    status = session_open(session, machine, wanted);
    if (status == BOOTKEEP_DONE)
        status = settle_left(session, &made.settled);
    if (status == BOOTKEEP_DONE && session->is_whole && made.settled != 0)
        status = leave_journal(session, wanted);
    if (status == BOOTKEEP_DONE && wanted->begin != NULL)
        status = make_settled(session, wanted, &made);
    session_close(session);
    free(session);
    bytes_free(&wanted->notes_after);
    bytes_free(&wanted->back);
    if (change != NULL)
        tell_change(machine, &made, change);
    return status;
}
