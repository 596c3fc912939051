/*
 * The moves of a command: bootkeep_moves_next asks for them, and they are made in memory, or in the place of the
 * variables and the journal. How a change of a variable is made is as crates/machine_changes has it.
 */
#include "machine.h"

#include <errno.h>
#include <stdlib.h>
#include <string.h>

void store_free(struct store *store)
{
    bytes_free(&store->kept);
    bytes_free(&store->journal);
}

bool store_copy(struct store *copy, const struct store *store)
{
    *copy = (struct store){{NULL, 0}, {NULL, 0}};
    if (bytes_copy(&copy->kept, store->kept.at, store->kept.len) &&
        bytes_copy(&copy->journal, store->journal.at, store->journal.len))
        return true;
    store_free(copy);
    return false;
}

/* A move that is asked for. */
struct move {
    uint32_t kind;
    char name[BOOT_NAME_ROOM];
    /* What the variable is to have, or all of the journal after the notes. */
    struct bytes bytes;
};

/* What comes next. */
static uint32_t read_move(struct bootkeep_moves *moves, struct move *move)
{
    size_t len = 0;
    uint32_t status;

    *move = (struct move){.kind = BOOTKEEP_MOVE_NONE};
    status = bootkeep_moves_next(moves, &move->kind);
    if (status != BOOTKEEP_DONE || move->kind == BOOTKEEP_MOVE_NONE)
        return status;
    if (move->kind != BOOTKEEP_MOVE_JOURNAL) {
        status = bootkeep_moves_name(moves, (uint8_t *)move->name, sizeof move->name - 1, &len);
        if (status != BOOTKEEP_DONE)
            return status;
    }
    if (move->kind != BOOTKEEP_MOVE_DELETE)
        ANSWER(status, &move->bytes, bootkeep_moves_bytes(moves, INTO(&move->bytes)));
    return status;
}

/* Makes the move in memory. */
static uint32_t make_in_memory(struct store *store, const struct move *move)
{
    struct bootkeep_refusal refusal;
    struct bytes copy;

    if (move->kind != BOOTKEEP_MOVE_JOURNAL)
        return set_put(&store->kept, move->name, move->kind == BOOTKEEP_MOVE_SET ? move->bytes.at : NULL,
                       move->bytes.len, &refusal);
    if (!bytes_copy(&copy, move->bytes.at, move->bytes.len))
        return BOOTKEEP_NO_MEMORY;
    bytes_take(&store->journal, &copy);
    return BOOTKEEP_DONE;
}

/* What is being done once the journal is replaced by one that has nothing left to do, or has something. */
static enum doing doing_after(enum doing doing, bool is_idle)
{
    if (is_idle)
        return DOING_NOTHING;
    if (doing == DOING_NOTHING)
        return DOING_FIRST;
    return doing == DOING_SETTLING ? DOING_SETTLING : DOING_BACK;
}

/* What a command comes to that writes a journal with nothing left to do while this is being done. */
static enum ended ended_by(enum doing doing)
{
    if (doing == DOING_SETTLING)
        return ENDED_SETTLED;
    return doing == DOING_BACK ? ENDED_TAKEN_BACK : ENDED_DONE;
}

/* Replaces the journal. */
static bool make_journal(struct session *session, const struct move *move, struct reason *why)
{
    struct bootkeep_refusal refusal;
    uint32_t idle = 0;

    if (bootkeep_journal_is_idle(move->bytes.at, move->bytes.len, &idle, &refusal) != BOOTKEEP_DONE) {
        reason_set(why, session->machine->state, ENOMEM, BOOTKEEP_NO_KIND);
        return false;
    }
    /* What is changed of a variable file is there before the journal that says so, or isn't begun. */
    if (idle != 0 && !due_write(session, why))
        return false;
    if (idle == 0) {
        due_forget(session);
        /* Also if that fails: it may be there nevertheless, and is taken back then. */
        session->doing = doing_after(session->doing, false);
    }
    if (!journal_replace(session->machine, session->notes, move->bytes, why))
        return false;
    if (idle != 0) {
        session->ended = ended_by(session->doing);
        session->doing = DOING_NOTHING;
        texts_free(&session->begun);
    }
    return true;
}

/* Forgets that the last variable was begun to be written. */
static void forget_begun(struct texts *begun)
{
    free(begun->at[--begun->count]);
}

/* Makes a change in the folder, or keeps one of a variable file in mind. */
static bool change_one(struct session *session, const struct wanted_value *wanted, struct reason *why, bool *untouched)
{
    if (!session->variables.is_file)
        return variable_change(session->machine, &session->variables, wanted, why, untouched);
    *untouched = false;
    if (due_add(session, wanted))
        return true;
    reason_set(why, session->machine->place, ENOMEM, BOOTKEEP_NO_KIND);
    return false;
}

/* Makes a change for the first time, if the variable is what was read of it. */
static bool make_first(struct session *session, struct wanted_value *wanted, struct reason *why)
{
    struct bytes before;
    bool untouched, made;
    uint32_t status = set_get(session->store.kept, wanted->name, &before);

    if ((status != BOOTKEEP_DONE && status != BOOTKEEP_ABSENT) ||
        !texts_add(&session->begun, wanted->name, strlen(wanted->name))) {
        bytes_free(&before);
        reason_set(why, session->machine->place, ENOMEM, BOOTKEEP_NO_KIND);
        return false;
    }
    /* What no set can hold was read, but says nothing of what it has. Of a variable file it counts as nothing. */
    wanted->checks_before = session->variables.is_file || !texts_have(&session->variables.unheld, wanted->name);
    wanted->before = before.at;
    wanted->before_len = before.len;
    made = change_one(session, wanted, why, &untouched);
    if (!made && untouched)
        forget_begun(&session->begun);
    bytes_free(&before);
    return made;
}

/* What a move is to make of a variable. */
static struct wanted_value value_of(const struct move *move)
{
    const bool is_set = move->kind == BOOTKEEP_MOVE_SET;

    return (struct wanted_value){
        .name = move->name, .after = is_set ? move->bytes.at : NULL, .after_len = is_set ? move->bytes.len : 0};
}

/* Makes a change of a variable. */
static bool make_change(struct session *session, const struct move *move, struct reason *why)
{
    struct wanted_value wanted = value_of(move);
    bool untouched;

    if (session->doing == DOING_FIRST)
        return make_first(session, &wanted, why);
    /* This call hasn't begun to write the variable, so nothing of it is to be taken back. */
    if (session->doing == DOING_BACK && !texts_have(&session->begun, move->name))
        return true;
    return change_one(session, &wanted, why, &untouched);
}

/* Whether a move that failed is made nevertheless, or that can't be told. */
static bool may_be_made(const struct session *session, const struct move *move)
{
    struct wanted_value wanted = value_of(move);

    if (move->kind == BOOTKEEP_MOVE_JOURNAL)
        return journal_may_have(session->machine, session->notes, move->bytes);
    if (session->variables.is_file)
        return due_is_made(session, &wanted);
    return variable_has(session->machine, &session->variables, &wanted);
}

/* Makes the move for real: what became of it. Why it failed is kept, and `*reason` is the number of that. */
static uint32_t make_really(struct session *session, const struct move *move, uint32_t *reason)
{
    const size_t place = session->failed_len < FAILED_MAX ? session->failed_len : FAILED_MAX - 1;
    struct reason *why = &session->failed[place];
    bool made =
        move->kind == BOOTKEEP_MOVE_JOURNAL ? make_journal(session, move, why) : make_change(session, move, why);

    *reason = 0;
    if (made)
        return BOOTKEEP_BECAME_DONE;
    session->failed_len = place + 1;
    *reason = (uint32_t)(place + 1);
    return may_be_made(session, move) ? BOOTKEEP_BECAME_PERHAPS : BOOTKEEP_BECAME_REFUSED;
}

/* Makes the move, and tells what became of it. */
static uint32_t make_one(struct session *session, struct bootkeep_moves *moves, struct store *store, bool in_memory,
                         const struct move *move)
{
    uint32_t became = BOOTKEEP_BECAME_DONE, reason = 0, status = BOOTKEEP_DONE;

    if (!in_memory)
        became = make_really(session, move, &reason);
    if (became != BOOTKEEP_BECAME_REFUSED)
        status = make_in_memory(store, move);
    if (status == BOOTKEEP_DONE)
        status = bootkeep_moves_tell(moves, became, reason);
    return status;
}

uint32_t moves_make(struct session *session, struct bootkeep_moves *moves, struct store *store, bool in_memory,
                    struct bootkeep_moves_end *end)
{
    struct move move = {.kind = BOOTKEEP_MOVE_JOURNAL};
    uint32_t status = BOOTKEEP_DONE;

    while (status == BOOTKEEP_DONE && move.kind != BOOTKEEP_MOVE_NONE) {
        status = read_move(moves, &move);
        if (status == BOOTKEEP_DONE && move.kind != BOOTKEEP_MOVE_NONE)
            status = make_one(session, moves, store, in_memory, &move);
        bytes_free(&move.bytes);
    }
    *end = (struct bootkeep_moves_end){.size = sizeof *end};
    return status == BOOTKEEP_DONE ? bootkeep_moves_end(moves, end) : status;
}
