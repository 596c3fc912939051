/* Numbered requests: frames that are run over a machine, each applied once. */
#include "machine.h"

#include <stdio.h>
#include <stdlib.h>
#include <string.h>

/* Where the fields of a frame's header are (docs/formats/requests.md), and how many bytes it has. */
enum { KIND_AT = 3, LENGTH_AT = 8, HEADER_LEN = 12 };

static uint32_t begin(const struct wanted *wanted, const struct session *session, const struct store *store,
                      struct bootkeep_moves *moves, struct bootkeep_refusal *refusal)
{
    const struct identity *identity = &session->identity;

    return bootkeep_moves_requests(moves, (const uint8_t *)identity->name, strlen(identity->name),
                                   (const uint8_t *)identity->start, strlen(identity->start), store->kept.at,
                                   store->kept.len, store->journal.at, store->journal.len, wanted->stream.at,
                                   wanted->stream.len, refusal);
}

/* ---- Variables that no set can hold ------------------------------------------------------------------------------ */

/* Whether the number of an entry, which is in two bytes, is that of the entry of this name. */
static bool is_entry(const char *name, const uint8_t *at)
{
    uint32_t number;

    return is_entry_name(name, strlen(name), &number) && number == (uint32_t)(at[0] | at[1] << 8);
}

/* Whether a request of this kind and payload changes the variable of this name, or names its entry. */
static bool touches(uint32_t kind, const uint8_t *payload, size_t len, const char *name)
{
    const bool is_order = strcmp(name, "BootOrder") == 0, is_next = strcmp(name, "BootNext") == 0;
    const bool is_named = len >= 2 && is_entry(name, payload);

    switch (kind) {
    case BOOTKEEP_REQUEST_ADD:
    case BOOTKEEP_REQUEST_ADD_FREE:
    case BOOTKEEP_REQUEST_ADD_FIRST: return is_order;
    case BOOTKEEP_REQUEST_REPLACE: return is_named;
    case BOOTKEEP_REQUEST_REMOVE: return is_order || is_next || is_named;
    case BOOTKEEP_REQUEST_NEXT: return is_next || is_named;
    case BOOTKEEP_REQUEST_FIRST: return is_order || is_named;
    case BOOTKEEP_REQUEST_ORDER:
        for (size_t i = 0; i + 2 <= len; i += 2)
            if (is_entry(name, payload + i))
                return true;
        return is_order;
    default: return false;
    }
}

/* Refuses the frames if one of them would change a variable that no set can hold. They are cut by their headers. */
static uint32_t check(struct wanted *wanted, struct session *session)
{
    const struct texts *names = &session->variables.left_out;
    const struct bytes stream = wanted->stream;
    size_t at = 0;

    while (names->count > 0 && stream.len - at >= HEADER_LEN) {
        const uint8_t *frame = stream.at + at;
        const size_t len = (size_t)frame[LENGTH_AT] | (size_t)frame[LENGTH_AT + 1] << 8 |
                           (size_t)frame[LENGTH_AT + 2] << 16 | (size_t)frame[LENGTH_AT + 3] << 24;

        if (len > stream.len - at - HEADER_LEN)
            break;
        for (size_t i = 0; i < names->count; i++)
            if (touches(frame[KIND_AT], frame + HEADER_LEN, len, names->at[i]))
                return variables_refuse(session->machine, &session->variables, names->at[i]);
        at += HEADER_LEN + len;
    }
    return BOOTKEEP_DONE;
}

/* ---- What is expected -------------------------------------------------------------------------------------------- */

/* Tells what isn't as it was expected. */
static uint32_t unmet(struct session *session, const char *what)
{
    char text[160];

    snprintf(text, sizeof text, "%s, and no frame was run", what);
    return call_told(session->machine, BOOTKEEP_MACHINE_AT_RUN, BOOTKEEP_MACHINE_UNMET, text);
}

/* Whether the journal's identity is the one that is expected. */
static uint32_t check_journal(struct session *session, const struct bootkeep_machine_expected *expected)
{
    struct bootkeep_refusal refusal;
    struct bytes identity;
    bool is_met;
    uint32_t status;

    ANSWER(status, &identity,
           bootkeep_notes_identity(session->notes.at, session->notes.len, INTO(&identity), &refusal));
    if (status == BOOTKEEP_NO_MEMORY)
        return call_no_memory(session->machine);
    is_met = identity.len == sizeof expected->journal &&
             memcmp(identity.at, expected->journal, sizeof expected->journal) == 0;
    bytes_free(&identity);
    if ((expected->what & BOOTKEEP_MACHINE_EXPECTS_JOURNAL) != 0 && !is_met)
        return unmet(session, "the journal hasn't the identity that was expected");
    return BOOTKEEP_DONE;
}

static uint32_t check_number(struct session *session, uint32_t expected)
{
    uint32_t number = 0;
    char text[96];
    uint32_t status = journal_next_number(session->store.journal, &number);

    if (status == BOOTKEEP_NO_MEMORY)
        return call_no_memory(session->machine);
    if (status == BOOTKEEP_DONE && number == expected)
        return BOOTKEEP_DONE;
    snprintf(text, sizeof text, "the next number was expected to be %lu, and is %lu", (unsigned long)expected,
             (unsigned long)number);
    return unmet(session, text);
}

/* Whether BootOrder has these numbers. */
static bool is_order(struct bytes order, const uint16_t *numbers, size_t len)
{
    if (order.len != ATTRIBUTES_LEN + 2 * len)
        return false;
    for (size_t i = 0; i < len; i++)
        if ((order.at[ATTRIBUTES_LEN + 2 * i] | order.at[ATTRIBUTES_LEN + 2 * i + 1] << 8) != numbers[i])
            return false;
    return true;
}

static uint32_t check_order(struct session *session, const struct bootkeep_machine_expected *expected)
{
    struct bytes order;
    uint32_t status = set_get(session->store.kept, "BootOrder", &order);
    bool is_met = true;

    if (status == BOOTKEEP_NO_MEMORY)
        return call_no_memory(session->machine);
    if ((expected->what & BOOTKEEP_MACHINE_EXPECTS_ORDER) != 0)
        is_met = status == BOOTKEEP_DONE && is_order(order, expected->order, expected->order_len);
    if ((expected->what & BOOTKEEP_MACHINE_EXPECTS_NO_ORDER) != 0)
        is_met = status == BOOTKEEP_ABSENT;
    bytes_free(&order);
    return is_met ? BOOTKEEP_DONE : unmet(session, "BootOrder isn't as it was expected");
}

/* Looks whether all is as it was expected. What was there before this call's own identity counts. */
static uint32_t prepare(struct wanted *wanted, struct session *session)
{
    const struct bootkeep_machine_expected *expected = wanted->expected;
    const uint32_t of_journal = BOOTKEEP_MACHINE_EXPECTS_JOURNAL | BOOTKEEP_MACHINE_EXPECTS_NO_JOURNAL;
    uint32_t status = BOOTKEEP_DONE;

    if (expected == NULL)
        return status;
    if ((expected->what & BOOTKEEP_MACHINE_EXPECTS_NO_JOURNAL) != 0 && session->had_notes)
        status = unmet(session, "no journal with an identity was expected, and there is one");
    if (status == BOOTKEEP_DONE && (expected->what & of_journal) != 0)
        status = check_journal(session, expected);
    if (status == BOOTKEEP_DONE && (expected->what & BOOTKEEP_MACHINE_EXPECTS_NUMBER) != 0)
        status = check_number(session, expected->number);
    if (status == BOOTKEEP_DONE)
        status = check_order(session, expected);
    return status;
}

/* ---- Replies ------------------------------------------------------------------------------------------------------
 */

/* Takes over the replies of the command that ran in memory, and what is told of them by the notes. */
static uint32_t look(struct wanted *wanted, struct session *session, struct bootkeep_moves *moves)
{
    struct bootkeep_machine *machine = session->machine;
    struct bootkeep_moves_end end = {.size = sizeof end};
    const struct bytes notes = session->notes;
    struct bootkeep_refusal refusal;
    uint32_t status = bootkeep_moves_end(moves, &end);

    machine->replies = calloc(end.replies + 1, sizeof *machine->replies);
    machine->same = calloc(end.replies + 1, sizeof *machine->same);
    if (machine->replies == NULL || machine->same == NULL)
        return call_no_memory(machine);
    for (size_t i = 0; status == BOOTKEEP_DONE && i < end.replies; i++) {
        machine->replies[i].size = sizeof *machine->replies;
        status = bootkeep_moves_reply(moves, i, &machine->replies[i]);
        machine->same[i] = BOOTKEEP_SAME_UNKNOWN;
        if (status == BOOTKEEP_DONE && machine->replies[i].kind == BOOTKEEP_REPLY_REPEAT)
            status = bootkeep_moves_same(moves, notes.at, notes.len, i, &machine->same[i], &refusal);
    }
    machine->replies_len = end.replies;
    if (status == BOOTKEEP_DONE)
        ANSWER(status, &wanted->notes_after,
               bootkeep_moves_notes(moves, notes.at, notes.len, INTO(&wanted->notes_after), &refusal));
    return status == BOOTKEEP_DONE ? status : call_no_memory(machine);
}

/* Refuses a stream that can't be cut into frames, before anything is locked or written. */
static uint32_t check_stream(struct bootkeep_machine *machine, struct bytes stream)
{
    static const uint8_t name[] = "-", no_variables[] = {'B', 'V', 'S', '1'};
    struct bootkeep_moves moves = {0};
    struct bootkeep_refusal refusal;
    uint32_t status = bootkeep_moves_requests(&moves, name, 1, name, 1, no_variables, sizeof no_variables, NULL, 0,
                                              stream.at, stream.len, &refusal);

    if (status != BOOTKEEP_DONE)
        return call_answered(machine, BOOTKEEP_MACHINE_AT_NONE, NULL, status, &refusal);
    bootkeep_moves_close(&moves);
    return BOOTKEEP_DONE;
}

uint32_t bootkeep_machine_update(struct bootkeep_machine *machine, const uint8_t *stream, size_t stream_len,
                                 const struct bootkeep_machine_expected *expected, uint32_t flags,
                                 struct bootkeep_machine_change *change)
{
    struct wanted wanted = {.call = "update",
                            .flags = flags,
                            .has_requests = true,
                            .keeps_record = true,
                            .check = check,
                            .prepare = prepare,
                            .begin = begin,
                            .look = look,
                            .stream = {(uint8_t *)stream, stream_len},
                            .expected = expected};
    uint32_t status;

    call_begin(machine);
    if (expected != NULL && expected->size < sizeof *expected)
        return call_bad_size(machine);
    status = check_flags(machine, flags, BOOTKEEP_MACHINE_DRY_RUN);
    if (status == BOOTKEEP_DONE)
        status = check_stream(machine, wanted.stream);
    return status == BOOTKEEP_DONE ? change_make(machine, &wanted, change) : status;
}

uint32_t bootkeep_machine_reply(const struct bootkeep_machine *machine, size_t place, struct bootkeep_reply *reply,
                                uint32_t *same)
{
    if (reply->size < sizeof *reply)
        return BOOTKEEP_BAD_SIZE;
    if (place >= machine->replies_len)
        return BOOTKEEP_ABSENT;
    {
        const size_t size = reply->size;

        *reply = machine->replies[place];
        reply->size = size;
    }
    *same = machine->same[place];
    return BOOTKEEP_DONE;
}
