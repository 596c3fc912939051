/* Changes that bring a set back: of a set that is given, and of what was there before a change that is undone. */
#include "machine.h"

#include <stdlib.h>
#include <string.h>

/* The attributes of a variable of the boot manager that isn't there as yet, in four bytes. */
static const uint8_t boot_attributes[ATTRIBUTES_LEN] = {7, 0, 0, 0};

static uint32_t begin(const struct wanted *wanted, const struct session *session, const struct store *store,
                      struct bootkeep_moves *moves, struct bootkeep_refusal *refusal)
{
    const struct identity *identity = &session->identity;

    return bootkeep_moves_restore(moves, (const uint8_t *)identity->name, strlen(identity->name),
                                  (const uint8_t *)identity->start, strlen(identity->start), store->kept.at,
                                  store->kept.len, store->journal.at, store->journal.len, wanted->back.at,
                                  wanted->back.len, refusal);
}

/* The fault of a call over a set of these, which isn't BOOTKEEP_DONE. */
static uint32_t set_fault(struct session *session, uint32_t status, const struct bootkeep_refusal *refusal)
{
    return call_answered(session->machine, BOOTKEEP_MACHINE_AT_RUN, session->machine->place, status, refusal);
}

/* ---- What firmware takes of a set ------------------------------------------------------------------------------- */

/* Gives each entry that no set can hold what stands for it among what is kept. */
static uint32_t keep_left_out(struct session *session, struct bytes *back)
{
    const struct texts *names = &session->variables.left_out;
    struct bootkeep_refusal refusal;
    uint32_t status = BOOTKEEP_DONE;

    for (size_t i = 0; status == BOOTKEEP_DONE && i < names->count; i++) {
        struct bytes value;

        if (!is_entry_name(names->at[i], strlen(names->at[i]), NULL))
            continue;
        status = set_get(session->store.kept, names->at[i], &value);
        if (status == BOOTKEEP_DONE)
            status = set_put(back, names->at[i], value.at, value.len, &refusal);
        else if (status == BOOTKEEP_ABSENT)
            status = BOOTKEEP_DONE;
        bytes_free(&value);
    }
    return status;
}

/* Numbers of entries that firmware refuses. */
struct refused {
    uint32_t *numbers;
    size_t count;
};

static bool is_refused(const struct refused *refused, uint32_t number)
{
    for (size_t i = 0; i < refused->count; i++)
        if (refused->numbers[i] == number)
            return true;
    return false;
}

/* Whether an entry would have to be stored, and is no load option, so that firmware refuses it. */
static uint32_t is_taken(struct session *session, const struct item *item, bool *taken)
{
    struct bootkeep_option_parts parts;
    struct bootkeep_refusal refusal;
    struct bytes there, wanted = {(uint8_t *)item->data, item->data_len};
    const size_t skipped = item->data_len < ATTRIBUTES_LEN ? item->data_len : ATTRIBUTES_LEN;
    char name[BOOTKEEP_NAME_MAX + 1] = "";
    uint32_t status;

    memcpy(name, item->name, item->name_len);
    status = set_get(session->store.kept, name, &there);
    *taken = (status == BOOTKEEP_DONE && bytes_equal(there, wanted)) ||
             bootkeep_option_parts(item->data + skipped, item->data_len - skipped, &parts, &refusal) == BOOTKEEP_DONE;
    bytes_free(&there);
    return status == BOOTKEEP_ABSENT ? BOOTKEEP_DONE : status;
}

/* Takes out the entries that firmware refuses, and keeps their numbers. */
static uint32_t take_out_entries(struct session *session, struct bytes *back, struct refused *refused)
{
    struct bootkeep_refusal refusal;
    struct item *items;
    struct bytes left;
    size_t count;
    uint32_t status = set_items(*back, &items, &count, &refusal);

    if (status != BOOTKEEP_DONE)
        return set_fault(session, status, &refusal);
    refused->numbers = calloc(count + 1, sizeof *refused->numbers);
    if (refused->numbers == NULL || !bytes_copy(&left, back->at, back->len)) {
        free(items);
        return BOOTKEEP_NO_MEMORY;
    }
    for (size_t i = 0; status == BOOTKEEP_DONE && i < count; i++) {
        char name[BOOT_NAME_ROOM];
        uint32_t number;
        bool taken = true;

        if (!is_entry_name(items[i].name, items[i].name_len, &number))
            continue;
        status = is_taken(session, &items[i], &taken);
        if (status != BOOTKEEP_DONE || taken)
            continue;
        entry_name(name, number);
        refused->numbers[refused->count++] = number;
        status = set_put(&left, name, NULL, 0, &refusal);
    }
    free(items);
    bytes_take(back, &left);
    return status;
}

/* Takes BootNext out, if it has the number of a refused entry. */
static uint32_t take_out_of_next(struct bytes *back, const struct refused *refused)
{
    struct bootkeep_refusal refusal;
    struct bytes next;
    uint32_t status = set_get(*back, "BootNext", &next);

    if (status == BOOTKEEP_DONE && next.len == ATTRIBUTES_LEN + 2 &&
        is_refused(refused, (uint32_t)(next.at[4] | next.at[5] << 8)))
        status = set_put(back, "BootNext", NULL, 0, &refusal);
    bytes_free(&next);
    return status == BOOTKEEP_ABSENT ? BOOTKEEP_DONE : status;
}

/* Takes the numbers of refused entries out of BootOrder, which goes if it has no others. One that is odd stays. */
static uint32_t take_out_of_order(struct bytes *back, const struct refused *refused)
{
    struct bootkeep_refusal refusal;
    struct bytes order;
    size_t left = ATTRIBUTES_LEN;
    uint32_t status = set_get(*back, "BootOrder", &order);

    if (status == BOOTKEEP_DONE && order.len >= ATTRIBUTES_LEN && order.len % 2 == 0) {
        for (size_t i = ATTRIBUTES_LEN; i < order.len; i += 2)
            if (!is_refused(refused, (uint32_t)(order.at[i] | order.at[i + 1] << 8))) {
                memmove(order.at + left, order.at + i, 2);
                left += 2;
            }
        if (left < order.len)
            status = set_put(back, "BootOrder", left == ATTRIBUTES_LEN ? NULL : order.at, left, &refusal);
    }
    bytes_free(&order);
    return status == BOOTKEEP_ABSENT ? BOOTKEEP_DONE : status;
}

/* Tells of each entry that is left out. */
static bool remark_refused(struct session *session, const struct refused *refused)
{
    for (size_t i = 0; i < refused->count; i++) {
        char text[] = "Boot0000 is ignored, since firmware refuses it: it is no load option", name[BOOT_NAME_ROOM];

        entry_name(name, refused->numbers[i]);
        memcpy(text, name, BOOT_NAME_ROOM - 2);
        if (!remark(session->machine, session->machine->place, text))
            return false;
    }
    return true;
}

/* Whether a variable would have to be stored, with so many bytes of data. */
static bool is_new(struct session *session, struct bytes back, const char *name, size_t *len)
{
    struct bytes wanted, there;
    bool is = set_get(back, name, &wanted) == BOOTKEEP_DONE;

    if (is && set_get(session->store.kept, name, &there) == BOOTKEEP_DONE) {
        is = !bytes_equal(there, wanted);
        bytes_free(&there);
    }
    *len = wanted.len < ATTRIBUTES_LEN ? 0 : wanted.len - ATTRIBUTES_LEN;
    bytes_free(&wanted);
    return is;
}

/* Refuses a BootOrder, a BootNext and a Timeout that would have to be stored, and that firmware or the system refuses.
 */
static uint32_t check_numbers(struct session *session, struct bytes back)
{
    struct bootkeep_machine *machine = session->machine;
    const uint32_t at = BOOTKEEP_MACHINE_AT_RUN;
    size_t len;

    if (is_new(session, back, "BootOrder", &len) && len % 2 != 0)
        return call_refused(machine, at, machine->place, BOOTKEEP_MACHINE_FAULT_ORDER_REFUSED);
    if (is_new(session, back, "BootNext", &len) && len != 2)
        return call_refused(machine, at, machine->place, BOOTKEEP_MACHINE_FAULT_NEXT_REFUSED);
    if (is_new(session, back, "Timeout", &len) && len != 2)
        return call_refused(machine, at, machine->place, BOOTKEEP_MACHINE_FAULT_TIMEOUT_REFUSED);
    return BOOTKEEP_DONE;
}

/* Leaves of a set that is wanted what firmware takes, and keeps what no set can hold. Tells of it unless it is a look.
 * No firmware is asked of a variable file: it may have what the set has. */
static uint32_t take(struct session *session, struct bytes *back, bool is_look)
{
    struct refused refused = {NULL, 0};
    uint32_t status = keep_left_out(session, back);

    if (status == BOOTKEEP_DONE && !session->variables.is_file)
        status = take_out_entries(session, back, &refused);
    if (status == BOOTKEEP_DONE && refused.count > 0) {
        status = take_out_of_next(back, &refused);
        if (status == BOOTKEEP_DONE)
            status = take_out_of_order(back, &refused);
    }
    if (status == BOOTKEEP_DONE && !is_look && !remark_refused(session, &refused))
        status = BOOTKEEP_NO_MEMORY;
    free(refused.numbers);
    return status == BOOTKEEP_NO_MEMORY ? call_no_memory(session->machine) : status;
}

/* ---- A set that is given ----------------------------------------------------------------------------------------- */

/* A variable of a set of data, with the attributes of the one that is there. */
static uint32_t put_with_attributes(struct session *session, const struct item *item, struct bytes *back)
{
    struct bytes there, joined, attributes = {(uint8_t *)boot_attributes, ATTRIBUTES_LEN};
    struct bytes data = {(uint8_t *)item->data, item->data_len};
    struct bootkeep_refusal refusal;
    char name[BOOTKEEP_NAME_MAX + 1] = "";
    uint32_t status;

    memcpy(name, item->name, item->name_len);
    status = set_get(session->store.kept, name, &there);
    if (status != BOOTKEEP_DONE && status != BOOTKEEP_ABSENT)
        return call_no_memory(session->machine);
    if (there.len >= ATTRIBUTES_LEN)
        attributes.at = there.at;
    status = bytes_join(&joined, attributes, data) ? set_put(back, name, joined.at, joined.len, &refusal)
                                                   : BOOTKEEP_NO_MEMORY;
    bytes_free(&joined);
    bytes_free(&there);
    return status == BOOTKEEP_DONE ? status : set_fault(session, status, &refusal);
}

/* Gives a set the Timeout that is there, if it has none. */
static uint32_t keep_timeout(struct session *session, struct bytes *back)
{
    struct bootkeep_refusal refusal;
    struct bytes value;
    uint32_t status = set_get(*back, "Timeout", &value);

    bytes_free(&value);
    if (status == BOOTKEEP_ABSENT) {
        status = set_get(session->store.kept, "Timeout", &value);
        if (status == BOOTKEEP_DONE)
            status = set_put(back, "Timeout", value.at, value.len, &refusal);
        bytes_free(&value);
    }
    return status == BOOTKEEP_NO_MEMORY ? call_no_memory(session->machine) : BOOTKEEP_DONE;
}

static uint32_t prepare_write(struct wanted *wanted, struct session *session)
{
    struct bootkeep_refusal refusal;
    struct item *items;
    size_t count;
    uint32_t status = set_items(wanted->given, &items, &count, &refusal);

    if (status != BOOTKEEP_DONE)
        return set_fault(session, status, &refusal);
    if (!set_empty(&wanted->back))
        status = call_no_memory(session->machine);
    for (size_t i = 0; status == BOOTKEEP_DONE && i < count; i++)
        if (is_boot_name(items[i].name, items[i].name_len))
            status = put_with_attributes(session, &items[i], &wanted->back);
    free(items);
    if (status == BOOTKEEP_DONE)
        status = keep_timeout(session, &wanted->back);
    if (status == BOOTKEEP_DONE)
        status = take(session, &wanted->back, false);
    if (status != BOOTKEEP_DONE || session->variables.is_file)
        return status;
    return check_numbers(session, wanted->back);
}

/* Refuses a set without an entry. */
static uint32_t check_entries(struct bootkeep_machine *machine, struct bytes set)
{
    struct bootkeep_refusal refusal;
    struct item *items;
    bool has_entry = false;
    size_t count;
    uint32_t status = set_items(set, &items, &count, &refusal);

    for (size_t i = 0; i < count; i++)
        has_entry = has_entry || is_entry_name(items[i].name, items[i].name_len, NULL);
    free(items);
    if (status != BOOTKEEP_DONE)
        return call_answered(machine, BOOTKEEP_MACHINE_AT_NONE, NULL, status, &refusal);
    return has_entry ? BOOTKEEP_DONE
                     : call_refused(machine, BOOTKEEP_MACHINE_AT_NONE, NULL, BOOTKEEP_MACHINE_FAULT_EMPTY);
}

uint32_t bootkeep_machine_write(struct bootkeep_machine *machine, const uint8_t *set, size_t set_len, uint32_t flags,
                                struct bootkeep_machine_change *change)
{
    struct wanted wanted = {.call = "write",
                            .flags = flags,
                            .makes_state = true,
                            .keeps_record = true,
                            .prepare = prepare_write,
                            .begin = begin,
                            .given = {(uint8_t *)set, set_len}};
    uint32_t status;

    call_begin(machine);
    status = check_flags(machine, flags, BOOTKEEP_MACHINE_DRY_RUN | BOOTKEEP_MACHINE_EMPTY);
    if (status == BOOTKEEP_DONE && (flags & BOOTKEEP_MACHINE_EMPTY) == 0)
        status = check_entries(machine, wanted.given);
    return status == BOOTKEEP_DONE ? change_make(machine, &wanted, change) : status;
}

/* ---- Undo -------------------------------------------------------------------------------------------------------- */

/* Whether the boot manager's variables are those of a set, but perhaps for a BootNext that isn't there any more. */
static uint32_t is_there(struct session *session, struct bytes back, bool *there)
{
    struct bootkeep_refusal refusal;
    struct bytes next, used;
    uint32_t status = set_get(session->store.kept, "BootNext", &next);

    bytes_free(&next);
    if ((status != BOOTKEEP_DONE && status != BOOTKEEP_ABSENT) || !bytes_copy(&used, back.at, back.len))
        return BOOTKEEP_NO_MEMORY;
    if (status == BOOTKEEP_ABSENT)
        status = set_put(&used, "BootNext", NULL, 0, &refusal);
    if (status == BOOTKEEP_DONE)
        status = sets_are_same(session->store.kept, used, there);
    bytes_free(&used);
    return status;
}

/* What undoing a change brings back. */
static uint32_t back_of(struct session *session, const struct kept_record *record, bool is_look, struct bytes *back)
{
    const struct bytes now = session->store.kept;
    struct bootkeep_refusal refusal;
    uint32_t status;

    ANSWER(status, back,
           bootkeep_record_back(record->bytes.at, record->bytes.len, now.at, now.len, INTO(back), &refusal));
    if (status != BOOTKEEP_DONE)
        return call_answered(session->machine, BOOTKEEP_MACHINE_AT_RECORD, record->path, status, &refusal);
    return take(session, back, is_look);
}

/* How a change stands: one that was undone counts as not made. */
static uint32_t standing_of(struct session *session, const struct kept_record *record, uint32_t *standing)
{
    const struct bytes now = session->store.kept;
    struct bootkeep_refusal refusal;
    struct bytes back;
    bool there = false;
    uint32_t status =
        bootkeep_record_standing(record->bytes.at, record->bytes.len, now.at, now.len, standing, &refusal);

    if (status != BOOTKEEP_DONE)
        return call_answered(session->machine, BOOTKEEP_MACHINE_AT_RECORD, record->path, status, &refusal);
    if (*standing != BOOTKEEP_STANDING_CHANGED)
        return BOOTKEEP_DONE;
    status = back_of(session, record, true, &back);
    if (status != BOOTKEEP_DONE)
        return status;
    status = is_there(session, back, &there);
    bytes_free(&back);
    if (there)
        *standing = BOOTKEEP_STANDING_NOT_MADE;
    return status == BOOTKEEP_DONE ? status : call_no_memory(session->machine);
}

/* Passes a record over, whose change isn't there: what is kept of it is taken away. */
static uint32_t pass_over(struct session *session, const struct kept_record *record)
{
    int error = session->dry_run ? 0 : record_remove(session->machine, record->number);

    return error == 0 ? BOOTKEEP_ABSENT
                      : call_system(session->machine, BOOTKEEP_MACHINE_AT_RECORD, record->path, error);
}

/* Tells that something else has changed since the change of a record, with what was there after it and is there now. */
static uint32_t tell_changed(struct session *session, const struct kept_record *record)
{
    struct bootkeep_record_parts parts = {.size = sizeof parts};
    struct bootkeep_machine *machine = session->machine;
    struct bootkeep_refusal refusal;
    const struct bytes now = session->store.kept;

    if (bootkeep_record_parts(record->bytes.at, record->bytes.len, &parts, &refusal) != BOOTKEEP_DONE ||
        !bytes_copy(&machine->before, record->bytes.at + parts.after, parts.after_len) ||
        !bytes_copy(&machine->after, now.at, now.len))
        return call_no_memory(machine);
    reason_set(&machine->outcome.why, record->path, 0, BOOTKEEP_NO_KIND);
    return call_told(machine, BOOTKEEP_MACHINE_AT_RECORD, BOOTKEEP_MACHINE_CHANGED,
                     "something else has changed the variables since the last change that is kept");
}

/* Undoes the change of a record, unless it isn't there. */
static uint32_t undo_one(struct session *session, const struct kept_record *record, void *with)
{
    struct wanted *wanted = (struct wanted *)with;
    uint32_t standing;
    uint32_t status = standing_of(session, record, &standing);

    if (status != BOOTKEEP_DONE)
        return status;
    if (standing == BOOTKEEP_STANDING_NOT_MADE)
        return pass_over(session, record);
    if (standing == BOOTKEEP_STANDING_CHANGED && (wanted->flags & BOOTKEEP_MACHINE_FORCE) == 0)
        return tell_changed(session, record);
    wanted->undone = record->number;
    status = back_of(session, record, false, &wanted->back);
    return status == BOOTKEEP_DONE ? check_numbers(session, wanted->back) : status;
}

/* Whether the change of a record stands, so that no earlier one is looked at. A damaged one is told before any is
 * removed. */
static uint32_t look_one(struct session *session, const struct kept_record *record, void *with)
{
    const struct bytes now = session->store.kept;
    struct bootkeep_refusal refusal;
    uint32_t standing;
    uint32_t status =
        bootkeep_record_standing(record->bytes.at, record->bytes.len, now.at, now.len, &standing, &refusal);

    (void)with;
    if (status != BOOTKEEP_DONE)
        return call_answered(session->machine, BOOTKEEP_MACHINE_AT_RECORD, record->path, status, &refusal);
    return standing == BOOTKEEP_STANDING_UNCHANGED ? BOOTKEEP_DONE : BOOTKEEP_ABSENT;
}

static uint32_t prepare_undo(struct wanted *wanted, struct session *session)
{
    uint32_t status = records_visit(session, look_one, NULL);

    if (status == BOOTKEEP_DONE || status == BOOTKEEP_ABSENT)
        status = records_visit(session, undo_one, wanted);
    if (status == BOOTKEEP_ABSENT)
        return call_told(session->machine, BOOTKEEP_MACHINE_AT_RECORD, BOOTKEEP_ABSENT,
                         "nothing is kept that could be undone");
    return status;
}

/* Takes away what is kept of the change that is undone. */
static void end_undo(struct wanted *wanted, struct session *session)
{
    if (record_remove(session->machine, wanted->undone) != 0)
        (void)remark(session->machine, session->machine->state,
                     "what was kept of the change stays, and the next undo passes it over");
}

uint32_t bootkeep_machine_undo(struct bootkeep_machine *machine, uint32_t flags, struct bootkeep_machine_change *change)
{
    struct wanted wanted = {.call = "undo", .flags = flags, .prepare = prepare_undo, .begin = begin, .end = end_undo};
    uint32_t status;

    call_begin(machine);
    status = check_flags(machine, flags, BOOTKEEP_MACHINE_DRY_RUN | BOOTKEEP_MACHINE_FORCE);
    return status == BOOTKEEP_DONE ? change_make(machine, &wanted, change) : status;
}
