/* Changes of entries, BootOrder, BootNext and Timeout by an edit, as of bootkeep_vars_edit. */
#include "machine.h"

#include <string.h>

static uint32_t begin(const struct wanted *wanted, const struct session *session, const struct store *store,
                      struct bootkeep_moves *moves, struct bootkeep_refusal *refusal)
{
    const struct identity *identity = &session->identity;

    return bootkeep_moves_edit(moves, (const uint8_t *)identity->name, strlen(identity->name),
                               (const uint8_t *)identity->start, strlen(identity->start), store->kept.at,
                               store->kept.len, store->journal.at, store->journal.len, &wanted->edit, wanted->numbers,
                               wanted->numbers_len, wanted->option, wanted->option_len, refusal);
}

/* Whether one of the edit's entries has this name. */
static bool names_entry(const struct wanted *wanted, const char *name)
{
    uint32_t number;

    if (!is_entry_name(name, strlen(name), &number))
        return false;
    if (wanted->edit.kind == BOOTKEEP_EDIT_NEXT)
        return wanted->edit.number == number;
    for (size_t i = 0; i < wanted->numbers_len; i++)
        if (wanted->numbers[i] == number)
            return true;
    return false;
}

/* Whether the edit changes the variable of this name, or names its entry. One that makes an entry passes taken ones
 * over. */
static bool touches(const struct wanted *wanted, const char *name)
{
    const bool is_order = strcmp(name, "BootOrder") == 0, is_next = strcmp(name, "BootNext") == 0;

    switch (wanted->edit.kind) {
    case BOOTKEEP_EDIT_ADD: return is_order && wanted->edit.position != BOOTKEEP_POSITION_NONE;
    case BOOTKEEP_EDIT_REMOVE: return is_order || is_next || names_entry(wanted, name);
    case BOOTKEEP_EDIT_FIRST:
    case BOOTKEEP_EDIT_ORDER: return is_order || names_entry(wanted, name);
    case BOOTKEEP_EDIT_NEXT: return is_next || names_entry(wanted, name);
    case BOOTKEEP_EDIT_TIMEOUT: return strcmp(name, "Timeout") == 0;
    default: return names_entry(wanted, name);
    }
}

/* Refuses an edit of a variable that no set can hold. */
static uint32_t check(struct wanted *wanted, struct session *session)
{
    const struct texts *names = &session->variables.left_out;

    for (size_t i = 0; i < names->count; i++)
        if (touches(wanted, names->at[i]))
            return variables_refuse(session->machine, &session->variables, names->at[i]);
    return BOOTKEEP_DONE;
}

/* Finds the place of a refusal, which the end of a command doesn't have: the number of an entry, of most. */
static void explain(const struct wanted *wanted, struct session *session)
{
    struct bootkeep_edited edited = {.size = sizeof edited};
    struct reason *why = &session->machine->outcome.why;
    struct bootkeep_refusal refusal;
    struct bytes data, after;
    uint32_t status = set_data_of(session->store.kept, &data);

    if (status != BOOTKEEP_DONE)
        return;
    ANSWER(status, &after,
           bootkeep_vars_edit(&wanted->edit, wanted->numbers, wanted->numbers_len, wanted->option, wanted->option_len,
                              data.at, data.len, INTO(&after), &edited, &refusal));
    if (status == BOOTKEEP_REFUSED && refusal.kind == why->refusal.kind) {
        why->refusal = refusal;
        (void)call_ended(session->machine, BOOTKEEP_MACHINE_AT_RUN, BOOTKEEP_REFUSED, BOOTKEEP_MACHINE_LEFT_NOTHING);
    }
    bytes_free(&after);
    bytes_free(&data);
}

/* An edit of this kind. */
static struct wanted edit_of(const char *call, uint32_t kind, uint32_t flags)
{
    return (struct wanted){.call = call,
                           .flags = flags,
                           .makes_state = true,
                           .keeps_record = true,
                           .check = check,
                           .begin = begin,
                           .explain = explain,
                           .edit = {.size = sizeof(struct bootkeep_edit),
                                    .kind = kind,
                                    .number = BOOTKEEP_NO_ENTRY,
                                    .again = flags & BOOTKEEP_MACHINE_AGAIN,
                                    .stale = flags & BOOTKEEP_MACHINE_STALE,
                                    .only = flags & BOOTKEEP_MACHINE_ONLY}};
}

/* Makes an edit whose flags are among those. */
static uint32_t make(struct bootkeep_machine *machine, struct wanted *wanted, uint32_t known,
                     struct bootkeep_machine_change *change)
{
    uint32_t status;

    call_begin(machine);
    status = check_flags(machine, wanted->flags, known | BOOTKEEP_MACHINE_DRY_RUN);
    return status == BOOTKEEP_DONE ? change_make(machine, wanted, change) : status;
}

uint32_t bootkeep_machine_add(struct bootkeep_machine *machine, const uint8_t *option, size_t option_len,
                              uint32_t number, uint32_t position, uint32_t flags,
                              struct bootkeep_machine_change *change)
{
    struct wanted wanted = edit_of("add", BOOTKEEP_EDIT_ADD, flags);

    wanted.edit.number = number;
    wanted.edit.position = position;
    wanted.option = option;
    wanted.option_len = option_len;
    return make(machine, &wanted, BOOTKEEP_MACHINE_AGAIN, change);
}

/* Makes an edit of entries. */
static uint32_t make_of_entries(struct bootkeep_machine *machine, struct wanted wanted, const uint16_t *numbers,
                                size_t numbers_len, uint32_t known, struct bootkeep_machine_change *change)
{
    wanted.numbers = numbers;
    wanted.numbers_len = numbers_len;
    return make(machine, &wanted, known, change);
}

uint32_t bootkeep_machine_remove(struct bootkeep_machine *machine, const uint16_t *numbers, size_t numbers_len,
                                 uint32_t flags, struct bootkeep_machine_change *change)
{
    return make_of_entries(machine, edit_of("remove", BOOTKEEP_EDIT_REMOVE, flags), numbers, numbers_len, 0, change);
}

uint32_t bootkeep_machine_activate(struct bootkeep_machine *machine, const uint16_t *numbers, size_t numbers_len,
                                   uint32_t flags, struct bootkeep_machine_change *change)
{
    return make_of_entries(machine, edit_of("activate", BOOTKEEP_EDIT_ACTIVATE, flags), numbers, numbers_len, 0,
                           change);
}

uint32_t bootkeep_machine_deactivate(struct bootkeep_machine *machine, const uint16_t *numbers, size_t numbers_len,
                                     uint32_t flags, struct bootkeep_machine_change *change)
{
    return make_of_entries(machine, edit_of("deactivate", BOOTKEEP_EDIT_DEACTIVATE, flags), numbers, numbers_len, 0,
                           change);
}

uint32_t bootkeep_machine_first(struct bootkeep_machine *machine, const uint16_t *numbers, size_t numbers_len,
                                uint32_t flags, struct bootkeep_machine_change *change)
{
    return make_of_entries(machine, edit_of("first", BOOTKEEP_EDIT_FIRST, flags), numbers, numbers_len,
                           BOOTKEEP_MACHINE_STALE, change);
}

uint32_t bootkeep_machine_order(struct bootkeep_machine *machine, const uint16_t *numbers, size_t numbers_len,
                                uint32_t flags, struct bootkeep_machine_change *change)
{
    return make_of_entries(machine, edit_of("order", BOOTKEEP_EDIT_ORDER, flags), numbers, numbers_len,
                           BOOTKEEP_MACHINE_STALE | BOOTKEEP_MACHINE_ONLY, change);
}

uint32_t bootkeep_machine_next(struct bootkeep_machine *machine, uint32_t number, uint32_t flags,
                               struct bootkeep_machine_change *change)
{
    struct wanted wanted = edit_of("next", BOOTKEEP_EDIT_NEXT, flags);

    wanted.edit.number = number;
    return make(machine, &wanted, 0, change);
}

uint32_t bootkeep_machine_timeout(struct bootkeep_machine *machine, uint32_t seconds, uint32_t flags,
                                  struct bootkeep_machine_change *change)
{
    struct wanted wanted = edit_of("timeout", BOOTKEEP_EDIT_TIMEOUT, flags);

    wanted.edit.number = seconds;
    return make(machine, &wanted, 0, change);
}
