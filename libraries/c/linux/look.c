/* What is there: the variables, the plan and the entries. */
#include "machine.h"

#include <stdlib.h>
#include <string.h>

/* Reads the variables, of which the one set or the other becomes the answer of the handle. */
static uint32_t read_set(struct bootkeep_machine *machine, bool is_data, const uint8_t **set, size_t *set_len)
{
    struct variables variables;
    uint32_t status = variables_read(machine, false, &variables);

    if (status == BOOTKEEP_DONE)
        bytes_take(&machine->answer, is_data ? &variables.data : &variables.kept);
    variables_free(&variables);
    *set = machine->answer.at;
    *set_len = machine->answer.len;
    return status;
}

uint32_t bootkeep_machine_variables(struct bootkeep_machine *machine, const uint8_t **set, size_t *set_len)
{
    call_begin(machine);
    return read_set(machine, false, set, set_len);
}

uint32_t bootkeep_machine_data(struct bootkeep_machine *machine, const uint8_t **set, size_t *set_len)
{
    call_begin(machine);
    return read_set(machine, true, set, set_len);
}

/* The fault of a call over a set of the machine's variables. */
static uint32_t set_fault(struct bootkeep_machine *machine, uint32_t status, const struct bootkeep_refusal *refusal)
{
    return call_answered(machine, BOOTKEEP_MACHINE_AT_VARIABLES, machine->place, status, refusal);
}

/* The number in the two bytes of a variable, or BOOTKEEP_NO_ENTRY if there is none. */
static uint32_t number_of(struct bytes set, const char *name)
{
    struct bytes value;
    uint32_t number = BOOTKEEP_NO_ENTRY;

    if (set_get(set, name, &value) == BOOTKEEP_DONE && value.len == 2)
        number = (uint32_t)(value.at[0] | value.at[1] << 8);
    bytes_free(&value);
    return number;
}

/* The numbers of the plan, which are the handle's. */
static uint32_t read_plan(struct bootkeep_machine *machine, struct bytes set, struct bootkeep_machine_plan *plan)
{
    struct bootkeep_refusal refusal;
    size_t count = 0;
    uint32_t status = bootkeep_vars_plan(set.at, set.len, NULL, 0, &count, &plan->next, &refusal);

    if (status == BOOTKEEP_NO_ROOM) {
        if (!bytes_make(&machine->plan, count * sizeof(uint16_t)))
            return call_no_memory(machine);
        status = bootkeep_vars_plan(set.at, set.len, (uint16_t *)(void *)machine->plan.at, count, &count, &plan->next,
                                    &refusal);
    }
    if (status != BOOTKEEP_DONE)
        return set_fault(machine, status, &refusal);
    plan->numbers = (const uint16_t *)(const void *)machine->plan.at;
    plan->numbers_len = count;
    return BOOTKEEP_DONE;
}

/* All numbers of BootOrder, which are the handle's. */
static uint32_t read_order(struct bootkeep_machine *machine, struct bytes set, const uint16_t **numbers, size_t *len)
{
    struct bytes order;
    uint16_t *made;
    uint32_t status = set_get(set, "BootOrder", &order);

    *numbers = NULL;
    *len = 0;
    if (status == BOOTKEEP_ABSENT)
        return BOOTKEEP_DONE;
    if (status != BOOTKEEP_DONE || !bytes_make(&machine->order, order.len + 1)) {
        bytes_free(&order);
        return call_no_memory(machine);
    }
    made = (uint16_t *)(void *)machine->order.at;
    for (size_t i = 0; i < order.len / 2; i++)
        made[i] = (uint16_t)(order.at[2 * i] | order.at[2 * i + 1] << 8);
    *numbers = made;
    *len = order.len / 2;
    bytes_free(&order);
    return BOOTKEEP_DONE;
}

uint32_t bootkeep_machine_plan(struct bootkeep_machine *machine, struct bootkeep_machine_plan *plan)
{
    struct bootkeep_machine_plan made = {.size = plan->size};
    struct variables variables;
    uint32_t status;

    call_begin(machine);
    if (plan->size < sizeof *plan)
        return call_bad_size(machine);
    status = variables_read(machine, false, &variables);
    if (status == BOOTKEEP_DONE)
        status = read_plan(machine, variables.data, &made);
    if (status == BOOTKEEP_DONE)
        status = read_order(machine, variables.data, &made.order, &made.order_len);
    if (status == BOOTKEEP_DONE) {
        made.current = number_of(variables.data, "BootCurrent");
        made.timeout = number_of(variables.data, "Timeout");
        *plan = made;
    }
    variables_free(&variables);
    return status;
}

/* A text of a call of libbootkeep, or none at a refusal, kept by the handle: NULL if memory is refused. */
static const char *kept_text(struct bootkeep_machine *machine, uint32_t status, struct bytes *text)
{
    bool kept = status != BOOTKEEP_NO_MEMORY &&
                texts_add(&machine->entry_texts, text->at == NULL ? "" : (char *)text->at, text->len);

    bytes_free(text);
    return kept ? machine->entry_texts.at[machine->entry_texts.count - 1] : NULL;
}

/* The parts of the load option that an entry is, if it is one. */
static bool read_option(struct bootkeep_machine *machine, struct bootkeep_machine_entry *entry)
{
    struct bootkeep_option_parts parts;
    struct bootkeep_refusal refusal;
    struct bytes text = {NULL, 0};
    size_t taken;
    uint32_t status = bootkeep_option_parts(entry->option, entry->option_len, &parts, &refusal);
    const bool is_option = status == BOOTKEEP_DONE;

    if (is_option)
        ANSWER(status, &text, bootkeep_option_description(entry->option, entry->option_len, INTO(&text), &refusal));
    entry->description = kept_text(machine, status, &text);
    if (is_option)
        ANSWER(status, &text,
               bootkeep_path_names(entry->option + parts.list, parts.list_len, INTO(&text), &taken, &refusal));
    entry->path = kept_text(machine, status, &text);
    if (is_option) {
        entry->attributes = parts.attributes;
        entry->optional = entry->option + parts.optional;
        entry->optional_len = parts.optional_len;
    }
    return entry->description != NULL && entry->path != NULL;
}

/* Where BootOrder has a number first. */
static uint32_t position_of(const uint16_t *order, size_t len, uint32_t number)
{
    for (size_t i = 0; i < len; i++)
        if (order[i] == number)
            return (uint32_t)i;
    return BOOTKEEP_NO_ENTRY;
}

/* Tells of the entries of a set, which is the handle's. */
static uint32_t tell_entries(struct bootkeep_machine *machine, const struct item *items, size_t count)
{
    const struct bytes set = machine->answer;
    const uint32_t next = number_of(set, "BootNext"), current = number_of(set, "BootCurrent");
    struct bootkeep_refusal refusal;
    const uint16_t *order;
    size_t order_len;
    uint32_t status = read_order(machine, set, &order, &order_len);

    for (size_t i = 0; status == BOOTKEEP_DONE && i < count; i++) {
        struct bootkeep_machine_entry entry = {.option = items[i].data, .option_len = items[i].data_len};

        if (!is_entry_name(items[i].name, items[i].name_len, &entry.number))
            continue;
        entry.position = position_of(order, order_len, entry.number);
        entry.is_next = entry.number == next;
        entry.is_current = entry.number == current;
        status = bootkeep_vars_entry(set.at, set.len, (uint16_t)entry.number, &entry.state, &refusal);
        if (status != BOOTKEEP_DONE)
            return set_fault(machine, status, &refusal);
        if (!read_option(machine, &entry))
            return call_no_memory(machine);
        machine->entries[machine->entries_len++] = entry;
    }
    return status;
}

uint32_t bootkeep_machine_entries(struct bootkeep_machine *machine, const struct bootkeep_machine_entry **entries,
                                  size_t *len, size_t item_size)
{
    struct bootkeep_refusal refusal;
    const uint8_t *set;
    size_t set_len, count = 0;
    struct item *items = NULL;
    uint32_t status;

    call_begin(machine);
    if (item_size != sizeof **entries)
        return call_bad_size(machine);
    status = read_set(machine, true, &set, &set_len);
    if (status == BOOTKEEP_DONE) {
        status = set_items(machine->answer, &items, &count, &refusal);
        if (status != BOOTKEEP_DONE)
            status = set_fault(machine, status, &refusal);
    }
    if (status == BOOTKEEP_DONE) {
        machine->entries = calloc(count + 1, sizeof *machine->entries);
        status = machine->entries == NULL ? call_no_memory(machine) : tell_entries(machine, items, count);
    }
    free(items);
    *entries = machine->entries;
    *len = machine->entries_len;
    return status;
}
