/* Handles of machines. */
#include "machine.h"

#include <stdlib.h>
#include <string.h>

uint32_t bootkeep_machine_version(void)
{
    return BOOTKEEP_MACHINE_VERSION;
}

void bootkeep_machine_close(struct bootkeep_machine *machine)
{
    if (machine == NULL)
        return;
    call_begin(machine);
    free(machine->place);
    free(machine->state);
    free(machine->given_name);
    free(machine->given_start);
    bytes_free(&machine->words);
    free(machine);
}

/* A copy of a text, or of another one if that is NULL, or NULL if both are. */
static bool copy_text(char **copy, const char *text, const char *otherwise)
{
    const char *from = text == NULL ? otherwise : text;

    *copy = from == NULL ? NULL : strdup(from);
    return from == NULL || *copy != NULL;
}

/* Whether what was given can be of a machine. */
static bool are_good(const struct bootkeep_machine_options *options)
{
    const uint32_t known = BOOTKEEP_MACHINE_ADOPT | BOOTKEEP_MACHINE_NO_RECORD;
    const char *name = options->name;

    if ((options->flags & ~known) != 0)
        return false;
    if ((options->variables != NULL && *options->variables == '\0') ||
        (options->state != NULL && *options->state == '\0'))
        return false;
    if (name != NULL && (*name == '\0' || strlen(name) > BOOTKEEP_MACHINE_MAX || !is_utf8(name, strlen(name))))
        return false;
    return options->start == NULL || is_start(options->start);
}

uint32_t bootkeep_machine_open(const struct bootkeep_machine_options *options, struct bootkeep_machine **machine)
{
    static const struct bootkeep_machine_options none = {.size = sizeof none};
    const struct bootkeep_machine_options *given = options == NULL ? &none : options;
    struct bootkeep_machine *made;

    *machine = NULL;
    if (given->size < sizeof *given)
        return BOOTKEEP_BAD_SIZE;
    if (!are_good(given))
        return BOOTKEEP_REFUSED;
    made = calloc(1, sizeof *made);
    if (made == NULL)
        return BOOTKEEP_NO_MEMORY;
    made->flags = given->flags;
    made->family = BOOT_FAMILY;
    made->names_state = given->state != NULL;
    if (!copy_text(&made->place, given->variables, BOOTKEEP_MACHINE_VARIABLES) ||
        !copy_text(&made->state, given->state, BOOTKEEP_MACHINE_STATE) ||
        !copy_text(&made->given_name, given->name, NULL) || !copy_text(&made->given_start, given->start, NULL)) {
        bootkeep_machine_close(made);
        return BOOTKEEP_NO_MEMORY;
    }
    *machine = made;
    return call_done(made);
}

uint32_t bootkeep_machine_words(struct bootkeep_machine *machine, const char *const *words, size_t count)
{
    struct bytes all;
    size_t len = 0;

    call_begin(machine);
    for (size_t i = 0; i < count; i++) {
        if (!is_utf8(words[i], strlen(words[i])))
            return call_refused(machine, BOOTKEEP_MACHINE_AT_NONE, NULL, BOOTKEEP_MACHINE_FAULT_BAD_WORDS);
        len += strlen(words[i]) + 1;
    }
    if (!bytes_make(&all, len))
        return call_no_memory(machine);
    len = 0;
    for (size_t i = 0; i < count; i++) {
        memcpy(all.at + len, words[i], strlen(words[i]) + 1);
        len += strlen(words[i]) + 1;
    }
    bytes_take(&machine->words, &all);
    return BOOTKEEP_DONE;
}
