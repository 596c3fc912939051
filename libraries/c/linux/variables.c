/* What is there of a machine's variables, in a folder as Linux shows them or in an emulator's variable file. */
#include "machine.h"

#include <errno.h>
#include <stdio.h>
#include <stdlib.h>
#include <string.h>
#include <sys/stat.h>

/* What stands for the value of an entry that no set can hold. */
static const uint8_t stand_in[] = {7, 0, 0, 0, 0};

uint32_t place_look(struct bootkeep_machine *machine, bool *is_file)
{
    const uint32_t at = BOOTKEEP_MACHINE_AT_VARIABLES;
    struct stat found;

    *is_file = false;
    if (stat(machine->place, &found) != 0)
        return call_system(machine, at, machine->place, errno);
    *is_file = S_ISREG(found.st_mode);
    if (*is_file || S_ISDIR(found.st_mode))
        return BOOTKEEP_DONE;
    return call_refused(machine, at, machine->place, BOOTKEEP_MACHINE_FAULT_IRREGULAR);
}

uint32_t bootkeep_machine_place(struct bootkeep_machine *machine, uint32_t *place)
{
    bool is_file;
    uint32_t status;

    call_begin(machine);
    status = place_look(machine, &is_file);
    if (status == BOOTKEEP_DONE && is_file)
        status = store_check(machine);
    if (status == BOOTKEEP_DONE)
        *place = is_file ? BOOTKEEP_MACHINE_PLACE_FILE : BOOTKEEP_MACHINE_PLACE_FOLDER;
    return status;
}

uint32_t variables_leave_out(struct bootkeep_machine *machine, struct variables *variables, const char *name,
                             const char *shown, const char *why)
{
    char text[NAME_MAX + 128];

    snprintf(text, sizeof text, "%s is ignored: %s", shown, why);
    if (!remark(machine, machine->place, text))
        return call_no_memory(machine);
    if (is_boot_name(name, strlen(name)) &&
        (!texts_add(&variables->left_out, name, strlen(name)) || !texts_add(&variables->unheld, name, strlen(name))))
        return call_no_memory(machine);
    return BOOTKEEP_DONE;
}

uint32_t variables_refuse(struct bootkeep_machine *machine, const struct variables *variables, const char *name)
{
    const uint32_t at = BOOTKEEP_MACHINE_AT_RUN;
    char path[PATH_MAX], text[PATH_MAX + 128];

    if (!variables->is_file && path_join(path, machine->place, name))
        return call_refused(machine, at, path, BOOTKEEP_MACHINE_FAULT_LEFT_OUT);
    reason_set(&machine->outcome.why, machine->place, 0, BOOTKEEP_MACHINE_FAULT_LEFT_OUT);
    snprintf(text, sizeof text, "%s: %s has no value or too long a one, and stays as it is", machine->place, name);
    return call_told(machine, at, BOOTKEEP_REFUSED, text);
}

/* Puts a stand-in for each entry that is left out into the set of what is kept, so that its number is taken. */
static uint32_t take_numbers(struct bootkeep_machine *machine, struct variables *variables)
{
    struct bootkeep_refusal refusal;

    for (size_t i = 0; i < variables->left_out.count; i++) {
        const char *name = variables->left_out.at[i];

        if (is_entry_name(name, strlen(name), NULL) &&
            set_put(&variables->kept, name, stand_in, sizeof stand_in, &refusal) != BOOTKEEP_DONE)
            return call_no_memory(machine);
    }
    return BOOTKEEP_DONE;
}

uint32_t variables_read(struct bootkeep_machine *machine, bool is_change, struct variables *variables)
{
    uint32_t status;

    *variables = (struct variables){0};
    status = place_look(machine, &variables->is_file);
    if (status == BOOTKEEP_DONE)
        status = variables->is_file ? store_read(machine, is_change, variables) : folder_read(machine, variables);
    return status == BOOTKEEP_DONE ? take_numbers(machine, variables) : status;
}

void variables_free(struct variables *variables)
{
    bytes_free(&variables->file);
    bytes_free(&variables->kept);
    bytes_free(&variables->data);
    texts_free(&variables->left_out);
    texts_free(&variables->unheld);
    for (size_t i = 0; i < variables->files_len; i++) {
        free(variables->files[i].name);
        free(variables->files[i].file);
    }
    free(variables->files);
    *variables = (struct variables){0};
}

uint32_t variables_let_go(struct variables *variables, struct bytes set)
{
    struct texts *names = &variables->left_out;
    struct bootkeep_refusal refusal;
    size_t stay = 0;
    uint32_t status = BOOTKEEP_DONE;

    for (size_t i = 0; i < names->count; i++) {
        struct bytes value;
        uint32_t found = set_get(set, names->at[i], &value);

        bytes_free(&value);
        if (found == BOOTKEEP_DONE && status == BOOTKEEP_DONE) {
            status = set_put(&variables->kept, names->at[i], NULL, 0, &refusal);
            free(names->at[i]);
        } else {
            names->at[stay++] = names->at[i];
        }
    }
    names->count = stay;
    return status;
}
