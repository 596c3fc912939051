/*
 * Adds an entry for a loader, first in BootOrder, and shows its name; or takes the last change back. Of the machine
 * that this runs on VARIABLES is /sys/firmware/efi/efivars, and STATE /var/lib/bootkeep.
 *
 *     machine VARIABLES STATE /boot/efi/EFI/rescue/grubx64.efi Rescue
 *     machine VARIABLES STATE undo
 */
#include <bootkeep-linux.h>
#include <stdio.h>
#include <string.h>

/* Tells what a call has to say, and gives the status of the program. */
static int tell(const struct bootkeep_machine *machine, uint32_t status)
{
    struct bootkeep_machine_fault fault = {.size = sizeof fault};
    const char *text;

    for (size_t i = 0; bootkeep_machine_remark(machine, i, &text) == BOOTKEEP_DONE; i++)
        fprintf(stderr, "machine: %s\n", text);
    if (status != BOOTKEEP_DONE && bootkeep_machine_fault(machine, &fault) == BOOTKEEP_DONE)
        fprintf(stderr, "machine: %s\n", fault.text);
    return status != BOOTKEEP_DONE;
}

int main(int count, char **words)
{
    struct bootkeep_machine_options options = {.size = sizeof options};
    struct bootkeep_machine_change change = {.size = sizeof change};
    struct bootkeep_machine_loader loader = {.size = sizeof loader, .attributes = BOOTKEEP_ATTRIBUTE_ACTIVE};
    struct bootkeep_machine *machine;
    int is_undo = count == 4 && strcmp(words[3], "undo") == 0, failed;

    if (count != 5 && !is_undo)
        return fputs("machine: two folders, a loader and a description are wanted, or `undo`\n", stderr), 2;
    options.variables = words[1], options.state = words[2];
    if (bootkeep_machine_open(&options, &machine) != BOOTKEEP_DONE)
        return fputs("machine: two folders are wanted\n", stderr), 2;
    loader.file = words[3], loader.description = words[4];
    failed = tell(machine, is_undo ? bootkeep_machine_undo(machine, 0, &change)
                                   : bootkeep_machine_add_loader(machine, &loader, BOOTKEEP_NO_ENTRY,
                                                                 BOOTKEEP_POSITION_FIRST, 0, &change));
    if (!failed && change.entry != BOOTKEEP_NO_ENTRY)
        printf("Boot%04X\n", (unsigned)change.entry);
    bootkeep_machine_close(machine);
    return failed;
}
