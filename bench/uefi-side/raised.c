/*
 * Asks the library for the plan at the highest task priority, with memory from an arena, and prints it, and whether all
 * of that was freed.
 */
#include "arena.h"
#include "variables.h"

#include <efilib.h>

enum { NUMBERS = 64 };

EFI_STATUS efi_main(EFI_HANDLE image, EFI_SYSTEM_TABLE *table)
{
    static UINT8 memory[1 << 20];
    static uint16_t numbers[NUMBERS];
    struct bootkeep_refusal refusal;
    struct variables variables;
    size_t count = 0;
    uint32_t next = BOOTKEEP_NO_ENTRY, status;
    EFI_TPL before;

    InitializeLib(image, table);
    arena_give(memory, sizeof memory);
    if (EFI_ERROR(variables_read(&variables)))
        return EFI_OUT_OF_RESOURCES;
    before = BS->RaiseTPL(TPL_HIGH_LEVEL);
    status = bootkeep_vars_plan(variables.set, variables.set_len, numbers, NUMBERS, &count, &next, &refusal);
    BS->RestoreTPL(before);
    variables_drop(&variables);
    Print(L"plan status %d next %x normal", (UINTN)status, (UINTN)next);
    for (size_t at = 0; at < count; at++)
        Print(L" %04x", (UINTN)numbers[at]);
    Print(L" free %d.\n", (UINTN)arena_is_free());
    return EFI_SUCCESS;
}
