/*
 * The memory of the library, from the firmware's pool (UEFI 2.10, 7.2): for calls at a task priority up to TPL_NOTIFY.
 */
#include <bootkeep.h>
#include <efi.h>
#include <efilib.h>

void *bootkeep_allocate(size_t len)
{
    void *block = NULL;

    return EFI_ERROR(BS->AllocatePool(EfiLoaderData, len, &block)) ? NULL : block;
}

void *bootkeep_grow(void *block, size_t kept, size_t len)
{
    void *grown = bootkeep_allocate(len);

    if (grown == NULL)
        return NULL;
    CopyMem(grown, block, kept);
    bootkeep_free(block);
    return grown;
}

void bootkeep_free(void *block)
{
    if (block != NULL)
        BS->FreePool(block);
}
