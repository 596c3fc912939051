/*
 * A driver that has the firmware refuse to delete entries from then on, so that a change is refused after others were
 * made.
 */
#include <efi.h>
#include <efilib.h>

static EFI_SET_VARIABLE set_variable;

static EFI_STATUS EFIAPI refuse(CHAR16 *name, EFI_GUID *vendor, UINT32 attributes, UINTN size, VOID *data)
{
    if (size == 0 && StrnCmp(name, L"Boot", 4) == 0 && StrLen(name) == 8 && StrCmp(name, L"BootNext") != 0)
        return EFI_WRITE_PROTECTED;
    return set_variable(name, vendor, attributes, size, data);
}

EFI_STATUS efi_main(EFI_HANDLE image, EFI_SYSTEM_TABLE *table)
{
    InitializeLib(image, table);
    set_variable = RT->SetVariable;
    RT->SetVariable = refuse;
    return EFI_SUCCESS;
}
