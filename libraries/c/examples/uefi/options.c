/*
 * Prints what it was started with: its load options, and BootCurrent.
 */
#include <efi.h>
#include <efilib.h>

EFI_STATUS efi_main(EFI_HANDLE image, EFI_SYSTEM_TABLE *table)
{
    static EFI_GUID standard = EFI_GLOBAL_VARIABLE, loaded_image = LOADED_IMAGE_PROTOCOL;
    EFI_LOADED_IMAGE *loaded;
    UINT16 current = 0;
    UINTN size = sizeof current;
    EFI_STATUS status;

    InitializeLib(image, table);
    status = BS->HandleProtocol(image, &loaded_image, (void **)&loaded);
    if (EFI_ERROR(status))
        return status;
    Print(L"load options %d bytes ", (UINTN)loaded->LoadOptionsSize);
    for (UINTN at = 0; at < loaded->LoadOptionsSize; at++)
        Print(L"%02x", (UINTN)((UINT8 *)loaded->LoadOptions)[at]);
    status = RT->GetVariable(L"BootCurrent", &standard, NULL, &size, &current);
    if (EFI_ERROR(status))
        Print(L"\nno BootCurrent: %r\n", status);
    else
        Print(L"\nBootCurrent %04x\n", (UINTN)current);
    return EFI_SUCCESS;
}
