/*
 * Shows the entries of BootOrder, and has the next start try the one whose digit is pressed, once, by BootNext.
 */
#include <bootkeep.h>
#include <efi.h>
#include <efilib.h>

enum { KEPT = EFI_VARIABLE_NON_VOLATILE | EFI_VARIABLE_BOOTSERVICE_ACCESS | EFI_VARIABLE_RUNTIME_ACCESS, DIGITS = 9 };

static EFI_GUID standard = EFI_GLOBAL_VARIABLE;

/* Shows the description of an entry, or why it has none. Firmware wants those registers back that the library changes.
 */
static __attribute__((noinline)) void EFIAPI show(UINTN digit, UINTN number)
{
    static UINT8 data[32768], text[3 * sizeof data + 1];
    struct bootkeep_refusal why = {0};
    UINTN size = sizeof data, len;
    CHAR16 name[9];

    SPrint(name, sizeof name, L"Boot%04x", number);
    ZeroMem(text, sizeof text);
    if (EFI_ERROR(RT->GetVariable(name, &standard, NULL, &size, data)))
        Print(L"%d %s isn't there\n", digit, name);
    else if (bootkeep_option_description(data, size, text, sizeof text - 1, &len, &why) != BOOTKEEP_DONE)
        Print(L"%d %s has no description: fault %04x\n", digit, name, (UINTN)why.kind);
    else
        Print(L"%d %s %a\n", digit, name, text);
}

EFI_STATUS efi_main(EFI_HANDLE image, EFI_SYSTEM_TABLE *table)
{
    static UINT16 order[BOOTKEEP_ORDER_MAX];
    UINTN size = sizeof order, pressed;
    EFI_INPUT_KEY key = {0};
    EFI_STATUS status;

    InitializeLib(image, table);
    status = RT->GetVariable(L"BootOrder", &standard, NULL, &size, order);
    size = EFI_ERROR(status) ? 0 : size;
    for (UINTN at = 0; at < size / 2 && at < DIGITS; at++)
        show(at + 1, order[at]);
    while (size > 0 && ST->ConIn->ReadKeyStroke(ST->ConIn, &key) == EFI_NOT_READY)
        WaitForSingleEvent(ST->ConIn->WaitForKey, 0);
    pressed = (UINTN)key.UnicodeChar - '1';
    if (pressed < DIGITS && pressed < size / 2)
        status = RT->SetVariable(L"BootNext", &standard, KEPT, sizeof *order, &order[pressed]);
    if (EFI_ERROR(status))
        Print(L"BootNext isn't set: %r\n", status);
    return status;
}
