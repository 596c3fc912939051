/*
 * Sets variables as its load options say, one byte: `s` for an order that names what isn't there, `f` so that the store
 * of variables is full, and `e` so that it isn't any more.
 */
#include <efi.h>
#include <efilib.h>

enum {
    KEPT = EFI_VARIABLE_NON_VOLATILE | EFI_VARIABLE_BOOTSERVICE_ACCESS | EFI_VARIABLE_RUNTIME_ACCESS,
    FILLS = 64,
    FILL = 4096,
    /* A record of edk2's has a header, its name with a zero, and data, and ends at a place that 4 divides. */
    RECORD = 60 + 7 * sizeof(CHAR16) + 4,
};

static EFI_GUID standard = EFI_GLOBAL_VARIABLE;
static EFI_GUID own = {0x5f2c1a9e, 0x7d64, 0x4b0e, {0x9c, 0x3b, 0x1e, 0x8f, 0x60, 0xa2, 0xd7, 0xc4}};

static void set(CHAR16 *name, UINTN len, const char *data)
{
    EFI_STATUS status = RT->SetVariable(name, &standard, KEPT, len, (void *)data);

    if (EFI_ERROR(status))
        Print(L"%s: %r\n", name, status);
}

/* Has BootOrder name an entry that isn't there and one that is no load option, and its first one again. */
static void set_stale(void)
{
    UINT8 order[256];
    UINTN size = sizeof order - 6;
    EFI_STATUS status = RT->GetVariable(L"BootOrder", &standard, NULL, &size, order);

    if (EFI_ERROR(status))
        return;
    CopyMem(order + size, "\x77\x01\xa0\x0b", 4);
    CopyMem(order + size + 4, order, 2);
    set(L"BootOrder", size + 6, (const char *)order);
    set(L"BootNext", 2, "\x78\x01");
}

/* How many bytes of records the store has room for. */
static UINT64 room(void)
{
    UINT64 most, left = 0, largest;

    return EFI_ERROR(RT->QueryVariableInfo(KEPT, &most, &left, &largest)) ? 0 : left;
}

/* Has variables take all of the store, but for less than a record has. */
static void fill(void)
{
    static UINT8 data[FILL];
    CHAR16 name[16];

    for (UINTN at = 0; at < FILLS && room() >= RECORD; at++) {
        UINTN size = (UINTN)(room() - RECORD + 1);
        SPrint(name, sizeof name, L"Fill%02d", at);
        if (EFI_ERROR(RT->SetVariable(name, &own, KEPT, size < FILL ? size : FILL, data)))
            return;
    }
}

static void empty(void)
{
    CHAR16 name[16];

    for (UINTN at = 0; at < FILLS; at++) {
        SPrint(name, sizeof name, L"Fill%02d", at);
        RT->SetVariable(name, &own, KEPT, 0, NULL);
    }
}

EFI_STATUS efi_main(EFI_HANDLE image, EFI_SYSTEM_TABLE *table)
{
    EFI_LOADED_IMAGE *loaded;
    EFI_STATUS status;

    InitializeLib(image, table);
    status = BS->HandleProtocol(image, &LoadedImageProtocol, (void **)&loaded);
    if (EFI_ERROR(status) || loaded->LoadOptionsSize != 1)
        return EFI_INVALID_PARAMETER;
    switch (*(char *)loaded->LoadOptions) {
    case 's': set_stale(); break;
    case 'f': fill(); break;
    case 'e': empty(); break;
    default: return EFI_INVALID_PARAMETER;
    }
    return EFI_SUCCESS;
}
