#include "fake.h"

#include <efilib.h>
#include <stdio.h>
#include <stdlib.h>
#include <string.h>

/* FILE_SYSTEM is how many bytes the path of the second file system has before its end. */
enum { ENTRIES = 65536, OTHERS = 32, NAME = 2048, FILE_SYSTEM = 12 + 42 };

struct value {
    void *data;
    size_t len;
};

struct fake fake;
bool was_memory_refused, was_set_refused;
long blocks;
char shown[1 << 20];
unsigned started, current_while_started;
unsigned char options[64];
size_t options_len;

static unsigned long requests, sets;
static size_t shown_len;
static const char *keys;
static struct value entries[ENTRIES];
static char others[OTHERS][NAME];
static struct value other_values[OTHERS];
static EFI_GUID standard = EFI_GLOBAL_VARIABLE;
static EFI_GUID device_path = DEVICE_PATH_PROTOCOL, loaded_image = LOADED_IMAGE_PROTOCOL;
static EFI_LOADED_IMAGE image;

/* ---- Memory ----------------------------------------------------------------------------------------------------- */

static bool refuse_memory(void)
{
    bool refused = ++requests == fake.refused_memory;

    was_memory_refused |= refused;
    return refused;
}

void *bootkeep_allocate(size_t len)
{
    void *block = refuse_memory() ? NULL : malloc(len);

    blocks += block != NULL;
    return block;
}

/* Always another block, whose bytes after the kept ones are marks. */
void *bootkeep_grow(void *block, size_t kept, size_t len)
{
    void *grown = refuse_memory() ? NULL : malloc(len);

    if (grown == NULL)
        return NULL;
    memset(grown, 0xA5, len);
    memcpy(grown, block, kept < len ? kept : len);
    free(block);
    return grown;
}

void bootkeep_free(void *block)
{
    blocks -= block != NULL;
    free(block);
}

static EFI_STATUS EFIAPI allocate_pool(EFI_MEMORY_TYPE type, UINTN len, VOID **block)
{
    (void)type;
    *block = malloc(len);
    return *block != NULL ? EFI_SUCCESS : EFI_OUT_OF_RESOURCES;
}

static EFI_STATUS EFIAPI free_pool(VOID *block)
{
    free(block);
    return EFI_SUCCESS;
}

/* ---- Variables -------------------------------------------------------------------------------------------------- */

/* The place of a variable by its name, or NULL if there is no room for another one. */
static struct value *find(const char *name)
{
    char *end;
    unsigned long number = strncmp(name, "Boot", 4) == 0 && strlen(name) == 8 ? strtoul(name + 4, &end, 16) : ENTRIES;
    char same[16];

    if (number < ENTRIES) {
        snprintf(same, sizeof same, "Boot%04lX", number);
        if (strcmp(same, name) == 0)
            return &entries[number];
    }
    for (size_t at = 0; at < OTHERS; at++)
        if (strcmp(others[at], name) == 0)
            return &other_values[at];
    for (size_t at = 0; at < OTHERS; at++)
        if (others[at][0] == '\0' && strlen(name) < NAME) {
            strcpy(others[at], name);
            return &other_values[at];
        }
    return NULL;
}

static void narrow(const CHAR16 *wide, char name[NAME])
{
    size_t at = 0;

    for (; wide[at] != 0 && at < NAME - 1; at++)
        name[at] = (char)wide[at];
    name[at] = '\0';
}

void fake_put(const char *name, const void *data, size_t len)
{
    struct value *value = find(name);

    if (value == NULL)
        abort();
    free(value->data);
    value->data = len > 0 ? malloc(len) : NULL;
    value->len = len;
    if (len > 0)
        memcpy(value->data, data, len);
}

static EFI_STATUS EFIAPI get_variable(CHAR16 *wide, EFI_GUID *vendor, UINT32 *attributes, UINTN *size, VOID *data)
{
    char name[NAME];
    struct value *value;
    bool is_bad;

    narrow(wide, name);
    value = find(name);
    is_bad = strcmp(name, "Boot0BAD") == 0;
    if (memcmp(vendor, &standard, sizeof standard) != 0 || value == NULL || value->len == 0)
        return EFI_NOT_FOUND;
    if (is_bad && fake.value == DAMAGED)
        return EFI_DEVICE_ERROR;
    if (is_bad && fake.value != HONEST && fake.value != LONG_DATA) {
        *size = fake.value == LONGER_THAN_ROOM ? *size + 1 : fake.value == NO_DATA ? 0 : *size;
        return fake.value == NEVER_ENOUGH ? EFI_BUFFER_TOO_SMALL : EFI_SUCCESS;
    }
    if (attributes != NULL)
        *attributes = 7;
    if (*size < value->len) {
        *size = value->len;
        return EFI_BUFFER_TOO_SMALL;
    }
    *size = value->len;
    memcpy(data, value->data, value->len);
    return EFI_SUCCESS;
}

static EFI_STATUS EFIAPI set_variable(CHAR16 *wide, EFI_GUID *vendor, UINT32 attributes, UINTN size, VOID *data)
{
    char name[NAME];
    struct value *value;

    narrow(wide, name);
    value = find(name);
    sets++;
    if (fake.refused_set != 0 && (sets == fake.refused_set || (fake.refuses_on && sets > fake.refused_set))) {
        was_set_refused = true;
        return EFI_WRITE_PROTECTED;
    }
    if (memcmp(vendor, &standard, sizeof standard) != 0 || value == NULL || (attributes & 6) != 6)
        return EFI_INVALID_PARAMETER;
    if (size == 0 && value->len == 0)
        return EFI_NOT_FOUND;
    fake_put(name, data, size);
    return EFI_SUCCESS;
}

/* Tells the name after one, in the order of the entries and then of the others. */
static EFI_STATUS EFIAPI next_name(UINTN *size, CHAR16 *wide, EFI_GUID *vendor)
{
    char name[NAME];
    struct value *value;
    size_t at = 0, len;

    narrow(wide, name);
    value = name[0] == '\0' ? NULL : find(name);
    if (value >= entries && value < entries + ENTRIES)
        at = (size_t)(value - entries) + 1;
    else if (value != NULL)
        at = ENTRIES + (size_t)(value - other_values) + 1;
    while (at < ENTRIES + OTHERS && (at < ENTRIES ? entries[at] : other_values[at - ENTRIES]).len == 0)
        at++;
    if (at == ENTRIES + OTHERS && !fake.is_endless)
        return fake.has_bad_name ? EFI_BUFFER_TOO_SMALL : EFI_NOT_FOUND;
    if (at == ENTRIES + OTHERS)
        at--;
    if (at < ENTRIES)
        snprintf(name, sizeof name, "Boot%04zX", at);
    else
        strcpy(name, others[at - ENTRIES]);
    len = (strlen(name) + 1) * sizeof *wide;
    if (*size < len) {
        *size = len;
        return EFI_BUFFER_TOO_SMALL;
    }
    *size = len;
    *vendor = standard;
    for (size_t unit = 0; unit < len / sizeof *wide; unit++)
        wide[unit] = (CHAR16)name[unit];
    return EFI_SUCCESS;
}

void fake_list(char *text, size_t room)
{
    size_t len = 0;

    text[0] = '\0';
    for (size_t at = 0; at < ENTRIES + OTHERS; at++) {
        const struct value *value = at < ENTRIES ? &entries[at] : &other_values[at - ENTRIES];
        if (value->len == 0)
            continue;
        len += (size_t)(at < ENTRIES ? snprintf(text + len, room - len, "Boot%04zX ", at)
                                     : snprintf(text + len, room - len, "%s ", others[at - ENTRIES]));
        for (size_t byte = 0; byte < value->len && len + 4 < room; byte++)
            len += (size_t)snprintf(text + len, room - len, "%02x", ((unsigned char *)value->data)[byte]);
        len += (size_t)snprintf(text + len, room - len, "\n");
    }
}

/* ---- The console ------------------------------------------------------------------------------------------------ */

static EFI_STATUS EFIAPI output(SIMPLE_TEXT_OUTPUT_INTERFACE *console, CHAR16 *text)
{
    (void)console;
    for (; *text != 0 && shown_len + 2 < sizeof shown; text++)
        shown[shown_len++] = (char)*text;
    shown[shown_len++] = '\n';
    shown[shown_len] = '\0';
    return EFI_SUCCESS;
}

static EFI_STATUS EFIAPI query(SIMPLE_TEXT_OUTPUT_INTERFACE *console, UINTN mode, UINTN *columns, UINTN *lines)
{
    (void)console;
    (void)mode;
    *columns = 80;
    *lines = 25;
    return EFI_SUCCESS;
}

static EFI_STATUS EFIAPI clear(SIMPLE_TEXT_OUTPUT_INTERFACE *console)
{
    (void)console;
    return EFI_SUCCESS;
}

static EFI_STATUS EFIAPI show_cursor(SIMPLE_TEXT_OUTPUT_INTERFACE *console, BOOLEAN visible)
{
    (void)console;
    (void)visible;
    return EFI_SUCCESS;
}

static EFI_STATUS EFIAPI place_cursor(SIMPLE_TEXT_OUTPUT_INTERFACE *console, UINTN column, UINTN line)
{
    (void)console;
    return column < 80 && line < 25 ? EFI_SUCCESS : EFI_UNSUPPORTED;
}

/* Keys are given as characters: `u` and `v` are the arrows, and there are moments without one. */
static EFI_STATUS EFIAPI read_key(SIMPLE_INPUT_INTERFACE *console, EFI_INPUT_KEY *key)
{
    static bool is_there;

    (void)console;
    is_there = !is_there;
    if (!is_there)
        return EFI_NOT_READY;
    key->ScanCode = *keys == 'u' ? SCAN_UP : *keys == 'v' ? SCAN_DOWN : *keys == '\0' ? SCAN_ESC : SCAN_NULL;
    key->UnicodeChar = key->ScanCode == SCAN_NULL ? (CHAR16)*keys : 0;
    keys += *keys != '\0';
    return EFI_SUCCESS;
}

static EFI_STATUS EFIAPI wait(UINTN count, EFI_EVENT *events, UINTN *which)
{
    (void)count;
    (void)events;
    *which = 0;
    return EFI_SUCCESS;
}

/* ---- Images ----------------------------------------------------------------------------------------------------- */

/* The paths of two file systems, of which the second one's last node is that of a partition. */
static unsigned char paths[2][64] = {
    {0x02, 0x01, 0x0c, 0x00, 0xd0, 0x41, 0x03, 0x0a, 0, 0, 0, 0, 0x7f, 0xff, 0x04, 0x00},
    {0x02, 0x01, 0x0c, 0x00, 0xd0, 0x41, 0x03, 0x0a, 0, 0, 0, 0, 0x04, 0x01, 0x2a, 0x00, 0x01, 0x00, 0x00, 0x00},
};

static EFI_STATUS EFIAPI locate(EFI_LOCATE_SEARCH_TYPE type, EFI_GUID *protocol, VOID *key, UINTN *size,
                                EFI_HANDLE *found)
{
    (void)type;
    (void)protocol;
    (void)key;
    if (*size < 2 * sizeof *found) {
        *size = 2 * sizeof *found;
        return EFI_BUFFER_TOO_SMALL;
    }
    *size = 2 * sizeof *found;
    found[0] = paths[0];
    found[1] = paths[1];
    return EFI_SUCCESS;
}

static EFI_STATUS EFIAPI handle_protocol(EFI_HANDLE handle, EFI_GUID *protocol, VOID **found)
{
    if (memcmp(protocol, &device_path, sizeof device_path) == 0)
        *found = handle;
    else if (memcmp(protocol, &loaded_image, sizeof loaded_image) == 0)
        *found = &image;
    else
        return EFI_UNSUPPORTED;
    return EFI_SUCCESS;
}

/* There is an image on the second file system. */
static EFI_STATUS EFIAPI load_image(BOOLEAN is_boot, EFI_HANDLE parent, EFI_DEVICE_PATH *path, VOID *source, UINTN size,
                                    EFI_HANDLE *loaded)
{
    (void)is_boot;
    (void)parent;
    (void)source;
    (void)size;
    if (DevicePathSize(path) < FILE_SYSTEM || memcmp(path, paths[1], FILE_SYSTEM) != 0)
        return EFI_NOT_FOUND;
    *loaded = &image;
    return EFI_SUCCESS;
}

static EFI_STATUS EFIAPI unload_image(EFI_HANDLE handle)
{
    (void)handle;
    return EFI_SUCCESS;
}

static EFI_STATUS EFIAPI start_image(EFI_HANDLE handle, UINTN *size, CHAR16 **data)
{
    const struct value *current = find("BootCurrent");

    (void)handle;
    (void)size;
    (void)data;
    started++;
    current_while_started = current->len == 2 ? *(UINT16 *)current->data : 0x10000;
    options_len = image.LoadOptionsSize;
    if (options_len > 0)
        memcpy(options, image.LoadOptions, options_len < sizeof options ? options_len : sizeof options);
    return EFI_SUCCESS;
}

static EFI_STATUS EFIAPI set_watchdog(UINTN seconds, UINT64 code, UINTN size, CHAR16 *data)
{
    (void)seconds;
    (void)code;
    (void)size;
    (void)data;
    return EFI_SUCCESS;
}

EFI_SYSTEM_TABLE *fake_begin(const char *given)
{
    static SIMPLE_TEXT_OUTPUT_MODE mode;
    static SIMPLE_TEXT_OUTPUT_INTERFACE out = {.OutputString = output,
                                               .QueryMode = query,
                                               .ClearScreen = clear,
                                               .SetCursorPosition = place_cursor,
                                               .EnableCursor = show_cursor,
                                               .Mode = &mode};
    static SIMPLE_INPUT_INTERFACE in = {.ReadKeyStroke = read_key};
    static EFI_RUNTIME_SERVICES runtime = {
        .GetVariable = get_variable, .GetNextVariableName = next_name, .SetVariable = set_variable};
    static EFI_BOOT_SERVICES boot = {.AllocatePool = allocate_pool,
                                     .FreePool = free_pool,
                                     .WaitForEvent = wait,
                                     .LocateHandle = locate,
                                     .HandleProtocol = handle_protocol,
                                     .LoadImage = load_image,
                                     .UnloadImage = unload_image,
                                     .StartImage = start_image,
                                     .SetWatchdogTimer = set_watchdog};
    static EFI_SYSTEM_TABLE table = {.ConOut = &out, .ConIn = &in, .RuntimeServices = &runtime, .BootServices = &boot};

    for (size_t at = 0; at < ENTRIES + OTHERS; at++) {
        struct value *value = at < ENTRIES ? &entries[at] : &other_values[at - ENTRIES];
        free(value->data);
        *value = (struct value){NULL, 0};
    }
    for (size_t at = 0; at < OTHERS; at++)
        others[at][0] = '\0';
    /* What the partition of the second file system is. */
    for (unsigned char at = 20; at < FILE_SYSTEM; at++)
        paths[1][at] = at;
    memcpy(paths[1] + FILE_SYSTEM, "\x7f\xff\x04", 4);
    keys = given;
    requests = sets = 0;
    was_memory_refused = was_set_refused = false;
    shown_len = started = 0;
    shown[0] = '\0';
    fake = (struct fake){0};
    return &table;
}
