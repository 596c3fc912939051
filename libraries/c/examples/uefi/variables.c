#include "variables.h"

#include <efilib.h>

/* What the boot manager's variables are stored with (UEFI 2.10, 3.3). */
enum { KEPT = EFI_VARIABLE_NON_VOLATILE | EFI_VARIABLE_BOOTSERVICE_ACCESS | EFI_VARIABLE_RUNTIME_ACCESS };

/*
 * The most names that are asked for, so that firmware whose list has no end costs no more than that; the most entries;
 * the bytes that a record of a set has before and after its name; and the least room for names and for a set.
 */
enum { NAMES_MAX = 1 << 20, ENTRIES = 65536, BEFORE_NAME = 1, BEHIND_NAME = 4, NAMES_ROOM = 512, SET_ROOM = 65536 };

static EFI_GUID vendor_of_standard = EFI_GLOBAL_VARIABLE;

size_t variables_name(uint32_t variable, char name[NAME_ROOM])
{
    static const char digits[] = "0123456789ABCDEF";
    const char *text = variable == BOOTKEEP_VARIABLE_ORDER  ? "BootOrder"
                       : variable == BOOTKEEP_VARIABLE_NEXT ? "BootNext"
                                                            : "Boot";
    size_t len = 0;

    for (; text[len] != '\0'; len++)
        name[len] = text[len];
    for (int shift = 12; shift >= 0 && variable < ENTRIES; shift -= 4)
        name[len++] = digits[variable >> shift & 0xF];
    name[len] = '\0';
    return len;
}

static void wide_name(uint32_t variable, CHAR16 wide[NAME_ROOM])
{
    char name[NAME_ROOM];

    for (size_t at = variables_name(variable, name) + 1; at-- > 0;)
        wide[at] = (CHAR16)name[at];
}

/* The value of a digit of an entry's name, which is in upper case (UEFI 2.10, 3.1.1), or 16. */
static uint32_t digit(CHAR16 unit)
{
    if (unit >= '0' && unit <= '9')
        return (uint32_t)(unit - '0');
    return unit >= 'A' && unit <= 'F' ? (uint32_t)(unit - 'A' + 10) : 16;
}

/* The number of the entry of this name, or BOOTKEEP_NO_ENTRY. */
static uint32_t entry_number(const CHAR16 *name)
{
    uint32_t number = 0;
    size_t at = 0;

    for (; at < 4; at++)
        if (name[at] != (CHAR16) "Boot"[at])
            return BOOTKEEP_NO_ENTRY;
    for (; at < 8; at++) {
        if (digit(name[at]) > 15)
            return BOOTKEEP_NO_ENTRY;
        number = number << 4 | digit(name[at]);
    }
    return name[at] == 0 ? number : BOOTKEEP_NO_ENTRY;
}

/* Notes the number of each entry that the firmware has, a bit each. The room for the name stays with the caller. */
static EFI_STATUS note_entries(uint8_t *noted, CHAR16 **name, UINTN *room)
{
    EFI_GUID vendor = vendor_of_standard;
    void *grown;

    (*name)[0] = 0;
    for (UINTN names = 0; names < NAMES_MAX; names++) {
        UINTN size = *room;
        EFI_STATUS status = RT->GetNextVariableName(&size, *name, &vendor);
        if (status == EFI_NOT_FOUND)
            return EFI_SUCCESS;
        if (status == EFI_BUFFER_TOO_SMALL && size > *room) {
            grown = bootkeep_grow(*name, *room, size);
            if (grown == NULL)
                return EFI_OUT_OF_RESOURCES;
            *name = grown;
            *room = size;
            continue;
        }
        if (EFI_ERROR(status))
            return status;
        uint32_t number = CompareGuid(&vendor, &vendor_of_standard) == 0 ? entry_number(*name) : BOOTKEEP_NO_ENTRY;
        if (number < ENTRIES)
            noted[number / 8] |= (uint8_t)(1 << number % 8);
    }
    return EFI_ABORTED;
}

/* Makes room in a set for so many bytes more. */
static bool make_room(struct variables *variables, size_t *room, size_t more)
{
    size_t wanted = variables->set_len + more;
    void *grown;

    if (wanted <= *room)
        return true;
    wanted = wanted < 2 * *room ? 2 * *room : wanted;
    grown = bootkeep_grow(variables->set, variables->set_len, wanted);
    if (grown == NULL)
        return false;
    variables->set = grown;
    *room = wanted;
    return true;
}

/* Appends the record of a variable to the set, which has its data from the firmware, or counts it as left out. */
static EFI_STATUS append(struct variables *variables, size_t *room, uint32_t variable)
{
    CHAR16 wide[NAME_ROOM];
    char name[NAME_ROOM];
    size_t name_len = variables_name(variable, name), header = BEFORE_NAME + name_len + BEHIND_NAME;
    UINTN size = 0, offered;
    EFI_STATUS status;
    uint8_t *record;

    wide_name(variable, wide);
    do {
        if (!make_room(variables, room, header + size))
            return EFI_OUT_OF_RESOURCES;
        record = variables->set + variables->set_len;
        offered = size = *room - variables->set_len - header;
        status = RT->GetVariable(wide, &vendor_of_standard, NULL, &size, record + header);
    } while (status == EFI_BUFFER_TOO_SMALL && size > offered && size <= BOOTKEEP_DATA_MAX);
    if (EFI_ERROR(status) || size == 0 || size > offered || size > BOOTKEEP_DATA_MAX) {
        variables->left_out += variable < ENTRIES || status != EFI_NOT_FOUND;
        return EFI_SUCCESS;
    }
    record[0] = (uint8_t)name_len;
    CopyMem(record + BEFORE_NAME, name, name_len);
    for (size_t at = 0; at < BEHIND_NAME; at++)
        record[BEFORE_NAME + name_len + at] = (uint8_t)(size >> 8 * at);
    variables->set_len += header + size;
    return EFI_SUCCESS;
}

/* Asks the library where the variables of the set are. */
static uint32_t find_places(struct variables *variables)
{
    struct bootkeep_refusal refusal;
    uint32_t status = bootkeep_vars_list(variables->set, variables->set_len, NULL, 0, sizeof *variables->places,
                                         &variables->count, &refusal);

    if (status != BOOTKEEP_NO_ROOM)
        return status;
    variables->places = bootkeep_allocate(variables->count * sizeof *variables->places);
    if (variables->places == NULL)
        return BOOTKEEP_NO_MEMORY;
    return bootkeep_vars_list(variables->set, variables->set_len, variables->places, variables->count,
                              sizeof *variables->places, &variables->count, &refusal);
}

/* Makes the set of the entries that are noted, of BootNext and of BootOrder: their names rise in this order. */
static EFI_STATUS make_set(struct variables *variables, const uint8_t *noted)
{
    size_t room = SET_ROOM;
    EFI_STATUS status = EFI_SUCCESS;

    variables->set = bootkeep_allocate(room);
    if (variables->set == NULL)
        return EFI_OUT_OF_RESOURCES;
    CopyMem(variables->set, "BVS1", 4);
    variables->set_len = 4;
    for (uint32_t number = 0; number < ENTRIES && !EFI_ERROR(status); number++)
        if (noted[number / 8] >> number % 8 & 1)
            status = append(variables, &room, number);
    if (!EFI_ERROR(status))
        status = append(variables, &room, BOOTKEEP_VARIABLE_NEXT);
    if (!EFI_ERROR(status))
        status = append(variables, &room, BOOTKEEP_VARIABLE_ORDER);
    if (!EFI_ERROR(status) && find_places(variables) != BOOTKEEP_DONE)
        status = EFI_OUT_OF_RESOURCES;
    return status;
}

EFI_STATUS variables_read(struct variables *variables)
{
    UINTN room = NAMES_ROOM;
    CHAR16 *name = bootkeep_allocate(room);
    uint8_t *noted = bootkeep_allocate(ENTRIES / 8);
    EFI_STATUS status = EFI_OUT_OF_RESOURCES;

    ZeroMem(variables, sizeof *variables);
    if (name != NULL && noted != NULL) {
        ZeroMem(noted, ENTRIES / 8);
        status = note_entries(noted, &name, &room);
        if (!EFI_ERROR(status))
            status = make_set(variables, noted);
    }
    bootkeep_free(noted);
    bootkeep_free(name);
    if (EFI_ERROR(status))
        variables_drop(variables);
    return status;
}

void variables_drop(struct variables *variables)
{
    bootkeep_free(variables->places);
    bootkeep_free(variables->set);
    ZeroMem(variables, sizeof *variables);
}

uint32_t variables_entry(const struct variables *variables, size_t at)
{
    const struct bootkeep_variable *place = &variables->places[at];
    CHAR16 name[NAME_ROOM] = {0};

    for (size_t unit = 0; unit < place->name_len && unit < NAME_ROOM - 1; unit++)
        name[unit] = variables->set[place->name + unit];
    return entry_number(name);
}

const uint8_t *variables_get(const struct variables *variables, uint32_t variable, size_t *len)
{
    char name[NAME_ROOM];
    size_t name_len = variables_name(variable, name);

    for (size_t at = 0; at < variables->count; at++) {
        const struct bootkeep_variable *place = &variables->places[at];
        if (place->name_len == name_len && CompareMem(variables->set + place->name, name, name_len) == 0) {
            *len = place->data_len;
            return variables->set + place->data;
        }
    }
    return NULL;
}

/* Takes the bytes of a set, which are the variables' from then on. */
static uint32_t take_set(struct variables *variables, uint8_t *set, size_t set_len)
{
    size_t left_out = variables->left_out;
    uint32_t status;

    variables_drop(variables);
    variables->set = set;
    variables->set_len = set_len;
    variables->left_out = left_out;
    status = find_places(variables);
    if (status != BOOTKEEP_DONE)
        variables_drop(variables);
    return status;
}

uint32_t variables_copy(const struct variables *variables, struct variables *copy)
{
    uint8_t *set = bootkeep_allocate(variables->set_len);

    ZeroMem(copy, sizeof *copy);
    if (set == NULL)
        return BOOTKEEP_NO_MEMORY;
    CopyMem(set, variables->set, variables->set_len);
    copy->left_out = variables->left_out;
    return take_set(copy, set, variables->set_len);
}

uint32_t variables_put(struct variables *variables, uint32_t variable, const uint8_t *data, size_t len)
{
    char name[NAME_ROOM];
    size_t name_len = variables_name(variable, name), set_len = 0;
    size_t room = variables->set_len + BEFORE_NAME + name_len + BEHIND_NAME + len;
    uint8_t *set = bootkeep_allocate(room);
    struct bootkeep_refusal refusal;
    uint32_t status = BOOTKEEP_NO_MEMORY;

    if (set != NULL && len > 0)
        status = bootkeep_vars_put(variables->set, variables->set_len, (const uint8_t *)name, name_len, data, len, set,
                                   room, &set_len, &refusal);
    else if (set != NULL)
        status = bootkeep_vars_remove(variables->set, variables->set_len, (const uint8_t *)name, name_len, set, room,
                                      &set_len, &refusal);
    if (status == BOOTKEEP_DONE)
        return take_set(variables, set, set_len);
    bootkeep_free(set);
    return status == BOOTKEEP_ABSENT ? BOOTKEEP_DONE : status;
}

/* Has the firmware store what a variable has here, or delete it. It keeps its attributes. */
static EFI_STATUS store(const struct variables *variables, uint32_t variable)
{
    CHAR16 name[NAME_ROOM];
    UINT32 attributes = KEPT;
    UINTN none = 0;
    size_t len = 0;
    const uint8_t *data = variables_get(variables, variable, &len);

    wide_name(variable, name);
    if (RT->GetVariable(name, &vendor_of_standard, &attributes, &none, NULL) == EFI_NOT_FOUND)
        attributes = KEPT;
    return RT->SetVariable(name, &vendor_of_standard, attributes, len, (void *)data);
}

struct written variables_write(const struct variables *from, const struct variables *to,
                               const struct bootkeep_change *changes, size_t count)
{
    struct written written = {0, 0, EFI_SUCCESS, EFI_SUCCESS};

    for (; written.at < count; written.at++) {
        written.refused = store(to, changes[written.at].variable);
        if (EFI_ERROR(written.refused))
            break;
    }
    written.made = written.at;
    while (EFI_ERROR(written.refused) && written.made > 0) {
        written.taken_back = store(from, changes[written.made - 1].variable);
        if (EFI_ERROR(written.taken_back))
            break;
        written.made--;
    }
    return written;
}
