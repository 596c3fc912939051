/*
 * A boot menu, as firmware's set-up program has one: what the next boot tries, in its order, every other entry with the
 * reason why it isn't tried, and keys that start an entry, move it in the order, or change it.
 *
 * edits.c makes each change in a set of the variables. The library tells it as changes of single variables, in an order
 * in which nothing dangles, and variables.c has the firmware make them. rows.c has what is shown, screen.c shows lines,
 * and start.c starts an entry. Memory is taken by the three functions that the library asks for too, those of pool.c.
 */
#include "edits.h"
#include "rows.h"
#include "screen.h"
#include "start.h"
#include "variables.h"

#include <efilib.h>

/* The lines above the list and below it, and among these those of a path. */
enum { ABOVE = 1, PATH_LINES = 3, BELOW = 1 + PATH_LINES + MESSAGES + 1 };

/* In which column of a line an entry's description begins, and where what comes after it. */
enum { DESCRIPTION = 12, DETAIL = 40 };

/* The most changes of variables that a key makes. */
enum { CHANGES = 3 };

static EFI_HANDLE this_image;
static struct variables machine;
static struct rows rows;
static size_t selected, top;

/* Says what the library answered in the place of what it was asked. */
static void say_answer(const CHAR16 *what, uint32_t status, const struct bootkeep_refusal *refusal)
{
    add(L"%s: ", what);
    if (status == BOOTKEEP_REFUSED)
        add_refusal(refusal);
    else
        add(status == BOOTKEEP_NO_MEMORY ? L"out of memory" : L"status %d", (UINTN)status);
    say_line();
}

/* Reads what the firmware has, and selects the row of this entry. */
static void read_machine(uint32_t number, uint32_t place)
{
    struct bootkeep_refusal refusal;
    EFI_STATUS read;
    uint32_t status;

    rows_drop(&rows);
    variables_drop(&machine);
    read = variables_read(&machine);
    if (EFI_ERROR(read)) {
        add(L"the variables can't be read: %r", read);
        say_line();
        return;
    }
    status = rows_make(&machine, &rows, &refusal);
    if (status != BOOTKEEP_DONE)
        say_answer(L"what is tried can't be told", status, &refusal);
    selected = rows_find(&rows, number, place);
}

/* ---- What is shown ---------------------------------------------------------------------------------------------- */

/* Why an entry isn't tried. */
static const CHAR16 *reason(uint32_t state)
{
    switch (state) {
    case BOOTKEEP_ENTRY_ABSENT: return L"no such entry";
    case BOOTKEEP_ENTRY_UNDECODABLE: return L"no load option";
    case BOOTKEEP_ENTRY_INACTIVE: return L"not active";
    case BOOTKEEP_ENTRY_OTHER_CATEGORY: return L"no entry of a normal boot";
    default: return L"in no order";
    }
}

/* The load option of a row with its parts: a status of the library, BOOTKEEP_ABSENT if there is no such entry. */
static uint32_t option_of(const struct row *row, const uint8_t **option, size_t *len,
                          struct bootkeep_option_parts *parts, struct bootkeep_refusal *refusal)
{
    *option = variables_get(&machine, row->number, len);
    return *option != NULL ? bootkeep_option_parts(*option, *len, parts, refusal) : BOOTKEEP_ABSENT;
}

/* Shows an entry in one line. */
static void show_row(UINTN line, size_t at)
{
    const struct row *row = &rows.at[at];
    struct bootkeep_option_parts parts;
    struct bootkeep_refusal refusal;
    const uint8_t *option;
    size_t len;
    bool is_option = option_of(row, &option, &len, &parts, &refusal) == BOOTKEEP_DONE;

    add(at == selected ? L"> " : L"  ");
    if (!row->is_tried)
        add(L"   -");
    else if (row->place == NO_PLACE)
        add(L"next");
    else
        add(L"%4d", at + (rows.at[0].place != NO_PLACE));
    add(L" %04x", row->number);
    end_in(DESCRIPTION);
    if (is_option)
        add_text(option, len, NULL, 0);
    end_in(DETAIL - 1);
    end_in(DETAIL);
    if (!row->is_tried)
        add(reason(row->state));
    else if (is_option)
        add_text(option, len, &parts, 0);
    show_line(line);
}

/* Shows all of the entry that is selected. */
static void show_selected(UINTN line)
{
    struct bootkeep_option_parts parts;
    struct bootkeep_refusal refusal;
    const uint8_t *option;
    size_t len;
    uint32_t status = rows.count > 0 ? option_of(&rows.at[selected], &option, &len, &parts, &refusal) : BOOTKEEP_ABSENT;

    if (status == BOOTKEEP_DONE)
        add(L"Boot%04x: attributes 0x%08x, optional data %d bytes, path", rows.at[selected].number, parts.attributes,
            parts.optional_len);
    else if (status == BOOTKEEP_REFUSED) {
        add(L"Boot%04x: %d bytes, ", rows.at[selected].number, len);
        add_refusal(&refusal);
    }
    show_line(line);
    for (size_t part = 0; part < PATH_LINES; part++) {
        if (status == BOOTKEEP_DONE)
            add_text(option, len, &parts, part * (columns - 1));
        show_line(line + 1 + part);
    }
}

/* Shows everything. The line of keys comes last. */
static void draw(void)
{
    UINTN room = lines - ABOVE - BELOW;

    if (selected < top)
        top = selected;
    if (selected >= top + room)
        top = selected - room + 1;
    add(L"What this machine starts");
    if (machine.left_out > 0)
        add(L" (%d variables aren't shown: without a value, or with too long a one)", machine.left_out);
    show_line(0);
    for (UINTN at = 0; at < room; at++)
        if (top + at < rows.count)
            show_row(ABOVE + at, top + at);
        else
            show_line(ABOVE + at);
    show_selected(ABOVE + room);
    for (UINTN at = 0; at < MESSAGES; at++) {
        if (at < message_count)
            add(L"%s", messages[at]);
        show_line(lines - 1 - MESSAGES + at);
    }
    add(L"Enter start  n next  +/- move  a active or not  d delete  Esc leave");
    show_line(lines - 1);
}

/* Appends what a variable has. */
static void add_value(const struct variables *variables, uint32_t variable)
{
    struct bootkeep_option_parts parts;
    struct bootkeep_refusal refusal;
    size_t len = 0;
    const uint8_t *data = variables_get(variables, variable, &len);

    if (variable >= BOOTKEEP_NO_ENTRY)
        for (size_t at = 0; at + 1 < len; at += 2)
            add(L" %04x", data[at] | data[at + 1] << 8);
    else if (bootkeep_option_parts(data, len, &parts, &refusal) == BOOTKEEP_DONE) {
        add(L" \"");
        add_text(data, len, NULL, 0);
        add(L"\" 0x%08x", parts.attributes);
    }
}

static void say_change(const struct variables *to, const struct bootkeep_change *change)
{
    char name[NAME_ROOM];

    variables_name(change->variable, name);
    add(L"%c %a", (UINTN) " +~-"[change->kind], name);
    if (change->kind != BOOTKEEP_CHANGE_ADDED)
        add_value(&machine, change->variable);
    if (change->kind == BOOTKEEP_CHANGE_REPLACED)
        add(L" ->");
    if (change->kind != BOOTKEEP_CHANGE_REMOVED)
        add_value(to, change->variable);
    say_line();
}

/* ---- What keys do ----------------------------------------------------------------------------------------------- */

static EFI_INPUT_KEY read_key(void)
{
    EFI_INPUT_KEY key = {0, 0};
    UINTN which;

    while (EFI_ERROR(ST->ConIn->ReadKeyStroke(ST->ConIn, &key)))
        BS->WaitForEvent(1, &ST->ConIn->WaitForKey, &which);
    return key;
}

/* Says what came of changes. */
static void say_written(const struct written *written, const struct bootkeep_change *changes, size_t count)
{
    char name[NAME_ROOM];

    if (!EFI_ERROR(written->refused)) {
        add(count > 0 ? L"done" : L"that is so already");
    } else {
        variables_name(changes[written->at].variable, name);
        add(L"the firmware refused %a: %r; ", name, written->refused);
        if (EFI_ERROR(written->taken_back))
            add(L"%d changes stay: %r", written->made, written->taken_back);
        else
            add(L"nothing is changed");
    }
    say_line();
}

/* Shows the changes that lead to these variables, and has the firmware make them, if that is wanted. */
static void make(const struct variables *to, bool asks)
{
    struct bootkeep_change changes[CHANGES];
    struct bootkeep_refusal refusal;
    struct written written;
    size_t count = 0;
    uint32_t status = bootkeep_vars_changes(machine.set, machine.set_len, to->set, to->set_len, changes, CHANGES,
                                            sizeof *changes, &count, &refusal);

    if (status != BOOTKEEP_DONE) {
        say_answer(L"nothing is changed", status, &refusal);
        return;
    }
    for (size_t at = 0; at < count; at++)
        say_change(to, &changes[at]);
    if (asks) {
        add(L"y to do this, or any other key");
        say_line();
    }
    draw();
    if (asks && read_key().UnicodeChar != 'y') {
        message_count = 0;
        return;
    }
    message_count -= asks;
    written = variables_write(&machine, to, changes, count);
    say_written(&written, changes, count);
}

/* Moves an entry in the order by one place. */
static uint32_t move(struct variables *to, const struct row *row, bool is_up)
{
    size_t len = 0;

    variables_get(to, BOOTKEEP_VARIABLE_ORDER, &len);
    if (row->place == NO_PLACE || (is_up ? row->place == 0 : row->place + 1 == len / 2))
        return BOOTKEEP_DONE;
    return edit_order(to, row->place, is_up ? row->place - 1 : row->place + 1);
}

/* Makes the change that a key stands for in these variables. */
static uint32_t edit(struct variables *to, const struct row *row, CHAR16 key)
{
    switch (key) {
    case 'n': return edit_next(to, row->number);
    case 'a': return edit_active(to, row->number);
    case 'd': return edit_delete(to, row->number);
    default: return move(to, row, key == '+');
    }
}

/* Changes the entry that is selected as a key says. */
static void change(CHAR16 key)
{
    struct row row = rows.at[selected];
    struct bootkeep_option_parts parts;
    struct bootkeep_refusal refusal = {0};
    struct variables to;
    const uint8_t *option;
    size_t len;
    uint32_t status;

    if ((key == 'n' || key == 'a') && option_of(&row, &option, &len, &parts, &refusal) != BOOTKEEP_DONE) {
        add(L"nothing is changed: %s", reason(option == NULL ? BOOTKEEP_ENTRY_ABSENT : BOOTKEEP_ENTRY_UNDECODABLE));
        say_line();
        return;
    }
    status = variables_copy(&machine, &to);
    if (status == BOOTKEEP_DONE)
        status = edit(&to, &row, key);
    if (status == BOOTKEEP_DONE)
        make(&to, key == 'd');
    else
        say_answer(L"nothing is changed", status, &refusal);
    variables_drop(&to);
    read_machine(row.number, row.place + (key == '-') - (key == '+'));
}

/* Starts the entry that is selected. */
static void start(void)
{
    struct row row = rows.at[selected];
    struct bootkeep_option_parts parts;
    struct bootkeep_refusal refusal;
    const uint8_t *option;
    size_t len;
    EFI_STATUS status = EFI_NOT_FOUND;

    add(L"Boot%04x", row.number);
    if (option_of(&row, &option, &len, &parts, &refusal) != BOOTKEEP_DONE) {
        add(L": %r", status);
    } else if (!is_startable(option, &parts)) {
        add(L" can't be started here: only the boot manager expands such a path");
    } else {
        status = start_entry(this_image, (uint16_t)row.number, option, &parts);
        screen_begin();
        add(L": %r", status);
    }
    say_line();
    read_machine(row.number, row.place);
}

/* Does what a key says. */
static void take_key(EFI_INPUT_KEY key)
{
    CHAR16 it = key.UnicodeChar;

    message_count = 0;
    if (key.ScanCode == SCAN_UP && selected > 0)
        selected--;
    else if (key.ScanCode == SCAN_DOWN && selected + 1 < rows.count)
        selected++;
    else if (it == CHAR_CARRIAGE_RETURN && rows.count > 0)
        start();
    else if ((it == 'n' || it == '+' || it == '-' || it == 'a' || it == 'd') && rows.count > 0)
        change(it);
}

/*
 * The menu. It is called as the firmware calls, so that the compiler saves the registers that the library, like all
 * code of the System V convention, may change, and the firmware wants back (UEFI 2.10, 2.3.4.2: XMM6 to XMM15).
 */
static __attribute__((noinline)) EFI_STATUS EFIAPI run_menu(void)
{
    EFI_INPUT_KEY key;

    BS->SetWatchdogTimer(0, 0, 0, NULL);
    screen_begin();
    read_machine(0, 0);
    selected = 0;
    do {
        draw();
        key = read_key();
        take_key(key);
    } while (key.ScanCode != SCAN_ESC);
    ST->ConOut->ClearScreen(ST->ConOut);
    ST->ConOut->EnableCursor(ST->ConOut, TRUE);
    rows_drop(&rows);
    variables_drop(&machine);
    return EFI_SUCCESS;
}

EFI_STATUS efi_main(EFI_HANDLE image, EFI_SYSTEM_TABLE *table)
{
    InitializeLib(image, table);
    this_image = image;
    return run_menu();
}
