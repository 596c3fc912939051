/*
 * Makes one call of libbootkeep-linux, and prints what came of it: for the tests of this folder and for
 * bench/machine-c.
 *
 *     machine_calls [OPTION]... CALL [ARGUMENT]...
 *
 *     --variables FOLDER --state FOLDER --name NAME --start IDENTITY    as of bootkeep_machine_open
 *     --adopt --no-record                                              its flags
 *     --word WORD                                                      a word of bootkeep_machine_words
 *     --flags NUMBER                                                   the flags of the call
 *     --expect-number NUMBER --expect-order NUMBERS --expect-journal HEX --expect-no-journal
 *
 * Calls: place, variables OUT, data OUT, plan, entries, add OPTION NUMBER POSITION, loader FILE DESCRIPTION
 * [ROOT [DISK PART]], add_loader FILE DESCRIPTION [ROOT [DISK PART]], remove, activate, deactivate, first, order
 * NUMBERS, next NUMBER, timeout SECONDS, write SET, update STREAM, undo, owed, settle, journal. A number is
 * hexadecimal, `none` is BOOTKEEP_NO_ENTRY, and numbers have commas between them. The process ends with the status,
 * from 101 on for those of this library, with 122 if memory was refused before the call, with 123 if no handle is made,
 * and with more if the words are wrong.
 */
#include <bootkeep-linux.h>

#include <stdio.h>
#include <stdlib.h>
#include <string.h>

enum { WORDS_MAX = 32, NUMBERS_MAX = 70000 };

static struct bootkeep_machine_options options = {.size = sizeof options};
static struct bootkeep_machine_expected expected = {.size = sizeof expected};
static struct bootkeep_machine_change change = {.size = sizeof change};
static const char *words[WORDS_MAX];
static size_t words_len;
static uint32_t flags;
static uint16_t numbers[NUMBERS_MAX], order[NUMBERS_MAX];

static uint8_t *read_whole(const char *name, size_t *len)
{
    FILE *file = fopen(name, "rb");
    uint8_t *bytes;
    long end;

    if (file == NULL || fseek(file, 0, SEEK_END) != 0 || (end = ftell(file)) < 0) {
        perror(name);
        exit(125);
    }
    rewind(file);
    bytes = malloc((size_t)end + 1);
    if (bytes == NULL)
        exit(122);
    *len = fread(bytes, 1, (size_t)end, file);
    fclose(file);
    return bytes;
}

static void write_whole(const char *name, const uint8_t *bytes, size_t len)
{
    FILE *file = fopen(name, "wb");

    if (file == NULL || fwrite(bytes, 1, len, file) != len || fclose(file) != 0) {
        perror(name);
        exit(125);
    }
}

static uint32_t number_of(const char *text)
{
    return strcmp(text, "none") == 0 ? BOOTKEEP_NO_ENTRY : (uint32_t)strtoul(text, NULL, 16);
}

static size_t numbers_of(const char *text, uint16_t *to)
{
    size_t count = 0;

    while (*text != '\0') {
        char *end;

        to[count++] = (uint16_t)strtoul(text, &end, 16);
        text = *end == ',' ? end + 1 : end;
    }
    return count;
}

static void expect_journal(const char *text)
{
    for (size_t i = 0; i < sizeof expected.journal; i++) {
        char digits[3] = {text[2 * i], text[2 * i + 1], '\0'};

        expected.journal[i] = (uint8_t)strtoul(digits, NULL, 16);
    }
    expected.what |= BOOTKEEP_MACHINE_EXPECTS_JOURNAL;
}

/* Takes an option with a value: whether it is one. */
static int take_valued(const char *word, const char *value)
{
    if (strcmp(word, "--variables") == 0)
        options.variables = value;
    else if (strcmp(word, "--state") == 0)
        options.state = value;
    else if (strcmp(word, "--name") == 0)
        options.name = value;
    else if (strcmp(word, "--start") == 0)
        options.start = value;
    else if (strcmp(word, "--word") == 0)
        words[words_len++ % WORDS_MAX] = value;
    else if (strcmp(word, "--flags") == 0)
        flags = number_of(value);
    else if (strcmp(word, "--expect-journal") == 0)
        expect_journal(value);
    else if (strcmp(word, "--expect-number") == 0) {
        expected.what |= BOOTKEEP_MACHINE_EXPECTS_NUMBER;
        expected.number = number_of(value);
    } else if (strcmp(word, "--expect-order") == 0) {
        expected.what |= BOOTKEEP_MACHINE_EXPECTS_ORDER;
        expected.order = order;
        expected.order_len = numbers_of(value, order);
    } else
        return 0;
    return 1;
}

/* Takes an option without a value: whether it is one. */
static int take_bare(const char *word)
{
    if (strcmp(word, "--adopt") == 0)
        options.flags |= BOOTKEEP_MACHINE_ADOPT;
    else if (strcmp(word, "--no-record") == 0)
        options.flags |= BOOTKEEP_MACHINE_NO_RECORD;
    else if (strcmp(word, "--expect-no-journal") == 0)
        expected.what |= BOOTKEEP_MACHINE_EXPECTS_NO_JOURNAL;
    else
        return 0;
    return 1;
}

static void print_plan(const struct bootkeep_machine_plan *plan)
{
    printf("next %05x current %05x timeout %05x plan", (unsigned)plan->next, (unsigned)plan->current,
           (unsigned)plan->timeout);
    for (size_t i = 0; i < plan->numbers_len; i++)
        printf(" %04X", plan->numbers[i]);
    printf(" order");
    for (size_t i = 0; i < plan->order_len; i++)
        printf(" %04X", plan->order[i]);
    putchar('\n');
}

static void print_entry(const struct bootkeep_machine_entry *entry)
{
    printf("Boot%04X state %u position %05x attributes %08x next %u current %u \"%s\" %s optional %zu\n",
           (unsigned)entry->number, (unsigned)entry->state, (unsigned)entry->position, (unsigned)entry->attributes,
           (unsigned)entry->is_next, (unsigned)entry->is_current, entry->description, entry->path, entry->optional_len);
}

static void print_reply(struct bootkeep_machine *machine, size_t place)
{
    struct bootkeep_reply reply = {.size = sizeof reply};
    uint32_t same = 9;

    if (bootkeep_machine_reply(machine, place, &reply, &same) != BOOTKEEP_DONE)
        exit(124);
    printf("reply %u fault %u outcome %u entry %05x next %lx same %u\n", (unsigned)reply.kind, (unsigned)reply.fault,
           (unsigned)reply.outcome, (unsigned)reply.entry, (unsigned long)reply.next_number, (unsigned)same);
}

static uint32_t look(struct bootkeep_machine *machine, char **call)
{
    struct bootkeep_machine_plan plan = {.size = sizeof plan};
    const struct bootkeep_machine_entry *entries;
    const uint8_t *set;
    size_t len;
    uint32_t status;

    if (strcmp(call[0], "plan") == 0) {
        status = bootkeep_machine_plan(machine, &plan);
        if (status == BOOTKEEP_DONE)
            print_plan(&plan);
        return status;
    }
    if (strcmp(call[0], "entries") == 0) {
        status = bootkeep_machine_entries(machine, &entries, &len, sizeof *entries);
        for (size_t i = 0; status == BOOTKEEP_DONE && i < len; i++)
            print_entry(&entries[i]);
        return status;
    }
    status = strcmp(call[0], "data") == 0 ? bootkeep_machine_data(machine, &set, &len)
                                          : bootkeep_machine_variables(machine, &set, &len);
    if (status == BOOTKEEP_DONE)
        write_whole(call[1], set, len);
    return status;
}

static uint32_t load(struct bootkeep_machine *machine, char **call)
{
    struct bootkeep_machine_loader loader = {.size = sizeof loader,
                                             .file = call[1],
                                             .description = call[2],
                                             .attributes = BOOTKEEP_ATTRIBUTE_ACTIVE,
                                             .root = call[3]};
    const char *disk = call[3] == NULL ? NULL : call[4];
    const uint8_t *option;
    size_t len;
    uint32_t status;

    loader.disk = disk == NULL || *disk == '\0' ? NULL : disk;
    loader.part = disk == NULL ? 0 : number_of(call[5]);
    if (strcmp(call[0], "add_loader") == 0)
        return bootkeep_machine_add_loader(machine, &loader, BOOTKEEP_NO_ENTRY, BOOTKEEP_POSITION_LAST, flags, &change);
    status = bootkeep_machine_loader(machine, &loader, &option, &len);
    for (size_t i = 0; status == BOOTKEEP_DONE && i < len; i++)
        printf("%02x%s", option[i], i + 1 == len ? "\n" : "");
    return status;
}

static uint32_t look_at_journal(struct bootkeep_machine *machine)
{
    struct bootkeep_machine_journal journal = {.size = sizeof journal};
    uint32_t status = bootkeep_machine_journal(machine, &journal);

    if (status != BOOTKEEP_DONE)
        return status;
    printf("number %lx owed %u identity ", (unsigned long)journal.next_number, (unsigned)journal.is_owed);
    for (size_t i = 0; journal.has_identity && i < sizeof journal.identity; i++)
        printf("%02x", journal.identity[i]);
    putchar('\n');
    return status;
}

/* A call of entries, by its name. */
static uint32_t change_entries(struct bootkeep_machine *machine, const char *name, size_t len)
{
    if (strcmp(name, "remove") == 0)
        return bootkeep_machine_remove(machine, numbers, len, flags, &change);
    if (strcmp(name, "activate") == 0)
        return bootkeep_machine_activate(machine, numbers, len, flags, &change);
    if (strcmp(name, "deactivate") == 0)
        return bootkeep_machine_deactivate(machine, numbers, len, flags, &change);
    if (strcmp(name, "first") == 0)
        return bootkeep_machine_first(machine, numbers, len, flags, &change);
    return bootkeep_machine_order(machine, numbers, len, flags, &change);
}

/* A call with the bytes of a file. */
static uint32_t change_by_file(struct bootkeep_machine *machine, char **call)
{
    size_t len;
    uint8_t *bytes = read_whole(call[1], &len);
    uint32_t status;

    if (strcmp(call[0], "add") == 0)
        status = bootkeep_machine_add(machine, bytes, len, number_of(call[2]), number_of(call[3]), flags, &change);
    else if (strcmp(call[0], "write") == 0)
        status = bootkeep_machine_write(machine, bytes, len, flags, &change);
    else
        status = bootkeep_machine_update(machine, bytes, len, &expected, flags, &change);
    free(bytes);
    return status;
}

static uint32_t make_call(struct bootkeep_machine *machine, char **call)
{
    const char *name = call[0];
    uint32_t status, owed;

    if (strcmp(name, "add") == 0 || strcmp(name, "write") == 0 || strcmp(name, "update") == 0)
        return change_by_file(machine, call);
    if (strcmp(name, "undo") == 0)
        return bootkeep_machine_undo(machine, flags, &change);
    if (strcmp(name, "settle") == 0)
        return bootkeep_machine_settle(machine, flags, &change);
    if (strcmp(name, "journal") == 0)
        return look_at_journal(machine);
    if (strcmp(name, "next") == 0)
        return bootkeep_machine_next(machine, number_of(call[1]), flags, &change);
    if (strcmp(name, "timeout") == 0)
        return bootkeep_machine_timeout(machine, number_of(call[1]), flags, &change);
    if (strcmp(name, "loader") == 0 || strcmp(name, "add_loader") == 0)
        return load(machine, call);
    if (strcmp(name, "place") == 0) {
        status = bootkeep_machine_place(machine, &owed);
        if (status == BOOTKEEP_DONE)
            printf("place %u\n", (unsigned)owed);
        return status;
    }
    if (strcmp(name, "owed") == 0) {
        status = bootkeep_machine_owed(machine, &owed);
        if (status == BOOTKEEP_DONE)
            printf("owed %u\n", (unsigned)owed);
        return status;
    }
    if (strcmp(name, "variables") == 0 || strcmp(name, "data") == 0 || strcmp(name, "plan") == 0 ||
        strcmp(name, "entries") == 0)
        return look(machine, call);
    return change_entries(machine, name, numbers_of(call[1], numbers));
}

static void print_fault(const struct bootkeep_machine *machine)
{
    struct bootkeep_machine_fault fault = {.size = sizeof fault};
    const char *text;

    if (bootkeep_machine_fault(machine, &fault) != BOOTKEEP_DONE)
        exit(124);
    printf("status %04x at %u left %u errno %d kind %04x place %zd inner %04x path %s\n", (unsigned)fault.status,
           (unsigned)fault.at, (unsigned)fault.left, (int)fault.system_error, (unsigned)fault.refusal.kind,
           (ptrdiff_t)fault.refusal.place, (unsigned)fault.refusal.inner_kind, fault.path == NULL ? "-" : fault.path);
    printf("text %s\n", fault.text);
    for (size_t i = 0; bootkeep_machine_remark(machine, i, &text) == BOOTKEEP_DONE; i++)
        printf("remark %s\n", text);
}

int main(int count, char **given)
{
    struct bootkeep_machine *machine;
    uint32_t status;
    int at = 1;

    while (at < count && strncmp(given[at], "--", 2) == 0)
        if (take_bare(given[at]))
            at++;
        else if (at + 1 < count && take_valued(given[at], given[at + 1]))
            at += 2;
        else
            return 126;
    if (at == count)
        return 126;
    status = bootkeep_machine_open(&options, &machine);
    if (status != BOOTKEEP_DONE) {
        printf("open %04x\n", (unsigned)status);
        return 123;
    }
    if (words_len > 0)
        status = bootkeep_machine_words(machine, words, words_len);
    if (status == BOOTKEEP_DONE)
        status = make_call(machine, given + at);
    print_fault(machine);
    printf("changed %u settled %u edited %u entry %05x record %llu replies %zu\n", (unsigned)change.changed,
           (unsigned)change.settled, (unsigned)change.edited, (unsigned)change.entry, (unsigned long long)change.record,
           change.replies);
    for (size_t i = 0; status == BOOTKEEP_DONE && i < change.replies; i++)
        print_reply(machine, i);
    bootkeep_machine_close(machine);
    return status > 0x00ff ? 100 + (int)(status - 0x00ff) : (int)status;
}
