/*
 * Makes the calls that the lines of standard input ask for, and says on a line each what they answer.
 *
 * A line is the name of a call without `bootkeep_`, and what it is handed, in hexadecimal digits, or `-` for no bytes,
 * for which the call is handed NULL. Numbers are little-endian, those of one call in one word.
 * `keeper` is handed a set and then events: `d` and the digits of a frame, `p`, `h` or `r`, or the same in upper case
 * for the reply as a value. It tells of a closed keeper, of one that is refused no bytes in the place of its set, and
 * is opened, both in memory that was filled with marks, of each event, and of the set and the next number in the end.
 * `moves` and `noted` are told of in machine.c.
 * An answer is `done` with what was given, `refused` with its four numbers, or `status` and its number.
 *
 * Each call is made with no room, with one too little, with each of its requests for memory refused in turn, with as
 * much room as is needed, and with room to spare, and what has to stay as it was is compared, also behind the buffers.
 * What differs is told on standard error, and the status is then 1. The program is linked with `--wrap=malloc
 * --wrap=realloc`. Under valgrind it also shows what is read past the end of what is handed in.
 */
#include "calls.h"

#include <bootkeep.h>
#include <inttypes.h>
#include <stdio.h>
#include <stdlib.h>
#include <string.h>

enum { WORDS = 70000, SPARE = 16, GUARD = 16, MARK = 0xA5 };

/* What no call tells as a length or a number. */
static const size_t UNTOLD = UINT32_MAX - 1;

void *__real_malloc(size_t len);
void *__real_realloc(void *block, size_t len);
void *__wrap_malloc(size_t len);
void *__wrap_realloc(void *block, size_t len);

unsigned long refuse_at;
bool was_refused;
static int differ;
static const char *now;

static bool refuse(void)
{
    if (refuse_at == 0 || --refuse_at > 0)
        return false;
    was_refused = true;
    return true;
}

void *__wrap_malloc(size_t len)
{
    return refuse() ? NULL : __real_malloc(len);
}

void *__wrap_realloc(void *block, size_t len)
{
    return refuse() ? NULL : __real_realloc(block, len);
}

/* How many words a call is handed at most. */
enum { HANDED = 5 };

/* What a call is handed, and what it tells. */
struct call {
    const char *name;
    struct bytes given[HANDED];
    struct {
        uint8_t *out[2];
        size_t cap[2], len[2];
        uint64_t extra;
    } told;
    struct bootkeep_option_parts parts;
    struct bootkeep_record_parts record;
    struct bootkeep_frame_parts frame;
    struct bootkeep_refusal refusal;
    struct bootkeep_reply reply;
    struct bootkeep_edited edited;
    struct bootkeep_keeper *keeper;
};

void complain(const char *what)
{
    fprintf(stderr, "%.60s: %s\n", now == NULL ? "-" : now, what);
    differ = 1;
}

void *make(size_t len)
{
    void *made = __real_malloc(len > 0 ? len : 1);
    if (made == NULL)
        abort();
    return made;
}

#define GIVEN(which) call->given[which].at, call->given[which].len
#define OUT(which) call->told.out[which], call->told.cap[which], &call->told.len[which]
#define STRUCTS(type) (type *)(void *)call->told.out[0], call->told.cap[0], sizeof(type), &call->told.len[0]
#define NUMBERS (uint16_t *)(void *)call->told.out[0], call->told.cap[0], &call->told.len[0]

static bool is(const struct call *call, const char *name)
{
    return !strcmp(call->name, name);
}

static bool ends_with(const struct call *call, const char *end)
{
    size_t len = strlen(call->name), end_len = strlen(end);
    return len > end_len && !strcmp(call->name + len - end_len, end);
}

uint32_t number_of(struct bytes bytes, size_t place, size_t len)
{
    uint32_t number = 0;
    for (size_t at = 0; at < len; at++)
        number |= (uint32_t)bytes.at[place + at] << 8 * at;
    return number;
}

/* The number of this many bytes at this place of what is given. */
static uint32_t number_at(const struct call *call, int which, size_t place, size_t len)
{
    return number_of(call->given[which], place, len);
}

struct bootkeep_edit edit_of(struct bytes numbers)
{
    return (struct bootkeep_edit){
        .size = sizeof(struct bootkeep_edit),
        .kind = number_of(numbers, 0, 4),
        .number = number_of(numbers, 4, 4),
        .position = number_of(numbers, 8, 4),
        .again = number_of(numbers, 12, 4),
        .stale = number_of(numbers, 16, 4),
        .only = number_of(numbers, 20, 4),
    };
}

/* Makes an edit of a set: of six numbers, those of entries, the bytes of an option, and the set. */
static uint32_t once_edit(struct call *call)
{
    const struct bootkeep_edit edit = edit_of(call->given[0]);

    return bootkeep_vars_edit(&edit, (const uint16_t *)(const void *)call->given[1].at, call->given[1].len / 2,
                              GIVEN(2), GIVEN(3), OUT(0), &call->edited, &call->refusal);
}

/* Makes a call on a set. */
static uint32_t once_set(struct call *call)
{
    uint32_t number = (uint32_t)call->told.extra, status = UINT32_MAX;
    size_t count = (size_t)call->told.extra;

    if (is(call, "vars_plan"))
        status = bootkeep_vars_plan(GIVEN(0), NUMBERS, &number, &call->refusal);
    else if (is(call, "vars_at_risk"))
        status = bootkeep_vars_at_risk(GIVEN(0), NUMBERS, &count, &call->refusal);
    else if (is(call, "vars_named"))
        status = bootkeep_vars_named(GIVEN(0), STRUCTS(struct bootkeep_named), &call->refusal);
    else if (is(call, "vars_list"))
        status = bootkeep_vars_list(GIVEN(0), STRUCTS(struct bootkeep_variable), &call->refusal);
    else if (is(call, "vars_changes"))
        status = bootkeep_vars_changes(GIVEN(0), GIVEN(1), STRUCTS(struct bootkeep_change), &call->refusal);
    else if (is(call, "vars_lowest_free"))
        status = bootkeep_vars_lowest_free(GIVEN(0), &number, &call->refusal);
    else if (is(call, "vars_entry"))
        status = bootkeep_vars_entry(GIVEN(0), (uint16_t)number_at(call, 1, 0, 2), &number, &call->refusal);
    else if (is(call, "vars_get"))
        status = bootkeep_vars_get(GIVEN(0), GIVEN(1), OUT(0), &call->refusal);
    else if (is(call, "vars_put"))
        status = bootkeep_vars_put(GIVEN(0), GIVEN(1), GIVEN(2), OUT(0), &call->refusal);
    else if (is(call, "vars_remove"))
        status = bootkeep_vars_remove(GIVEN(0), GIVEN(1), OUT(0), &call->refusal);
    else
        complain("no such call");
    call->told.extra = is(call, "vars_at_risk") ? count : number;
    return status;
}

/* Makes a call of a keeper. */
static uint32_t once_keeper(struct call *call)
{
    uint32_t number = (uint32_t)call->told.extra, status = UINT32_MAX;

    if (is(call, "keeper_open"))
        status = bootkeep_keeper_open(call->keeper, GIVEN(0), &call->refusal);
    else if (is(call, "keeper_deliver"))
        status = bootkeep_keeper_deliver(call->keeper, GIVEN(0), OUT(0));
    else if (is(call, "keeper_prepare"))
        status = bootkeep_keeper_prepare(call->keeper, OUT(0));
    else if (is(call, "keeper_hand"))
        status = bootkeep_keeper_hand(call->keeper, OUT(0));
    else if (is(call, "keeper_restart"))
        status = bootkeep_keeper_restart(call->keeper, OUT(0));
    else if (is(call, "keeper_deliver_reply"))
        status = bootkeep_keeper_deliver_reply(call->keeper, GIVEN(0), &call->reply, NUMBERS);
    else if (is(call, "keeper_prepare_reply"))
        status = bootkeep_keeper_prepare_reply(call->keeper, &call->reply, NUMBERS);
    else if (is(call, "keeper_hand_reply"))
        status = bootkeep_keeper_hand_reply(call->keeper, &call->reply, NUMBERS);
    else if (is(call, "keeper_restart_reply"))
        status = bootkeep_keeper_restart_reply(call->keeper, &call->reply, NUMBERS);
    else if (is(call, "keeper_set"))
        status = bootkeep_keeper_set(call->keeper, OUT(0));
    else if (is(call, "keeper_next_number"))
        status = bootkeep_keeper_next_number(call->keeper, &number);
    else
        complain("no such call");
    call->told.extra = number;
    return status;
}

/* Makes a call for a word. */
static uint32_t once_word(struct call *call)
{
    uint32_t number = number_at(call, 0, 0, 4);

    if (is(call, "status_word"))
        return bootkeep_status_word(number, OUT(0));
    if (is(call, "refusal_word"))
        return bootkeep_refusal_word(number, OUT(0));
    return bootkeep_outcome_word(number, OUT(0));
}

/* Makes a call on a journal or on notes. */
static uint32_t once_notes(struct call *call)
{
    size_t taken = (size_t)call->told.extra;
    uint32_t idle = (uint32_t)call->told.extra, status = UINT32_MAX;

    if (is(call, "journal_is_idle"))
        status = bootkeep_journal_is_idle(GIVEN(0), &idle, &call->refusal);
    else if (is(call, "notes_len"))
        status = bootkeep_notes_len(GIVEN(0), &taken, &call->refusal);
    else if (is(call, "notes_make"))
        status = bootkeep_notes_make(GIVEN(0), OUT(0), &call->refusal);
    else if (is(call, "notes_identity"))
        status = bootkeep_notes_identity(GIVEN(0), OUT(0), &call->refusal);
    else
        complain("no such call");
    call->told.extra = is(call, "journal_is_idle") ? idle : taken;
    return status;
}

/* Makes a call on a record. */
static uint32_t once_record(struct call *call)
{
    uint32_t standing = (uint32_t)call->told.extra, status = UINT32_MAX;

    if (is(call, "record_make"))
        status = bootkeep_record_make(GIVEN(0), number_at(call, 1, 0, 4) | (uint64_t)number_at(call, 1, 4, 4) << 32,
                                      GIVEN(2), GIVEN(3), GIVEN(4), OUT(0), &call->refusal);
    else if (is(call, "record_parts"))
        status = bootkeep_record_parts(GIVEN(0), &call->record, &call->refusal);
    else if (is(call, "record_word"))
        status = bootkeep_record_word(GIVEN(0), number_at(call, 1, 0, 4), OUT(0), &call->refusal);
    else if (is(call, "record_standing"))
        status = bootkeep_record_standing(GIVEN(0), GIVEN(1), &standing, &call->refusal);
    else if (is(call, "record_back"))
        status = bootkeep_record_back(GIVEN(0), GIVEN(1), OUT(0), &call->refusal);
    else
        complain("no such call");
    call->told.extra = standing;
    return status;
}

/* Makes any other call. */
static uint32_t once_other(struct call *call)
{
    size_t taken = (size_t)call->told.extra;
    uint32_t status = UINT32_MAX;

    if (is(call, "path_text"))
        status = bootkeep_path_text(GIVEN(0), OUT(0), &taken, &call->refusal);
    else if (is(call, "path_names"))
        status = bootkeep_path_names(GIVEN(0), OUT(0), &taken, &call->refusal);
    else if (is(call, "path_check"))
        status = bootkeep_path_check(GIVEN(0), &taken, &call->refusal);
    else if (is(call, "path_parse"))
        status = bootkeep_path_parse(GIVEN(0), OUT(0), &call->refusal);
    else if (is(call, "path_parse_exact"))
        status = bootkeep_path_parse_exact(GIVEN(0), OUT(0), &call->refusal);
    else if (is(call, "option_parts"))
        status = bootkeep_option_parts(GIVEN(0), &call->parts, &call->refusal);
    else if (is(call, "option_description"))
        status = bootkeep_option_description(GIVEN(0), OUT(0), &call->refusal);
    else if (is(call, "option_description_utf8"))
        status = bootkeep_option_description_utf8(GIVEN(0), OUT(0), &call->refusal);
    else if (is(call, "option_make_units"))
        status = bootkeep_option_make_units(number_at(call, 0, 0, 4), (const uint16_t *)(const void *)call->given[1].at,
                                            call->given[1].len / 2, GIVEN(2), GIVEN(3), OUT(0), &call->refusal);
    else if (is(call, "option_make"))
        status = bootkeep_option_make(number_at(call, 0, 0, 4), GIVEN(1), GIVEN(2), GIVEN(3), OUT(0), &call->refusal);
    else if (is(call, "frame_make"))
        status = bootkeep_frame_make(
            number_at(call, 0, 0, 4), number_at(call, 0, 4, 4), (uint16_t)number_at(call, 0, 8, 2), GIVEN(1),
            (const uint16_t *)(const void *)call->given[2].at, call->given[2].len / 2, OUT(0), &call->refusal);
    else if (is(call, "frame_parts"))
        status = bootkeep_frame_parts(GIVEN(0), &call->frame, NUMBERS, &call->refusal);
    else if (is(call, "store_vars"))
        status = bootkeep_store_vars(GIVEN(0), OUT(0), &call->refusal);
    else if (is(call, "store_with"))
        status = bootkeep_store_with(GIVEN(0), GIVEN(1), OUT(0), &call->refusal);
    else if (is(call, "run"))
        status = bootkeep_run(GIVEN(0), GIVEN(1), OUT(0), OUT(1), &call->refusal);
    else
        complain("no such call");
    call->told.extra = taken;
    return status;
}

/* Makes a call on an image or on signature lists. */
static uint32_t once_image(struct call *call)
{
    uint32_t stage, effect;

    if (is(call, "image_check"))
        return bootkeep_image_check(GIVEN(0), &stage, &effect, &call->refusal);
    if (is(call, "image_digest"))
        return bootkeep_image_digest(GIVEN(0), OUT(0), &call->refusal);
    return bootkeep_signature_lists(GIVEN(0), STRUCTS(struct bootkeep_signature_list), &call->refusal);
}

/* Makes the call once. */
static uint32_t once(struct call *call)
{
    if (!strncmp(call->name, "image_", 6) || is(call, "signature_lists"))
        return once_image(call);
    if (ends_with(call, "_word") && !is(call, "record_word"))
        return once_word(call);
    if (is(call, "vars_edit"))
        return once_edit(call);
    if (!strncmp(call->name, "vars_", 5))
        return once_set(call);
    if (!strncmp(call->name, "notes_", 6) || is(call, "journal_is_idle"))
        return once_notes(call);
    if (!strncmp(call->name, "record_", 7))
        return once_record(call);
    return strncmp(call->name, "keeper_", 7) ? once_other(call) : once_keeper(call);
}

/* Whether the call tells a reply as a value. */
static bool has_reply(const struct call *call)
{
    return ends_with(call, "_reply");
}

/* How many bytes an element of the first buffer has. */
static size_t unit(const struct call *call)
{
    if (is(call, "vars_list"))
        return sizeof(struct bootkeep_variable);
    if (is(call, "signature_lists"))
        return sizeof(struct bootkeep_signature_list);
    if (is(call, "vars_named"))
        return sizeof(struct bootkeep_named);
    if (is(call, "vars_changes"))
        return sizeof(struct bootkeep_change);
    if (is(call, "frame_parts"))
        return sizeof(uint16_t);
    return is(call, "vars_plan") || is(call, "vars_at_risk") || has_reply(call) ? sizeof(uint16_t) : 1;
}

/* Complains if a buffer has anything but marks between these places. */
static void compare_marks(const uint8_t *buffer, size_t from, size_t to)
{
    for (; from < to; from++)
        if (buffer[from] != MARK)
            complain("a buffer is written where no answer is");
}

/* Compares what has to stay as it was after a call with this status. */
static void compare_rest(const struct call *call, uint32_t status, const struct call *before, const size_t sizes[2])
{
    if (status != BOOTKEEP_REFUSED && memcmp(&before->refusal, &call->refusal, sizeof call->refusal) != 0)
        complain("the refusal is written");
    if (status != BOOTKEEP_DONE && memcmp(&before->parts, &call->parts, sizeof call->parts) != 0)
        complain("the parts are written");
    if (status != BOOTKEEP_DONE && memcmp(&before->record, &call->record, sizeof call->record) != 0)
        complain("the parts of a record are written");
    if (status != BOOTKEEP_DONE && memcmp(&before->frame, &call->frame, sizeof call->frame) != 0)
        complain("the parts of a frame are written");
    if (status != BOOTKEEP_DONE && memcmp(&before->reply, &call->reply, sizeof call->reply) != 0)
        complain("the reply is written");
    if (status != BOOTKEEP_DONE && memcmp(&before->edited, &call->edited, sizeof call->edited) != 0)
        complain("what came of an edit is written");
    if (status != BOOTKEEP_DONE && call->told.extra != UNTOLD)
        complain("a number is written");
    for (int at = 0; at < 2; at++) {
        bool given = status == BOOTKEEP_DONE && call->told.len[at] != UNTOLD;
        if (given && call->told.len[at] > call->told.cap[at])
            complain("more is given than there is room for");
        if (sizes[at] > 0)
            compare_marks(call->told.out[at], given ? call->told.len[at] * (at ? 1 : unit(call)) : 0,
                          sizes[at] + GUARD);
        if (status != BOOTKEEP_DONE && status != BOOTKEEP_NO_ROOM && call->told.len[at] != UNTOLD)
            complain("a length is written");
    }
}

/* Makes the call with this room in the two buffers, and compares what has to stay as it was. The buffers stay with the
 * caller. */
static uint32_t with_room(struct call *call, size_t first, size_t second)
{
    size_t sizes[2] = {first * unit(call), second};
    struct call before;
    uint32_t status;

    memset(&call->refusal, MARK, sizeof call->refusal);
    memset(&call->parts, MARK, sizeof call->parts);
    memset(&call->record, MARK, sizeof call->record);
    call->record.size = sizeof call->record;
    memset(&call->frame, MARK, sizeof call->frame);
    call->frame.size = sizeof call->frame;
    memset(&call->reply, MARK, sizeof call->reply);
    call->reply.size = sizeof call->reply;
    memset(&call->edited, MARK, sizeof call->edited);
    call->edited.size = sizeof call->edited;
    call->told.extra = UNTOLD;
    for (int at = 0; at < 2; at++) {
        call->told.out[at] = sizes[at] > 0 ? make(sizes[at] + GUARD) : NULL;
        if (sizes[at] > 0)
            memset(call->told.out[at], MARK, sizes[at] + GUARD);
        call->told.cap[at] = at ? second : first;
        call->told.len[at] = UNTOLD;
    }
    before = *call;
    status = once(call);
    compare_rest(call, status, &before, sizes);
    return status;
}

static void drop_buffers(struct call *call)
{
    free(call->told.out[0]);
    free(call->told.out[1]);
}

/* Complains of lengths that aren't those that a call without room told. */
static void compare_lengths(const struct call *call, const size_t need[2])
{
    for (int at = 0; at < 2; at++)
        if (call->told.len[at] != UNTOLD && call->told.len[at] != need[at])
            complain("another length is told than at first");
}

/* Makes the call with too little room in one buffer, and with just enough. */
static void try_room(struct call *call, const size_t need[2])
{
    for (int at = 0; at < 2; at++) {
        if (need[at] == 0)
            continue;
        if (with_room(call, need[0] - (at == 0), need[1] - (at == 1)) != BOOTKEEP_NO_ROOM)
            complain("there is room for one too few");
        compare_lengths(call, need);
        drop_buffers(call);
    }
}

/* Makes the call with room for what it needs and this much more, first with each request for memory refused. */
static uint32_t try_memory(struct call *call, const size_t need[2], size_t more)
{
    uint32_t status;

    for (unsigned long at = 1;; at++) {
        refuse_at = at;
        was_refused = false;
        status = with_room(call, need[0] + more, need[1] + more);
        refuse_at = 0;
        compare_lengths(call, need);
        if (!was_refused)
            return status;
        if (status != BOOTKEEP_NO_MEMORY)
            complain("a request for memory was refused, and the call doesn't say so");
        drop_buffers(call);
    }
}

/* Whether the call changes nothing but what it tells, so that it can be made again after it is done. */
static bool can_repeat(const struct call *call)
{
    return call->keeper == NULL || is(call, "keeper_set");
}

/* Makes the call with no room, too little, just enough and enough, and with each request for memory refused. */
static uint32_t try_call(struct call *call)
{
    uint32_t status = with_room(call, 0, 0);
    size_t need[2] = {0, 0};

    if (status == BOOTKEEP_DONE)
        return status;
    for (int at = 0; at < 2; at++)
        need[at] = status == BOOTKEEP_NO_ROOM && call->told.len[at] != UNTOLD ? call->told.len[at] : 0;
    drop_buffers(call);
    try_room(call, need);
    if (can_repeat(call)) {
        if (with_room(call, need[0], need[1]) == BOOTKEEP_NO_ROOM)
            complain("there is no room for as much as is needed");
        compare_lengths(call, need);
        drop_buffers(call);
        return try_memory(call, need, SPARE);
    }
    return try_memory(call, need, 0);
}

void print_bytes(const uint8_t *bytes, size_t len)
{
    putchar(' ');
    if (len == 0)
        putchar('-');
    for (size_t at = 0; at < len; at++)
        printf("%02x", bytes[at]);
}

/* Says the fields of a reply. */
static void say_reply(const struct bootkeep_reply *reply)
{
    const struct bootkeep_refusal *option = &reply->option_fault;

    if (reply->size != sizeof *reply)
        complain("the size of a reply is written");
    printf(" %" PRIu32 " %" PRIu32 " %" PRIu32 " %" PRIu32 " %zu %zu", reply->kind, reply->fault, option->kind,
           option->inner_kind, option->place, option->inner_place);
    printf(" %" PRIu32 " %" PRIu32 " %" PRIu32 " %" PRIu32 " %zu", reply->outcome, reply->entry, reply->next_number,
           reply->plan_next, reply->count);
}

/* Says the parts of a frame. */
static void say_frame(const struct bootkeep_frame_parts *frame)
{
    if (frame->size != sizeof *frame || frame->reserved != 0)
        complain("the size of a frame's parts is written, or what is reserved isn't 0");
    printf(" %" PRIu32 " %" PRIu32 " %" PRIu32 " %zu %zu", frame->number, frame->kind, frame->entry, frame->option,
           frame->option_len);
}

/* Says what came of an edit. */
static void say_edited(const struct bootkeep_edited *edited)
{
    if (edited->size != sizeof *edited)
        complain("the size of what came of an edit is written");
    printf(" %" PRIu32 " %" PRIu32, edited->kind, edited->entry);
}

/* Says the parts of a record. */
static void say_record(const struct bootkeep_record_parts *record)
{
    if (record->size != sizeof *record)
        complain("the size of the parts of a record is written");
    printf(" %zu %zu %" PRIu64 " %zu %zu %zu %zu %zu", record->machine, record->machine_len, record->time,
           record->before, record->before_len, record->after, record->after_len, record->words);
}

/* Asks for the parts of a record with too small a size of their struct, at which nothing is looked at. */
static void try_record_size(void)
{
    struct bootkeep_record_parts record = {.size = sizeof record - 1};
    struct bootkeep_refusal refusal;

    if (bootkeep_record_parts(NULL, 0, &record, &refusal) != BOOTKEEP_BAD_SIZE)
        complain("the parts of a record are told in too small a size");
}

/* Makes an edit with too small a size of one of its structs, of which nothing is looked at then. */
static void try_edit_sizes(void)
{
    struct bootkeep_edit edit = {.size = sizeof edit - 1, .kind = BOOTKEEP_EDIT_UNREPEAT};
    struct bootkeep_edited edited = {.size = sizeof edited};
    struct bootkeep_refusal refusal;
    size_t len = 0;

    if (bootkeep_vars_edit(&edit, NULL, 0, NULL, 0, NULL, 0, NULL, 0, &len, &edited, &refusal) != BOOTKEEP_BAD_SIZE)
        complain("an edit of too small a size is made");
    edit.size = sizeof edit;
    edited.size = sizeof edited - 1;
    if (bootkeep_vars_edit(&edit, NULL, 0, NULL, 0, NULL, 0, NULL, 0, &len, &edited, &refusal) != BOOTKEEP_BAD_SIZE)
        complain("what came of an edit is told in too small a size");
}

/* Reads a frame into parts of too small a size, of which nothing is looked at then. */
static void try_frame_size(void)
{
    struct bootkeep_frame_parts parts = {.size = sizeof parts - 1};
    struct bootkeep_refusal refusal;
    size_t len = 0;

    if (bootkeep_frame_parts(NULL, 0, &parts, NULL, 0, &len, &refusal) != BOOTKEEP_BAD_SIZE)
        complain("parts of a frame are told in too small a size");
}

/* Makes the calls that give structs with another size of one, at which nothing is looked at or written. */
static void try_item_sizes(void)
{
    const size_t sizes[] = {0, sizeof(struct bootkeep_change) - 1, sizeof(struct bootkeep_variable) + 1, SIZE_MAX};
    struct bootkeep_refusal refusal;
    size_t len = 1;

    for (size_t at = 0; at < sizeof sizes / sizeof sizes[0]; at++)
        if (bootkeep_vars_list(NULL, 0, NULL, 0, sizes[at], &len, &refusal) != BOOTKEEP_BAD_SIZE ||
            bootkeep_vars_named(NULL, 0, NULL, 0, sizes[at], &len, &refusal) != BOOTKEEP_BAD_SIZE ||
            bootkeep_vars_changes(NULL, 0, NULL, 0, NULL, 0, sizes[at], &len, &refusal) != BOOTKEEP_BAD_SIZE ||
            bootkeep_signature_lists(NULL, 0, NULL, 0, sizes[at], &len, &refusal) != BOOTKEEP_BAD_SIZE || len != 1)
            complain("structs of another size are given");
}

/* Says what the call answered, and gives up its buffers. */
static void say(struct call *call, uint32_t status)
{
    if (status == BOOTKEEP_REFUSED)
        printf("refused %" PRIu32 " %" PRIu32 " %zu %zu", call->refusal.kind, call->refusal.inner_kind,
               call->refusal.place, call->refusal.inner_place);
    else if (status == BOOTKEEP_DONE) {
        fputs("done", stdout);
        if (is(call, "option_parts") && call->parts.reserved != 0)
            complain("what is reserved isn't 0");
        if (is(call, "option_parts"))
            printf(" %" PRIu32 " %zu %zu %zu %zu %zu %zu", call->parts.attributes, call->parts.description,
                   call->parts.description_len, call->parts.list, call->parts.list_len, call->parts.optional,
                   call->parts.optional_len);
        for (int at = 0; at < 2; at++)
            if (call->told.len[at] != UNTOLD)
                print_bytes(call->told.out[at], call->told.len[at] * (at ? 1 : unit(call)));
        if (call->told.extra != UNTOLD)
            printf(" %" PRIu64, call->told.extra);
        if (has_reply(call))
            say_reply(&call->reply);
        if (is(call, "frame_parts"))
            say_frame(&call->frame);
        if (is(call, "vars_edit"))
            say_edited(&call->edited);
        if (is(call, "record_parts"))
            say_record(&call->record);
    } else
        printf("status %" PRIu32, status);
    putchar('\n');
    drop_buffers(call);
}

static unsigned digit(char character)
{
    return (unsigned)(character <= '9' ? character - '0' : character - 'a' + 10);
}

struct bytes bytes_of(const char *digits)
{
    struct bytes bytes;

    bytes.len = strcmp(digits, "-") ? strlen(digits) / 2 : 0;
    bytes.at = bytes.len > 0 ? make(bytes.len) : NULL;
    for (size_t at = 0; at < bytes.len; at++)
        bytes.at[at] = (uint8_t)(digit(digits[2 * at]) << 4 | digit(digits[2 * at + 1]));
    return bytes;
}

/* Makes a call of a keeper with too small a size of the reply. */
static void try_size(struct call call)
{
    size_t len = 0;

    call.told.len[0] = 0;
    memset(&call.reply, 0, sizeof call.reply);
    call.reply.size = sizeof call.reply - 1;
    if (bootkeep_keeper_hand_reply(call.keeper, &call.reply, NULL, 0, &len) != BOOTKEEP_BAD_SIZE)
        complain("a reply of too small a size is told");
}

/* Makes one call of a keeper, and says what it answers. At any answer but done it is open or closed as before, and
 * closed if it was to be opened. */
static uint32_t keeper_call(struct bootkeep_keeper *keeper, const char *name, const char *digits)
{
    static const size_t nothing[2] = {0, 0};
    struct call call = {.name = name, .keeper = keeper};
    uint32_t status, was_open = strcmp(name, "keeper_open") ? keeper->is_open : 0;

    call.given[0] = bytes_of(digits);
    if (has_reply(&call))
        try_size(call);
    status = is(&call, "keeper_open") ? try_memory(&call, nothing, SPARE) : try_call(&call);
    if (keeper->is_open != (status == BOOTKEEP_DONE ? 1 : was_open))
        complain("the keeper is open or closed, and shouldn't be");
    say(&call, status);
    free(call.given[0].at);
    return status;
}

/* Closes a keeper. */
static void close_keeper(struct bootkeep_keeper *keeper, uint32_t wanted)
{
    if (bootkeep_keeper_close(keeper) != wanted || keeper->is_open)
        complain("closing says something else, or the keeper is open after it");
}

/* The call of an event, by its letter. */
static const char *event_call(char letter)
{
    switch (letter) {
    case 'd': return "keeper_deliver";
    case 'p': return "keeper_prepare";
    case 'h': return "keeper_hand";
    case 'r': return "keeper_restart";
    case 'D': return "keeper_deliver_reply";
    case 'P': return "keeper_prepare_reply";
    case 'H': return "keeper_hand_reply";
    default: return "keeper_restart_reply";
    }
}

/* Opens a keeper, takes the events, says the set and the next number, and closes it twice. */
static void keep(char **words, size_t count)
{
    struct bootkeep_keeper keeper = {0};

    keeper_call(&keeper, "keeper_set", "-");
    memset(&keeper, MARK, sizeof keeper);
    keeper_call(&keeper, "keeper_open", "-");
    memset(&keeper, MARK, sizeof keeper);
    if (keeper_call(&keeper, "keeper_open", words[1]) == BOOTKEEP_DONE) {
        for (size_t at = 2; at < count; at++)
            keeper_call(&keeper, event_call(words[at][0]), words[at][1] != '\0' ? words[at] + 1 : "-");
        keeper_call(&keeper, "keeper_set", "-");
        keeper_call(&keeper, "keeper_next_number", "-");
        close_keeper(&keeper, BOOTKEEP_DONE);
    }
    close_keeper(&keeper, BOOTKEEP_CLOSED);
}

static void take_line(char *line)
{
    static char *words[WORDS];
    struct call call = {0};
    size_t count = 0;
    uint32_t status;

    for (char *word = strtok(line, " \n"); word != NULL && count < WORDS; word = strtok(NULL, " \n"))
        words[count++] = word;
    if (count == 0)
        return;
    now = words[0];
    if (!strcmp(words[0], "keeper")) {
        keep(words, count);
        return;
    }
    if (!strcmp(words[0], "moves")) {
        command_machine(words, count);
        return;
    }
    if (!strcmp(words[0], "noted")) {
        note_commands(words);
        return;
    }
    call.name = words[0];
    if (is(&call, "vars_edit"))
        try_edit_sizes();
    for (size_t at = 0; at < HANDED; at++)
        call.given[at] = bytes_of(at + 1 < count ? words[at + 1] : "-");
    status = try_call(&call);
    say(&call, status);
    for (size_t at = 0; at < HANDED; at++)
        free(call.given[at].at);
}

int main(void)
{
    char *line = NULL;
    size_t room = 0;

    if (bootkeep_version() != BOOTKEEP_VERSION)
        complain("the library has another version than the header");
    try_item_sizes();
    try_record_size();
    try_frame_size();
    while (getline(&line, &room, stdin) > 0)
        take_line(line);
    free(line);
    return differ;
}
