/* What became of a call. */
#include "machine.h"

#include <errno.h>
#include <stdio.h>
#include <stdlib.h>
#include <string.h>

/* What a refusal of this library is in words, after the path that it is about. */
static const char *const words_of_faults[] = {
    [BOOTKEEP_MACHINE_FAULT_SHARED_STATE - 0x8001] = "its group or others may write it",
    [BOOTKEEP_MACHINE_FAULT_FOREIGN_STATE - 0x8001] = "it belongs to another user than root and this one",
    [BOOTKEEP_MACHINE_FAULT_NO_FOLDER - 0x8001] = "it is no folder",
    [BOOTKEEP_MACHINE_FAULT_IRREGULAR - 0x8001] =
        "it is a link, a pipe, a device or a socket, or a folder where a file is to be",
    [BOOTKEEP_MACHINE_FAULT_TOO_MUCH - 0x8001] = "it has more bytes than are read",
    [BOOTKEEP_MACHINE_FAULT_NO_VARIABLES - 0x8001] = "no boot variables are in it: is efivarfs mounted there?",
    [BOOTKEEP_MACHINE_FAULT_TWICE - 0x8001] = "another file shows the same variable",
    [BOOTKEEP_MACHINE_FAULT_OF_ANOTHER - 0x8001] = "it is the journal of another machine",
    [BOOTKEEP_MACHINE_FAULT_UNKNOWN_MACHINE - 0x8001] =
        "it is the journal of a named machine, and which one this is can't be read",
    [BOOTKEEP_MACHINE_FAULT_TOO_LONG - 0x8001] = "it would be longer than what is read of one",
    [BOOTKEEP_MACHINE_FAULT_LEFT_OUT - 0x8001] = "it has no value or too long a one, and stays as it is",
    [BOOTKEEP_MACHINE_FAULT_ORDER_REFUSED - 0x8001] = "BootOrder has an odd number of bytes, and firmware refuses it",
    [BOOTKEEP_MACHINE_FAULT_NEXT_REFUSED - 0x8001] = "BootNext doesn't have two bytes, and firmware refuses it",
    [BOOTKEEP_MACHINE_FAULT_TIMEOUT_REFUSED - 0x8001] = "Timeout doesn't have two bytes, and is refused",
    [BOOTKEEP_MACHINE_FAULT_EMPTY - 0x8001] = "no entry is in the set, so all entries would be taken out",
    [BOOTKEEP_MACHINE_FAULT_NO_PARTITION - 0x8001] = "its file system isn't on a partition that firmware sees",
    [BOOTKEEP_MACHINE_FAULT_UNKNOWN_PARTITION - 0x8001] = "the system doesn't tell what its partition is known by",
    [BOOTKEEP_MACHINE_FAULT_BAD_LOADER_NAME - 0x8001] = "its name can't be one that firmware reads",
    [BOOTKEEP_MACHINE_FAULT_NOT_STARTED - 0x8001] = "firmware doesn't start the file",
    [BOOTKEEP_MACHINE_FAULT_CHANGED_MEANWHILE - 0x8001] = "something else has changed it since it was read",
    [BOOTKEEP_MACHINE_FAULT_DAMAGED - 0x8001] =
        "its store of variables is damaged, and there may have been more of them: `bootvars --force` writes over it",
    [BOOTKEEP_MACHINE_FAULT_NO_START - 0x8001] = "the start of a variable file's machine has to be given",
    [BOOTKEEP_MACHINE_FAULT_NO_DEVICE - 0x8001] = "it is no block device that the system knows by this name",
    [BOOTKEEP_MACHINE_FAULT_OTHER_PARTITION - 0x8001] = "it hasn't got the partition of this number",
    [BOOTKEEP_MACHINE_FAULT_BAD_WORDS - 0x8001] = "a flag, a number, a name or a path isn't one that the call takes",
};

/* Appends to a text that has so much room, as much as fits. */
static void append(char *text, size_t room, const char *more)
{
    size_t len = strlen(text);

    snprintf(text + len, room - len, "%s", more);
}

/* Appends a place, if there is one. */
static void append_place(char *text, size_t room, size_t place)
{
    char at[40];

    if (place == BOOTKEEP_NO_PLACE)
        return;
    snprintf(at, sizeof at, " at %zu", place);
    append(text, room, at);
}

/* Appends the word of a number of bootkeep.h, and its place. */
static void append_number(char *text, size_t room, uint32_t kind, size_t place)
{
    char word[BOOTKEEP_WORD_MAX + 1] = "";
    size_t len = 0;

    if (bootkeep_refusal_word(kind, (uint8_t *)word, BOOTKEEP_WORD_MAX, &len) != BOOTKEEP_DONE)
        len = (size_t)snprintf(word, sizeof word, "fault 0x%04x", (unsigned)kind);
    word[len] = '\0';
    append(text, room, word);
    append_place(text, room, place);
}

/* Appends a reason. */
static void append_reason(char *text, size_t room, const struct reason *why)
{
    const size_t known = sizeof words_of_faults / sizeof *words_of_faults;
    const uint32_t kind = why->refusal.kind;
    char words[128];

    if (why->path[0] != '\0') {
        append(text, room, why->path);
        append(text, room, ": ");
    }
    if (why->system_error != 0)
        append(text, room, strerror_r(why->system_error, words, sizeof words));
    else if (kind >= 0x8001 && kind - 0x8001 < known && words_of_faults[kind - 0x8001] != NULL) {
        append(text, room, words_of_faults[kind - 0x8001]);
        append_place(text, room, why->refusal.place);
    } else
        append_number(text, room, kind, why->refusal.place);
    if (why->system_error == 0 && why->refusal.inner_kind != BOOTKEEP_NO_KIND) {
        append(text, room, ": ");
        append_number(text, room, why->refusal.inner_kind, why->refusal.inner_place);
    }
}

void reason_set(struct reason *reason, const char *path, int system_error, uint32_t kind)
{
    reason->system_error = system_error;
    reason->refusal = (struct bootkeep_refusal){kind, BOOTKEEP_NO_KIND, BOOTKEEP_NO_PLACE, BOOTKEEP_NO_PLACE};
    if (path != reason->path)
        snprintf(reason->path, sizeof reason->path, "%s", path == NULL ? "" : path);
}

void call_begin(struct bootkeep_machine *machine)
{
    texts_free(&machine->remarks);
    texts_free(&machine->entry_texts);
    bytes_free(&machine->before);
    bytes_free(&machine->after);
    bytes_free(&machine->answer);
    bytes_free(&machine->plan);
    bytes_free(&machine->order);
    free(machine->entries);
    machine->entries = NULL;
    machine->entries_len = 0;
    free(machine->replies);
    free(machine->same);
    machine->replies = NULL;
    machine->same = NULL;
    machine->replies_len = 0;
    (void)call_done(machine);
}

uint32_t call_done(struct bootkeep_machine *machine)
{
    machine->outcome.status = BOOTKEEP_DONE;
    machine->outcome.at = BOOTKEEP_MACHINE_AT_NONE;
    machine->outcome.left = BOOTKEEP_MACHINE_LEFT_NOTHING;
    reason_set(&machine->outcome.why, NULL, 0, BOOTKEEP_NO_KIND);
    reason_set(&machine->outcome.second, NULL, 0, BOOTKEEP_NO_KIND);
    snprintf(machine->outcome.text, sizeof machine->outcome.text, "done");
    return BOOTKEEP_DONE;
}

uint32_t call_told(struct bootkeep_machine *machine, uint32_t at, uint32_t status, const char *text)
{
    machine->outcome.status = status;
    machine->outcome.at = at;
    machine->outcome.left = BOOTKEEP_MACHINE_LEFT_NOTHING;
    if (text != machine->outcome.text)
        snprintf(machine->outcome.text, sizeof machine->outcome.text, "%s", text);
    return status;
}

uint32_t call_no_memory(struct bootkeep_machine *machine)
{
    reason_set(&machine->outcome.why, NULL, ENOMEM, BOOTKEEP_NO_KIND);
    return call_told(machine, BOOTKEEP_MACHINE_AT_NONE, BOOTKEEP_NO_MEMORY, "out of memory");
}

uint32_t call_bad_size(struct bootkeep_machine *machine)
{
    return call_told(machine, BOOTKEEP_MACHINE_AT_NONE, BOOTKEEP_BAD_SIZE, "the size of a struct isn't the one of it");
}

uint32_t call_ended(struct bootkeep_machine *machine, uint32_t at, uint32_t status, uint32_t left)
{
    const size_t room = sizeof machine->outcome.text;

    machine->outcome.status = status;
    machine->outcome.at = at;
    machine->outcome.left = left;
    machine->outcome.text[0] = '\0';
    append_reason(machine->outcome.text, room, &machine->outcome.why);
    if (left == BOOTKEEP_MACHINE_LEFT_TAKEN_BACK)
        append(machine->outcome.text, room,
               at == BOOTKEEP_MACHINE_AT_SETTLING ? "; so an earlier change is taken back, and nothing else is done"
                                                  : "; so the change is taken back, and the machine is as before it");
    if (left == BOOTKEEP_MACHINE_LEFT_UNSURE)
        append(machine->outcome.text, room, "; the file has the change, and a loss of power may take it back");
    if (left != BOOTKEEP_MACHINE_LEFT_OWED)
        return status;
    if (machine->outcome.second.path[0] != '\0') {
        append(machine->outcome.text, room, "; and then, taking it back: ");
        append_reason(machine->outcome.text, room, &machine->outcome.second);
    }
    append(machine->outcome.text, room, "; ");
    append(machine->outcome.text, room, machine->state);
    append(machine->outcome.text, room, " has what is left to do, and the next change begins with it");
    return status;
}

uint32_t call_system(struct bootkeep_machine *machine, uint32_t at, const char *path, int system_error)
{
    if (system_error == ENOMEM)
        return call_no_memory(machine);
    reason_set(&machine->outcome.why, path, system_error, BOOTKEEP_NO_KIND);
    return call_ended(machine, at, BOOTKEEP_MACHINE_SYSTEM, BOOTKEEP_MACHINE_LEFT_NOTHING);
}

uint32_t call_busy(struct bootkeep_machine *machine, uint32_t at, const char *path)
{
    reason_set(&machine->outcome.why, path, 0, BOOTKEEP_NO_KIND);
    snprintf(machine->outcome.text, sizeof machine->outcome.text, "%s: %s has its lock", path,
             at == BOOTKEEP_MACHINE_AT_STATE ? "another change" : "another program");
    return call_told(machine, at, BOOTKEEP_MACHINE_BUSY, machine->outcome.text);
}

uint32_t call_refused(struct bootkeep_machine *machine, uint32_t at, const char *path, uint32_t kind)
{
    reason_set(&machine->outcome.why, path, 0, kind);
    return call_ended(machine, at, BOOTKEEP_REFUSED, BOOTKEEP_MACHINE_LEFT_NOTHING);
}

uint32_t call_answered(struct bootkeep_machine *machine, uint32_t at, const char *path, uint32_t status,
                       const struct bootkeep_refusal *refusal)
{
    if (status == BOOTKEEP_NO_MEMORY)
        return call_no_memory(machine);
    if (status == BOOTKEEP_BAD_SIZE)
        return call_bad_size(machine);
    reason_set(&machine->outcome.why, path, 0, BOOTKEEP_NO_KIND);
    machine->outcome.why.refusal = *refusal;
    return call_ended(machine, at, BOOTKEEP_REFUSED, BOOTKEEP_MACHINE_LEFT_NOTHING);
}

bool remark(struct bootkeep_machine *machine, const char *path, const char *text)
{
    char whole[PATH_MAX + NAME_MAX + 512];

    snprintf(whole, sizeof whole, "%s: %s", path, text);
    return texts_add(&machine->remarks, whole, strlen(whole));
}

uint32_t bootkeep_machine_fault(const struct bootkeep_machine *machine, struct bootkeep_machine_fault *fault)
{
    const bool has_second = machine->outcome.second.path[0] != '\0';

    if (fault->size < sizeof *fault)
        return BOOTKEEP_BAD_SIZE;
    fault->status = machine->outcome.status;
    fault->at = machine->outcome.at;
    fault->left = machine->outcome.left;
    fault->system_error = machine->outcome.why.system_error;
    fault->refusal = machine->outcome.why.refusal;
    fault->path = machine->outcome.why.path[0] == '\0' ? NULL : machine->outcome.why.path;
    fault->text = machine->outcome.text;
    fault->second_error = has_second ? machine->outcome.second.system_error : 0;
    fault->reserved = 0;
    fault->second_path = has_second ? machine->outcome.second.path : NULL;
    return BOOTKEEP_DONE;
}

uint32_t bootkeep_machine_remark(const struct bootkeep_machine *machine, size_t place, const char **text)
{
    if (place >= machine->remarks.count)
        return BOOTKEEP_ABSENT;
    *text = machine->remarks.at[place];
    return BOOTKEEP_DONE;
}
