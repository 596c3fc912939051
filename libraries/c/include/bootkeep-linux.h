/*
 * bootkeep-linux.h - the boot entries of a Linux machine, changed as `bootvars` changes them
 *
 * NAME
 *
 *     libbootkeep-linux - the machine's side of libbootkeep
 *
 * SYNOPSIS
 *
 *     #include <bootkeep-linux.h>
 *
 *     cc program.c $(pkg-config --cflags --libs bootkeep-linux)
 *
 * DESCRIPTION
 *
 * libbootkeep computes and reads no machine. This library reads and changes one: the variables that Linux shows in
 * /sys/firmware/efi/efivars, or those of an emulator's variable file, as edk2's OVMF keeps it while the machine is off:
 * Boot####, BootOrder, BootNext and Timeout (UEFI 2.10, 3.3). It makes the moves of bootkeep_moves_next with the files,
 * locks, names, rights and order of system calls of `bootvars`, so that either finishes or takes back what the other
 * has left after a loss of power, and either undoes what the other has changed. docs/linux.md leads to a first program,
 * docs/machines.md has what the files are for, and docs/formats/machine.md what they hold.
 *
 * What libbootkeep does is proved. This library isn't: it is plain C, which the tests of libraries/c/tests and
 * bench/machine-c try against `bootvars`.
 *
 * A CHANGE
 *
 * Each change is one call, and takes these steps:
 *
 *     1. the state folder is made, if it isn't there, and locked; then the variables are locked, the folder or the file
 *     2. the variables and the journal are read
 *     3. what an earlier change has left is finished, or taken back
 *     4. what the change leads to is computed. If that is what is there, the call ends here
 *     5. what is there before and after it is kept in the state folder, for bootkeep_machine_undo
 *     6. the journal is written, the variables are changed one after the other, and the journal is written again
 *
 * A cut at any moment up to the end of step 5 leaves all as it was. After that the next change, `bootvars update
 * --settle` or bootkeep_machine_settle finishes it. If the system refuses a step of 6, what was done before it is taken
 * back, and the call answers BOOTKEEP_MACHINE_TAKEN_BACK.
 *
 * In a variable file the changes of step 6 are one write of the whole file, which is replaced by a new one under its
 * name. Those of bootkeep_machine_update go by the journal: the file is replaced before the journal says that nothing
 * is left. All others need no journal, since a cut leaves the old file or the new one. They are made also if the system
 * refuses the state folder or the record: then they can't be undone, which a remark tells.
 *
 * The locks are of flock(2), and aren't waited for: BOOTKEEP_MACHINE_BUSY says that another program has one. They are
 * held during the call and not in between.
 *
 * OWNERS
 *
 * A handle is made by bootkeep_machine_open, and given up by bootkeep_machine_close. All that a call is handed is the
 * caller's, and is copied if it is needed after the call. All that a call tells by a pointer, bytes, texts and arrays,
 * is the handle's: it stays as it is until the next call with this handle, but for bootkeep_machine_fault,
 * bootkeep_machine_remark and bootkeep_machine_reply, which leave it alone, and is never to be freed. Texts of C end
 * with a zero byte; a path in a text is bytes as the system has them, and all else is UTF-8.
 *
 * THREADS
 *
 * A handle is used by one thread at a time, as a keeper is. Handles have nothing to do with each other: two of one
 * machine keep each other out by the locks, as two programs do. No call is made from a signal's handler. A handle isn't
 * used by a child after fork(2): its parent may have the locks.
 *
 * STATUSES
 *
 * Those of bootkeep.h, and the ones below. At any but BOOTKEEP_DONE bootkeep_machine_fault tells more, unless the
 * handle is NULL. At BOOTKEEP_NO_MEMORY, BOOTKEEP_BAD_SIZE, BOOTKEEP_REFUSED, BOOTKEEP_ABSENT, BOOTKEEP_MACHINE_SYSTEM,
 * BOOTKEEP_MACHINE_BUSY, BOOTKEEP_MACHINE_UNMET and BOOTKEEP_MACHINE_CHANGED nothing of the change is made; what an
 * earlier change had left may be finished.
 */

#ifndef BOOTKEEP_LINUX_H
#define BOOTKEEP_LINUX_H

#include <bootkeep.h>

#ifdef __cplusplus
extern "C" {
#endif

/* What a compiler can check of calls: that an answer isn't dropped, and which pointers are never NULL. */
#if defined(__GNUC__) || defined(__clang__)
#define BOOTKEEP_LINUX_CHECKED __attribute__((warn_unused_result))
#define BOOTKEEP_LINUX_NONNULL(which) __attribute__((nonnull which))
#else
#define BOOTKEEP_LINUX_CHECKED
#define BOOTKEEP_LINUX_NONNULL(which)
#endif

/* ---- Version ---------------------------------------------------------------------------------------------------- */

/* The version of the interface that this file declares. Each version has all that earlier ones have. */
#define BOOTKEEP_MACHINE_VERSION 1

/* The version of the interface that the library has. */
uint32_t bootkeep_machine_version(void);

/* ---- Statuses --------------------------------------------------------------------------------------------------- */

/* The system refused to read or write something, for the reason in the fault's `system_error`. */
#define BOOTKEEP_MACHINE_SYSTEM 0x0100
/* Another program has the lock of the state folder, or of the variables. Try again later. */
#define BOOTKEEP_MACHINE_BUSY 0x0101
/*
 * The system refused a step of the change, and what was made before it is taken back: it hasn't happened. So it is if
 * what an earlier change had left was refused, and is taken back: nothing else is done then.
 */
#define BOOTKEEP_MACHINE_TAKEN_BACK 0x0102
/*
 * The system refused a step of the change, and then one that takes it back. The state folder has what is left to do,
 * and the next change begins with it. It may still happen: don't take it for one that failed. Of a variable file it may
 * also be that the file has the change, and that the system failed to bring its name to the disk:
 * BOOTKEEP_MACHINE_LEFT_UNSURE.
 */
#define BOOTKEEP_MACHINE_UNSETTLED 0x0103
/* Of bootkeep_machine_update: something isn't as it was expected, and no frame was run. */
#define BOOTKEEP_MACHINE_UNMET 0x0104
/* Of bootkeep_machine_undo: something else has changed the variables since the last change that is kept. */
#define BOOTKEEP_MACHINE_CHANGED 0x0105

/* ---- Faults ----------------------------------------------------------------------------------------------------- */

/* At which step a call failed. There is none: it was the call's words, or memory. */
#define BOOTKEEP_MACHINE_AT_NONE 0
/* To make, look at or lock the state folder. */
#define BOOTKEEP_MACHINE_AT_STATE 1
/* To lock or read the variables. */
#define BOOTKEEP_MACHINE_AT_VARIABLES 2
/* To find what the machine is called, or the identity of its start. */
#define BOOTKEEP_MACHINE_AT_NAME 3
/* To read the journal, to make it this machine's own, or to give it an identity. */
#define BOOTKEEP_MACHINE_AT_JOURNAL 4
/* To finish, or take back, what an earlier change has left. Nothing else was done. */
#define BOOTKEEP_MACHINE_AT_SETTLING 5
/* To compute what the change leads to: the words or the variables don't allow it. */
#define BOOTKEEP_MACHINE_AT_RUN 6
/* To read or keep what was there before a change. */
#define BOOTKEEP_MACHINE_AT_RECORD 7
/* To make the change. */
#define BOOTKEEP_MACHINE_AT_CHANGE 8
/* To find where the file of a loader is. */
#define BOOTKEEP_MACHINE_AT_LOADER 9

/* What is left after a call that failed. All is as it was before it, but for what an earlier change had left. */
#define BOOTKEEP_MACHINE_LEFT_NOTHING 0
/* The same, and some of the change had been made, and is taken back. */
#define BOOTKEEP_MACHINE_LEFT_TAKEN_BACK 1
/* The journal has what is left to do, and the next change begins with it. */
#define BOOTKEEP_MACHINE_LEFT_OWED 2
/* The variable file has the change, and a loss of power may bring back what it was before. */
#define BOOTKEEP_MACHINE_LEFT_UNSURE 3

/*
 * Why a call is refused that only this library makes: the fault's `refusal.kind`, if it is none of bootkeep.h. None has
 * an inner fault.
 */

/* The group of the state folder, or others, may write it: who can do that could have anything done to the machine. */
#define BOOTKEEP_MACHINE_FAULT_SHARED_STATE 0x8001
/* The state folder belongs neither to root nor to the user. */
#define BOOTKEEP_MACHINE_FAULT_FOREIGN_STATE 0x8002
/* No folder is where the state folder is to be. */
#define BOOTKEEP_MACHINE_FAULT_NO_FOLDER 0x8003
/* A link, a pipe, a device, a socket or a folder is where a file is to be, or none of a folder and a file where the
 * variables are to be. */
#define BOOTKEEP_MACHINE_FAULT_IRREGULAR 0x8004
/* A file has more bytes than are read of it. */
#define BOOTKEEP_MACHINE_FAULT_TOO_MUCH 0x8005
/* No variable of the boot manager is in the folder, and no efivarfs is mounted there. */
#define BOOTKEEP_MACHINE_FAULT_NO_VARIABLES 0x8006
/* Two files show one variable. */
#define BOOTKEEP_MACHINE_FAULT_TWICE 0x8007
/* The journal is another machine's. */
#define BOOTKEEP_MACHINE_FAULT_OF_ANOTHER 0x8008
/* The journal may be another machine's: which one this is can't be read, as by another user than root. */
#define BOOTKEEP_MACHINE_FAULT_UNKNOWN_MACHINE 0x8009
/* The journal, or the record, of the change would be longer than what is read of one. */
#define BOOTKEEP_MACHINE_FAULT_TOO_LONG 0x800c
/* The change is of a variable that has no value, or one that is too long for a set. */
#define BOOTKEEP_MACHINE_FAULT_LEFT_OUT 0x800d
/* The BootOrder that is to be brought back has an odd number of bytes, which firmware refuses. */
#define BOOTKEEP_MACHINE_FAULT_ORDER_REFUSED 0x800e
/* The BootNext that is to be brought back doesn't have two bytes. */
#define BOOTKEEP_MACHINE_FAULT_NEXT_REFUSED 0x800f
/* The Timeout that is to be brought back doesn't have two bytes. */
#define BOOTKEEP_MACHINE_FAULT_TIMEOUT_REFUSED 0x8010
/* The set has no entry, so that all entries would be taken out. */
#define BOOTKEEP_MACHINE_FAULT_EMPTY 0x8011
/* The loader's file system isn't on a partition of a disk that firmware sees. */
#define BOOTKEEP_MACHINE_FAULT_NO_PARTITION 0x8012
/* The system doesn't tell what the loader's partition is known by. */
#define BOOTKEEP_MACHINE_FAULT_UNKNOWN_PARTITION 0x8013
/* The name of the loader can't be one that firmware reads: it has a backslash, or a character that UCS-2 hasn't got. */
#define BOOTKEEP_MACHINE_FAULT_BAD_LOADER_NAME 0x8014
/* Firmware doesn't start the loader: `refusal.inner_kind` and `inner_place` are a fault of images. */
#define BOOTKEEP_MACHINE_FAULT_NOT_STARTED 0x8015
/* The variable, or what is at the path of the variables, isn't what was read of it any more: something else has changed
 * it meanwhile. */
#define BOOTKEEP_MACHINE_FAULT_CHANGED_MEANWHILE 0x8016
/* A flag isn't one of the call, or a number is none that it takes. */
#define BOOTKEEP_MACHINE_FAULT_BAD_WORDS 0x8017
/*
 * At `refusal.place` of the variable file, after its last record, something isn't erased: there may have been more
 * variables, and a change would be written over them. It is read all the same, and only `bootvars --force` changes it.
 */
#define BOOTKEEP_MACHINE_FAULT_DAMAGED 0x8018
/* The identity of the start is needed, and the system doesn't tell that of a variable file's machine: give it at open.
 */
#define BOOTKEEP_MACHINE_FAULT_NO_START 0x8019
/* At the path of a disk there is no block device that the system knows by this name. */
#define BOOTKEEP_MACHINE_FAULT_NO_DEVICE 0x801a
/* The disk hasn't got a partition of this number, or the partition that is named has another one. */
#define BOOTKEEP_MACHINE_FAULT_OTHER_PARTITION 0x801b

/* A handle of a machine. */
struct bootkeep_machine;

/* Why a call failed. Later versions may add fields at its end: of those a call writes none that `size` leaves out. */
struct bootkeep_machine_fault {
    /* sizeof(struct bootkeep_machine_fault): the caller writes it before a call, and no call changes it. */
    size_t size;
    /* The status of the call: BOOTKEEP_DONE if it didn't fail. */
    uint32_t status;
    /* At which step: one of BOOTKEEP_MACHINE_AT_... */
    uint32_t at;
    /* What is left of the change: one of BOOTKEEP_MACHINE_LEFT_... */
    uint32_t left;
    /* The system's reason, a number of errno(3), or 0. */
    int32_t system_error;
    /*
     * Why it is refused: `kind` is a number of bootkeep.h or one of BOOTKEEP_MACHINE_FAULT_..., or BOOTKEEP_NO_KIND if
     * the system refused it. Places and inner faults are as bootkeep.h has them.
     */
    struct bootkeep_refusal refusal;
    /* The path of the file or folder it was about, or NULL. */
    const char *path;
    /* One line of English that says all of this, without a line feed. It is never NULL. */
    const char *text;
    /* At BOOTKEEP_MACHINE_UNSETTLED: why taking it back failed too, or 0 and NULL. */
    int32_t second_error;
    uint32_t reserved;
    const char *second_path;
};

/* To GCC a call of C++ that has the name of a struct hides that struct's constructors. */
#if defined(__cplusplus) && defined(__GNUC__)
#pragma GCC diagnostic push
#pragma GCC diagnostic ignored "-Wshadow"
#endif

/*
 * What came of the last call with the handle, but for this one and those of remarks and replies. Its texts are the
 * handle's.
 *
 *     fault   what came of it, of which the caller has written `size`
 *
 *     BOOTKEEP_DONE
 *     BOOTKEEP_BAD_SIZE   `fault->size` is below that of the struct of version 1
 */
uint32_t bootkeep_machine_fault(const struct bootkeep_machine *machine,
                                struct bootkeep_machine_fault *fault) BOOTKEEP_LINUX_CHECKED
    BOOTKEEP_LINUX_NONNULL((1, 2));

#if defined(__cplusplus) && defined(__GNUC__)
#pragma GCC diagnostic pop
#endif

/*
 * A remark of the last call, counted from 0: one line of English, of what `bootvars` tells on standard error of a
 * change that is made: that a file was ignored, that an entry of a set was left out, that BootNext isn't set again.
 *
 *     place   the place of the remark
 *     text    where the answer goes: the line, without a line feed
 *
 *     BOOTKEEP_DONE
 *     BOOTKEEP_ABSENT   there are no more
 */
uint32_t bootkeep_machine_remark(const struct bootkeep_machine *machine, size_t place,
                                 const char **text) BOOTKEEP_LINUX_CHECKED BOOTKEEP_LINUX_NONNULL((1, 3));

/* ---- Handles ---------------------------------------------------------------------------------------------------- */

/* The folder in which Linux shows the variables, and the state folder, if no others are given. */
#define BOOTKEEP_MACHINE_VARIABLES "/sys/firmware/efi/efivars"
#define BOOTKEEP_MACHINE_STATE "/var/lib/bootkeep"

/* Another machine's journal in the state folder is taken over, if nothing is left to do in it. */
#define BOOTKEEP_MACHINE_ADOPT 0x01
/* Nothing is kept of what was there before a change: it can't be undone. */
#define BOOTKEEP_MACHINE_NO_RECORD 0x02

/* Which machine a handle is of. All that is 0 or NULL is as `bootvars` has it without an option. */
struct bootkeep_machine_options {
    /* sizeof(struct bootkeep_machine_options) */
    size_t size;
    /*
     * The folder of the variables, or NULL for BOOTKEEP_MACHINE_VARIABLES; or an emulator's variable file, whose
     * machine has to be off. Of a link it is the file that it leads to.
     */
    const char *variables;
    /* The state folder, or NULL for BOOTKEEP_MACHINE_STATE. Its own folder has to be there. */
    const char *state;
    /*
     * What the machine is called, in UTF-8, 1 to BOOTKEEP_MACHINE_MAX bytes, which no other machine is; or NULL for
     * what the system says. On an efivarfs that is the UUID of /sys/class/dmi/id/product_uuid, or without one
     * `machine-id:` and what /etc/machine-id has; elsewhere it is the path of the variables, from the root on.
     */
    const char *name;
    /*
     * The identity of the machine's start, or NULL for that of /proc/sys/kernel/random/boot_id. Of a variable file it
     * is a text that is another one after each start of its machine: BOOTKEEP_MACHINE_FAULT_NO_START says that it is
     * needed, for bootkeep_machine_update and bootkeep_machine_settle, and if something is left to do.
     */
    const char *start;
    /* BOOTKEEP_MACHINE_ADOPT and BOOTKEEP_MACHINE_NO_RECORD. */
    uint32_t flags;
    uint32_t reserved;
};

/*
 * Makes a handle of a machine, in `*machine`. Nothing of the machine is looked at as yet. At any status but
 * BOOTKEEP_DONE `*machine` is NULL.
 *
 *     options   which machine, or NULL for the one that this runs on. It is copied
 *     machine   where the handle goes
 *
 *     BOOTKEEP_DONE, BOOTKEEP_NO_MEMORY
 *     BOOTKEEP_BAD_SIZE   `options->size` is below that of the struct of version 1
 *     BOOTKEEP_REFUSED    the name or the identity of the start isn't one, a path is empty, or a flag isn't one
 */
uint32_t bootkeep_machine_open(const struct bootkeep_machine_options *options,
                               struct bootkeep_machine **machine) BOOTKEEP_LINUX_CHECKED BOOTKEEP_LINUX_NONNULL((2));

/* Gives up the handle, and all that is its. NULL is no fault. */
void bootkeep_machine_close(struct bootkeep_machine *machine);

/*
 * The words that are kept with each change from now on, which `bootvars undo --list` shows: the command line of the
 * program, say. Without this call there is one word, `libbootkeep-linux`, and the name of the call after it. They are
 * copied.
 *
 *     words, count   the words, each UTF-8, and how many there are; none for the words that there are without this call
 *
 *     BOOTKEEP_DONE, BOOTKEEP_NO_MEMORY
 *     BOOTKEEP_REFUSED   a word isn't UTF-8
 */
uint32_t bootkeep_machine_words(struct bootkeep_machine *machine, const char *const *words,
                                size_t count) BOOTKEEP_LINUX_CHECKED BOOTKEEP_LINUX_NONNULL((1));

/* ---- What is there ---------------------------------------------------------------------------------------------- */

/* What a machine's variables are in: a folder as Linux shows them, or an emulator's variable file. */
#define BOOTKEEP_MACHINE_PLACE_FOLDER 1
#define BOOTKEEP_MACHINE_PLACE_FILE 2

/*
 * In `*place` what the variables are in, by what is at their path now: one of BOOTKEEP_MACHINE_PLACE_... Of a folder no
 * more is looked at.
 *
 *     place   where the answer goes
 *
 *     BOOTKEEP_DONE, BOOTKEEP_NO_MEMORY
 *     BOOTKEEP_REFUSED          something else is there, or a file that is no variable file: a number of variable files
 *     BOOTKEEP_MACHINE_SYSTEM   nothing is there, or it can't be read
 */
uint32_t bootkeep_machine_place(struct bootkeep_machine *machine, uint32_t *place) BOOTKEEP_LINUX_CHECKED
    BOOTKEEP_LINUX_NONNULL((1, 2));

/*
 * bootkeep_machine_variables, bootkeep_machine_data, bootkeep_machine_plan and bootkeep_machine_entries read the
 * variables as they are now, also if an earlier change has left something to do. They take no lock, so a change that is
 * being made in a folder may be half seen. A remark tells of a variable file that is damaged.
 *
 *     BOOTKEEP_DONE, BOOTKEEP_NO_MEMORY, BOOTKEEP_REFUSED, BOOTKEEP_MACHINE_SYSTEM
 */

/*
 * The machine's variables as a set of what it keeps under each name: of Boot####, BootOrder, BootNext and Timeout their
 * attributes, in four bytes, and then their data, and of all others their data alone. It is what bootkeep_moves_restore
 * brings back. An entry that no set can hold, as one without a value, has a stand-in of five bytes, 07 00 00 00 00, so
 * that its number is taken; a remark tells of it.
 *
 *     set, set_len   where the answer goes: the bytes of the set, and how many there are
 */
uint32_t bootkeep_machine_variables(struct bootkeep_machine *machine, const uint8_t **set,
                                    size_t *set_len) BOOTKEEP_LINUX_CHECKED BOOTKEEP_LINUX_NONNULL((1, 2, 3));

/*
 * The machine's variables as a set of their data, without attributes, as `bootvars read` makes it and as
 * bootkeep_vars_plan and the other calls of sets take it.
 *
 *     set, set_len   as of bootkeep_machine_variables
 */
uint32_t bootkeep_machine_data(struct bootkeep_machine *machine, const uint8_t **set,
                               size_t *set_len) BOOTKEEP_LINUX_CHECKED BOOTKEEP_LINUX_NONNULL((1, 2, 3));

/* What a boot would try. Later versions may add fields at its end. */
struct bootkeep_machine_plan {
    /* sizeof(struct bootkeep_machine_plan): the caller writes it before a call, and no call changes it. */
    size_t size;
    /* The number of BootNext's entry, which is tried first, once, or BOOTKEEP_NO_ENTRY. */
    uint32_t next;
    /* The number of the entry that this boot came from, or BOOTKEEP_NO_ENTRY: BootCurrent. */
    uint32_t current;
    /* How many seconds firmware waits before it tries the plan, or BOOTKEEP_NO_ENTRY if there is no such setting. */
    uint32_t timeout;
    uint32_t reserved;
    /* The numbers of the entries of BootOrder that are tried, in its order, and how many there are. */
    const uint16_t *numbers;
    size_t numbers_len;
    /* All numbers of BootOrder, and how many there are. */
    const uint16_t *order;
    size_t order_len;
};

/* To GCC a call of C++ that has the name of a struct hides that struct's constructors. */
#if defined(__cplusplus) && defined(__GNUC__)
#pragma GCC diagnostic push
#pragma GCC diagnostic ignored "-Wshadow"
#endif

/*
 * What a boot would try (UEFI 2.10, 3.3), as bootkeep_vars_plan tells it.
 *
 *     plan   where the answer goes, of which the caller has written `size`
 *
 *     BOOTKEEP_REFUSED    also BOOTKEEP_FAULT_VARS_BAD_ORDER and BOOTKEEP_FAULT_VARS_BAD_NEXT
 *     BOOTKEEP_BAD_SIZE   `plan->size` is below that of the struct of version 1
 */
uint32_t bootkeep_machine_plan(struct bootkeep_machine *machine,
                               struct bootkeep_machine_plan *plan) BOOTKEEP_LINUX_CHECKED
    BOOTKEEP_LINUX_NONNULL((1, 2));

#if defined(__cplusplus) && defined(__GNUC__)
#pragma GCC diagnostic pop
#endif

/* An entry of the machine: a variable Boot#### (UEFI 2.10, 3.1.3). */
struct bootkeep_machine_entry {
    /* Its number. */
    uint32_t number;
    /* What a boot makes of it if BootOrder names it: one of BOOTKEEP_ENTRY_... of bootkeep.h. */
    uint32_t state;
    /* Where BootOrder names it first, counted from 0, or BOOTKEEP_NO_ENTRY. */
    uint32_t position;
    /* The attributes of the load option, or 0 if it is none. */
    uint32_t attributes;
    /* Not 0 if BootNext names it; not 0 if this boot came from it. */
    uint32_t is_next;
    uint32_t is_current;
    /* Its description, as bootkeep_option_description tells it: one line of ASCII. Empty if it is no load option. */
    const char *description;
    /* Its first device path, as bootkeep_path_names tells it: UTF-8. Empty if it is no load option. */
    const char *path;
    /* The bytes of the load option, and how many there are. */
    const uint8_t *option;
    size_t option_len;
    /* Its optional data, in these bytes, and how many there are. */
    const uint8_t *optional;
    size_t optional_len;
};

/*
 * The entries of the machine, by rising numbers.
 *
 *     entries     where the answer goes
 *     len         how many there are
 *     item_size   sizeof(struct bootkeep_machine_entry)
 *
 *     BOOTKEEP_BAD_SIZE   `item_size` isn't the size of the struct
 */
uint32_t bootkeep_machine_entries(struct bootkeep_machine *machine, const struct bootkeep_machine_entry **entries,
                                  size_t *len, size_t item_size) BOOTKEEP_LINUX_CHECKED
    BOOTKEEP_LINUX_NONNULL((1, 2, 3));

/* ---- Changes ---------------------------------------------------------------------------------------------------- */

/*
 * Each call below is one change, as "A CHANGE" has it above. `change` may be NULL, and otherwise tells what came of it;
 * its `size` is written by the caller.
 *
 *     BOOTKEEP_DONE                the machine is as it was to be
 *     BOOTKEEP_NO_MEMORY           memory was refused
 *     BOOTKEEP_BAD_SIZE            a `size` is below that of the struct of version 1
 *     BOOTKEEP_REFUSED             what is there, or was handed in, doesn't allow it: `refusal` of the fault says why
 *     BOOTKEEP_MACHINE_SYSTEM, BOOTKEEP_MACHINE_BUSY, BOOTKEEP_MACHINE_TAKEN_BACK, BOOTKEEP_MACHINE_UNSETTLED
 */

/*
 * Of each change: nothing is changed, no lock is taken and nothing is kept. What the change would lead to is told, once
 * what an earlier change has left is done.
 */
#define BOOTKEEP_MACHINE_DRY_RUN 0x01
/* Of bootkeep_machine_add and bootkeep_machine_add_loader: the entry is added even if one like it is there. */
#define BOOTKEEP_MACHINE_AGAIN 0x02
/* Of bootkeep_machine_order and bootkeep_machine_first: numbers without an entry are taken. */
#define BOOTKEEP_MACHINE_STALE 0x04
/* Of bootkeep_machine_order: the numbers are the whole order. */
#define BOOTKEEP_MACHINE_ONLY 0x08
/*
 * Of bootkeep_machine_undo: the last change is undone although something else has changed since. Of
 * bootkeep_machine_add_loader: the entry is added although firmware wouldn't start the file.
 */
#define BOOTKEEP_MACHINE_FORCE 0x10
/* Of bootkeep_machine_write: a set without an entry is taken, and all entries are taken out. */
#define BOOTKEEP_MACHINE_EMPTY 0x20

/* What came of a change. Later versions may add fields at its end. */
struct bootkeep_machine_change {
    /* sizeof(struct bootkeep_machine_change): the caller writes it before a call, and no call changes it. */
    size_t size;
    /* Not 0 if a variable of the boot manager was changed, or would be by a dry run. */
    uint32_t changed;
    /* Not 0 if an earlier change had left something to do, which is done now, or would be by a dry run. */
    uint32_t settled;
    /* One of BOOTKEEP_EDITED_... of bootkeep.h: what came of an edit. */
    uint32_t edited;
    /* The number of the entry that was added or found, or BOOTKEEP_NO_ENTRY. */
    uint32_t entry;
    /* The number of the record that is kept of the change, for undo, or 0 if none is. */
    uint64_t record;
    /* How many replies there are, of bootkeep_machine_update. */
    size_t replies;
    /*
     * What the machine kept of its variables before the change and keeps after it, as of bootkeep_machine_variables,
     * and how many bytes that has. bootkeep_vars_changes tells what differs.
     */
    const uint8_t *before;
    size_t before_len;
    const uint8_t *after;
    size_t after_len;
};

/* To GCC a call of C++ that has the name of a struct hides that struct's constructors. */
#if defined(__cplusplus) && defined(__GNUC__)
#pragma GCC diagnostic push
#pragma GCC diagnostic ignored "-Wshadow"
#endif

/*
 * Adds an entry: `bootvars add`. One with the same description and the same paths that is there already isn't added
 * again, unless BOOTKEEP_MACHINE_AGAIN is given.
 *
 *     option, option_len   the bytes of the load option, as bootkeep_option_make gives them, and how many there are
 *     number               the number of the entry, or BOOTKEEP_NO_ENTRY for the lowest free one
 *     position             where it comes in BootOrder: one of BOOTKEEP_POSITION_...
 *     flags                BOOTKEEP_MACHINE_DRY_RUN, BOOTKEEP_MACHINE_AGAIN
 */
uint32_t bootkeep_machine_add(struct bootkeep_machine *machine, const uint8_t *option, size_t option_len,
                              uint32_t number, uint32_t position, uint32_t flags,
                              struct bootkeep_machine_change *change) BOOTKEEP_LINUX_CHECKED
    BOOTKEEP_LINUX_NONNULL((1));

/* A loader, of which a load option is to be made. */
struct bootkeep_machine_loader {
    /* sizeof(struct bootkeep_machine_loader) */
    size_t size;
    /*
     * The path of its file, on the file system of a partition that is mounted, as /boot/efi/EFI/debian/shimx64.efi; or
     * with a disk its name there, with backslashes or slashes, as \EFI\debian\shimx64.efi.
     */
    const char *file;
    /* The description of the entry, in UTF-8. */
    const char *description;
    /* The attributes of the load option: BOOTKEEP_ATTRIBUTE_ACTIVE, as a rule. */
    uint32_t attributes;
    uint32_t reserved;
    /* Its optional data, which the loader gets as its arguments, and how many bytes it has. */
    const uint8_t *optional;
    size_t optional_len;
    /*
     * A folder that stands for the root of the system, as of `bootvars add --root`, or NULL: the file, and what is read
     * of /proc, /sys and /dev, is below it.
     */
    const char *root;
    /*
     * The disk that the file is on, or a partition, as /dev/nvme0n1 or /dev/nvme0n1p1, which need not be mounted; or
     * NULL for a file that is mounted.
     */
    const char *disk;
    /* The number of the partition of the disk, or 0 for the first. It is 0 without a disk. */
    uint32_t part;
    uint32_t reserved_part;
};

/*
 * The bytes of the load option of a loader whose file is on a partition that is mounted, or on a disk that is named:
 * its path is the partition, as the system tells it, and the name of the file there. Nothing is changed. On a disk that
 * is named the file need not be there.
 *
 *     loader               the loader
 *     option, option_len   where the answer goes: the bytes, and how many there are
 *
 *     BOOTKEEP_DONE, BOOTKEEP_NO_MEMORY, BOOTKEEP_BAD_SIZE, BOOTKEEP_MACHINE_SYSTEM
 *     BOOTKEEP_REFUSED   BOOTKEEP_MACHINE_FAULT_NO_PARTITION, .._UNKNOWN_PARTITION, .._BAD_LOADER_NAME, .._NO_DEVICE or
 *                        .._OTHER_PARTITION; or a number of load options
 */
uint32_t bootkeep_machine_loader(struct bootkeep_machine *machine, const struct bootkeep_machine_loader *loader,
                                 const uint8_t **option, size_t *option_len) BOOTKEEP_LINUX_CHECKED
    BOOTKEEP_LINUX_NONNULL((1, 2, 3, 4));

/*
 * Adds an entry for a loader: `bootvars add --loader`. The file is looked at as bootkeep_image_check does, and what
 * firmware wouldn't start is refused, BOOTKEEP_MACHINE_FAULT_NOT_STARTED, unless BOOTKEEP_MACHINE_FORCE is given. What
 * couldn't be looked at is a remark, and so is that a file isn't there, or its partition isn't mounted, of a disk that
 * is named. Secure Boot isn't asked: `bootvars check` does that.
 *
 *     loader     the loader
 *     number, position
 *                as of bootkeep_machine_add
 *     flags      BOOTKEEP_MACHINE_DRY_RUN, BOOTKEEP_MACHINE_AGAIN, BOOTKEEP_MACHINE_FORCE
 */
uint32_t bootkeep_machine_add_loader(struct bootkeep_machine *machine, const struct bootkeep_machine_loader *loader,
                                     uint32_t number, uint32_t position, uint32_t flags,
                                     struct bootkeep_machine_change *change) BOOTKEEP_LINUX_CHECKED
    BOOTKEEP_LINUX_NONNULL((1, 2));

#if defined(__cplusplus) && defined(__GNUC__)
#pragma GCC diagnostic pop
#endif

/*
 * Changes of entries that are there, by their numbers: `bootvars remove`, `activate`, `deactivate`, `first` and
 * `order`.
 *
 *     numbers, numbers_len   the numbers, in their sequence, and how many there are
 *     flags                  BOOTKEEP_MACHINE_DRY_RUN; of first and order BOOTKEEP_MACHINE_STALE; of order
 *                            BOOTKEEP_MACHINE_ONLY
 */
/* The entries are deleted, their numbers taken out of BootOrder, and BootNext is deleted if it names one. */
uint32_t bootkeep_machine_remove(struct bootkeep_machine *machine, const uint16_t *numbers, size_t numbers_len,
                                 uint32_t flags, struct bootkeep_machine_change *change) BOOTKEEP_LINUX_CHECKED
    BOOTKEEP_LINUX_NONNULL((1));
/* The entries get LOAD_OPTION_ACTIVE. */
uint32_t bootkeep_machine_activate(struct bootkeep_machine *machine, const uint16_t *numbers, size_t numbers_len,
                                   uint32_t flags, struct bootkeep_machine_change *change) BOOTKEEP_LINUX_CHECKED
    BOOTKEEP_LINUX_NONNULL((1));
/* The entries lose LOAD_OPTION_ACTIVE. */
uint32_t bootkeep_machine_deactivate(struct bootkeep_machine *machine, const uint16_t *numbers, size_t numbers_len,
                                     uint32_t flags, struct bootkeep_machine_change *change) BOOTKEEP_LINUX_CHECKED
    BOOTKEEP_LINUX_NONNULL((1));
/* The entries come first in BootOrder, in this sequence, and the rest of it after them. */
uint32_t bootkeep_machine_first(struct bootkeep_machine *machine, const uint16_t *numbers, size_t numbers_len,
                                uint32_t flags, struct bootkeep_machine_change *change) BOOTKEEP_LINUX_CHECKED
    BOOTKEEP_LINUX_NONNULL((1));
/* BootOrder becomes these entries, and unless BOOTKEEP_MACHINE_ONLY is given those that it had after them. */
uint32_t bootkeep_machine_order(struct bootkeep_machine *machine, const uint16_t *numbers, size_t numbers_len,
                                uint32_t flags, struct bootkeep_machine_change *change) BOOTKEEP_LINUX_CHECKED
    BOOTKEEP_LINUX_NONNULL((1));

/*
 * BootNext becomes this number, so that the next boot tries its entry first, once; or it is deleted: `bootvars next`.
 *
 *     number   the number of the entry, or BOOTKEEP_NO_ENTRY to delete it
 *     flags    BOOTKEEP_MACHINE_DRY_RUN
 */
uint32_t bootkeep_machine_next(struct bootkeep_machine *machine, uint32_t number, uint32_t flags,
                               struct bootkeep_machine_change *change) BOOTKEEP_LINUX_CHECKED
    BOOTKEEP_LINUX_NONNULL((1));

/*
 * Timeout becomes so many seconds, or is deleted: `bootvars timeout`.
 *
 *     seconds   0 to 65535, or BOOTKEEP_NO_ENTRY to delete it
 *     flags     BOOTKEEP_MACHINE_DRY_RUN
 */
uint32_t bootkeep_machine_timeout(struct bootkeep_machine *machine, uint32_t seconds, uint32_t flags,
                                  struct bootkeep_machine_change *change) BOOTKEEP_LINUX_CHECKED
    BOOTKEEP_LINUX_NONNULL((1));

/*
 * Brings the boot manager's variables to those of a set of data, as bootkeep_machine_data gives it: `bootvars write`.
 * Each has the attributes that it has on the machine, or 7. The Timeout stays if the set has none. An entry that would
 * have to be stored in a folder and is no load option, which firmware refuses, is left out, and a remark tells of it.
 *
 *     set, set_len   the set, and how many bytes it has
 *     flags          BOOTKEEP_MACHINE_DRY_RUN, BOOTKEEP_MACHINE_EMPTY
 */
uint32_t bootkeep_machine_write(struct bootkeep_machine *machine, const uint8_t *set, size_t set_len, uint32_t flags,
                                struct bootkeep_machine_change *change) BOOTKEEP_LINUX_CHECKED
    BOOTKEEP_LINUX_NONNULL((1));

/* ---- Requests --------------------------------------------------------------------------------------------------- */

/* What is expected of a machine before requests are run: that its journal has this identity, or none; */
#define BOOTKEEP_MACHINE_EXPECTS_JOURNAL 0x01
#define BOOTKEEP_MACHINE_EXPECTS_NO_JOURNAL 0x02
/* that the request to be applied next has this number; */
#define BOOTKEEP_MACHINE_EXPECTS_NUMBER 0x04
/* that BootOrder has these numbers, or isn't there. */
#define BOOTKEEP_MACHINE_EXPECTS_ORDER 0x08
#define BOOTKEEP_MACHINE_EXPECTS_NO_ORDER 0x10

/* What is expected of a machine: what `what` doesn't name isn't looked at. */
struct bootkeep_machine_expected {
    /* sizeof(struct bootkeep_machine_expected) */
    size_t size;
    /* BOOTKEEP_MACHINE_EXPECTS_..., one or several, put together by `|`. */
    uint32_t what;
    /* The number of the request that is to be applied next. */
    uint32_t number;
    /* The identity of the journal. */
    uint8_t journal[16];
    /* The numbers of BootOrder, and how many there are. */
    const uint16_t *order;
    size_t order_len;
};

/*
 * Runs the frames of a stream over the machine, in their order: `bootvars update`. Each request is applied once,
 * however often it is delivered (docs/requests.md). The journal gets an identity, if it has none, and keeps digests of
 * the last frames, so that a repeat of another frame is known.
 *
 *     stream, stream_len   the frames, one after the other, and how many bytes they have
 *     expected             what is expected of the machine, or NULL
 *     flags                BOOTKEEP_MACHINE_DRY_RUN
 *     change               what came of it: `replies` is how many replies bootkeep_machine_reply gives
 *
 *     BOOTKEEP_MACHINE_UNMET   something isn't as it was expected, and no frame was run: the fault's text says what
 */
uint32_t bootkeep_machine_update(struct bootkeep_machine *machine, const uint8_t *stream, size_t stream_len,
                                 const struct bootkeep_machine_expected *expected, uint32_t flags,
                                 struct bootkeep_machine_change *change) BOOTKEEP_LINUX_CHECKED
    BOOTKEEP_LINUX_NONNULL((1));

/*
 * The reply to the frame at this place of the stream of the last bootkeep_machine_update, counted from 0.
 *
 *     place   the place of the frame
 *     reply   where the answer goes, of which the caller has written `size`
 *     same    whether a repeat is of the frame that was applied under its number: one of BOOTKEEP_SAME_... of
 *             bootkeep.h, BOOTKEEP_SAME_UNKNOWN if the reply is no repeat
 *
 *     BOOTKEEP_DONE
 *     BOOTKEEP_ABSENT     there is no such reply
 *     BOOTKEEP_BAD_SIZE   `reply->size` is below that of the struct of version 1 of bootkeep.h
 */
uint32_t bootkeep_machine_reply(const struct bootkeep_machine *machine, size_t place, struct bootkeep_reply *reply,
                                uint32_t *same) BOOTKEEP_LINUX_CHECKED BOOTKEEP_LINUX_NONNULL((1, 3, 4));

/* What the journal says of requests. Later versions may add fields at its end. */
struct bootkeep_machine_journal {
    /* sizeof(struct bootkeep_machine_journal): the caller writes it before a call, and no call changes it. */
    size_t size;
    /* The number of the request that is to be applied next. */
    uint32_t next_number;
    /* Not 0 if the journal has an identity, which no other has: another one tells that the machine was installed anew.
     */
    uint32_t has_identity;
    uint8_t identity[16];
    /* Not 0 if an earlier change has left something to do. */
    uint32_t is_owed;
    uint32_t reserved;
};

/* To GCC a call of C++ that has the name of a struct hides that struct's constructors. */
#if defined(__cplusplus) && defined(__GNUC__)
#pragma GCC diagnostic push
#pragma GCC diagnostic ignored "-Wshadow"
#endif

/*
 * What the journal says of requests: `bootvars update --next`. Nothing is changed, and no lock is taken.
 *
 *     journal   where the answer goes, of which the caller has written `size`
 *
 *     BOOTKEEP_DONE, BOOTKEEP_NO_MEMORY, BOOTKEEP_BAD_SIZE, BOOTKEEP_REFUSED, BOOTKEEP_MACHINE_SYSTEM
 */
uint32_t bootkeep_machine_journal(struct bootkeep_machine *machine,
                                  struct bootkeep_machine_journal *journal) BOOTKEEP_LINUX_CHECKED
    BOOTKEEP_LINUX_NONNULL((1, 2));

#if defined(__cplusplus) && defined(__GNUC__)
#pragma GCC diagnostic pop
#endif

/* ---- Undo, and what is owed ------------------------------------------------------------------------------------- */

/*
 * Brings back what was there before the last change that is kept, whoever made it, `bootvars` or this library:
 * `bootvars undo`. The next call undoes the one before that. A BootNext that a boot has used is never set again.
 *
 *     flags   BOOTKEEP_MACHINE_DRY_RUN, BOOTKEEP_MACHINE_FORCE
 *
 *     BOOTKEEP_ABSENT             nothing is kept that could be undone
 *     BOOTKEEP_MACHINE_CHANGED    something else has changed since; `change` then has in `before` what was there after
 *                                 the change, and in `after` what is there now
 */
uint32_t bootkeep_machine_undo(struct bootkeep_machine *machine, uint32_t flags,
                               struct bootkeep_machine_change *change) BOOTKEEP_LINUX_CHECKED
    BOOTKEEP_LINUX_NONNULL((1));

/*
 * In `*owed` whether an earlier change has left something to do: not 0 if so. In a folder that is also one of
 * Driver#### or SysPrep####, by `bootvars efibootmgr`, which bootkeep_machine_settle does, and no other call. Nothing
 * is changed, and no lock is taken.
 *
 *     owed   where the answer goes
 *
 *     BOOTKEEP_DONE, BOOTKEEP_NO_MEMORY, BOOTKEEP_REFUSED, BOOTKEEP_MACHINE_SYSTEM
 */
uint32_t bootkeep_machine_owed(struct bootkeep_machine *machine, uint32_t *owed) BOOTKEEP_LINUX_CHECKED
    BOOTKEEP_LINUX_NONNULL((1, 2));

/*
 * Does what an earlier change has left to do, and no more: `bootvars update --settle`. In a folder that is also what
 * one of Driver#### or of SysPrep#### has left, each by a journal of its own, also if another one is refused: the first
 * refusal is that of the call, and others are remarks. A state folder that isn't there isn't made: then nothing is
 * left, and the answer is BOOTKEEP_DONE.
 *
 *     flags    BOOTKEEP_MACHINE_DRY_RUN
 *     change   `settled` says whether there was something, of whichever entries
 */
uint32_t bootkeep_machine_settle(struct bootkeep_machine *machine, uint32_t flags,
                                 struct bootkeep_machine_change *change) BOOTKEEP_LINUX_CHECKED
    BOOTKEEP_LINUX_NONNULL((1));

#undef BOOTKEEP_LINUX_CHECKED
#undef BOOTKEEP_LINUX_NONNULL

#ifdef __cplusplus
}
#endif

#endif
