/* What the sources of libbootkeep-linux share. Nothing of this is seen by programs. */
#ifndef BOOTKEEP_LINUX_MACHINE_H
#define BOOTKEEP_LINUX_MACHINE_H

/* For flock, realpath and O_DIRECTORY: each source includes this file first. */
#ifndef _GNU_SOURCE
#define _GNU_SOURCE
#endif

#include <bootkeep-linux.h>

#include <limits.h>
#include <stdbool.h>
#include <sys/types.h>

/* What is read of a file whose length nothing else limits, at most: 64 MiB. */
#define READ_MAX ((size_t)67108864)
/* Attributes come first in what is kept of a variable, little-endian (UEFI 2.10, 8.2). */
#define ATTRIBUTES_LEN ((size_t)4)
/* The most bytes of the file of a variable that a set can hold. */
#define VARIABLE_MAX (ATTRIBUTES_LEN + BOOTKEEP_DATA_MAX)
/* Room for the longest name of a variable of the boot manager, `BootOrder`, and the zero after it. */
#define BOOT_NAME_ROOM 10
/* What the names of the boot manager's entries begin with, and of their order. */
#define BOOT_FAMILY "Boot"
/* Room for the longest name of an entry or an order of a family, `SysPrepOrder`, and the zero after it. */
#define FAMILY_NAME_ROOM 13
/* Room for the identity of a start, and the zero after it. */
#define START_ROOM 65

/* Bytes that are owned, and given up by bytes_free. No bytes are {0}. */
struct bytes {
    uint8_t *at;
    size_t len;
};

/* An argument of a call of libbootkeep that answers to a buffer: where, how much room, and how many bytes it has. */
#define INTO(answer) (answer)->at, (answer)->len, &(answer)->len

/*
 * Makes a call of libbootkeep whose answer is INTO(answer), first with no room and then with as much as it needs. What
 * `answer` had isn't freed. Its status goes to `status`.
 */
#define ANSWER(status, answer, call)                                                                                   \
    do {                                                                                                               \
        *(answer) = (struct bytes){NULL, 0};                                                                           \
        (status) = (call);                                                                                             \
        if ((status) == BOOTKEEP_NO_ROOM)                                                                              \
            (status) = bytes_make((answer), (answer)->len) ? (call) : BOOTKEEP_NO_MEMORY;                              \
        if ((status) != BOOTKEEP_DONE)                                                                                 \
            bytes_free(answer);                                                                                        \
    } while (0)

/* Makes room for so many bytes: false if memory is refused. What was there isn't freed. */
bool bytes_make(struct bytes *bytes, size_t len);
/* The same bytes once more: false if memory is refused. */
bool bytes_copy(struct bytes *copy, const uint8_t *at, size_t len);
/* Two runs of bytes, one after the other: false if memory is refused. */
bool bytes_join(struct bytes *joined, struct bytes first, struct bytes second);
void bytes_free(struct bytes *bytes);
/* Gives up the bytes and takes the others, which `from` doesn't have any more. */
void bytes_take(struct bytes *bytes, struct bytes *from);
bool bytes_equal(struct bytes one, struct bytes other);

/* Texts of C that are owned. */
struct texts {
    char **at;
    size_t count;
};

/* Appends a copy of so many bytes, as a text: false if memory is refused. */
bool texts_add(struct texts *texts, const char *text, size_t len);
void texts_free(struct texts *texts);
bool texts_have(const struct texts *texts, const char *text);

/* A name of a variable, and the name of the file that shows it. */
struct variable_file {
    char *name;
    char *file;
};

/* What a folder shows, or a variable file has, of a machine's variables. */
struct variables {
    /* Whether they are in a variable file, and then all of its bytes. */
    bool is_file;
    struct bytes file;
    /* A set of what the machine keeps: of the boot manager's variables their attributes too. */
    struct bytes kept;
    /* A set of the data of those that a set can hold. */
    struct bytes data;
    /* The names of the variables of the boot manager that no set can hold. Some are let go, if they are replaced. */
    struct texts left_out;
    /* The names of those that were read so: what was read of them says nothing of what they have. */
    struct texts unheld;
    /* In a folder the file of each variable, also of those that are left out. */
    struct variable_file *files;
    size_t files_len;
};

/* What the machine keeps, and its journal, without the notes before it: what moves begin with, and lead to. */
struct store {
    struct bytes kept;
    struct bytes journal;
};

/* Why a step failed: as struct bootkeep_machine_fault has it, with texts of its own. */
struct reason {
    int system_error;
    struct bootkeep_refusal refusal;
    char path[PATH_MAX + NAME_MAX];
};

/* What became of a call, as struct bootkeep_machine_fault has it. */
struct outcome {
    uint32_t status;
    uint32_t at;
    uint32_t left;
    struct reason why;
    struct reason second;
    char text[2 * (PATH_MAX + NAME_MAX) + 512];
};

/* A handle of a machine. */
struct bootkeep_machine {
    /* What was given at open: the folder of the variables or the variable file, and the state folder. */
    char *place;
    char *state;
    /* Whether the state folder was given. */
    bool names_state;
    /*
     * What the names of its entries begin with in the folder: BOOT_FAMILY, but while what is owed of another family is
     * settled. Their names are those of the boot manager's everywhere else.
     */
    const char *family;
    /* NULL for what the system says. */
    char *given_name;
    char *given_start;
    uint32_t flags;
    /* The words of records, each ended by a zero, or none for those that there are without. */
    struct bytes words;
    /* What became of the last call. */
    struct outcome outcome;
    struct texts remarks;
    /* What the last call told by pointers. */
    struct bytes before;
    struct bytes after;
    struct bytes answer;
    struct bytes plan;
    struct bytes order;
    struct bootkeep_machine_entry *entries;
    size_t entries_len;
    struct texts entry_texts;
    /* The replies of the last update. */
    struct bootkeep_reply *replies;
    uint32_t *same;
    size_t replies_len;
};

/* ---- fault.c: what became of a call --------------------------------------------------------------------------- */

/* Begins a call with this handle: what the last one told is given up. */
void call_begin(struct bootkeep_machine *machine);
/* The call is done. */
uint32_t call_done(struct bootkeep_machine *machine);
/* Memory was refused. */
uint32_t call_no_memory(struct bootkeep_machine *machine);
/* A `size` is too small. */
uint32_t call_bad_size(struct bootkeep_machine *machine);
/* The system refused something of the file at the path, for this number of errno, of which ENOMEM is memory. */
uint32_t call_system(struct bootkeep_machine *machine, uint32_t at, const char *path, int system_error);
/* Somebody else has the lock of the folder at the path. */
uint32_t call_busy(struct bootkeep_machine *machine, uint32_t at, const char *path);
/* The call is refused: the path may be NULL. */
uint32_t call_refused(struct bootkeep_machine *machine, uint32_t at, const char *path, uint32_t kind);
/* The same for the refusal of a call of libbootkeep with this status, which isn't BOOTKEEP_DONE. */
uint32_t call_answered(struct bootkeep_machine *machine, uint32_t at, const char *path, uint32_t status,
                       const struct bootkeep_refusal *refusal);
/* The call failed with this status and these words, which are its whole text. */
uint32_t call_told(struct bootkeep_machine *machine, uint32_t at, uint32_t status, const char *text);
/* The call is refused, or taken back, for what is in `machine->outcome.why`, and perhaps in `machine->outcome.second`.
 */
uint32_t call_ended(struct bootkeep_machine *machine, uint32_t at, uint32_t status, uint32_t left);
/* A reason, written into its place. */
void reason_set(struct reason *reason, const char *path, int system_error, uint32_t kind);
/* Appends a remark about the file at the path: false if memory is refused. */
bool remark(struct bootkeep_machine *machine, const char *path, const char *text);

/* ---- names.c: the boot manager's names ------------------------------------------------------------------------- */

/* Whether this is the name of an entry, Boot####, of which the number goes to `*number`, if that isn't NULL. */
bool is_entry_name(const char *name, size_t len, uint32_t *number);
/* Whether this is the name of an entry, BootOrder, BootNext or Timeout. */
bool is_boot_name(const char *name, size_t len);
bool is_utf8(const char *text, size_t len);
/* The name that an entry or the order of the one family has in the other: false if it is neither. */
bool name_in_family(const char *name, const char *from, const char *to, char made[FAMILY_NAME_ROOM]);
/* The name of the boot manager's as it is in the machine's family: in `made`, or as it is if it isn't one of them. */
const char *shown_name(const struct bootkeep_machine *machine, const char *name, char made[FAMILY_NAME_ROOM]);
/* The name of an entry, with a zero after it. */
void entry_name(char name[BOOT_NAME_ROOM], uint32_t number);

/* ---- sets.c: sets of variables --------------------------------------------------------------------------------- */

/* What a set has under a name: BOOTKEEP_ABSENT if nothing. */
uint32_t set_get(struct bytes set, const char *name, struct bytes *value);
/* Puts a value into a set, or takes it out for NULL. `refusal` is that of bootkeep_vars_put. */
uint32_t set_put(struct bytes *set, const char *name, const uint8_t *value, size_t len,
                 struct bootkeep_refusal *refusal);
/* A set without variables: false if memory is refused. */
bool set_empty(struct bytes *set);

/* A variable in the bytes of a set. */
struct item {
    const char *name;
    size_t name_len;
    const uint8_t *data;
    size_t data_len;
};

/* The variables of a set, in an array that is the caller's to free, or NULL with `*count` at 0 if there are none. */
uint32_t set_items(struct bytes set, struct item **items, size_t *count, struct bootkeep_refusal *refusal);
/* A set of the data of those variables that a set can hold, of one of what the machine keeps. */
uint32_t set_data_of(struct bytes kept, struct bytes *data);
/* Whether the boot manager's variables of the two sets are the same: into `*same`. */
uint32_t sets_are_same(struct bytes one, struct bytes other, bool *same);

/* ---- files.c: whole files --------------------------------------------------------------------------------------- */

/* What became of reading a file. Those above 0 are numbers of errno. */
enum { READ_DONE = 0, READ_IRREGULAR = -1, READ_TOO_MUCH = -2 };

/* Reads a regular file whole, links followed; what isn't one isn't opened. The answer is as above. */
int read_regular(const char *path, size_t limit, struct bytes *bytes);
/* Reads so many bytes of a regular file, or as many as it has. */
int read_front(const char *path, size_t most, struct bytes *bytes);
/* Reads whatever is at the path whole: READ_TOO_MUCH if it has more bytes than the limit. */
int read_any(const char *path, size_t limit, struct bytes *bytes);
/* Replaces the file at the path as a whole, or makes it, for its owner alone: 0, or a number of errno. */
int replace_file(const char *path, struct bytes bytes);
/*
 * Takes the lock of the regular file to which a path leads, of which `*lock` is the open file then, and `end` the path
 * without a link at its end: 0, EWOULDBLOCK, READ_IRREGULAR or another number of errno. No lock is waited for.
 */
int lock_regular(const char *path, char end[PATH_MAX], int *lock);
/*
 * Replaces the file of such a lock as a whole; it has the rights of the old one. If the lock is kept, it is of the new
 * file then, and otherwise of the old one. 0, or a number of errno: `*is_new` is whether the path leads to the new
 * file, which fails to be brought to the disk.
 */
int replace_locked(const char *end, int *lock, bool keeps_lock, struct bytes bytes, bool *is_new);
/* Brings what was written to a file, or the names in a folder, to the disk: 0, or a number of errno. */
int sync_file(int file);
int sync_folder(const char *path);
/* Makes a folder for its owner alone, unless something is there: 0, or a number of errno. */
int make_folder(const char *path, const char *parent);
/* The folder that the path's last name is in: into `folder`, of as much room as the path. */
void folder_of(const char *path, char *folder);
/* Joins a folder and a name: false if that is too long for a path. */
bool path_join(char path[PATH_MAX], const char *folder, const char *name);
/* Opens a file for reading, once more if a signal comes: -1 with errno if that can't be. */
int open_again(const char *path, int how, mode_t mode);
/* Takes the lock of an open folder without waiting: 0, EWOULDBLOCK, or another number of errno. */
int try_lock(int folder);

/* ---- variables.c: what is there ---------------------------------------------------------------------------------- */

/* Whether the variables are in a variable file, by what is at their path: something else than that and a folder is
 * refused. */
uint32_t place_look(struct bootkeep_machine *machine, bool *is_file);
/* Reads the variables. A variable file that is damaged is refused if they are to be changed, and otherwise told. */
uint32_t variables_read(struct bootkeep_machine *machine, bool is_change, struct variables *variables);
void variables_free(struct variables *variables);
/* Lets those of them go that no set can hold and that this set has: they are to be replaced. */
uint32_t variables_let_go(struct variables *variables, struct bytes set);
/* Leaves the variable of this name out, which is shown as the text, and tells why. */
uint32_t variables_leave_out(struct bootkeep_machine *machine, struct variables *variables, const char *name,
                             const char *shown, const char *why);

/* Refuses the change of the variable of this name, which no set can hold. */
uint32_t variables_refuse(struct bootkeep_machine *machine, const struct variables *variables, const char *name);

/* ---- folder.c: the folder of the variables --------------------------------------------------------------------- */

/* Reads the folder of the variables. */
uint32_t folder_read(struct bootkeep_machine *machine, struct variables *variables);

/* What a variable is to have, its attributes and its data, or NULL for nothing. */
struct wanted_value {
    const char *name;
    /* What was read of it, if only that is to be written over; otherwise `checks_before` is false. */
    bool checks_before;
    const uint8_t *before;
    size_t before_len;
    const uint8_t *after;
    size_t after_len;
};

/* Makes one change in the folder. If it isn't made, `why` says why; `*untouched` is whether nothing was written. */
bool variable_change(const struct bootkeep_machine *machine, const struct variables *variables,
                     const struct wanted_value *wanted, struct reason *why, bool *untouched);
/* Whether the variable has what it is to have. What can't be read hasn't. */
bool variable_has(const struct bootkeep_machine *machine, const struct variables *variables,
                  const struct wanted_value *wanted);

/* ---- store.c: the variable file ---------------------------------------------------------------------------------- */

/* Reads the variable file, as variables_read does. */
uint32_t store_read(struct bootkeep_machine *machine, bool is_change, struct variables *variables);
/* Refuses what is no variable file, or can't be read. */
uint32_t store_check(struct bootkeep_machine *machine);
/* The bytes of a variable file once it has what a machine keeps, but for the variables of these names, which stay. */
uint32_t store_with(struct bytes file, struct bytes kept, const struct texts *left_out, struct bytes *made,
                    struct bootkeep_refusal *refusal);

/* ---- due.c: changes of a variable file by the journal ------------------------------------------------------------ */

struct session;

/* A change of a variable file that isn't written yet: they are written at once. No bytes stand for no variable. */
struct due_change {
    char name[BOOT_NAME_ROOM];
    bool checks_before;
    struct bytes before;
    struct bytes after;
};

/* Keeps a change in mind: false if memory is refused. */
bool due_add(struct session *session, const struct wanted_value *wanted);
/* Writes them, and forgets them: false with `why` if that can't be, and the file is as it was, or has all of them. */
bool due_write(struct session *session, struct reason *why);
/* Forgets them, and that they were begun. */
void due_forget(struct session *session);
void due_free(struct session *session);
/* Whether the file has the value. What can't be read hasn't. */
bool due_is_made(const struct session *session, const struct wanted_value *wanted);

/* ---- identity.c: what the machine is called --------------------------------------------------------------------- */

struct identity {
    /* Its name, and what earlier versions called it, or NULL. */
    char *name;
    char *former;
    /* Why what should name it can't be read, or 0. */
    int unread;
    char start[START_ROOM];
};

/* What the machine is called. */
uint32_t identity_read(struct bootkeep_machine *machine, struct identity *identity);
/* The identity of its start, into `identity->start`. */
uint32_t identity_start(struct bootkeep_machine *machine, struct identity *identity);
void identity_free(struct identity *identity);
/* Whether this is the identity of a start: one to 64 characters from 0x21 to 0x7E. */
bool is_start(const char *text);
/* Whether the folder of the variables is on an efivarfs. What the system doesn't tell counts as none. */
bool is_on_efivarfs(const char *path);

/* ---- mounts.c: what is mounted ---------------------------------------------------------------------------------- */

/* A mount, of /proc/self/mountinfo. */
struct mount {
    unsigned major;
    unsigned minor;
    char root[PATH_MAX];
    char point[PATH_MAX];
    char kind[NAME_MAX];
};

/* What tells of mounts. */
#define MOUNTS "/proc/self/mountinfo"

/*
 * Of the mounts that the file at `mounts` tells of, the one to which a path leads, which has no links: 0, ENOENT if
 * there is none, or another number of errno.
 */
int leading_mount(const char *mounts, const char *path, struct mount *mount);
/* The first of them of the whole file system on the device of these numbers: as above. */
int mount_of_device(const char *mounts, unsigned major, unsigned minor, struct mount *mount);

/* ---- partition.c: partitions ------------------------------------------------------------------------------------- */

enum { PARTITION_ID_LEN = 16 };

/* What a call seeks: the file or the disk of this name, and the system below whose root it is. */
struct seeker {
    struct bootkeep_machine *machine;
    const char *root;
    const char *file;
};

/* A partition. */
struct partition {
    uint64_t number;
    uint64_t start;
    uint64_t size;
    uint64_t block_size;
    /* The 16 bytes that a node has, and 1 for a master boot record or 2 for a GUID partition table. */
    uint8_t signature[PARTITION_ID_LEN];
    uint8_t format;
    uint32_t told_number;
    /* The numbers of its device, or 0 if the system doesn't tell them. */
    unsigned major;
    unsigned minor;
};

/* The file or the disk is refused for this. */
uint32_t seeker_refuse(const struct seeker *seeker, uint32_t kind);
/* The system refused something of the file at the path. */
uint32_t seeker_fail(const struct seeker *seeker, const char *path, int error);
/* The path below the root, of one that begins there. */
bool seeker_below(const struct seeker *seeker, const char *path, char whole[PATH_MAX]);
/* The partition that a folder of /sys is of, without links; that of the device of these numbers; and the one at the
 * path of a device, or that of this number of the disk that is there: 0 stands for the first. */
uint32_t partition_of_folder(const struct seeker *seeker, const char *folder, struct partition *partition);
uint32_t partition_of_device(const struct seeker *seeker, unsigned major, unsigned minor, struct partition *partition);
uint32_t partition_of_named(const struct seeker *seeker, const char *device, uint32_t number,
                            struct partition *partition);
/* The path of a file of this name on a partition: false if memory is refused, and no bytes if the name can't be in one.
 */
bool partition_path(const struct partition *partition, const char *name, struct bytes *path);

/* ---- journal.c: the journal -------------------------------------------------------------------------------------- */

struct journal {
    /* All that is after the notes, or nothing if there is no file. */
    struct bytes file;
    /* The notes before it, or nothing. */
    struct bytes notes;
    bool is_idle;
};

/* Reads the journal of the state folder. A dry run goes on without one that may not be read. */
uint32_t journal_read(struct bootkeep_machine *machine, bool dry_run, struct journal *journal);
/* Whether it names another machine. */
bool journal_is_of_another(const struct identity *identity, const struct journal *journal);
/* Makes it this machine's own: unless it is a dry run, its file is replaced if it names another one. */
uint32_t journal_own(struct bootkeep_machine *machine, const struct identity *identity, bool dry_run,
                     struct journal *journal);
/* Gives it notes with a new identity, if it has none and the system draws one. */
uint32_t journal_begin_notes(struct bootkeep_machine *machine, const struct identity *identity,
                             struct journal *journal);
/* Replaces its file by these bytes, after the notes: false with `why` if that can't be. */
bool journal_replace(const struct bootkeep_machine *machine, struct bytes notes, struct bytes file, struct reason *why);
/* Whether its file has these bytes after the notes, or that can't be told. */
bool journal_may_have(const struct bootkeep_machine *machine, struct bytes notes, struct bytes file);
void journal_free(struct journal *journal);
/* The number of the next request, of a journal that has nothing left to do. */
uint32_t journal_next_number(struct bytes file, uint32_t *number);
/* Where BootKeepState is in the journal's file, which may be empty: NULL if there is none. */
const uint8_t *journal_state(struct bytes file, size_t *len);
/* What comes after the name of the machine in a journal's file, which isn't empty. */
const uint8_t *journal_end_of_name(struct bytes file);

/* ---- moves.c: moves, in memory and for real ---------------------------------------------------------------------- */

/* What is being done to a machine, as the replacements of its journal tell. */
enum doing { DOING_NOTHING, DOING_SETTLING, DOING_FIRST, DOING_BACK };

/* What a command came to whose last journal is written, whether or not there is memory to ask how it ended. */
enum ended { ENDED_NOT, ENDED_DONE, ENDED_TAKEN_BACK, ENDED_SETTLED };

/* The most moves that can fail in a call. */
#define FAILED_MAX 8

/* A machine that is open: locked, unless it is a dry run. */
struct session {
    struct bootkeep_machine *machine;
    bool dry_run;
    /* Whether a variable file is replaced as a whole, and not by the journal. */
    bool is_whole;
    /* Whether there is a state folder: without one only a variable file is changed, and nothing is kept. */
    bool has_state;
    int state_lock;
    int place_lock;
    /* The path of a variable file, without a link at its end. */
    char file_path[PATH_MAX];
    struct identity identity;
    struct variables variables;
    /* What is there now: `store.journal` is the journal's file after its notes. */
    struct store store;
    struct bytes notes;
    /* Whether the journal had notes before this call. */
    bool had_notes;
    enum doing doing;
    enum ended ended;
    /* The variables that this call has begun to write, since its changes are made for the first time. */
    struct texts begun;
    /* The changes of a variable file that aren't written yet. */
    struct due_change *due;
    size_t due_len;
    /* Why moves failed, the first one first. A move's reason is its place here and 1. */
    struct reason failed[FAILED_MAX];
    size_t failed_len;
};

/* Makes the moves of a command until it ends. In memory alone `store` is what changes, and otherwise the machine too.
 */
uint32_t moves_make(struct session *session, struct bootkeep_moves *moves, struct store *store, bool in_memory,
                    struct bootkeep_moves_end *end);
void store_free(struct store *store);
bool store_copy(struct store *copy, const struct store *store);

/* ---- pending.c: what is left to do --------------------------------------------------------------------------------
 */

/* Tells what doing it will do that wasn't meant: what it overwrites, and that BootNext isn't set again. */
uint32_t pending_tell(struct session *session);

/* ---- history.c: records ------------------------------------------------------------------------------------------ */

/* Keeps what was there before and after a change, and in `*number` the number of the record. */
uint32_t record_keep(struct session *session, struct bytes before, struct bytes after, const char *call,
                     uint64_t *number);
/* Takes out the newest record, if what is there now is what was before its change. What fails isn't told. */
void record_forget_unmade(struct session *session, struct bytes now);
/* Takes out the record of this number: 0, or a number of errno. */
int record_remove(const struct bootkeep_machine *machine, uint64_t number);

/* A record that was read. */
struct kept_record {
    uint64_t number;
    char path[PATH_MAX];
    struct bytes bytes;
};

/* Called with each record of the machine, the last one first, until it answers something else than BOOTKEEP_ABSENT. */
typedef uint32_t record_visit(struct session *session, const struct kept_record *record, void *with);
/* The answer of the last visit; BOOTKEEP_ABSENT if there are no more records. */
uint32_t records_visit(struct session *session, record_visit *visit, void *with);

/* ---- locks.c, session.c: a call over a machine
 * ---------------------------------------------------------------------------- */

struct wanted;

/* Begins the command of a change over what is there. */
typedef uint32_t wanted_begin(const struct wanted *wanted, const struct session *session, const struct store *store,
                              struct bootkeep_moves *moves, struct bootkeep_refusal *refusal);

/* A change that is wanted. */
struct wanted {
    /* The name of the call, for records. */
    const char *call;
    /* BOOTKEEP_MACHINE_DRY_RUN and others. */
    uint32_t flags;
    /* Whether the state folder is made, whether requests are run, and whether a record is kept. */
    bool makes_state;
    bool has_requests;
    bool keeps_record;
    /* Looks whether the variables that no set can hold allow it; or NULL. */
    uint32_t (*check)(struct wanted *wanted, struct session *session);
    /* Computes what it needs of what is there, once what was left is done; or NULL. */
    uint32_t (*prepare)(struct wanted *wanted, struct session *session);
    wanted_begin *begin;
    /* Finds more of why it is refused, once that is told; or NULL. */
    void (*explain)(const struct wanted *wanted, struct session *session);
    /* Told of the command that ran in memory, and ended well, before the change is made; or NULL. */
    uint32_t (*look)(struct wanted *wanted, struct session *session, struct bootkeep_moves *moves);
    /* What is done once the change is made; or NULL. */
    void (*end)(struct wanted *wanted, struct session *session);
    /* An edit, with its numbers and its option. */
    struct bootkeep_edit edit;
    const uint16_t *numbers;
    size_t numbers_len;
    const uint8_t *option;
    size_t option_len;
    /* The set that is to be brought back, and of write the set of data that was given. */
    struct bytes back;
    struct bytes given;
    /* The record that is undone. */
    uint64_t undone;
    /* The frames, what is expected, and the notes after them. */
    struct bytes stream;
    const struct bootkeep_machine_expected *expected;
    struct bytes notes_after;
};

/* Makes the change, and tells what came of it. */
uint32_t change_make(struct bootkeep_machine *machine, struct wanted *wanted, struct bootkeep_machine_change *change);
/* Begins a session: locks, unless it is a dry run, and reads. */
uint32_t session_open(struct session *session, struct bootkeep_machine *machine, struct wanted *wanted);
void session_close(struct session *session);
/* Locks the state folder and the variables, unless it is a dry run. */
uint32_t session_lock(struct session *session, const struct wanted *wanted);
/* Refuses flags that aren't among those. */
uint32_t check_flags(struct bootkeep_machine *machine, uint32_t flags, uint32_t known);

#endif
