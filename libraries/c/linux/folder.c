/*
 * The folder in which Linux shows variables, each as a file: its name, a hyphen and its vendor's GUID are the file's
 * name, and the file has four bytes of attributes and then the data. It is read and changed as crates/var_places does
 * it.
 */
#include "machine.h"

#include <dirent.h>
#include <errno.h>
#include <fcntl.h>
#include <stdio.h>
#include <stdlib.h>
#include <string.h>
#include <strings.h>
#include <sys/stat.h>
#include <unistd.h>

/* The GUID of the standard's vendor (UEFI 2.10, 3.3), after a hyphen, as a file that is new has it. */
#define VENDOR "-8be4df61-93ca-11d2-aa0d-00e098032b8c"

enum { VENDOR_LEN = sizeof VENDOR - 1 };

/* How many bytes the name of the variable has that a file of this name shows, or -1 if it shows none. */
static ssize_t variable_name_len(const char *file)
{
    size_t len = strlen(file);

    if (len < VENDOR_LEN || strcasecmp(file + len - VENDOR_LEN, VENDOR) != 0)
        return -1;
    return (ssize_t)(len - VENDOR_LEN);
}

static int compare_texts(const void *one, const void *other)
{
    return strcmp(*(char *const *)one, *(char *const *)other);
}

/* Reads the names of an open folder. */
static uint32_t read_names(struct bootkeep_machine *machine, DIR *folder, struct texts *names)
{
    const uint32_t at = BOOTKEEP_MACHINE_AT_VARIABLES;
    struct dirent *entry;

    while (errno = 0, (entry = readdir(folder)) != NULL) {
        const char *name = entry->d_name;

        if (strcmp(name, ".") == 0 || strcmp(name, "..") == 0)
            continue;
        if (!is_utf8(name, strlen(name))) {
            if (!remark(machine, machine->place, "a file is ignored: its name isn't UTF-8"))
                return call_no_memory(machine);
        } else if (!texts_add(names, name, strlen(name))) {
            return call_no_memory(machine);
        }
    }
    if (errno != 0)
        return call_system(machine, at, machine->place, errno);
    if (names->count > 1)
        qsort(names->at, names->count, sizeof *names->at, compare_texts);
    return BOOTKEEP_DONE;
}

/* The names of the files in the folder, in the order of their bytes. */
static uint32_t file_names(struct bootkeep_machine *machine, struct texts *names)
{
    DIR *folder = opendir(machine->place);
    uint32_t status;

    *names = (struct texts){NULL, 0};
    if (folder == NULL)
        return call_system(machine, BOOTKEEP_MACHINE_AT_VARIABLES, machine->place, errno);
    status = read_names(machine, folder, names);
    closedir(folder);
    return status;
}

/* The file that shows a variable, or NULL. */
static const char *file_of(const struct variables *variables, const char *name)
{
    for (size_t i = 0; i < variables->files_len; i++)
        if (strcmp(variables->files[i].name, name) == 0)
            return variables->files[i].file;
    return NULL;
}

/* Keeps in mind which file shows a variable: false if memory is refused. */
static bool add_file(struct variables *variables, const char *name, const char *file)
{
    struct variable_file *grown = realloc(variables->files, (variables->files_len + 1) * sizeof *variables->files);

    if (grown == NULL)
        return false;
    variables->files = grown;
    grown[variables->files_len] = (struct variable_file){strdup(name), strdup(file)};
    variables->files_len++;
    return grown[variables->files_len - 1].name != NULL && grown[variables->files_len - 1].file != NULL;
}

/* Why no set can hold a variable, by the refusal of putting it into one. */
static const char *why_left_out(uint32_t kind)
{
    switch (kind) {
    case BOOTKEEP_FAULT_PUT_BAD_NAME: return "its name isn't one to 64 characters of ASCII that print";
    case BOOTKEEP_FAULT_PUT_EMPTY_DATA: return "it has no value";
    default: return "its value has more than 1048576 bytes";
    }
}

/* Puts what a file of a variable has into the two sets, or leaves it out. */
static uint32_t keep(struct bootkeep_machine *machine, struct variables *variables, const char *name, const char *file,
                     struct bytes bytes)
{
    const bool is_boot = is_boot_name(name, strlen(name));
    const size_t skipped = bytes.len < ATTRIBUTES_LEN ? bytes.len : ATTRIBUTES_LEN;
    struct bootkeep_refusal refusal = {BOOTKEEP_NO_KIND, BOOTKEEP_NO_KIND, 0, 0};
    uint32_t status;

    if (strcmp(name, "BootKeepState") == 0)
        return variables_leave_out(machine, variables, name, file,
                                   "it belongs into a set file, and firmware refuses it");
    status = set_put(&variables->data, name, bytes.at + skipped, bytes.len - skipped, &refusal);
    if (status == BOOTKEEP_REFUSED)
        return variables_leave_out(machine, variables, name, file, why_left_out(refusal.kind));
    if (status == BOOTKEEP_DONE && is_boot && bytes.len > BOOTKEEP_DATA_MAX) {
        /* It has no room for its attributes beside its data. */
        return texts_add(&variables->left_out, name, strlen(name)) ? BOOTKEEP_DONE : call_no_memory(machine);
    }
    if (status == BOOTKEEP_DONE)
        status = is_boot ? set_put(&variables->kept, name, bytes.at, bytes.len, &refusal)
                         : set_put(&variables->kept, name, bytes.at + skipped, bytes.len - skipped, &refusal);
    if (status == BOOTKEEP_DONE)
        return status;
    return call_answered(machine, BOOTKEEP_MACHINE_AT_VARIABLES, machine->place, status, &refusal);
}

/* Adds the variable of this name, which a file shows. One that goes away meanwhile isn't there. */
static uint32_t add_variable(struct bootkeep_machine *machine, struct variables *variables, const char *name,
                             const char *file)
{
    const uint32_t at = BOOTKEEP_MACHINE_AT_VARIABLES;
    char path[PATH_MAX];
    struct bytes bytes;
    uint32_t status;
    int what;

    if (!path_join(path, machine->place, file))
        return call_system(machine, at, machine->place, ENAMETOOLONG);
    if (file_of(variables, name) != NULL)
        return call_refused(machine, at, path, BOOTKEEP_MACHINE_FAULT_TWICE);
    what = read_regular(path, VARIABLE_MAX, &bytes);
    if (what == ENOENT)
        return BOOTKEEP_DONE;
    if (what == READ_IRREGULAR)
        return call_refused(machine, at, path, BOOTKEEP_MACHINE_FAULT_IRREGULAR);
    if (what != READ_DONE && what != READ_TOO_MUCH)
        return call_system(machine, at, path, what);
    if (!add_file(variables, name, file)) {
        bytes_free(&bytes);
        return call_no_memory(machine);
    }
    status = what == READ_TOO_MUCH
                 ? variables_leave_out(machine, variables, name, file, why_left_out(BOOTKEEP_FAULT_PUT_DATA_TOO_LONG))
                 : keep(machine, variables, name, file, bytes);
    bytes_free(&bytes);
    return status;
}

/* Adds the variables that files of these names show. */
static uint32_t add_variables(struct bootkeep_machine *machine, const struct texts *files, struct variables *variables)
{
    uint32_t status = BOOTKEEP_DONE;
    bool is_any = false;

    for (size_t i = 0; i < files->count; i++)
        is_any = is_any || variable_name_len(files->at[i]) >= 0;
    /* A machine may have no entry, and then none of these variables, until it gets one. */
    if (!is_any && !is_on_efivarfs(machine->place))
        return call_refused(machine, BOOTKEEP_MACHINE_AT_VARIABLES, machine->place,
                            BOOTKEEP_MACHINE_FAULT_NO_VARIABLES);
    if (!set_empty(&variables->kept) || !set_empty(&variables->data))
        return call_no_memory(machine);
    for (size_t i = 0; status == BOOTKEEP_DONE && i < files->count; i++) {
        ssize_t len = variable_name_len(files->at[i]);
        char name[NAME_MAX + 1], own[FAMILY_NAME_ROOM];

        if (len < 0)
            continue;
        snprintf(name, sizeof name, "%.*s", (int)len, files->at[i]);
        if (strcmp(machine->family, BOOT_FAMILY) == 0)
            status = add_variable(machine, variables, name, files->at[i]);
        else if (name_in_family(name, machine->family, BOOT_FAMILY, own))
            status = add_variable(machine, variables, own, files->at[i]);
    }
    return status;
}

uint32_t folder_read(struct bootkeep_machine *machine, struct variables *variables)
{
    struct texts files;
    uint32_t status = file_names(machine, &files);

    if (status == BOOTKEEP_DONE)
        status = add_variables(machine, &files, variables);
    texts_free(&files);
    return status;
}

/* The path of the file of a variable: the one that shows it, or the one that is to. */
static bool path_of(const struct bootkeep_machine *machine, const struct variables *variables, const char *name,
                    char path[PATH_MAX])
{
    const char *file = file_of(variables, name);
    char made[FAMILY_NAME_ROOM + VENDOR_LEN], shown[FAMILY_NAME_ROOM];

    snprintf(made, sizeof made, "%s%s", shown_name(machine, name, shown), VENDOR);
    return path_join(path, machine->place, file == NULL ? made : file);
}

/* What is at the path of a variable's file. */
struct found {
    bool is_there;
    bool is_too_much;
    struct bytes bytes;
};

/* Looks at it; a link isn't followed. 0, READ_IRREGULAR, or a number of errno. */
static int find(const char *path, struct found *found)
{
    struct stat there;
    int what;

    *found = (struct found){false, false, {NULL, 0}};
    if (lstat(path, &there) != 0)
        return errno == ENOENT ? 0 : errno;
    if (S_ISLNK(there.st_mode))
        return READ_IRREGULAR;
    what = read_regular(path, VARIABLE_MAX, &found->bytes);
    if (what == ENOENT)
        return 0;
    found->is_there = true;
    found->is_too_much = what == READ_TOO_MUCH;
    return what == READ_TOO_MUCH ? 0 : what;
}

/* Whether that is what is to be there. */
static bool is_value(const struct found *found, const uint8_t *at, size_t len)
{
    if (at == NULL)
        return !found->is_there;
    return found->is_there && !found->is_too_much && found->bytes.len == len && memcmp(found->bytes.at, at, len) == 0;
}

/* Brings what was found to the disk: whoever wrote it may have been killed before that. */
static int sync_found(const char *folder, const char *path, const struct found *found)
{
    if (found->is_there) {
        int file = open_again(path, O_RDONLY, 0), error;

        if (file < 0)
            return errno;
        error = sync_file(file);
        close(file);
        if (error != 0)
            return error;
    }
    return sync_folder(folder);
}

/* Writes all of the bytes at once, as efivarfs wants it, to a file that isn't cut before. */
static int write_once(int file, const uint8_t *at, size_t len)
{
    struct stat made;
    ssize_t put = write(file, at, len);

    if (put < 0)
        return errno;
    if ((size_t)put < len)
        return EIO;
    if (fstat(file, &made) != 0)
        return errno;
    /* In a folder that isn't efivarfs, the file may have had more bytes. */
    return made.st_size > (off_t)len && ftruncate(file, (off_t)len) != 0 ? errno : 0;
}

/* Stores the bytes in the file, which is made if it is new; if nothing was written then, it is removed again. */
static int store(const char *path, const uint8_t *at, size_t len, bool is_new)
{
    int file = open_again(path, O_WRONLY | (is_new ? O_CREAT | O_EXCL : 0), 0666);
    struct stat made;
    int error;

    if (file < 0)
        return errno;
    error = write_once(file, at, len);
    if (error != 0 && is_new && fstat(file, &made) == 0 && made.st_size == 0)
        unlink(path);
    if (error == 0)
        error = sync_file(file);
    close(file);
    return error;
}

/* Changes the file at the path, where this was found. 0, a number of errno, or -1 if it isn't what was read of it. */
static int change_found(const char *folder, const char *path, const struct wanted_value *wanted,
                        const struct found *found, bool *untouched)
{
    int error;

    if (is_value(found, wanted->after, wanted->after_len))
        return sync_found(folder, path, found);
    if (wanted->checks_before && !is_value(found, wanted->before, wanted->before_len)) {
        *untouched = true;
        return -1;
    }
    if (wanted->after == NULL)
        error = unlink(path) == 0 ? 0 : errno;
    else
        error = store(path, wanted->after, wanted->after_len, !found->is_there);
    /* Somebody else has made it since it was looked at, or has taken it out. */
    if (wanted->checks_before && (error == EEXIST || error == ENOENT)) {
        *untouched = true;
        return -1;
    }
    return error == 0 ? sync_folder(folder) : error;
}

bool variable_change(const struct bootkeep_machine *machine, const struct variables *variables,
                     const struct wanted_value *wanted, struct reason *why, bool *untouched)
{
    char path[PATH_MAX];
    struct found found;
    int error;

    *untouched = false;
    if (!path_of(machine, variables, wanted->name, path)) {
        reason_set(why, machine->place, ENAMETOOLONG, BOOTKEEP_NO_KIND);
        return false;
    }
    error = find(path, &found);
    if (error == READ_IRREGULAR) {
        *untouched = true;
        reason_set(why, path, 0, BOOTKEEP_MACHINE_FAULT_IRREGULAR);
        return false;
    }
    if (error == 0)
        error = change_found(machine->place, path, wanted, &found, untouched);
    bytes_free(&found.bytes);
    if (error == -1)
        reason_set(why, path, 0, BOOTKEEP_MACHINE_FAULT_CHANGED_MEANWHILE);
    else
        reason_set(why, path, error, BOOTKEEP_NO_KIND);
    return error == 0;
}

bool variable_has(const struct bootkeep_machine *machine, const struct variables *variables,
                  const struct wanted_value *wanted)
{
    char path[PATH_MAX];
    struct found found;
    bool has;

    if (!path_of(machine, variables, wanted->name, path))
        return false;
    has = find(path, &found) == 0 && is_value(&found, wanted->after, wanted->after_len);
    bytes_free(&found.bytes);
    return has;
}
