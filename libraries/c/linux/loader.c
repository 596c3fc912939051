/*
 * The load option of a loader: its partition, as Linux tells of it, and the name of its file there, the short form that
 * firmware completes (UEFI 2.10, 3.1.2). The file is on a partition that is mounted, or on a disk that is named. It is
 * found as crates/disk_files and crates/partitions find it.
 */
#include "machine.h"

#include <dirent.h>
#include <errno.h>
#include <stdio.h>
#include <stdlib.h>
#include <string.h>
#include <sys/stat.h>
#include <sys/sysmacros.h>

/* ---- The file ------------------------------------------------------------------------------------------------------
 */

/* Whether the mounts are those of this system, as they are also below another root into which its /proc is mounted. */
static bool are_own(const struct seeker *seeker, const char *mounts)
{
    struct mount *mount = malloc(sizeof *mount);
    char path[PATH_MAX];
    char *whole = seeker_below(seeker, "/proc", path) ? realpath(path, NULL) : NULL;
    bool are = *seeker->root == '\0' || (mount != NULL && whole != NULL && leading_mount(mounts, whole, mount) == 0 &&
                                         strcmp(mount->kind, "proc") == 0);

    free(whole);
    free(mount);
    return are;
}

/* What a path has after the root, as the mounts have it, or NULL. */
static const char *behind_root(const struct seeker *seeker, const char *whole)
{
    char *root = realpath(seeker->root, NULL);
    const char *rest = NULL;

    if (root != NULL) {
        size_t len = strlen(root);

        while (len > 0 && root[len - 1] == '/')
            len--;
        if (strncmp(whole, root, len) == 0 && whole[len] == '/')
            rest = whole + len;
    }
    free(root);
    return rest;
}

/* The name that a file has in its file system, of its path where that is mounted. */
static bool name_in(const struct mount *mount, const char *path, char name[PATH_MAX])
{
    const size_t skipped = strcmp(mount->point, "/") == 0 ? 0 : strlen(mount->point);
    const char *stem = strcmp(mount->root, "/") == 0 ? "" : mount->root;

    return snprintf(name, PATH_MAX, "%s%s", stem, path + skipped) < PATH_MAX;
}

/* The device path of the file, whose path without links this is. */
static uint32_t path_of_whole(const struct seeker *seeker, const char *whole, const struct stat *found,
                              struct mount *mount, struct bytes *path)
{
    char mounts[PATH_MAX], name[PATH_MAX];
    struct partition partition = {0};
    const char *by_mounts = whole;
    bool own;
    uint32_t status;
    int error;

    if (!seeker_below(seeker, MOUNTS, mounts))
        return seeker_fail(seeker, seeker->root, ENAMETOOLONG);
    own = are_own(seeker, mounts);
    if (!own)
        by_mounts = behind_root(seeker, whole);
    if (by_mounts == NULL)
        return seeker_refuse(seeker, BOOTKEEP_MACHINE_FAULT_NO_PARTITION);
    error = leading_mount(mounts, by_mounts, mount);
    if (error != 0)
        return error == ENOENT ? seeker_refuse(seeker, BOOTKEEP_MACHINE_FAULT_NO_PARTITION)
                               : seeker_fail(seeker, mounts, error);
    status = partition_of_device(seeker, mount->major, mount->minor, &partition);
    if (status != BOOTKEEP_DONE)
        return status;
    /* Another file system may be mounted over the one that the mount is of. */
    if (own && (major(found->st_dev) != mount->major || minor(found->st_dev) != mount->minor))
        return seeker_refuse(seeker, BOOTKEEP_MACHINE_FAULT_NO_PARTITION);
    if (!name_in(mount, by_mounts, name))
        return seeker_fail(seeker, seeker->file, ENAMETOOLONG);
    if (!partition_path(&partition, name, path))
        return call_no_memory(seeker->machine);
    return path->len > 0 ? BOOTKEEP_DONE : seeker_refuse(seeker, BOOTKEEP_MACHINE_FAULT_BAD_LOADER_NAME);
}

/* The device path of the file, and the path at which it can be opened. */
static uint32_t path_of_file(const struct seeker *seeker, char opened[PATH_MAX], struct bytes *path)
{
    struct mount *mount = malloc(sizeof *mount);
    struct stat found = {0};
    char *whole = NULL;
    uint32_t status = BOOTKEEP_DONE;

    if (mount == NULL)
        return call_no_memory(seeker->machine);
    if (!seeker_below(seeker, seeker->file, opened))
        status = seeker_fail(seeker, seeker->file, ENAMETOOLONG);
    else if (stat(opened, &found) != 0)
        status = seeker_fail(seeker, opened, errno);
    else if (!S_ISREG(found.st_mode))
        status = seeker_refuse(seeker, BOOTKEEP_MACHINE_FAULT_IRREGULAR);
    if (status == BOOTKEEP_DONE) {
        whole = realpath(opened, NULL);
        status = whole == NULL ? seeker_fail(seeker, opened, errno) : path_of_whole(seeker, whole, &found, mount, path);
    }
    free(whole);
    free(mount);
    return status;
}

/* The name of a file from the root of its file system on, with a slash for each backslash, and one in front. */
static bool slashed(const char *file, char name[PATH_MAX])
{
    if (snprintf(name, PATH_MAX, "%s%s", *file == '/' || *file == '\\' ? "" : "/", file) >= PATH_MAX)
        return false;
    for (; *name != '\0'; name++)
        if (*name == '\\')
            *name = '/';
    return true;
}

/* The path at which the file of this name on a partition can be opened, or an empty one if that isn't mounted. */
static void open_at(const struct seeker *seeker, const struct partition *partition, const char *name,
                    char opened[PATH_MAX])
{
    struct mount *mount = malloc(sizeof *mount);
    char mounts[PATH_MAX], point[PATH_MAX];

    opened[0] = '\0';
    if (mount != NULL && seeker_below(seeker, MOUNTS, mounts) &&
        mount_of_device(mounts, partition->major, partition->minor, mount) == 0) {
        const bool own = are_own(seeker, mounts);

        if ((own ? snprintf(point, PATH_MAX, "%s", mount->point) >= PATH_MAX
                 : !seeker_below(seeker, mount->point, point)) ||
            !path_join(opened, point, name + 1))
            opened[0] = '\0';
    }
    free(mount);
}

/* The device path of the file of this name on the disk that is named, and the path at which it can be opened. */
static uint32_t path_on_disk(const struct seeker *seeker, const struct bootkeep_machine_loader *loader,
                             char opened[PATH_MAX], struct bytes *path)
{
    const struct seeker named = {seeker->machine, seeker->root, loader->disk};
    struct partition partition = {0};
    char name[PATH_MAX];
    uint32_t status = partition_of_named(&named, loader->disk, loader->part, &partition);

    if (status != BOOTKEEP_DONE)
        return status;
    if (!slashed(loader->file, name))
        return seeker_fail(seeker, loader->file, ENAMETOOLONG);
    open_at(seeker, &partition, name, opened);
    if (!partition_path(&partition, name, path))
        return call_no_memory(seeker->machine);
    return path->len > 0 ? BOOTKEEP_DONE : seeker_refuse(seeker, BOOTKEEP_MACHINE_FAULT_BAD_LOADER_NAME);
}

/* Looks whether firmware starts the file, as far as that is told by its bytes. */
static uint32_t look_at_image(const struct seeker *seeker, const char *opened, bool is_forced)
{
    struct bootkeep_refusal refusal;
    uint32_t stage, effect = BOOTKEEP_EFFECT_UNDECIDED, status;
    struct bytes image;
    char text[160], words[128];
    int what = read_regular(opened, READ_MAX, &image);

    if (what == ENOMEM)
        return call_no_memory(seeker->machine);
    if (what != READ_DONE) {
        snprintf(text, sizeof text, "not looked at: %s",
                 what > 0 ? strerror_r(what, words, sizeof words) : "the file is too long");
        return remark(seeker->machine, seeker->file, text) ? BOOTKEEP_DONE : call_no_memory(seeker->machine);
    }
    status = bootkeep_image_check(image.at, image.len, &stage, &effect, &refusal);
    bytes_free(&image);
    if (status == BOOTKEEP_DONE || effect == BOOTKEEP_EFFECT_UNDECIDED)
        return BOOTKEEP_DONE;
    if (is_forced)
        return remark(seeker->machine, seeker->file, "firmware doesn't start the file")
                   ? BOOTKEEP_DONE
                   : call_no_memory(seeker->machine);
    reason_set(&seeker->machine->outcome.why, seeker->file, 0, BOOTKEEP_MACHINE_FAULT_NOT_STARTED);
    seeker->machine->outcome.why.refusal.inner_kind = refusal.kind;
    seeker->machine->outcome.why.refusal.inner_place = refusal.place;
    return call_ended(seeker->machine, BOOTKEEP_MACHINE_AT_LOADER, BOOTKEEP_REFUSED, BOOTKEEP_MACHINE_LEFT_NOTHING);
}

/* The same of a file on a disk that is named: it may be yet to be put there, and it isn't looked at if its partition
 * isn't mounted. */
static uint32_t look_on_disk(const struct seeker *seeker, const char *opened, bool is_forced)
{
    struct stat found;
    const char *why = "not looked at: its partition isn't mounted";

    if (*opened != '\0' && stat(opened, &found) == 0 && S_ISREG(found.st_mode))
        return look_at_image(seeker, opened, is_forced);
    if (*opened != '\0')
        why = "no file of this name is on the partition";
    return remark(seeker->machine, seeker->file, why) ? BOOTKEEP_DONE : call_no_memory(seeker->machine);
}

/* The load option of the loader, whose file is looked at if that is wanted. */
static uint32_t make_option(struct bootkeep_machine *machine, const struct bootkeep_machine_loader *loader,
                            bool is_looked_at, bool is_forced, struct bytes *option)
{
    const struct seeker seeker = {machine, loader->root == NULL ? "" : loader->root, loader->file};
    const bool is_on_disk = loader->disk != NULL;
    struct bootkeep_refusal refusal;
    struct bytes path = {NULL, 0};
    char opened[PATH_MAX] = "";
    uint32_t status = is_on_disk ? path_on_disk(&seeker, loader, opened, &path) : path_of_file(&seeker, opened, &path);

    *option = (struct bytes){NULL, 0};
    if (status == BOOTKEEP_DONE && is_looked_at)
        status = is_on_disk ? look_on_disk(&seeker, opened, is_forced) : look_at_image(&seeker, opened, is_forced);
    if (status == BOOTKEEP_DONE) {
        ANSWER(status, option,
               bootkeep_option_make(loader->attributes, (const uint8_t *)loader->description,
                                    strlen(loader->description), path.at, path.len, loader->optional,
                                    loader->optional_len, INTO(option), &refusal));
        if (status != BOOTKEEP_DONE)
            status = call_answered(machine, BOOTKEEP_MACHINE_AT_LOADER, loader->file, status, &refusal);
    }
    bytes_free(&path);
    return status;
}

/* Refuses a loader of which the struct hasn't all that it had at first, and the partition of no disk. */
static uint32_t check_loader(struct bootkeep_machine *machine, const struct bootkeep_machine_loader *loader)
{
    if (loader->size < sizeof *loader || loader->file == NULL || loader->description == NULL)
        return call_bad_size(machine);
    if (loader->disk == NULL && loader->part != 0)
        return call_refused(machine, BOOTKEEP_MACHINE_AT_NONE, NULL, BOOTKEEP_MACHINE_FAULT_BAD_WORDS);
    return BOOTKEEP_DONE;
}

uint32_t bootkeep_machine_loader(struct bootkeep_machine *machine, const struct bootkeep_machine_loader *loader,
                                 const uint8_t **option, size_t *option_len)
{
    uint32_t status;

    call_begin(machine);
    status = check_loader(machine, loader);
    if (status == BOOTKEEP_DONE)
        status = make_option(machine, loader, false, false, &machine->answer);
    *option = machine->answer.at;
    *option_len = machine->answer.len;
    return status;
}

uint32_t bootkeep_machine_add_loader(struct bootkeep_machine *machine, const struct bootkeep_machine_loader *loader,
                                     uint32_t number, uint32_t position, uint32_t flags,
                                     struct bootkeep_machine_change *change)
{
    const uint32_t known = BOOTKEEP_MACHINE_DRY_RUN | BOOTKEEP_MACHINE_AGAIN | BOOTKEEP_MACHINE_FORCE;
    struct texts remarks;
    struct bytes option;
    uint32_t status;

    call_begin(machine);
    status = check_loader(machine, loader);
    if (status == BOOTKEEP_DONE)
        status = check_flags(machine, flags, known);
    if (status == BOOTKEEP_DONE)
        status = make_option(machine, loader, true, (flags & BOOTKEEP_MACHINE_FORCE) != 0, &option);
    if (status != BOOTKEEP_DONE)
        return status;
    /* What was found of the file is told with what comes of the change. */
    remarks = machine->remarks;
    machine->remarks = (struct texts){NULL, 0};
    status =
        bootkeep_machine_add(machine, option.at, option.len, number, position, flags & ~BOOTKEEP_MACHINE_FORCE, change);
    for (size_t i = 0; i < remarks.count; i++)
        if (!texts_add(&machine->remarks, remarks.at[i], strlen(remarks.at[i])))
            break;
    texts_free(&remarks);
    bytes_free(&option);
    return status;
}
