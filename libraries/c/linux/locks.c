/* The locks of a call over a machine: of its state folder, and of its variables. */
#include "machine.h"

#include <errno.h>
#include <fcntl.h>
#include <stdio.h>
#include <string.h>
#include <sys/stat.h>
#include <unistd.h>

/* What belongs, where Linux shows it, to the user as whom this program runs. */
#define OWN_PROCESS "/proc/self"
/* The rights of a folder's group and of others to write it. */
enum { OTHERS_WRITE = 022 };

/* Why an open folder isn't kept from others than this user and root, or BOOTKEEP_NO_KIND. */
static uint32_t access_fault(const struct stat *folder)
{
    struct stat process;
    const uid_t user = stat(OWN_PROCESS, &process) == 0 ? process.st_uid : 0;

    if (folder->st_uid != 0 && folder->st_uid != user)
        return BOOTKEEP_MACHINE_FAULT_FOREIGN_STATE;
    return (folder->st_mode & OTHERS_WRITE) != 0 ? BOOTKEEP_MACHINE_FAULT_SHARED_STATE : BOOTKEEP_NO_KIND;
}

/* Opens and locks a folder, of which `*lock` is the open file. */
static uint32_t lock_folder(struct bootkeep_machine *machine, uint32_t at, const char *path, bool is_guarded, int *lock)
{
    struct stat found;
    uint32_t fault;
    int error;

    /* Something else than a folder isn't opened: a pipe would be waited for. */
    *lock = open_again(path, O_RDONLY | O_DIRECTORY, 0);
    if (*lock < 0 && errno == ENOTDIR)
        return call_refused(machine, at, path, BOOTKEEP_MACHINE_FAULT_NO_FOLDER);
    if (*lock < 0 || fstat(*lock, &found) != 0)
        return call_system(machine, at, path, errno);
    fault = is_guarded ? access_fault(&found) : BOOTKEEP_NO_KIND;
    if (fault != BOOTKEEP_NO_KIND)
        return call_refused(machine, at, path, fault);
    error = try_lock(*lock);
    if (error == EWOULDBLOCK)
        return call_busy(machine, at, path);
    return error == 0 ? BOOTKEEP_DONE : call_system(machine, at, path, error);
}

/* Makes the state folder, if that is wanted and nothing is there, and locks it. */
static uint32_t lock_state(struct session *session, const struct wanted *wanted)
{
    struct bootkeep_machine *machine = session->machine;
    char parent[PATH_MAX];
    int error = 0;

    if (strlen(machine->state) >= sizeof parent)
        error = ENAMETOOLONG;
    if (error == 0 && wanted->makes_state) {
        folder_of(machine->state, parent);
        error = make_folder(machine->state, parent);
    }
    if (error != 0)
        return call_system(machine, BOOTKEEP_MACHINE_AT_STATE, machine->state, error);
    return lock_folder(machine, BOOTKEEP_MACHINE_AT_STATE, machine->state, true, &session->state_lock);
}

/* Goes on without a state folder, which the system refuses for what the call told: nothing is kept of the change. */
static uint32_t go_without_state(struct session *session)
{
    struct bootkeep_machine *machine = session->machine;
    char text[PATH_MAX + 256];

    snprintf(text, sizeof text, "there is no undo of this change: %.*s", PATH_MAX, machine->outcome.text);
    (void)call_done(machine);
    if (session->state_lock >= 0)
        close(session->state_lock);
    session->state_lock = -1;
    session->has_state = false;
    return remark(machine, machine->place, text) ? BOOTKEEP_DONE : call_no_memory(machine);
}

/* Locks the state folder. A variable file that is replaced as a whole is changed also without one, which isn't made for
 * a set that is written, unless it was given. */
static uint32_t lock_state_if_any(struct session *session, const struct wanted *wanted)
{
    const struct bootkeep_machine *machine = session->machine;
    struct stat found;
    uint32_t status;

    session->has_state = true;
    if (!session->is_whole || !wanted->makes_state)
        return lock_state(session, wanted);
    if (wanted->given.at != NULL && !machine->names_state && stat(machine->state, &found) != 0) {
        session->has_state = false;
        return BOOTKEEP_DONE;
    }
    status = lock_state(session, wanted);
    return status == BOOTKEEP_MACHINE_SYSTEM ? go_without_state(session) : status;
}

/* Locks the variable file. */
static uint32_t lock_file(struct session *session)
{
    const uint32_t at = BOOTKEEP_MACHINE_AT_VARIABLES;
    struct bootkeep_machine *machine = session->machine;
    int error = lock_regular(machine->place, session->file_path, &session->place_lock);

    if (error == EWOULDBLOCK)
        return call_busy(machine, at, machine->place);
    if (error == READ_IRREGULAR)
        return call_refused(machine, at, machine->place, BOOTKEEP_MACHINE_FAULT_IRREGULAR);
    return error == 0 ? BOOTKEEP_DONE : call_system(machine, at, machine->place, error);
}

uint32_t session_lock(struct session *session, const struct wanted *wanted)
{
    struct bootkeep_machine *machine = session->machine;
    const bool is_file = session->variables.is_file;
    uint32_t status = BOOTKEEP_DONE;

    if (session->dry_run)
        return BOOTKEEP_DONE;
    /* No state folder is made for what is no variable file. */
    if (is_file && wanted->makes_state)
        status = store_check(machine);
    if (status == BOOTKEEP_DONE)
        status = lock_state_if_any(session, wanted);
    if (status != BOOTKEEP_DONE)
        return status;
    return is_file ? lock_file(session)
                   : lock_folder(machine, BOOTKEEP_MACHINE_AT_VARIABLES, machine->place, false, &session->place_lock);
}
