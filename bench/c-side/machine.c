/*
 * A machine in memory, over which a command is run whose moves are made, refused or cut off as its line says.
 *
 * `moves` is handed a set of what the machine keeps, the answers, and what is run: `f` and a stream of frames, `e` and
 * the numbers of an edit, those of its entries and its option, or `s` for nothing. What becomes of each move the byte
 * at its place says: 0 that it is made, 1 that it is refused, 2 that it is refused and made, and 3 that power fails
 * before it; moves for which there is none are made. Then what is left is settled. It tells how the command ended, or
 * that it was cut, and the variables and the journal in the end.
 *
 * `noted` is handed a set of what the machine keeps, notes, and two streams of frames. The first is run, and then the
 * second one, by whose notes those after the first are taken. It tells of each the notes after it, and whether each
 * frame is the one that was applied under its number.
 *
 * Each call is made with requests for memory refused in turn, with no room, and with structs of too small a size.
 */
#include "calls.h"

#include <bootkeep.h>
#include <inttypes.h>
#include <limits.h>
#include <stdio.h>
#include <stdlib.h>
#include <string.h>

enum { MADE, REFUSED, PERHAPS, CUT, REASON = 7, SECOND_REASON = 8, MARK = 0xA5 };

#define BYTES(bytes) (bytes).at, (bytes).len

static const uint8_t NAME[] = "machine", START[] = "start";

struct machine {
    struct bytes set, journal;
};

/* What a command is to run. */
struct wanted {
    char kind;
    struct bytes parts[3];
};

static void replace(struct bytes *held, struct bytes other)
{
    free(held->at);
    *held = other;
}

/* What the call of a command gives, which is made first without room. */
static struct bytes given_by(uint32_t (*call)(struct bootkeep_moves *, uint8_t *, size_t, size_t *),
                             struct bootkeep_moves *moves)
{
    struct bytes given = {NULL, 0};
    uint32_t status = call(moves, NULL, 0, &given.len);

    if (status == BOOTKEEP_NO_ROOM) {
        given.at = make(given.len);
        if (call(moves, given.at, given.len - 1, &given.len) != BOOTKEEP_NO_ROOM)
            complain("there is room for one too few");
        status = call(moves, given.at, given.len, &given.len);
    }
    if (status != BOOTKEEP_DONE)
        complain("a part of a move isn't given");
    return given;
}

/* The machine once this move is made. */
static void make_move(struct machine *machine, struct bootkeep_moves *moves, uint32_t kind)
{
    struct bootkeep_refusal refusal;
    struct bytes name, data = {NULL, 0}, set = {NULL, 0};
    uint32_t status;

    if (kind == BOOTKEEP_MOVE_JOURNAL) {
        replace(&machine->journal, given_by(bootkeep_moves_bytes, moves));
        return;
    }
    name = given_by(bootkeep_moves_name, moves);
    if (kind == BOOTKEEP_MOVE_SET)
        data = given_by(bootkeep_moves_bytes, moves);
    // A record of a set has at most so many bytes beside its name and its data.
    set.len = machine->set.len + name.len + data.len + 8;
    set.at = make(set.len);
    status = kind == BOOTKEEP_MOVE_SET
                 ? bootkeep_vars_put(BYTES(machine->set), BYTES(name), BYTES(data), set.at, set.len, &set.len, &refusal)
                 : bootkeep_vars_remove(BYTES(machine->set), BYTES(name), set.at, set.len, &set.len, &refusal);
    // What isn't there is deleted.
    if (status == BOOTKEEP_DONE)
        replace(&machine->set, set);
    else if (status != BOOTKEEP_ABSENT || kind != BOOTKEEP_MOVE_DELETE)
        complain("a move can't be made");
    else
        free(set.at);
    free(name.at);
    free(data.at);
}

/* Begins the command in memory that nothing was written to. */
static uint32_t begin(struct bootkeep_moves *moves, const struct machine *machine, const struct wanted *wanted,
                      struct bootkeep_refusal *refusal)
{
    struct bootkeep_edit edit;

    memset(moves, MARK, sizeof *moves);
    if (wanted->kind == 'f')
        return bootkeep_moves_requests(moves, NAME, sizeof NAME - 1, START, sizeof START - 1, BYTES(machine->set),
                                       BYTES(machine->journal), BYTES(wanted->parts[0]), refusal);
    if (wanted->kind == 'b')
        return bootkeep_moves_restore(moves, NAME, sizeof NAME - 1, START, sizeof START - 1, BYTES(machine->set),
                                      BYTES(machine->journal), BYTES(wanted->parts[0]), refusal);
    if (wanted->kind == 's')
        return bootkeep_moves_settle(moves, NAME, sizeof NAME - 1, START, sizeof START - 1, BYTES(machine->set),
                                     BYTES(machine->journal), refusal);
    edit = edit_of(wanted->parts[0]);
    edit.size--;
    if (bootkeep_moves_edit(moves, NAME, sizeof NAME - 1, START, sizeof START - 1, BYTES(machine->set),
                            BYTES(machine->journal), &edit, NULL, 0, NULL, 0, refusal) != BOOTKEEP_BAD_SIZE ||
        moves->is_open)
        complain("an edit of too small a size is begun");
    edit.size++;
    return bootkeep_moves_edit(moves, NAME, sizeof NAME - 1, START, sizeof START - 1, BYTES(machine->set),
                               BYTES(machine->journal), &edit, (const uint16_t *)(const void *)wanted->parts[1].at,
                               wanted->parts[1].len / 2, BYTES(wanted->parts[2]), refusal);
}

/* The next request for memory that is refused: each of the first ones, and then fewer and fewer. */
static unsigned long later(unsigned long at)
{
    return at + 1 + at / 8;
}

/* Begins the command, first with requests for memory refused. */
static uint32_t begin_hard(struct bootkeep_moves *moves, const struct machine *machine, const struct wanted *wanted,
                           struct bootkeep_refusal *refusal)
{
    uint32_t status;

    for (unsigned long at = 1;; at = later(at)) {
        refuse_at = at;
        was_refused = false;
        status = begin(moves, machine, wanted, refusal);
        refuse_at = 0;
        if (moves->is_open != (status == BOOTKEEP_DONE))
            complain("the command is open or closed, and shouldn't be");
        if (!was_refused)
            return status;
        if (status != BOOTKEEP_NO_MEMORY)
            complain("a request for memory was refused, and what begins a command doesn't say so");
    }
}

/* How the command ended, which is asked for in too small a struct first. */
static struct bootkeep_moves_end end_of(struct bootkeep_moves *moves)
{
    struct bootkeep_moves_end end;

    memset(&end, MARK, sizeof end);
    end.size = sizeof end - 1;
    if (bootkeep_moves_end(moves, &end) != BOOTKEEP_BAD_SIZE)
        complain("an end of too small a size is told");
    end.size = sizeof end;
    if (bootkeep_moves_end(moves, &end) != BOOTKEEP_DONE || end.size != sizeof end)
        complain("the end isn't told");
    return end;
}

/* The kind of the next move, which is asked for with requests for memory refused first. */
static uint32_t next_hard(struct bootkeep_moves *moves)
{
    uint32_t kind = UINT32_MAX, status;

    for (unsigned long at = 1;; at = later(at)) {
        refuse_at = at;
        was_refused = false;
        status = bootkeep_moves_next(moves, &kind);
        refuse_at = 0;
        if (!was_refused)
            break;
        if (status == BOOTKEEP_DONE ? kind != BOOTKEEP_MOVE_NONE || end_of(moves).kind != BOOTKEEP_END_NO_MEMORY
                                    : status != BOOTKEEP_NO_MEMORY)
            complain("a request for memory was refused, and the next move is told");
    }
    if (status != BOOTKEEP_DONE)
        complain("the next move isn't told");
    return kind;
}

/* Tells what became of a move, which takes no memory. */
static void tell(struct bootkeep_moves *moves, uint32_t became, uint32_t reason)
{
    refuse_at = 1;
    was_refused = false;
    if (bootkeep_moves_tell(moves, became, reason) != BOOTKEEP_DONE || was_refused)
        complain("what became of a move isn't heard");
    if (bootkeep_moves_tell(moves, became, reason) != BOOTKEEP_ABSENT)
        complain("what became of no move is heard");
    refuse_at = 0;
}

/* Makes the moves of a command, as the answers say. Whether it ended. */
static bool make_moves(struct machine *machine, struct bootkeep_moves *moves, struct bytes answers)
{
    uint32_t kind, reason = REASON;

    for (size_t at = 0; (kind = next_hard(moves)) != BOOTKEEP_MOVE_NONE; at++) {
        uint8_t answer = at < answers.len ? answers.at[at] : MADE;
        if (answer == CUT)
            return false;
        if (answer != REFUSED)
            make_move(machine, moves, kind);
        tell(moves, answer, answer == MADE ? 0 : reason);
        if (answer != MADE)
            reason = SECOND_REASON;
    }
    return true;
}

/* Says how the command ended, and the kinds of its replies. */
static void say_end(struct bootkeep_moves *moves)
{
    const struct bootkeep_moves_end end = end_of(moves);
    struct bootkeep_reply reply = {.size = sizeof reply - 1};

    printf("done %" PRIu32 " %" PRIu32 " %" PRIu32 " %" PRIu32 " %" PRIu32 " %" PRIu32, end.kind, end.reason,
           end.second_reason, end.fault, end.edited, end.entry);
    if (bootkeep_moves_reply(moves, 0, &reply) != BOOTKEEP_BAD_SIZE)
        complain("a reply of too small a size is told");
    reply.size = sizeof reply;
    for (size_t at = 0; at < end.replies; at++) {
        if (bootkeep_moves_reply(moves, at, &reply) != BOOTKEEP_DONE)
            complain("a reply isn't told");
        printf(" %" PRIu32, reply.kind);
    }
    if (bootkeep_moves_reply(moves, end.replies, &reply) != BOOTKEEP_ABSENT)
        complain("a reply is told that there isn't");
    putchar('\n');
}

/* Closes a command twice. */
static void close_hard(struct bootkeep_moves *moves, bool was_open)
{
    if (bootkeep_moves_close(moves) != (was_open ? BOOTKEEP_DONE : BOOTKEEP_CLOSED) ||
        bootkeep_moves_close(moves) != BOOTKEEP_CLOSED || moves->is_open)
        complain("closing says something else, or the command is open after it");
}

/* Says why something is refused. */
static void say_refusal(const struct bootkeep_refusal *refusal)
{
    printf("refused %" PRIu32 " %" PRIu32 " %zu %zu\n", refusal->kind, refusal->inner_kind, refusal->place,
           refusal->inner_place);
}

/* Runs a command, and says how it ended, that it was cut, or why it isn't begun. */
static void run(struct machine *machine, const struct wanted *wanted, struct bytes answers)
{
    struct bootkeep_moves moves;
    struct bootkeep_refusal refusal;
    uint32_t status = begin_hard(&moves, machine, wanted, &refusal);

    if (status == BOOTKEEP_REFUSED)
        say_refusal(&refusal);
    else if (make_moves(machine, &moves, answers))
        say_end(&moves);
    else
        puts("cut");
    close_hard(&moves, status == BOOTKEEP_DONE);
}

/* Does what a command has left to do. */
static void settle(struct machine *machine)
{
    const struct wanted nothing = {.kind = 's'};
    struct bootkeep_moves moves;
    struct bootkeep_refusal refusal;

    if (begin_hard(&moves, machine, &nothing, &refusal) != BOOTKEEP_DONE ||
        !make_moves(machine, &moves, (struct bytes){NULL, 0}) || end_of(&moves).kind != BOOTKEEP_END_DONE)
        complain("what is left isn't done");
    close_hard(&moves, true);
}

/* Asks for the notes after a command, without room, and with requests for memory refused, first. */
static uint32_t notes_after(struct bootkeep_moves *moves, struct bytes before, struct bytes *after,
                            struct bootkeep_refusal *refusal)
{
    uint32_t status = bootkeep_moves_notes(moves, BYTES(before), NULL, 0, &after->len, refusal);

    if (status != BOOTKEEP_REFUSED &&
        (status != (after->len > 0 ? BOOTKEEP_NO_ROOM : BOOTKEEP_DONE) || after->len > BOOTKEEP_NOTES_MAX))
        complain("the length of notes isn't told");
    for (unsigned long at = 1;; at = later(at)) {
        refuse_at = at;
        was_refused = false;
        status = bootkeep_moves_notes(moves, BYTES(before), after->at, BOOTKEEP_NOTES_MAX, &after->len, refusal);
        refuse_at = 0;
        if (!was_refused)
            break;
        if (status != BOOTKEEP_NO_MEMORY)
            complain("a request for memory was refused, and notes are given");
    }
    if (status != BOOTKEEP_DONE && status != BOOTKEEP_REFUSED)
        complain("notes aren't given");
    return status;
}

/* Whether a frame is the one that was applied under its number, which is asked for with requests for memory refused
 * first: of the first frame with many, and of the others with one, since each call looks at all frames. */
static uint32_t same_hard(struct bootkeep_moves *moves, struct bytes before, size_t place)
{
    struct bootkeep_refusal refusal;
    uint32_t same = UINT32_MAX, status;

    was_refused = true;
    for (unsigned long at = 1; was_refused; at = place == 0 ? later(at) : ULONG_MAX) {
        refuse_at = at;
        was_refused = false;
        status = bootkeep_moves_same(moves, BYTES(before), place, &same, &refusal);
        refuse_at = 0;
        if (status != (was_refused ? BOOTKEEP_NO_MEMORY : BOOTKEEP_DONE))
            complain("a request for memory was refused, and a frame is compared");
    }
    return same;
}

/* Says whether each frame is the one that was applied under its number, and that there are no more. */
static void say_same(struct bootkeep_moves *moves, struct bytes before, size_t count)
{
    struct bootkeep_refusal refusal;
    uint32_t same;

    for (size_t at = 0; at < count; at++)
        printf(" %" PRIu32, same_hard(moves, before, at));
    if (bootkeep_moves_same(moves, BYTES(before), count, &same, &refusal) != BOOTKEEP_ABSENT)
        complain("a frame is compared that there isn't");
    putchar('\n');
}

/* Says what is noted of a command that has ended, or why its notes are refused, at which the notes stay those before
 * it. */
static struct bytes say_notes(struct bootkeep_moves *moves, struct bytes before)
{
    struct bytes after = {make(BOOTKEEP_NOTES_MAX + before.len), UINT32_MAX};
    struct bootkeep_refusal refusal, other;
    uint32_t same = UINT32_MAX;

    if (notes_after(moves, before, &after, &refusal) == BOOTKEEP_DONE) {
        fputs("done", stdout);
        print_bytes(BYTES(after));
        say_same(moves, before, end_of(moves).replies);
        return after;
    }
    say_refusal(&refusal);
    if (bootkeep_moves_same(moves, BYTES(before), 0, &same, &other) != BOOTKEEP_REFUSED ||
        memcmp(&other, &refusal, sizeof other) != 0)
        complain("a frame is compared by notes that are refused");
    memcpy(after.at, before.at, before.len);
    after.len = before.len;
    return after;
}

/* Runs frames, says what is noted of them, and gives the notes after them. Before the command has ended, and once it is
 * closed, there are none. */
static struct bytes note(struct machine *machine, struct bytes before, struct bytes stream)
{
    const struct wanted wanted = {.kind = 'f', .parts = {stream, {NULL, 0}, {NULL, 0}}};
    struct bootkeep_moves moves;
    struct bootkeep_refusal refusal;
    struct bytes after;
    size_t len = 0;
    uint32_t same;

    if (begin_hard(&moves, machine, &wanted, &refusal) != BOOTKEEP_DONE ||
        bootkeep_moves_notes(&moves, BYTES(before), NULL, 0, &len, &refusal) != BOOTKEEP_ABSENT ||
        bootkeep_moves_same(&moves, BYTES(before), 0, &same, &refusal) != BOOTKEEP_ABSENT)
        complain("notes are told of a command that hasn't ended");
    make_moves(machine, &moves, (struct bytes){NULL, 0});
    after = say_notes(&moves, before);
    close_hard(&moves, true);
    if (bootkeep_moves_notes(&moves, BYTES(before), NULL, 0, &len, &refusal) != BOOTKEEP_CLOSED ||
        bootkeep_moves_same(&moves, BYTES(before), 0, &same, &refusal) != BOOTKEEP_CLOSED)
        complain("notes are told of a command that is closed");
    return after;
}

void note_commands(char **words)
{
    struct machine machine = {bytes_of(words[1]), {NULL, 0}};
    struct bytes before = bytes_of(words[2]), first = bytes_of(words[3]), second = bytes_of(words[4]), between, after;

    between = note(&machine, before, first);
    after = note(&machine, between, second);
    free(machine.set.at);
    free(machine.journal.at);
    free(before.at);
    free(first.at);
    free(second.at);
    free(between.at);
    free(after.at);
}

void command_machine(char **words, size_t count)
{
    struct machine machine = {bytes_of(words[1]), {NULL, 0}};
    struct bytes answers = bytes_of(words[2]);
    struct wanted wanted = {.kind = words[3][0]};

    for (size_t at = 0; at < 3; at++)
        wanted.parts[at] = bytes_of(at + 4 < count ? words[at + 4] : "-");
    run(&machine, &wanted, answers);
    settle(&machine);
    fputs("done", stdout);
    print_bytes(BYTES(machine.set));
    print_bytes(BYTES(machine.journal));
    putchar('\n');
    free(machine.set.at);
    free(machine.journal.at);
    free(answers.at);
    for (size_t at = 0; at < 3; at++)
        free(wanted.parts[at].at);
}
