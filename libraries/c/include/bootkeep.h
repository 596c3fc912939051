/*
 * bootkeep.h - device paths, load options, sets of boot variables, and numbered requests over them
 *
 * NAME
 *
 *     libbootkeep - the calls of Bootkeep for C
 *
 * SYNOPSIS
 *
 *     #include <bootkeep.h>
 *
 *     cc program.c $(pkg-config --cflags --libs bootkeep)
 *
 * DESCRIPTION
 *
 * Bytes go in and bytes come out. The calls are those of Bootkeep's proved libraries: each returns for every input,
 * accepts exactly what the formats say, and tells the first fault of anything else by number. What each call does is
 * said here, and in a manual of its own, as bootkeep_path_text(3). docs/c.md leads to a first program, and
 * docs/formats.md to the formats, to the byte: what is named in docs/ here is a page of the source.
 *
 * The calls are on values alone: they read and write no machine. To change one, a program makes the moves of
 * bootkeep_moves_next, which keep a journal over a loss of power, or calls `bootvars`, which makes them, and takes a
 * change back by `bootvars undo`.
 *
 * Each call answers a status, BOOTKEEP_DONE if all went well. Everything else that it tells goes to places of the
 * caller, so there is never anything to free: a program closes the keepers and commands that it opened, and that is
 * all.
 *
 * BUFFERS
 *
 * An answer of bytes goes to the caller's buffer: `out`, which has room for `cap` of them, and `*len`.
 *
 *     BOOTKEEP_DONE      the answer is the first `*len` bytes of `out`; the others are as they were
 *     BOOTKEEP_NO_ROOM   the answer has `*len` bytes, more than `cap`; nothing has happened, and `out` is as it was.
 *                        The same call with room for `*len` bytes will do
 *
 * At any other status `out` and `*len` are as they were. No answer has a zero byte at its end unless its format says
 * so: texts are `*len` bytes and not strings of C. A first call with a `cap` of 0 asks how long the answer is; its
 * `out` may be NULL.
 *
 * What else a call tells, as `*taken`, is written at BOOTKEEP_DONE alone.
 *
 * PARAMETERS
 *
 * These mean the same in each call that has them; what else a call is handed is said where it is declared.
 *
 *     out, cap, len            where the answer goes, how many bytes fit there, and how many the answer has
 *     refusal                  why what was handed in is refused
 *     bytes, bytes_len         the bytes that are read, and how many there are
 *     text, text_len           the text of a device path, in UTF-8, and how many bytes it has
 *     taken                    how many of the bytes the device path takes
 *     attributes               the attributes of a load option, all 32 bits: BOOTKEEP_ATTRIBUTE_ACTIVE,
 *                              BOOTKEEP_ATTRIBUTE_FORCE_RECONNECT, BOOTKEEP_ATTRIBUTE_HIDDEN, and a value of those of
 *                              BOOTKEEP_ATTRIBUTE_CATEGORY
 *     list, list_len           the device paths of a load option, one after the other, and how many bytes they have
 *     optional, optional_len   the optional data of a load option, and how many bytes they have
 *     set, set_len             a set, all the bytes of a set file, and how many there are
 *     name, name_len           the name of a variable, and how many bytes it has
 *     keeper                   the keeper
 *     frame, frame_len         the bytes that are delivered, and how many there are
 *     reply                    the reply, of which the caller has written `size`
 *     edit                     the edit, of which the caller has written `size`
 *     numbers, numbers_len     the numbers of the entries that an edit is of, in its sequence, and how many there are
 *     option, option_len       the bytes of the load option that BOOTKEEP_EDIT_ADD adds, and how many there are
 *     cap, len                 without an `out`: how many items fit in what the answer goes to, and how many it has
 *     item_size                how many bytes one of these items has: the caller's sizeof
 *     numbers                  where the answer goes: numbers of entries
 *     image, image_len         all the bytes of the image, and how many there are
 *     moves                    the command over a machine
 *     machine, machine_len     what the machine is called, any bytes, and how many: 1 to BOOTKEEP_MACHINE_MAX
 *     start, start_len         the identity of the machine's start, in printing ASCII, and how many bytes it has
 *     variables, variables_len  what the machine keeps of its variables, as a set, and how many bytes that has
 *     journal, journal_len     all the bytes of the journal's file, and how many: none if there is no such file
 *     notes, notes_len         the notes that a journal's file begins with, or all its bytes, and how many these are
 *     record, record_len       all the bytes of the record of a change, and how many there are
 *
 * PROCESSORS
 *
 * The libraries are for x86-64 (level x86-64-v2), in ELF and by the System V convention: another processor's compiler
 * is stopped here by an `#error`. What links COFF objects alone, as EDK2 does with MSVC or CLANGPDB, and Rust for
 * x86_64-unknown-uefi, can't link them.
 *
 * REFUSALS
 *
 * At BOOTKEEP_REFUSED, and only then, `*refusal` says why: `kind` is one of the numbers below, `place` is where, in
 * bytes from the first one of what was handed in unless the number says otherwise, and `inner_kind` and `inner_place`
 * are those of the fault within, if the number says that there is one. BOOTKEEP_NO_KIND and BOOTKEEP_NO_PLACE stand
 * for none.
 *
 * A number is never given out again, and its meaning never changes. A later version may add numbers, so a program
 * has to do with a number that it doesn't know.
 *
 * WHAT STAYS ON THE CALLER'S SIDE
 *
 * The promises of docs/promises.md are proved of the calls as they are written, on these conditions, which no proof
 * can see:
 *
 *   - Each pointer is to what its type says, as many of them as the number behind it says. One that has a number
 *     behind it may be NULL if that is 0, and no other is NULL. No length is above PTRDIFF_MAX.
 *   - What a call may write, an `out`, a `*len` and every other pointer without `const`, overlaps nothing else that
 *     the same call was handed, and nobody else reads or writes it until the call returns. Nobody writes what is
 *     handed in behind `const` until then.
 *   - A `struct bootkeep_keeper` or `struct bootkeep_moves` is opened, or zeroed, before any other call is handed it,
 *     and is never written, copied or moved by value after that: it has one owner. `at` is nobody's but the library's.
 *     One that is open is closed before it is opened again: what it holds is lost otherwise.
 *   - The program's malloc, realloc and free are one allocator, whose blocks have the usual alignment; in firmware its
 *     bootkeep_allocate, bootkeep_grow and bootkeep_free are. What these refuse is answered by BOOTKEEP_NO_MEMORY.
 *   - No call is made from a signal's handler, or in the child of a fork of a process with several threads before it
 *     has called exec.
 *   - The declarations here are those of the library that is linked: bootkeep_version() == BOOTKEEP_VERSION or more.
 *
 * THREADS
 *
 * Calls without a keeper or a command may be made by any thread at any time. A keeper, as a command, is used by one
 * thread at a time: it may be handed from one to another, and closed by any, if what hands it over orders the two
 * calls, as a lock, a channel or the start and the end of a thread does. That goes for calls that only look at it too,
 * as bootkeep_keeper_set and bootkeep_moves_name: they take what the handle holds out of it and put it back, so none of
 * them takes a pointer to const. Keepers have nothing to do with each other: all that one holds is its own, and the
 * library keeps nothing beside it. docs/c.md says what this rests on, which is no proof.
 */

#ifndef BOOTKEEP_H
#define BOOTKEEP_H

/* The structs below are laid out for 64 bits, and no library is built for another processor. x32 has pointers of 32. */
#if !defined(__x86_64__) && !defined(_M_X64)
#error "libbootkeep is built for x86-64 alone: this compiler makes code for another processor"
#elif defined(__ILP32__)
#error "libbootkeep is built for x86-64 with pointers of 64 bits: this compiler makes code for x32"
#endif

#include <stddef.h>
#include <stdint.h>

#ifdef __cplusplus
extern "C" {
#endif

/* What a compiler can check of calls: that an answer isn't dropped, and which pointers are never NULL. */
#if defined(__GNUC__) || defined(__clang__)
#define BOOTKEEP_CHECKED __attribute__((warn_unused_result))
#define BOOTKEEP_NONNULL(which) __attribute__((nonnull which))
#else
#define BOOTKEEP_CHECKED
#define BOOTKEEP_NONNULL(which)
#endif

/* ---- Firmware --------------------------------------------------------------------------------------------------- */

/*
 * The library for firmware, libbootkeep-firmware.a, has these calls without a C library. It takes memory by these three
 * functions of the program's, and refers to nothing else. The other libraries don't call them: they are declared only
 * if BOOTKEEP_FIRMWARE is defined before this file is included.
 *
 * No call takes more than BOOTKEEP_STACK_MAX bytes of the stack, of which UEFI has 128 KiB (UEFI 2.10, 2.3.4):
 * bootkeep_moves_next up to 30,000, a plan, an edit, a run and the events of a keeper 19,000, bootkeep_vars_at_risk
 * 15,000, bootkeep_image_digest 10,000, and all others 5,100. What the three functions take comes on top.
 * `tools/build-c --firmware` prints it for each call: it adds up the frames that the compiler tells, along the longest
 * way down, and counts what calls itself, sorts of numbers and what goes down a tree of them, as often as it does for
 * 65,536 numbers.
 *
 * The library uses no red zone, nothing of it is written, and it needs the processor's level x86-64-v2. Its calls have
 * the System V convention, so that XMM6 to XMM15 may be changed, which firmware wants back from what it calls (UEFI
 * 2.10, 2.3.4.2): a function with Microsoft's convention around them saves these, as compilers do.
 *
 * bootkeep_allocate gives a block of this many bytes, at least one, at a place that 8 divides, or NULL to refuse.
 * bootkeep_grow gives a block of `len` bytes in the place of one that was given: its first `kept` bytes are those of
 * that one, which is freed. At NULL that one stays as it was. bootkeep_free frees a block; the library hands it no
 * NULL.
 */
#define BOOTKEEP_STACK_MAX 32768

#if defined(BOOTKEEP_FIRMWARE)
void *bootkeep_allocate(size_t len);
void *bootkeep_grow(void *block, size_t kept, size_t len);
void bootkeep_free(void *block);
#endif

/* ---- Version ---------------------------------------------------------------------------------------------------- */

/* The version of the interface that this file declares. Each version has all that earlier ones have. */
#define BOOTKEEP_VERSION 1

/* The version of the interface that the library has. */
uint32_t bootkeep_version(void);

/* ---- Statuses --------------------------------------------------------------------------------------------------- */

/* The call did what it says. */
#define BOOTKEEP_DONE 0
/* What was handed in isn't what it has to be: `*refusal` says why. */
#define BOOTKEEP_REFUSED 1
/* A buffer is too short: `*len` says how much room the answer needs. Nothing has happened. */
#define BOOTKEEP_NO_ROOM 2
/* There is no variable of this name, no word of this number, no such move or reply, or there are no notes. */
#define BOOTKEEP_ABSENT 3
/*
 * Memory was refused. Nothing has happened.
 *
 * This may come in the place of any other status but BOOTKEEP_CLOSED and BOOTKEEP_BAD_SIZE, and but BOOTKEEP_REFUSED at
 * the calls that say so.
 */
#define BOOTKEEP_NO_MEMORY 4
/* The keeper, or the command over a machine, isn't open. */
#define BOOTKEEP_CLOSED 5
/*
 * The `size` of a struct is below that which the struct had when it first came, or `item_size` isn't the size of the
 * struct. Nothing has happened.
 */
#define BOOTKEEP_BAD_SIZE 6

/* ---- Sizes ------------------------------------------------------------------------------------------------------ */

/* The most bytes of a frame, of the name and of the data of a variable, and of the list of paths of an option. */
#define BOOTKEEP_FRAME_MAX 131084
#define BOOTKEEP_NAME_MAX 64
#define BOOTKEEP_DATA_MAX 1048576
#define BOOTKEEP_LIST_MAX 65535
/* The most numbers of a BootOrder, and so of a plan. */
#define BOOTKEEP_ORDER_MAX 65536
/* The most bytes of a word of a number. */
#define BOOTKEEP_WORD_MAX 32
/* The most bytes of the name of a machine. */
#define BOOTKEEP_MACHINE_MAX 4096
/* How many bytes the identity of a journal's notes has, and how many notes have at most. */
#define BOOTKEEP_IDENTITY_LEN 16
#define BOOTKEEP_NOTES_MAX 1557

/* ---- Refusals --------------------------------------------------------------------------------------------------- */

struct bootkeep_refusal {
    /* Why: one of the numbers below. */
    uint32_t kind;
    /* The number of the fault within, or BOOTKEEP_NO_KIND. */
    uint32_t inner_kind;
    /* Where, or BOOTKEEP_NO_PLACE. */
    size_t place;
    /* Where the fault within is, or BOOTKEEP_NO_PLACE. It counts from `place`. */
    size_t inner_place;
};

/* There is no fault. */
#define BOOTKEEP_NO_KIND 0
/* There is no place. */
#define BOOTKEEP_NO_PLACE SIZE_MAX

/*
 * Of the bytes of a device path. The place is that of the node with the fault.
 */

/* No byte remains where a node must be. */
#define BOOTKEEP_FAULT_PATH_NO_END 0x0101
/* One to three bytes remain, fewer than the header of a node has. */
#define BOOTKEEP_FAULT_PATH_SHORT_HEADER 0x0102
/* The node states a length below 4, that of its header alone. */
#define BOOTKEEP_FAULT_PATH_BAD_LENGTH 0x0103
/* The node states more bytes than remain. */
#define BOOTKEEP_FAULT_PATH_PAST_END 0x0104
/* The node has type 0x7F and isn't an end node. */
#define BOOTKEEP_FAULT_PATH_BAD_END 0x0105

/*
 * Of the text of a device path. The place is in the text.
 */

/* What is at this place isn't a segment. */
#define BOOTKEEP_FAULT_TEXT_BAD_SEGMENT 0x0201
/* The argument at this place must be a number and isn't a number's text. */
#define BOOTKEEP_FAULT_TEXT_BAD_NUMBER 0x0202
/* The argument at this place is out of its range. */
#define BOOTKEEP_FAULT_TEXT_OUT_OF_RANGE 0x0203
/* The segment at this place is a `Path` of type 0x7F, that of the end nodes. */
#define BOOTKEEP_FAULT_TEXT_BAD_END 0x0204
/* The text isn't UTF-8 from this place on. This comes before any other fault of a text. */
#define BOOTKEEP_FAULT_TEXT_NOT_UTF8 0x0205
/* Of bootkeep_path_parse alone: no node has the name at this place. */
#define BOOTKEEP_FAULT_TEXT_UNKNOWN_NAME 0x0206
/* Of bootkeep_path_parse alone: the argument at this place isn't what the node has there. */
#define BOOTKEEP_FAULT_TEXT_BAD_ARGUMENT 0x0207
/* Of bootkeep_path_parse alone: at this place the segment ends before it has all its arguments, or has one more. */
#define BOOTKEEP_FAULT_TEXT_BAD_COUNT 0x0208
/* Of bootkeep_path_parse alone: what the arguments of the segment at this place say is no data of its node. */
#define BOOTKEEP_FAULT_TEXT_BAD_DATA 0x0209

/*
 * Of a load option. Only BOOTKEEP_FAULT_OPTION_PATH and BOOTKEEP_FAULT_OPTION_NOT_UTF8 have a place, and the first has
 * a fault within; its place is in the list if an option is to be made.
 */

/* There are fewer bytes than the six of the attributes and of the length of the list. */
#define BOOTKEEP_FAULT_OPTION_SHORT 0x0301
/* No zero unit closes the description. */
#define BOOTKEEP_FAULT_OPTION_NO_TERMINATOR 0x0302
/* The list of paths has fewer bytes than the option states. */
#define BOOTKEEP_FAULT_OPTION_LIST_PAST_END 0x0303
/* The list of paths has no byte. */
#define BOOTKEEP_FAULT_OPTION_EMPTY_LIST 0x0304
/* The bytes of the list from this place of the option on don't begin with a path: `inner_kind` is that path's fault. */
#define BOOTKEEP_FAULT_OPTION_PATH 0x0305
/* Of bootkeep_option_make and bootkeep_option_make_units alone: a character of the description is zero. */
#define BOOTKEEP_FAULT_OPTION_ZERO_UNIT 0x0306
/* Of bootkeep_option_make and bootkeep_option_make_units alone: the paths have more bytes than BOOTKEEP_LIST_MAX. */
#define BOOTKEEP_FAULT_OPTION_LIST_TOO_LONG 0x0307
/* Of bootkeep_option_make alone: the description isn't UTF-8 from this place of it on. */
#define BOOTKEEP_FAULT_OPTION_NOT_UTF8 0x0308
/*
 * Of bootkeep_option_description_utf8 alone: half of a pair of units stands alone in the description, which is no text.
 */
#define BOOTKEEP_FAULT_OPTION_NOT_UTF16 0x0309

/*
 * Of a set file. The place is that of the record with the fault.
 */

/* The file doesn't begin with the four bytes `BVS1`. */
#define BOOTKEEP_FAULT_SET_BAD_MAGIC 0x0401
/* The file ends within the record. */
#define BOOTKEEP_FAULT_SET_TRUNCATED 0x0402
/* The name isn't one to 64 characters from 0x21 to 0x7E. */
#define BOOTKEEP_FAULT_SET_BAD_NAME 0x0403
/* The data is to have no byte, or more than 1,048,576. */
#define BOOTKEEP_FAULT_SET_BAD_DATA 0x0404
/* The name isn't above that of the record before, by bytes. */
#define BOOTKEEP_FAULT_SET_NOT_RISING 0x0405

/*
 * Of variables that say what is to be booted. None has a place.
 */

/* The bytes of BootOrder are odd in number, or more than two for each of 65,536 entries. */
#define BOOTKEEP_FAULT_VARS_BAD_ORDER 0x0501
/* BootNext has another number of bytes than two. */
#define BOOTKEEP_FAULT_VARS_BAD_NEXT 0x0502
/* The bytes of BootKeepState aren't ones that a keeper stores. Only keepers and runs look at it. */
#define BOOTKEEP_FAULT_VARS_BAD_STATE 0x0503

/*
 * Of a variable that is to be put into a set. None has a place.
 */

/* The name isn't one to 64 characters from 0x21 to 0x7E. */
#define BOOTKEEP_FAULT_PUT_BAD_NAME 0x0601
/* There is no data. A variable without data is deleted, and never stored. */
#define BOOTKEEP_FAULT_PUT_EMPTY_DATA 0x0602
/* The data has more than 1,048,576 bytes. */
#define BOOTKEEP_FAULT_PUT_DATA_TOO_LONG 0x0603

/*
 * Of a stream of frames, which can't be cut. Only BOOTKEEP_FAULT_STREAM_REST has a place.
 */

/* A header doesn't begin with 0x42 0x51. */
#define BOOTKEEP_FAULT_STREAM_BAD_MAGIC 0x0701
/* The version of a header is none of 1 to 3. */
#define BOOTKEEP_FAULT_STREAM_BAD_VERSION 0x0702
/* A payload is to have more bytes than a frame can have. */
#define BOOTKEEP_FAULT_STREAM_TOO_LONG 0x0703
/* The last frame isn't whole. The place is how many bytes of it are there. */
#define BOOTKEEP_FAULT_STREAM_REST 0x0704

/*
 * Of a frame. None has a place. bootkeep_frame_make answers BOOTKEEP_FAULT_FRAME_TOO_LONG,
 * BOOTKEEP_FAULT_FRAME_BAD_KIND and BOOTKEEP_FAULT_FRAME_BAD_NUMBER, and bootkeep_frame_parts all but
 * BOOTKEEP_FAULT_FRAME_OPTION; all of them are the `fault` of a reply to bytes that aren't a frame.
 */

/* There are fewer bytes than the twelve before the payload. */
#define BOOTKEEP_FAULT_FRAME_SHORT 0x0801
/* The bytes don't begin with 0x42 0x51. */
#define BOOTKEEP_FAULT_FRAME_BAD_MAGIC 0x0802
/* The version is none of 1 to 3. */
#define BOOTKEEP_FAULT_FRAME_BAD_VERSION 0x0803
/* The payload has more bytes than a frame can have. */
#define BOOTKEEP_FAULT_FRAME_TOO_LONG 0x0804
/* There are fewer or more bytes than the twelve and those of the payload. */
#define BOOTKEEP_FAULT_FRAME_BAD_SIZE 0x0805
/* No kind of request has this number. */
#define BOOTKEEP_FAULT_FRAME_BAD_KIND 0x0806
/* The number is BOOTKEEP_NO_NUMBER, which no request has. */
#define BOOTKEEP_FAULT_FRAME_BAD_NUMBER 0x0807
/* The payload doesn't have the bytes that a request of its kind has. */
#define BOOTKEEP_FAULT_FRAME_BAD_PAYLOAD 0x0808
/* Of replies alone: the payload's load option isn't one. */
#define BOOTKEEP_FAULT_FRAME_OPTION 0x0809

/*
 * Of an image that firmware doesn't start. The place is that of the field that has the fault, or of a section's header.
 * bootkeep_image_check tells by `*effect` what comes of it.
 */

/* The file has no bytes. */
#define BOOTKEEP_FAULT_IMAGE_EMPTY 0x0901
/* The file ends in its DOS header. */
#define BOOTKEEP_FAULT_IMAGE_SHORT_DOS_HEADER 0x0902
/* The file doesn't begin with MZ. */
#define BOOTKEEP_FAULT_IMAGE_DOS_SIGNATURE 0x0903
/* There are no 264 bytes from e_lfanew on, as many as headers with 16 data directories have. */
#define BOOTKEEP_FAULT_IMAGE_PE_PLACE 0x0904
/* There is no PE signature where e_lfanew says. */
#define BOOTKEEP_FAULT_IMAGE_PE_SIGNATURE 0x0905
/* Magic is neither that of PE32 nor that of PE32+. */
#define BOOTKEEP_FAULT_IMAGE_MAGIC 0x0906
/* The image is no EFI application. */
#define BOOTKEEP_FAULT_IMAGE_SUBSYSTEM 0x0907
/* There are more data directories than the format has. */
#define BOOTKEEP_FAULT_IMAGE_DIRECTORY_COUNT 0x0908
/* The optional header isn't as long as one with so many data directories. */
#define BOOTKEEP_FAULT_IMAGE_OPTIONAL_HEADER_SIZE 0x0909
/* The image has no room for its section table and one header more. */
#define BOOTKEEP_FAULT_IMAGE_IMAGE_SIZE 0x090a
/* The headers have no room for the section table. */
#define BOOTKEEP_FAULT_IMAGE_HEADERS_SIZE 0x090b
/* The headers don't end in the image. */
#define BOOTKEEP_FAULT_IMAGE_HEADERS_BEYOND_IMAGE 0x090c
/* The file ends in the headers. */
#define BOOTKEEP_FAULT_IMAGE_HEADERS_BEYOND_FILE 0x090d
/* The file ends before the certificate table does. */
#define BOOTKEEP_FAULT_IMAGE_CERTIFICATES_BEYOND_FILE 0x090e
/* The machine isn't one that firmware knows. */
#define BOOTKEEP_FAULT_IMAGE_MACHINE 0x090f
/* A section lies in the headers, in the file or in memory. */
#define BOOTKEEP_FAULT_IMAGE_SECTION_IN_HEADERS 0x0910
/* The file ends before a section does. */
#define BOOTKEEP_FAULT_IMAGE_SECTION_BEYOND_FILE 0x0911
/* The debug directory is at an offset of more than four bytes. */
#define BOOTKEEP_FAULT_IMAGE_DEBUG_PLACE 0x0912
/* The file ends in an entry of the debug directory. */
#define BOOTKEEP_FAULT_IMAGE_DEBUG_BEYOND_FILE 0x0913
/* CodeView data are in no section: firmware loads them after the sections. */
#define BOOTKEEP_FAULT_IMAGE_UNMAPPED_CODE_VIEW 0x0914
/* The image is one for ARM64. */
#define BOOTKEEP_FAULT_IMAGE_ARM64 0x0915
/* The image takes more memory than is taken for granted, 512 MiB. */
#define BOOTKEEP_FAULT_IMAGE_MEMORY 0x0916
/* The relocations are stripped, and the image's address is in the first page of memory. */
#define BOOTKEEP_FAULT_IMAGE_FIXED_BASE 0x0917
/* The relocations are stripped: the memory at the image's address has to be free. */
#define BOOTKEEP_FAULT_IMAGE_RELOCATIONS_STRIPPED 0x0918
/* Sections are aligned to nothing. */
#define BOOTKEEP_FAULT_IMAGE_SECTION_ALIGNMENT 0x0919
/* A section isn't in the image. */
#define BOOTKEEP_FAULT_IMAGE_SECTION_BEYOND_IMAGE 0x091a
/* A section is written after the image's memory. */
#define BOOTKEEP_FAULT_IMAGE_SECTION_BEYOND_MEMORY 0x091b
/* A section without bytes in the file is written over the section table. */
#define BOOTKEEP_FAULT_IMAGE_SECTION_OVER_TABLE 0x091c
/* The directory of relocations is the first after those that there are, and isn't in the headers. */
#define BOOTKEEP_FAULT_IMAGE_RELOCATIONS_NOT_LOADED 0x091d
/* The relocations end after the last address of four bytes. */
#define BOOTKEEP_FAULT_IMAGE_RELOCATIONS_OVERFLOW 0x091e
/* The relocations aren't in the image. */
#define BOOTKEEP_FAULT_IMAGE_RELOCATIONS_BEYOND_IMAGE 0x091f
/* The image is one for IA32, which is loaded and not started. */
#define BOOTKEEP_FAULT_IMAGE_IA32 0x0920
/* The image is EFI byte code, which needs an interpreter. */
#define BOOTKEEP_FAULT_IMAGE_BYTE_CODE 0x0921
/* The image's entry point isn't in it. */
#define BOOTKEEP_FAULT_IMAGE_ENTRY_POINT 0x0922
/* Of bootkeep_image_digest alone, without a place: headers and sections have more bytes than the file. */
#define BOOTKEEP_FAULT_IMAGE_OVERLAP 0x0923
/*
 * Of bootkeep_image_digest alone, without a place: the certificate table has more bytes than are left of the file after
 * the headers and sections.
 */
#define BOOTKEEP_FAULT_IMAGE_CERTIFICATES_OVERLAP 0x0924

/*
 * Of signature lists. The place is that of the list with the fault.
 */

/* The bytes end in the 28 before the list's header. */
#define BOOTKEEP_FAULT_LISTS_CUT_HEADER 0x0a01
/* The list has fewer bytes than its headers, or more than there are. */
#define BOOTKEEP_FAULT_LISTS_BAD_LIST_SIZE 0x0a02
/* A signature has fewer than 16 bytes, or the signatures aren't whole. */
#define BOOTKEEP_FAULT_LISTS_BAD_SIGNATURE_SIZE 0x0a03

/*
 * Of what an image has in memory, which bootkeep_image_check tells. The place is an offset in the file.
 */

/* The debug entry of CodeView data isn't in the image. */
#define BOOTKEEP_FAULT_IMAGE_CODE_VIEW_ENTRY_BEYOND_IMAGE 0x0b01
/* The debug entry of CodeView data isn't in one section, or the headers, once they are in memory. */
#define BOOTKEEP_FAULT_IMAGE_CODE_VIEW_ENTRY_NOT_LOADED 0x0b02
/* CodeView data aren't in the image. */
#define BOOTKEEP_FAULT_IMAGE_CODE_VIEW_BEYOND_IMAGE 0x0b03
/* CodeView data aren't in one section, or the headers, once they are in memory. */
#define BOOTKEEP_FAULT_IMAGE_CODE_VIEW_NOT_LOADED 0x0b04
/* CodeView data have fewer bytes than data with their signature. */
#define BOOTKEEP_FAULT_IMAGE_CODE_VIEW_SIZE 0x0b05
/* What the loader reads of the resources isn't in one section, or the headers. */
#define BOOTKEEP_FAULT_IMAGE_RESOURCES_NOT_LOADED 0x0b06
/* A directory, a name or the data of a resource begin after the resources. */
#define BOOTKEEP_FAULT_IMAGE_RESOURCE_BEYOND_RESOURCES 0x0b07
/* The entries of a directory of resources end after the resources. */
#define BOOTKEEP_FAULT_IMAGE_RESOURCE_DIRECTORY_SIZE 0x0b08
/* A block of relocations isn't in one section, or the headers. */
#define BOOTKEEP_FAULT_IMAGE_RELOCATION_BLOCK_NOT_LOADED 0x0b09
/* A block of relocations has no bytes, or more than are left of the relocations. */
#define BOOTKEEP_FAULT_IMAGE_RELOCATION_BLOCK_SIZE 0x0b0a
/* A block of relocations is of a page that isn't in the image. */
#define BOOTKEEP_FAULT_IMAGE_RELOCATION_BLOCK_ADDRESS 0x0b0b
/* A relocation is of an address that isn't in the image. */
#define BOOTKEEP_FAULT_IMAGE_RELOCATION_BEYOND_IMAGE 0x0b0c
/* A relocation is of a type that firmware doesn't know. */
#define BOOTKEEP_FAULT_IMAGE_RELOCATION_UNKNOWN_TYPE 0x0b0d

/*
 * Of the file of a journal. The place is that of the field with the fault, in the file.
 */

/* The file begins neither with `BKJ1` nor with `BKJ2`. This has no place. */
#define BOOTKEEP_FAULT_JOURNAL_BAD_MAGIC 0x0c01
/* The name of the machine is to have no byte, or more than BOOTKEEP_MACHINE_MAX. */
#define BOOTKEEP_FAULT_JOURNAL_BAD_MACHINE 0x0c02
/* The file ends in the field. */
#define BOOTKEEP_FAULT_JOURNAL_TRUNCATED 0x0c03
/* The value is to have more than BOOTKEEP_DATA_MAX bytes. */
#define BOOTKEEP_FAULT_JOURNAL_VALUE_TOO_LONG 0x0c04
/* The byte is neither 1, for changes that are being made, nor 2, for changes that are taken back. */
#define BOOTKEEP_FAULT_JOURNAL_BAD_COURSE 0x0c05
/* The identity isn't one to 64 characters from 0x21 to 0x7E. */
#define BOOTKEEP_FAULT_JOURNAL_BAD_IDENTITY 0x0c06
/* The name isn't that of a variable of the boot manager. */
#define BOOTKEEP_FAULT_JOURNAL_BAD_NAME 0x0c07
/* The journal is another machine's. This and the next one have no place. */
#define BOOTKEEP_FAULT_JOURNAL_OF_ANOTHER 0x0c08
/* With attributes, what a change of a journal that has none has is longer than BOOTKEEP_DATA_MAX. */
#define BOOTKEEP_FAULT_JOURNAL_TOO_LONG 0x0c09

/*
 * Of a machine. None has a place.
 */

/* The name of the machine has no byte, or more than BOOTKEEP_MACHINE_MAX. */
#define BOOTKEEP_FAULT_MACHINE_BAD_NAME 0x0d01
/* The identity of the start isn't one to 64 characters from 0x21 to 0x7E. */
#define BOOTKEEP_FAULT_MACHINE_BAD_START 0x0d02
/*
 * A variable of the boot manager has no byte after its attributes: in what is to be brought back, or, in `fault`, in
 * what the machine keeps.
 */
#define BOOTKEEP_FAULT_MACHINE_NO_DATA 0x0d03
/*
 * With its attributes, what a variable has in a variable file, or, in `fault`, what it would have after the run, is
 * longer than BOOTKEEP_DATA_MAX.
 */
#define BOOTKEEP_FAULT_MACHINE_TOO_LONG 0x0d04

/*
 * Of an edit of a set that isn't made. The place is the number of the entry that it is refused for: of .._TAKEN,
 * .._TWICE, .._MISSING, .._STALE and .._NO_OPTION. The others have none.
 */
/* An entry is stored under the number that the new one is to have. */
#define BOOTKEEP_FAULT_UNEDITED_TAKEN 0x0e01
/* An entry is stored under each number. */
#define BOOTKEEP_FAULT_UNEDITED_NO_FREE 0x0e02
/* The number is in the list twice. */
#define BOOTKEEP_FAULT_UNEDITED_TWICE 0x0e03
/* There is no entry of the number. */
#define BOOTKEEP_FAULT_UNEDITED_MISSING 0x0e04
/* There is no entry of the number, which was to be in the order. */
#define BOOTKEEP_FAULT_UNEDITED_STALE 0x0e05
/* The entry of the number is no load option. */
#define BOOTKEEP_FAULT_UNEDITED_NO_OPTION 0x0e06
/* BootOrder would have more than BOOTKEEP_ORDER_MAX numbers. */
#define BOOTKEEP_FAULT_UNEDITED_ORDER_TOO_LONG 0x0e07
/* The load option to be added has more than BOOTKEEP_DATA_MAX bytes. */
#define BOOTKEEP_FAULT_UNEDITED_OPTION_TOO_LONG 0x0e08
/* `kind` is none of BOOTKEEP_EDIT_.. */
#define BOOTKEEP_FAULT_UNEDITED_BAD_KIND 0x0e09
/* `number` is above BOOTKEEP_NO_ENTRY. */
#define BOOTKEEP_FAULT_UNEDITED_BAD_NUMBER 0x0e0a
/* `position` is none of BOOTKEEP_POSITION_.. */
#define BOOTKEEP_FAULT_UNEDITED_BAD_POSITION 0x0e0b

/*
 * Of the notes at the start of a journal's file. The place is that of the field with the fault.
 */

/* The bytes end in the field. */
#define BOOTKEEP_FAULT_NOTES_TRUNCATED 0x0f01
/* There are to be more than 128 digests. */
#define BOOTKEEP_FAULT_NOTES_TOO_MANY 0x0f02
/* Of bootkeep_notes_make alone, without a place: the identity hasn't BOOTKEEP_IDENTITY_LEN bytes. */
#define BOOTKEEP_FAULT_NOTES_BAD_IDENTITY 0x0f03

/*
 * Of the record of a change. Only BOOTKEEP_FAULT_RECORD_TRUNCATED and the two of words have a place, and only
 * BOOTKEEP_FAULT_RECORD_BAD_BEFORE and BOOTKEEP_FAULT_RECORD_BAD_AFTER have a fault within, whose place counts from the
 * first byte of that set.
 */

/* The record doesn't begin with the four bytes `BKH1`. */
#define BOOTKEEP_FAULT_RECORD_BAD_MAGIC 0x1001
/* The record ends in the field that begins at this place. */
#define BOOTKEEP_FAULT_RECORD_TRUNCATED 0x1002
/* The record has fewer than the four fields before the words. */
#define BOOTKEEP_FAULT_RECORD_TOO_FEW_FIELDS 0x1003
/* The name of the machine has no byte, or more than BOOTKEEP_MACHINE_MAX. */
#define BOOTKEEP_FAULT_RECORD_BAD_MACHINE 0x1004
/* The time doesn't have eight bytes. */
#define BOOTKEEP_FAULT_RECORD_BAD_TIME 0x1005
/* What was before the change is no set: `inner_kind` is its fault. */
#define BOOTKEEP_FAULT_RECORD_BAD_BEFORE 0x1006
/* What was after the change is no set: `inner_kind` is its fault. */
#define BOOTKEEP_FAULT_RECORD_BAD_AFTER 0x1007
/* The word of this number, of which the first is 0, isn't UTF-8. */
#define BOOTKEEP_FAULT_RECORD_BAD_WORD 0x1008
/* Of bootkeep_record_make alone: no zero ends the last word, which begins at this place of the words. */
#define BOOTKEEP_FAULT_RECORD_OPEN_WORD 0x1009
/* Of bootkeep_record_make alone: a word, or a set of the boot manager's variables, has 2^32 bytes or more. */
#define BOOTKEEP_FAULT_RECORD_TOO_LONG 0x100a

/*
 * Of an emulator's variable file. Only BOOTKEEP_FAULT_STORE_CUT_RECORD has a place.
 */

/* The file doesn't begin with a firmware volume of variables. */
#define BOOTKEEP_FAULT_STORE_NO_VOLUME 0x1101
/* The header of the volume is damaged, or the file ends in the volume. */
#define BOOTKEEP_FAULT_STORE_BAD_HEADER 0x1102
/* No store of variables is in the volume. */
#define BOOTKEEP_FAULT_STORE_NO_STORE 0x1103
/* The store is of the older kind, whose records have no times. */
#define BOOTKEEP_FAULT_STORE_UNAUTHENTICATED 0x1104
/* The store isn't formatted or healthy, or ends after the volume. */
#define BOOTKEEP_FAULT_STORE_BAD_STORE 0x1105
/* The record at this place ends after the store. */
#define BOOTKEEP_FAULT_STORE_CUT_RECORD 0x1106
/* Of bootkeep_store_with alone: the store has no room for the records. */
#define BOOTKEEP_FAULT_STORE_FULL 0x1107

/* ---- Words ------------------------------------------------------------------------------------------------------ */

/*
 * The word that a status, the number of a refusal or that of an outcome has for a person: that of its name here, as
 * `NoRoom` of BOOTKEEP_NO_ROOM, `PathNoEnd` of BOOTKEEP_FAULT_PATH_NO_END and `OrderRepeats` of
 * BOOTKEEP_OUTCOME_ORDER_REPEATS. It is ASCII, and room for BOOTKEEP_WORD_MAX bytes is always enough. These calls take
 * no memory.
 *
 *     status    the number of a status
 *     kind      the number of a refusal, its `kind` or its `inner_kind`
 *     outcome   the number of an outcome: one of BOOTKEEP_OUTCOME_...
 *
 *     BOOTKEEP_DONE, BOOTKEEP_NO_ROOM
 *     BOOTKEEP_ABSENT    this version has no such number
 */
uint32_t bootkeep_status_word(uint32_t status, uint8_t *out, size_t cap, size_t *len)
    BOOTKEEP_CHECKED BOOTKEEP_NONNULL((4));
uint32_t bootkeep_refusal_word(uint32_t kind, uint8_t *out, size_t cap, size_t *len)
    BOOTKEEP_CHECKED BOOTKEEP_NONNULL((4));
uint32_t bootkeep_outcome_word(uint32_t outcome, uint8_t *out, size_t cap, size_t *len)
    BOOTKEEP_CHECKED BOOTKEEP_NONNULL((4));

/* ---- Device paths ----------------------------------------------------------------------------------------------- */

/*
 * The text of the device path at the start of the bytes (UEFI 2.10, 10.3 and 10.6), in the one spelling that is
 * printed, and in `*taken` how many bytes the path takes. What comes after its end is left: if the path is to be all of
 * the bytes, compare `*taken` with `bytes_len`. bootkeep_path_parse_exact and bootkeep_path_parse read the text. A
 * fault of the path is told even if there is no memory.
 *
 *     BOOTKEEP_DONE, BOOTKEEP_NO_ROOM, BOOTKEEP_NO_MEMORY
 *     BOOTKEEP_REFUSED   a number of paths
 */
uint32_t bootkeep_path_text(const uint8_t *bytes, size_t bytes_len, uint8_t *out, size_t cap, size_t *len,
                            size_t *taken, struct bootkeep_refusal *refusal)
    BOOTKEEP_CHECKED BOOTKEEP_NONNULL((5, 6, 7));

/*
 * The text of the device path for a person, as `bootvars show` prints it: that of bootkeep_path_text, with its name and
 * its fields for each node of the standard's table whose text can be read back as the node. It is UTF-8: names of files
 * may have characters past ASCII. bootkeep_path_parse reads it as the same path; bootkeep_path_parse_exact refuses most
 * of the names. All else is as of bootkeep_path_text, also that what comes after the path is left.
 *
 *     BOOTKEEP_DONE, BOOTKEEP_NO_ROOM, BOOTKEEP_NO_MEMORY
 *     BOOTKEEP_REFUSED   a number of paths
 */
uint32_t bootkeep_path_names(const uint8_t *bytes, size_t bytes_len, uint8_t *out, size_t cap, size_t *len,
                             size_t *taken, struct bootkeep_refusal *refusal)
    BOOTKEEP_CHECKED BOOTKEEP_NONNULL((5, 6, 7));

/*
 * In `*taken` how many bytes the device path at the start of the bytes takes. This takes no memory.
 *
 *     BOOTKEEP_DONE
 *     BOOTKEEP_REFUSED   a number of paths
 */
uint32_t bootkeep_path_check(const uint8_t *bytes, size_t bytes_len, size_t *taken, struct bootkeep_refusal *refusal)
    BOOTKEEP_CHECKED BOOTKEEP_NONNULL((3, 4));

/*
 * The bytes of the device path that the text stands for: the one to call for what a person wrote. It reads each text
 * that bootkeep_path_text and bootkeep_path_names give, as the path of which they gave it, and other spellings besides:
 * docs/formats/paths.md has the grammar. What the first one gives has the same bytes for good; a later version may know
 * more names.
 *
 *     BOOTKEEP_DONE, BOOTKEEP_NO_ROOM, BOOTKEEP_NO_MEMORY
 *     BOOTKEEP_REFUSED   a number of texts
 */
uint32_t bootkeep_path_parse(const uint8_t *text, size_t text_len, uint8_t *out, size_t cap, size_t *len,
                             struct bootkeep_refusal *refusal) BOOTKEEP_CHECKED BOOTKEEP_NONNULL((5, 6));

/*
 * The bytes of the device path that the text stands for, of texts as bootkeep_path_text gives them, and other spellings
 * of these: it refuses the names of most nodes, so that what a person copies from `bootvars show` isn't read.
 *
 *     BOOTKEEP_DONE, BOOTKEEP_NO_ROOM, BOOTKEEP_NO_MEMORY
 *     BOOTKEEP_REFUSED   a number of texts
 */
uint32_t bootkeep_path_parse_exact(const uint8_t *text, size_t text_len, uint8_t *out, size_t cap, size_t *len,
                                   struct bootkeep_refusal *refusal) BOOTKEEP_CHECKED BOOTKEEP_NONNULL((5, 6));

/* ---- Load options ----------------------------------------------------------------------------------------------- */

/* Bits of the attributes (UEFI 2.10, 3.1.3), and the values of those of BOOTKEEP_ATTRIBUTE_CATEGORY. */
#define BOOTKEEP_ATTRIBUTE_ACTIVE 0x00000001
#define BOOTKEEP_ATTRIBUTE_FORCE_RECONNECT 0x00000002
#define BOOTKEEP_ATTRIBUTE_HIDDEN 0x00000008
#define BOOTKEEP_ATTRIBUTE_CATEGORY 0x00001f00
#define BOOTKEEP_ATTRIBUTE_CATEGORY_BOOT 0x00000000
#define BOOTKEEP_ATTRIBUTE_CATEGORY_APP 0x00000100

/* Where the parts of a load option are in its bytes: for each part its offset, and how many bytes it has. */
struct bootkeep_option_parts {
    /* All 32 bits as they are stored. */
    uint32_t attributes;
    /* 0. It is written, so that no byte of the struct is left open. */
    uint32_t reserved;
    /* The description, two bytes for each unit, little-endian, without the zero unit that closes it. */
    size_t description;
    size_t description_len;
    /* The list of device paths, one after the other: bootkeep_path_check tells how long the first one is. */
    size_t list;
    size_t list_len;
    /* The optional data, up to the end of the option. */
    size_t optional;
    size_t optional_len;
};

/* To GCC a call of C++ that has the name of a struct hides that struct's constructors. */
#if defined(__cplusplus) && defined(__GNUC__)
#pragma GCC diagnostic push
#pragma GCC diagnostic ignored "-Wshadow"
#endif

/*
 * The parts of the load option that the bytes are, all of them, in `*parts`. This takes no memory.
 *
 *     parts   where each part is in the bytes
 *
 *     BOOTKEEP_DONE
 *     BOOTKEEP_REFUSED   a number of load options
 */
uint32_t bootkeep_option_parts(const uint8_t *bytes, size_t bytes_len, struct bootkeep_option_parts *parts,
                               struct bootkeep_refusal *refusal) BOOTKEEP_CHECKED BOOTKEEP_NONNULL((3, 4));

#if defined(__cplusplus) && defined(__GNUC__)
#pragma GCC diagnostic pop
#endif

/*
 * The description of the load option that the bytes are, as one line of ASCII, for a terminal or a log: units that
 * don't print are shown by their numbers, as docs/formats/options.md says. bootkeep_option_make takes these for
 * characters of a name: it is to be given what bootkeep_option_description_utf8 gives. A fault of the option is told
 * even if there is no memory.
 *
 *     BOOTKEEP_DONE, BOOTKEEP_NO_ROOM, BOOTKEEP_NO_MEMORY
 *     BOOTKEEP_REFUSED   a number of load options
 */
uint32_t bootkeep_option_description(const uint8_t *bytes, size_t bytes_len, uint8_t *out, size_t cap, size_t *len,
                                     struct bootkeep_refusal *refusal) BOOTKEEP_CHECKED BOOTKEEP_NONNULL((5, 6));

/*
 * The description of the load option that the bytes are, in UTF-8, all of its characters as they are, also those that a
 * terminal acts on. bootkeep_option_make makes the same description of it. Of one that is no text, which is refused,
 * bootkeep_option_parts tells where the units are, and bootkeep_option_make_units takes them.
 *
 *     BOOTKEEP_DONE, BOOTKEEP_NO_ROOM, BOOTKEEP_NO_MEMORY
 *     BOOTKEEP_REFUSED   a number of load options; otherwise BOOTKEEP_FAULT_OPTION_NOT_UTF16
 */
uint32_t bootkeep_option_description_utf8(const uint8_t *bytes, size_t bytes_len, uint8_t *out, size_t cap, size_t *len,
                                          struct bootkeep_refusal *refusal) BOOTKEEP_CHECKED BOOTKEEP_NONNULL((5, 6));

/*
 * The load option of these parts: its attributes, its description, which is UTF-8 and has no zero at its end, the list
 * of its device paths, as their bytes one after the other, each as bootkeep_path_parse gives it, and its optional data.
 *
 *     description, description_len   the description, in UTF-8, and how many bytes it has
 *
 *     BOOTKEEP_DONE, BOOTKEEP_NO_ROOM, BOOTKEEP_NO_MEMORY
 *     BOOTKEEP_REFUSED   BOOTKEEP_FAULT_OPTION_NOT_UTF8; otherwise BOOTKEEP_FAULT_OPTION_PATH, with its place in the
 *                        list; otherwise BOOTKEEP_FAULT_OPTION_ZERO_UNIT, BOOTKEEP_FAULT_OPTION_EMPTY_LIST or
 *                        BOOTKEEP_FAULT_OPTION_LIST_TOO_LONG, in this order
 */
uint32_t bootkeep_option_make(uint32_t attributes, const uint8_t *description, size_t description_len,
                              const uint8_t *list, size_t list_len, const uint8_t *optional, size_t optional_len,
                              uint8_t *out, size_t cap, size_t *len, struct bootkeep_refusal *refusal)
    BOOTKEEP_CHECKED BOOTKEEP_NONNULL((10, 11));

/*
 * The load option of these parts, as of bootkeep_option_make, but with the units of its description as they are stored,
 * whether or not they are a text, and without the zero unit that closes it. So each option can be made again of its
 * parts, to the byte.
 *
 *     units, units_len   the units of the description, and how many units there are
 *
 *     BOOTKEEP_DONE, BOOTKEEP_NO_ROOM, BOOTKEEP_NO_MEMORY
 *     BOOTKEEP_REFUSED   BOOTKEEP_FAULT_OPTION_PATH, with its place in the list; otherwise
 *                        BOOTKEEP_FAULT_OPTION_ZERO_UNIT, BOOTKEEP_FAULT_OPTION_EMPTY_LIST or
 *                        BOOTKEEP_FAULT_OPTION_LIST_TOO_LONG, in this order
 */
uint32_t bootkeep_option_make_units(uint32_t attributes, const uint16_t *units, size_t units_len, const uint8_t *list,
                                    size_t list_len, const uint8_t *optional, size_t optional_len, uint8_t *out,
                                    size_t cap, size_t *len, struct bootkeep_refusal *refusal)
    BOOTKEEP_CHECKED BOOTKEEP_NONNULL((10, 11));

/* ---- Frames ----------------------------------------------------------------------------------------------------- */

/* What a request is to do: docs/requests.md has what comes of each. */

/* To store the option under the entry's number, which must be free, and to append the number to BootOrder. */
#define BOOTKEEP_REQUEST_ADD 1
/* To store the option in the place of the entry, which must be there. */
#define BOOTKEEP_REQUEST_REPLACE 2
/* To take out the entry, its number from BootOrder, and a BootNext that names it. */
#define BOOTKEEP_REQUEST_REMOVE 3
/* To set BootOrder to the numbers. */
#define BOOTKEEP_REQUEST_ORDER 4
/* To set BootNext to the entry. */
#define BOOTKEEP_REQUEST_NEXT 5
/* To store the option under the lowest free number, and to append that to BootOrder. */
#define BOOTKEEP_REQUEST_ADD_FREE 6
/* To store the option under the lowest free number, and to put that in front of BootOrder. */
#define BOOTKEEP_REQUEST_ADD_FIRST 7
/* To put the entry in front of BootOrder. */
#define BOOTKEEP_REQUEST_FIRST 8

/* No request has this number. */
#define BOOTKEEP_NO_NUMBER 0xffffffff

/*
 * The frame of the request with this number. Of `entry`, the bytes of the load option and the numbers of the order it
 * has what its kind takes; the others aren't looked at, and may be 0 and NULL. An `entry` of 0 is Boot0000, and an
 * order of no numbers empties BootOrder: no call knows that they were forgotten.
 *
 *     number               the number of the request
 *     kind                 what it is to do: one of BOOTKEEP_REQUEST_...
 *     entry                the number of the entry
 *     option, option_len   the load option, and how many bytes it has
 *     order, order_len     the numbers of the order, and how many there are
 *
 *     BOOTKEEP_DONE, BOOTKEEP_NO_ROOM, BOOTKEEP_NO_MEMORY
 *     BOOTKEEP_REFUSED   BOOTKEEP_FAULT_FRAME_BAD_KIND; otherwise a number of load options; otherwise
 *                        BOOTKEEP_FAULT_FRAME_TOO_LONG or BOOTKEEP_FAULT_FRAME_BAD_NUMBER
 */
uint32_t bootkeep_frame_make(uint32_t number, uint32_t kind, uint16_t entry, const uint8_t *option, size_t option_len,
                             const uint16_t *order, size_t order_len, uint8_t *out, size_t cap, size_t *len,
                             struct bootkeep_refusal *refusal) BOOTKEEP_CHECKED BOOTKEEP_NONNULL((10, 11));

/*
 * The parts of a frame. Later versions may add fields at its end: of those a call writes none that `size` leaves out.
 */
struct bootkeep_frame_parts {
    /* sizeof(struct bootkeep_frame_parts): the caller writes it before a call, and no call changes it. */
    size_t size;
    /* The number of the request. */
    uint32_t number;
    /* What the request is to do: one of BOOTKEEP_REQUEST_... */
    uint32_t kind;
    /* The entry that it names, or BOOTKEEP_NO_ENTRY if it names none. */
    uint32_t entry;
    /* 0. It is written, so that no byte of the struct is left open. */
    uint32_t reserved;
    /* Where its load option is, up to the end of the frame, and how many bytes it has: both 0 if it has none. */
    size_t option;
    size_t option_len;
};

/* To GCC a call of C++ that has the name of a struct hides that struct's constructors. */
#if defined(__cplusplus) && defined(__GNUC__)
#pragma GCC diagnostic push
#pragma GCC diagnostic ignored "-Wshadow"
#endif

/*
 * The parts of the frame that the bytes are, all of them, in `*parts`, and in `numbers` those of an order, none of any
 * other request: what bootkeep_frame_make makes the same frame of, or with another number the frame of the same
 * request. `cap` and `*len` count numbers, of which there are 65536 at most.
 *
 *     frame, frame_len   all the bytes of the frame, and how many there are
 *     parts              the parts, of which the caller has written `size`
 *     numbers            where the answer goes: the numbers of the order
 *
 *     BOOTKEEP_DONE, BOOTKEEP_NO_ROOM, BOOTKEEP_NO_MEMORY
 *     BOOTKEEP_BAD_SIZE  `parts->size` is below that of the struct of version 1
 *     BOOTKEEP_REFUSED   a number of frames; otherwise a number of load options, whose places are in the option
 */
uint32_t bootkeep_frame_parts(const uint8_t *frame, size_t frame_len, struct bootkeep_frame_parts *parts,
                              uint16_t *numbers, size_t cap, size_t *len, struct bootkeep_refusal *refusal)
    BOOTKEEP_CHECKED BOOTKEEP_NONNULL((3, 6, 7));

#if defined(__cplusplus) && defined(__GNUC__)
#pragma GCC diagnostic pop
#endif

/* ---- Sets of variables ------------------------------------------------------------------------------------------ */

/*
 * A set is the bytes of a set file, all of them. Each call reads the whole set, and one that changes it gives another
 * one: a program that makes many changes lets a keeper or a run make them.
 */

/* No entry has this number. */
#define BOOTKEEP_NO_ENTRY 0x00010000

/*
 * What a boot would try (UEFI 2.10, 3.3): in `*next` the number of BootNext's entry, or BOOTKEEP_NO_ENTRY, and in
 * `numbers` those of the normal entries of BootOrder, in its order. `cap` and `*len` count numbers here, and not bytes.
 *
 *     next   the number of BootNext's entry, or BOOTKEEP_NO_ENTRY
 *
 *     BOOTKEEP_DONE, BOOTKEEP_NO_ROOM, BOOTKEEP_NO_MEMORY
 *     BOOTKEEP_REFUSED   a number of sets, BOOTKEEP_FAULT_VARS_BAD_ORDER or BOOTKEEP_FAULT_VARS_BAD_NEXT
 */
uint32_t bootkeep_vars_plan(const uint8_t *set, size_t set_len, uint16_t *numbers, size_t cap, size_t *len,
                            uint32_t *next, struct bootkeep_refusal *refusal)
    BOOTKEEP_CHECKED BOOTKEEP_NONNULL((5, 6, 7));

/*
 * The entries that a start of firmware may write over or delete. In `numbers` first come those that neither BootOrder
 * nor BootNext names, `*unnamed` of them: firmware that gives an entry of its own the lowest number that neither names
 * may write over them. After them come those of BootOrder that are no load option, which firmware may delete. Each of
 * the two parts rises, and no number is in both. edk2 was seen to do both; the standard asks for neither. `cap` and
 * `*len` count numbers, of which there are 65536 at most.
 *
 *     unnamed   how many of the numbers are of entries that neither BootOrder nor BootNext names: the first ones
 *
 *     BOOTKEEP_DONE, BOOTKEEP_NO_ROOM, BOOTKEEP_NO_MEMORY
 *     BOOTKEEP_REFUSED   a number of sets, BOOTKEEP_FAULT_VARS_BAD_ORDER or BOOTKEEP_FAULT_VARS_BAD_NEXT
 */
uint32_t bootkeep_vars_at_risk(const uint8_t *set, size_t set_len, uint16_t *numbers, size_t cap, size_t *len,
                               size_t *unnamed, struct bootkeep_refusal *refusal)
    BOOTKEEP_CHECKED BOOTKEEP_NONNULL((5, 6, 7));

/*
 * The data of the variable of this name.
 *
 *     BOOTKEEP_DONE, BOOTKEEP_NO_ROOM, BOOTKEEP_NO_MEMORY
 *     BOOTKEEP_ABSENT    the set has no such variable, be the name one of a variable or not
 *     BOOTKEEP_REFUSED   a number of sets
 */
uint32_t bootkeep_vars_get(const uint8_t *set, size_t set_len, const uint8_t *name, size_t name_len, uint8_t *out,
                           size_t cap, size_t *len, struct bootkeep_refusal *refusal)
    BOOTKEEP_CHECKED BOOTKEEP_NONNULL((7, 8));

/*
 * The set with this data for the variable of this name, in the place of what it had, if it had any. `out` must not be
 * `set`.
 *
 *     data, data_len   the data of the variable, and how many bytes it has
 *
 *     BOOTKEEP_DONE, BOOTKEEP_NO_ROOM, BOOTKEEP_NO_MEMORY
 *     BOOTKEEP_REFUSED   a number of sets, or a number of what is put
 */
uint32_t bootkeep_vars_put(const uint8_t *set, size_t set_len, const uint8_t *name, size_t name_len,
                           const uint8_t *data, size_t data_len, uint8_t *out, size_t cap, size_t *len,
                           struct bootkeep_refusal *refusal) BOOTKEEP_CHECKED BOOTKEEP_NONNULL((9, 10));

/*
 * The set without the variable of this name.
 *
 *     BOOTKEEP_DONE, BOOTKEEP_NO_ROOM, BOOTKEEP_NO_MEMORY
 *     BOOTKEEP_ABSENT    the set has no such variable
 *     BOOTKEEP_REFUSED   a number of sets
 */
uint32_t bootkeep_vars_remove(const uint8_t *set, size_t set_len, const uint8_t *name, size_t name_len, uint8_t *out,
                              size_t cap, size_t *len, struct bootkeep_refusal *refusal)
    BOOTKEEP_CHECKED BOOTKEEP_NONNULL((7, 8));

/* Where a variable is in the bytes of its set: its name and its data, each with how many bytes it has. */
struct bootkeep_variable {
    size_t name;
    size_t name_len;
    size_t data;
    size_t data_len;
};

/*
 * Where the variables of the set are in its bytes, in the order of their names: nothing is copied. `cap` and `*len`
 * count variables.
 *
 *     variables   where the answer goes: where each variable is
 *
 *     BOOTKEEP_DONE, BOOTKEEP_NO_ROOM, BOOTKEEP_NO_MEMORY
 *     BOOTKEEP_BAD_SIZE  `item_size` isn't the size of the struct
 *     BOOTKEEP_REFUSED   a number of sets
 */
uint32_t bootkeep_vars_list(const uint8_t *set, size_t set_len, struct bootkeep_variable *variables, size_t cap,
                            size_t item_size, size_t *len, struct bootkeep_refusal *refusal)
    BOOTKEEP_CHECKED BOOTKEEP_NONNULL((6, 7));

/*
 * In `*number` the lowest number under which the set has no entry, or BOOTKEEP_NO_ENTRY if all are taken.
 *
 *     number   the lowest free number, or BOOTKEEP_NO_ENTRY
 *
 *     BOOTKEEP_DONE, BOOTKEEP_NO_MEMORY
 *     BOOTKEEP_REFUSED   a number of sets
 */
uint32_t bootkeep_vars_lowest_free(const uint8_t *set, size_t set_len, uint32_t *number,
                                   struct bootkeep_refusal *refusal) BOOTKEEP_CHECKED BOOTKEEP_NONNULL((3, 4));

/* What a boot makes of an entry that BootOrder names. It is tried. */
#define BOOTKEEP_ENTRY_NORMAL 0
/* No entry has the number. */
#define BOOTKEEP_ENTRY_ABSENT 1
/* What is stored under the number is no load option. */
#define BOOTKEEP_ENTRY_UNDECODABLE 2
/* It isn't active. */
#define BOOTKEEP_ENTRY_INACTIVE 3
/* It is active, and of another category than the normal boot. */
#define BOOTKEEP_ENTRY_OTHER_CATEGORY 4

/*
 * In `*state` why a number of BootOrder isn't in the plan, or that it is. That of BootNext isn't if it is absent or
 * undecodable. Whether an option is hidden doesn't matter.
 *
 *     number   the number of the entry
 *     state    what a boot makes of it: one of BOOTKEEP_ENTRY_...
 *
 *     BOOTKEEP_DONE, BOOTKEEP_NO_MEMORY
 *     BOOTKEEP_REFUSED   a number of sets
 */
uint32_t bootkeep_vars_entry(const uint8_t *set, size_t set_len, uint16_t number, uint32_t *state,
                             struct bootkeep_refusal *refusal) BOOTKEEP_CHECKED BOOTKEEP_NONNULL((4, 5));

/* What stands for BootOrder, BootNext and Timeout where other numbers are those of entries. */
#define BOOTKEEP_VARIABLE_ORDER 0x00010001
#define BOOTKEEP_VARIABLE_NEXT 0x00010002
#define BOOTKEEP_VARIABLE_TIMEOUT 0x00010003

/* A number that BootNext or BootOrder names. */
struct bootkeep_named {
    /* Which of them names it: BOOTKEEP_VARIABLE_NEXT or BOOTKEEP_VARIABLE_ORDER. */
    uint32_t variable;
    uint32_t number;
    /* What a boot makes of the entry: one of BOOTKEEP_ENTRY_... */
    uint32_t state;
};

/*
 * What BootNext names, if it is there, and then what BootOrder names, in its order, each with why it isn't in the plan,
 * or that it is, as bootkeep_vars_entry tells it. A number that BootOrder repeats is told again, and its entry looked
 * at once. `cap` and `*len` count numbers, of which there are BOOTKEEP_ORDER_MAX + 1 at most.
 *
 *     named   where the answer goes: each number, with what names it and what a boot makes of its entry
 *
 *     BOOTKEEP_DONE, BOOTKEEP_NO_ROOM, BOOTKEEP_NO_MEMORY
 *     BOOTKEEP_BAD_SIZE  `item_size` isn't the size of the struct
 *     BOOTKEEP_REFUSED   a number of sets, BOOTKEEP_FAULT_VARS_BAD_ORDER or BOOTKEEP_FAULT_VARS_BAD_NEXT
 */
uint32_t bootkeep_vars_named(const uint8_t *set, size_t set_len, struct bootkeep_named *named, size_t cap,
                             size_t item_size, size_t *len, struct bootkeep_refusal *refusal)
    BOOTKEEP_CHECKED BOOTKEEP_NONNULL((6, 7));

/* The variable is new, has other data, or is taken out. */
#define BOOTKEEP_CHANGE_ADDED 1
#define BOOTKEEP_CHANGE_REPLACED 2
#define BOOTKEEP_CHANGE_REMOVED 3

/* A change of one variable of the boot manager. */
struct bootkeep_change {
    /* The number of the entry, BOOTKEEP_VARIABLE_ORDER, BOOTKEEP_VARIABLE_NEXT or BOOTKEEP_VARIABLE_TIMEOUT. */
    uint32_t variable;
    /* BOOTKEEP_CHANGE_ADDED, BOOTKEEP_CHANGE_REPLACED or BOOTKEEP_CHANGE_REMOVED. */
    uint32_t kind;
};

/*
 * The changes that lead from one set to the boot manager's variables of another, Boot####, BootOrder, BootNext and
 * Timeout, in an order in which a machine can make them: after each of them BootOrder and BootNext name a missing entry
 * only if they did before all of them, or do after them. The data of a variable before and after is in the two sets.
 * `cap` and `*len` count changes.
 *
 * BootKeepState isn't among them, and firmware refuses it: a program that makes the changes of a keeper on a machine
 * keeps that state elsewhere, and together with them, as is said at bootkeep_keeper_set.
 *
 *     from, from_len   the set from which the changes lead, and how many bytes it has
 *     to, to_len       the set to which they lead, and how many bytes it has
 *     changes          where the answer goes
 *
 *     BOOTKEEP_DONE, BOOTKEEP_NO_ROOM, BOOTKEEP_NO_MEMORY
 *     BOOTKEEP_BAD_SIZE  `item_size` isn't the size of the struct
 *     BOOTKEEP_REFUSED   a number of sets, of `from`; otherwise one of `to`
 */
uint32_t bootkeep_vars_changes(const uint8_t *from, size_t from_len, const uint8_t *to, size_t to_len,
                               struct bootkeep_change *changes, size_t cap, size_t item_size, size_t *len,
                               struct bootkeep_refusal *refusal) BOOTKEEP_CHECKED BOOTKEEP_NONNULL((8, 9));

/* ---- Edits of a set ---------------------------------------------------------------------------------------------- */

/* An entry is added: a load option of these bytes, under `number`, or the lowest free one for BOOTKEEP_NO_ENTRY. */
#define BOOTKEEP_EDIT_ADD 1
/* The entries are deleted, their numbers taken out of BootOrder, and BootNext is deleted if it names one. */
#define BOOTKEEP_EDIT_REMOVE 2
/* The entries come first in BootOrder, in this sequence, and the rest of it behind them. */
#define BOOTKEEP_EDIT_FIRST 3
/* BootOrder becomes these entries, and unless `only` isn't 0 those that it had behind them. */
#define BOOTKEEP_EDIT_ORDER 4
/* BootOrder has each of its numbers once, where that is first. */
#define BOOTKEEP_EDIT_UNREPEAT 5
/* BootNext becomes `number`, or is deleted for BOOTKEEP_NO_ENTRY. */
#define BOOTKEEP_EDIT_NEXT 6
/* Timeout becomes `number` seconds, or is deleted for BOOTKEEP_NO_ENTRY. */
#define BOOTKEEP_EDIT_TIMEOUT 7
/* The entries get LOAD_OPTION_ACTIVE. */
#define BOOTKEEP_EDIT_ACTIVATE 8
/* The entries lose LOAD_OPTION_ACTIVE. */
#define BOOTKEEP_EDIT_DEACTIVATE 9

/* A new entry comes last in BootOrder, unless its number is there already, which stays where it is. */
#define BOOTKEEP_POSITION_LAST 0
/* A new entry comes first in BootOrder, and nowhere else. */
#define BOOTKEEP_POSITION_FIRST 1
/* BootOrder stays as it is. */
#define BOOTKEEP_POSITION_NONE 2

/* The set is as it was to be. */
#define BOOTKEEP_EDITED_DONE 0
/* The entry is added. */
#define BOOTKEEP_EDITED_ADDED 1
/* A load option with this description and these paths is there already, and nothing is changed. */
#define BOOTKEEP_EDITED_PRESENT 2

/* An edit. What its kind doesn't take isn't looked at. */
struct bootkeep_edit {
    /* sizeof(struct bootkeep_edit) */
    size_t size;
    /* One of BOOTKEEP_EDIT_... */
    uint32_t kind;
    /* The number of an entry, seconds, or BOOTKEEP_NO_ENTRY: 0 is Boot0000, and no seconds at all. */
    uint32_t number;
    /* One of BOOTKEEP_POSITION_..., of BOOTKEEP_EDIT_ADD. */
    uint32_t position;
    /* Not 0 to add an entry even if one with its description and its paths is there. */
    uint32_t again;
    /* Not 0 to let an order have numbers without an entry. */
    uint32_t stale;
    /* Not 0 to have the numbers as the whole order. */
    uint32_t only;
};

/* What came of an edit. */
struct bootkeep_edited {
    /* sizeof(struct bootkeep_edited): the caller writes it before a call, and no call changes it. */
    size_t size;
    /* One of BOOTKEEP_EDITED_... */
    uint32_t kind;
    /* The number of the entry that is added, or of the lowest one that is there; otherwise BOOTKEEP_NO_ENTRY. */
    uint32_t entry;
};

/*
 * The set after an edit, and in `*edited` what came of that. The edits of entries have their numbers in `numbers`, and
 * BOOTKEEP_EDIT_ADD has the bytes of its load option in `option`; what the kind doesn't take may be NULL and 0.
 * Entries, BootOrder, BootNext and Timeout that the edit isn't of stay as they are, and so does every other variable.
 * `out` must not be `set`.
 *
 *     edited             what came of it, of which the caller has written `size`
 *
 *     BOOTKEEP_DONE, BOOTKEEP_NO_ROOM, BOOTKEEP_NO_MEMORY
 *     BOOTKEEP_BAD_SIZE  `edit->size` or `edited->size` is smaller than the struct
 *     BOOTKEEP_REFUSED   a number of edits, of sets or of load options, BOOTKEEP_FAULT_VARS_BAD_ORDER or
 *                        BOOTKEEP_FAULT_VARS_BAD_NEXT
 */
uint32_t bootkeep_vars_edit(const struct bootkeep_edit *edit, const uint16_t *numbers, size_t numbers_len,
                            const uint8_t *option, size_t option_len, const uint8_t *set, size_t set_len, uint8_t *out,
                            size_t cap, size_t *len, struct bootkeep_edited *edited, struct bootkeep_refusal *refusal)
    BOOTKEEP_CHECKED BOOTKEEP_NONNULL((1, 10, 11, 12));

/* ---- Runs ------------------------------------------------------------------------------------------------------- */

/*
 * Delivers each frame of a stream to a keeper of the set, in order, and gives the set after them, and a line for each
 * reply, ended by a line feed, as `bootkeep run --stream` prints it. The stream is frames one after the other, to its
 * end: whether each is a request is told by its reply. Two buffers are filled, both or none: at BOOTKEEP_NO_ROOM
 * `*set_len_out` and `*lines_len` say what the two need.
 *
 *     stream, stream_len              the frames, one after the other, and how many bytes they have
 *     set_out, set_cap, set_len_out   where the set after them goes, how many bytes fit there, and how many it has
 *     lines, lines_cap, lines_len     where the lines go, how many bytes fit there, and how many they have
 *
 *     BOOTKEEP_DONE, BOOTKEEP_NO_ROOM, BOOTKEEP_NO_MEMORY
 *     BOOTKEEP_REFUSED   a number of sets; otherwise a number of streams; otherwise one of variables
 */
uint32_t bootkeep_run(const uint8_t *set, size_t set_len, const uint8_t *stream, size_t stream_len, uint8_t *set_out,
                      size_t set_cap, size_t *set_len_out, uint8_t *lines, size_t lines_cap, size_t *lines_len,
                      struct bootkeep_refusal *refusal) BOOTKEEP_CHECKED BOOTKEEP_NONNULL((7, 10, 11));

/* ---- Keepers ---------------------------------------------------------------------------------------------------- */

/*
 * What keeps the boot entries of a machine: its variables, the number of the request that is to be applied next, what
 * came of the last ones, the requests that wait, and the plan that is prepared. docs/requests.md has what becomes of
 * each event. A keeper holds memory until it is closed, and writes nothing anywhere: whoever has to survive a loss of
 * power stores bootkeep_keeper_set after each event and before it goes on.
 *
 * It needs no first value: bootkeep_keeper_open reads nothing of it. One that is closed before it was ever opened is
 * `{0}`, or `{}` in C++.
 */
struct bootkeep_keeper {
    /* 0 if the keeper is closed. Read it, if you like. */
    uint32_t is_open;
    /* The library's. */
    void *at;
};

/*
 * Opens a keeper of the variables of a set. `*keeper` may be memory that was never written: nothing of it is read, and
 * at any status but BOOTKEEP_DONE it is closed. So one that is open is closed first: what it holds is lost otherwise.
 *
 *     BOOTKEEP_DONE, BOOTKEEP_NO_MEMORY
 *     BOOTKEEP_REFUSED   a number of sets; otherwise one of variables
 */
uint32_t bootkeep_keeper_open(struct bootkeep_keeper *keeper, const uint8_t *set, size_t set_len,
                              struct bootkeep_refusal *refusal) BOOTKEEP_CHECKED BOOTKEEP_NONNULL((1, 4));

/*
 * bootkeep_keeper_deliver, bootkeep_keeper_prepare, bootkeep_keeper_hand and bootkeep_keeper_restart are events, and
 * the answer is the line of the reply, without a line feed. At any status but BOOTKEEP_DONE the event has not happened,
 * and the same call may be made again.
 *
 *     BOOTKEEP_DONE, BOOTKEEP_NO_ROOM, BOOTKEEP_NO_MEMORY, BOOTKEEP_CLOSED
 */

/* These bytes are delivered, which may be a frame: `applied`, `waiting`, `repeat`, `malformed` and others. */
uint32_t bootkeep_keeper_deliver(struct bootkeep_keeper *keeper, const uint8_t *frame, size_t frame_len, uint8_t *out,
                                 size_t cap, size_t *len) BOOTKEEP_CHECKED BOOTKEEP_NONNULL((1, 6));

/* A boot is prepared: its plan is made, and BootNext is deleted. `prepared` or `already prepared`. */
uint32_t bootkeep_keeper_prepare(struct bootkeep_keeper *keeper, uint8_t *out, size_t cap, size_t *len)
    BOOTKEEP_CHECKED BOOTKEEP_NONNULL((1, 4));

/* The plan that is prepared is handed out, once. `plan` or `nothing prepared`. */
uint32_t bootkeep_keeper_hand(struct bootkeep_keeper *keeper, uint8_t *out, size_t cap, size_t *len)
    BOOTKEEP_CHECKED BOOTKEEP_NONNULL((1, 4));

/* The keeper starts again, without what waits and what is prepared. `restarted`. */
uint32_t bootkeep_keeper_restart(struct bootkeep_keeper *keeper, uint8_t *out, size_t cap, size_t *len)
    BOOTKEEP_CHECKED BOOTKEEP_NONNULL((1, 4));

/* What a reply is. */

/* What was delivered isn't a frame: `fault` says why, and `option_fault` if that is BOOTKEEP_FAULT_FRAME_OPTION. */
#define BOOTKEEP_REPLY_MALFORMED 1
/* The request was applied before, with this outcome. */
#define BOOTKEEP_REPLY_REPEAT 2
/* The request was applied before, and its outcome isn't kept any more. */
#define BOOTKEEP_REPLY_OLD 3
/* The number is too far ahead of `next_number`. */
#define BOOTKEEP_REPLY_AHEAD 4
/* Another request of this number waits. */
#define BOOTKEEP_REPLY_CONFLICT 5
/* The request waits for those before it. */
#define BOOTKEEP_REPLY_WAITING 6
/* The request was applied, with this outcome. */
#define BOOTKEEP_REPLY_APPLIED 7
/* A plan of `count` options is prepared. */
#define BOOTKEEP_REPLY_PREPARED 8
/* A plan was prepared before, and stays. */
#define BOOTKEEP_REPLY_ALREADY_PREPARED 9
/* The plan that was prepared: `plan_next`, and the numbers of the others. */
#define BOOTKEEP_REPLY_PLAN 10
/* No plan is prepared. */
#define BOOTKEEP_REPLY_NOTHING_PREPARED 11
/* What waited and what was prepared is forgotten. */
#define BOOTKEEP_REPLY_RESTARTED 12

/* What came of a request: nothing is told, it was carried out, or why it wasn't. */
#define BOOTKEEP_OUTCOME_NONE 0
#define BOOTKEEP_OUTCOME_DONE 1
#define BOOTKEEP_OUTCOME_EXISTS 2
#define BOOTKEEP_OUTCOME_MISSING 3
#define BOOTKEEP_OUTCOME_ORDER_REPEATS 4
#define BOOTKEEP_OUTCOME_ORDER_UNKNOWN 5
#define BOOTKEEP_OUTCOME_NO_FREE 6

/* A reply as a value. Later versions may add fields at its end: of those a call writes none that `size` leaves out. */
struct bootkeep_reply {
    /* sizeof(struct bootkeep_reply): the caller writes it before a call, and no call changes it. */
    size_t size;
    /* One of BOOTKEEP_REPLY_... */
    uint32_t kind;
    /* One of BOOTKEEP_FAULT_FRAME_..., or BOOTKEEP_NO_KIND. */
    uint32_t fault;
    /* The fault of a frame's option, with its places in the option. Its `kind` is BOOTKEEP_NO_KIND if there is none. */
    struct bootkeep_refusal option_fault;
    /* One of BOOTKEEP_OUTCOME_... */
    uint32_t outcome;
    /* The entry that was added, or BOOTKEEP_NO_ENTRY. */
    uint32_t entry;
    /* The number of the request that is to be applied next, or BOOTKEEP_NO_NUMBER where the reply tells none. */
    uint32_t next_number;
    /* The number of the option that a plan tries first, or BOOTKEEP_NO_ENTRY. */
    uint32_t plan_next;
    /* How many options a plan has, that of `plan_next` included. */
    size_t count;
};

/*
 * bootkeep_keeper_deliver_reply, bootkeep_keeper_prepare_reply, bootkeep_keeper_hand_reply and
 * bootkeep_keeper_restart_reply are the events of bootkeep_keeper_deliver, bootkeep_keeper_prepare,
 * bootkeep_keeper_hand and bootkeep_keeper_restart, with the reply as a value and the numbers of a plan in place of the
 * line: in `numbers` those of the normal options of the plan that is handed out, and none at any other reply. `cap` and
 * `*len` count numbers. At any status but BOOTKEEP_DONE the event has not happened.
 *
 *     BOOTKEEP_DONE, BOOTKEEP_NO_ROOM, BOOTKEEP_NO_MEMORY, BOOTKEEP_CLOSED
 *     BOOTKEEP_BAD_SIZE   `reply->size` is below that of the struct of version 1
 */
uint32_t bootkeep_keeper_deliver_reply(struct bootkeep_keeper *keeper, const uint8_t *frame, size_t frame_len,
                                       struct bootkeep_reply *reply, uint16_t *numbers, size_t cap, size_t *len)
    BOOTKEEP_CHECKED BOOTKEEP_NONNULL((1, 4, 7));
uint32_t bootkeep_keeper_prepare_reply(struct bootkeep_keeper *keeper, struct bootkeep_reply *reply, uint16_t *numbers,
                                       size_t cap, size_t *len) BOOTKEEP_CHECKED BOOTKEEP_NONNULL((1, 2, 5));
uint32_t bootkeep_keeper_hand_reply(struct bootkeep_keeper *keeper, struct bootkeep_reply *reply, uint16_t *numbers,
                                    size_t cap, size_t *len) BOOTKEEP_CHECKED BOOTKEEP_NONNULL((1, 2, 5));
uint32_t bootkeep_keeper_restart_reply(struct bootkeep_keeper *keeper, struct bootkeep_reply *reply, uint16_t *numbers,
                                       size_t cap, size_t *len) BOOTKEEP_CHECKED BOOTKEEP_NONNULL((1, 2, 5));

/*
 * The variables of the machine as they are to be stored, BootKeepState among them: the bytes of a set file. Store all
 * of them, after each event. In BootKeepState are the number of the request that is to be applied next and what came of
 * the last ones: without it the next delivery of a request applies it again.
 *
 * A file can hold it; firmware refuses it. So a program that makes the changes on a machine has to keep BootKeepState
 * elsewhere, and together with the changes that are still to be made, so that after a cut between two of them it makes
 * the others before it delivers anything. bootkeep_moves_requests does that, and `bootvars update`: these are for a
 * machine.
 *
 *     BOOTKEEP_DONE, BOOTKEEP_NO_ROOM, BOOTKEEP_NO_MEMORY, BOOTKEEP_CLOSED
 */
uint32_t bootkeep_keeper_set(struct bootkeep_keeper *keeper, uint8_t *out, size_t cap, size_t *len)
    BOOTKEEP_CHECKED BOOTKEEP_NONNULL((1, 4));

/*
 * In `*number` the number of the request that is to be applied next. This takes no memory.
 *
 *     number   the number of the request
 *
 *     BOOTKEEP_DONE, BOOTKEEP_CLOSED
 */
uint32_t bootkeep_keeper_next_number(struct bootkeep_keeper *keeper, uint32_t *number)
    BOOTKEEP_CHECKED BOOTKEEP_NONNULL((1, 2));

/*
 * Gives up what the keeper holds. It is closed then, and may be opened again; to close one that is closed is no
 * fault.
 *
 *     BOOTKEEP_DONE, BOOTKEEP_CLOSED
 */
uint32_t bootkeep_keeper_close(struct bootkeep_keeper *keeper) BOOTKEEP_NONNULL((1));

/* ---- Machines --------------------------------------------------------------------------------------------------- */

/*
 * A change of a machine, of which the program makes each move: `bootvars update` without input and output. Firmware
 * stores one variable at a time, and power may fail between two of them. So a journal beside the variables tells what
 * is about to be changed before anything is, and that it is done after it; and whoever begins after a loss of power
 * first does what the journal still tells, or takes it back if the machine refuses it.
 *
 *     bootkeep_moves_requests    what was read of the machine, and the frames that are to be run; or
 *     bootkeep_moves_edit        what was read of the machine, and an edit as of bootkeep_vars_edit; or
 *     bootkeep_moves_restore     what was read of the machine, and a set that is to be brought back; or
 *     bootkeep_moves_settle      what was read alone, to do what an earlier command has left, and no more
 *     bootkeep_moves_next        the move that comes next, until there is none
 *     bootkeep_moves_name, bootkeep_moves_bytes
 *                                what it is
 *     bootkeep_moves_tell        what became of it
 *     bootkeep_moves_end, bootkeep_moves_reply
 *                                how the command ended, and the reply to each frame
 *     bootkeep_moves_close
 *
 * docs/promises.md has what is so then of every list of answers, if the program keeps to this, which no proof can see:
 *
 *   - It makes no move but the one that is asked for, and that one once, and tells what became of it before it asks for
 *     the next one. Each move is whole: it is made or isn't, whatever is cut off when.
 *   - It tells BOOTKEEP_BECAME_DONE once no cut undoes the move, and no later move lasts before an earlier one: a file
 *     is written beside the old one, synced, renamed, and then its folder is synced.
 *   - It tells BOOTKEEP_BECAME_REFUSED only if the move isn't made. To set what is there already, and to delete what
 *     isn't there, is done.
 *   - What is handed in is what is there, and from before it was read until the command is closed nobody else changes
 *     the boot manager's variables or the journal. docs/machines.md has the locks that `bootvars` takes.
 *   - The start's identity is another one after each start of the machine, and the same until then:
 *     /proc/sys/kernel/random/boot_id on Linux. No two machines have the same name.
 *
 * To ask for the next move costs as much as all moves before it, so a command of n moves costs the square of n.
 */

/*
 * A command over a machine. It holds memory until it is closed, and is opened, handed on and closed as a keeper is.
 */
struct bootkeep_moves {
    /* 0 if no command is open. Read it, if you like. */
    uint32_t is_open;
    /* The library's. */
    void *at;
};

/*
 * Begins a command that runs the frames of a stream over the variables of a machine.
 *
 * `machine` is what the machine is called, any bytes, one to BOOTKEEP_MACHINE_MAX of them, and `start` the identity of
 * its start. `variables` is a set of what the machine keeps under each name: of Boot####, BootOrder, BootNext and
 * Timeout their attributes, in four bytes, and then their data, as a file of Linux's efivarfs has the two; any other
 * may be left out. `journal` is the bytes of the journal's file, all of them, and of none if there is no such file.
 * Notes, as `bootvars update` has them before the journal, are left out: bootkeep_notes_len tells how many bytes those
 * are.
 *
 * `*moves` may be memory that was never written, as that of a keeper.
 *
 *     stream, stream_len   the frames, one after the other, and how many bytes they have
 *
 *     BOOTKEEP_DONE, BOOTKEEP_NO_MEMORY
 *     BOOTKEEP_REFUSED   a number of streams; otherwise BOOTKEEP_FAULT_MACHINE_BAD_NAME; otherwise
 *                        BOOTKEEP_FAULT_MACHINE_BAD_START; otherwise a number of sets; otherwise one of journals
 */
uint32_t bootkeep_moves_requests(struct bootkeep_moves *moves, const uint8_t *machine, size_t machine_len,
                                 const uint8_t *start, size_t start_len, const uint8_t *variables, size_t variables_len,
                                 const uint8_t *journal, size_t journal_len, const uint8_t *stream, size_t stream_len,
                                 struct bootkeep_refusal *refusal) BOOTKEEP_CHECKED BOOTKEEP_NONNULL((1, 12));

/*
 * Begins a command that makes an edit of the variables of a machine, as bootkeep_vars_edit makes it of a set. `numbers`
 * and `option` are copied.
 *
 *     BOOTKEEP_DONE, BOOTKEEP_NO_MEMORY
 *     BOOTKEEP_BAD_SIZE  `edit->size` is smaller than the struct
 *     BOOTKEEP_REFUSED   BOOTKEEP_FAULT_UNEDITED_BAD_KIND, BOOTKEEP_FAULT_UNEDITED_BAD_NUMBER or
 *                        BOOTKEEP_FAULT_UNEDITED_BAD_POSITION; otherwise BOOTKEEP_FAULT_MACHINE_BAD_NAME; otherwise
 *                        BOOTKEEP_FAULT_MACHINE_BAD_START; otherwise a number of sets; otherwise one of journals
 */
uint32_t bootkeep_moves_edit(struct bootkeep_moves *moves, const uint8_t *machine, size_t machine_len,
                             const uint8_t *start, size_t start_len, const uint8_t *variables, size_t variables_len,
                             const uint8_t *journal, size_t journal_len, const struct bootkeep_edit *edit,
                             const uint16_t *numbers, size_t numbers_len, const uint8_t *option, size_t option_len,
                             struct bootkeep_refusal *refusal) BOOTKEEP_CHECKED BOOTKEEP_NONNULL((1, 10, 15));

/*
 * Begins a command that brings the boot manager's variables of a machine back to those of a set: Boot####, BootOrder,
 * BootNext and Timeout. What is in it under these names is there then, and what isn't is gone; all else stays. So what
 * was read before a change undoes it.
 *
 *     back, back_len   the set, which has of each variable what the machine keeps, as `variables` has it, and how many
 *                      bytes it has
 *
 *     BOOTKEEP_DONE, BOOTKEEP_NO_MEMORY
 *     BOOTKEEP_REFUSED   a number of sets, of `back`; otherwise BOOTKEEP_FAULT_MACHINE_NO_DATA, of a variable in it;
 *                        otherwise BOOTKEEP_FAULT_MACHINE_BAD_NAME; otherwise BOOTKEEP_FAULT_MACHINE_BAD_START;
 *                        otherwise a number of sets, of `variables`; otherwise one of journals
 */
uint32_t bootkeep_moves_restore(struct bootkeep_moves *moves, const uint8_t *machine, size_t machine_len,
                                const uint8_t *start, size_t start_len, const uint8_t *variables, size_t variables_len,
                                const uint8_t *journal, size_t journal_len, const uint8_t *back, size_t back_len,
                                struct bootkeep_refusal *refusal) BOOTKEEP_CHECKED BOOTKEEP_NONNULL((1, 12));

/*
 * Begins a command that does what an earlier one has left to do, and no more.
 *
 *     BOOTKEEP_DONE, BOOTKEEP_NO_MEMORY
 *     BOOTKEEP_REFUSED   BOOTKEEP_FAULT_MACHINE_BAD_NAME; otherwise BOOTKEEP_FAULT_MACHINE_BAD_START; otherwise a
 *                        number of sets; otherwise one of journals
 */
uint32_t bootkeep_moves_settle(struct bootkeep_moves *moves, const uint8_t *machine, size_t machine_len,
                               const uint8_t *start, size_t start_len, const uint8_t *variables, size_t variables_len,
                               const uint8_t *journal, size_t journal_len, struct bootkeep_refusal *refusal)
    BOOTKEEP_CHECKED BOOTKEEP_NONNULL((1, 10));

/* No move comes next: the command has ended, as bootkeep_moves_end tells. */
#define BOOTKEEP_MOVE_NONE 0
/* The variable of bootkeep_moves_name is to be set to bootkeep_moves_bytes: its attributes, and then its data. */
#define BOOTKEEP_MOVE_SET 1
/* The variable of bootkeep_moves_name is to be deleted. */
#define BOOTKEEP_MOVE_DELETE 2
/* The journal's file is to be replaced by bootkeep_moves_bytes. */
#define BOOTKEEP_MOVE_JOURNAL 3

/*
 * In `*kind` the move that comes next, by what was told so far. To ask again gives the same, until more is told. At
 * BOOTKEEP_NO_MEMORY nothing has happened.
 *
 *     kind   the move, as BOOTKEEP_MOVE_SET
 *
 *     BOOTKEEP_DONE, BOOTKEEP_NO_MEMORY, BOOTKEEP_CLOSED
 */
uint32_t bootkeep_moves_next(struct bootkeep_moves *moves, uint32_t *kind) BOOTKEEP_CHECKED BOOTKEEP_NONNULL((1, 2));

/*
 * The name of the variable of the move that is asked for. This takes no memory.
 *
 *     BOOTKEEP_DONE, BOOTKEEP_NO_ROOM, BOOTKEEP_CLOSED
 *     BOOTKEEP_ABSENT    no move of a variable is asked for
 */
uint32_t bootkeep_moves_name(struct bootkeep_moves *moves, uint8_t *out, size_t cap, size_t *len)
    BOOTKEEP_CHECKED BOOTKEEP_NONNULL((1, 4));

/*
 * The bytes of the move that is asked for: those that the variable is to have, attributes first, or those of the
 * journal's file.
 *
 *     BOOTKEEP_DONE, BOOTKEEP_NO_ROOM, BOOTKEEP_NO_MEMORY, BOOTKEEP_CLOSED
 *     BOOTKEEP_ABSENT    no move that sets a variable or replaces the journal is asked for
 */
uint32_t bootkeep_moves_bytes(struct bootkeep_moves *moves, uint8_t *out, size_t cap, size_t *len)
    BOOTKEEP_CHECKED BOOTKEEP_NONNULL((1, 4));

/* The move is made, and no cut undoes it. */
#define BOOTKEEP_BECAME_DONE 0
/* The move was refused, and isn't made. */
#define BOOTKEEP_BECAME_REFUSED 1
/* The move was refused, and is made nevertheless, or that can't be told. Any other number counts as this one. */
#define BOOTKEEP_BECAME_PERHAPS 2

/*
 * Tells what became of the move that is asked for. This takes no memory.
 *
 *     became   what became of it: BOOTKEEP_BECAME_DONE, BOOTKEEP_BECAME_REFUSED or BOOTKEEP_BECAME_PERHAPS
 *     reason   the program's own number of why it was refused, which bootkeep_moves_end tells
 *
 *     BOOTKEEP_DONE, BOOTKEEP_CLOSED
 *     BOOTKEEP_ABSENT    no move is asked for: nothing has happened
 */
uint32_t bootkeep_moves_tell(struct bootkeep_moves *moves, uint32_t became, uint32_t reason)
    BOOTKEEP_CHECKED BOOTKEEP_NONNULL((1));

/* It has happened. */
#define BOOTKEEP_END_DONE 1
/* A move of what an earlier command had left was refused, and that is taken back. Nothing was run. */
#define BOOTKEEP_END_NOT_RUN 2
/* The same, but it isn't taken back yet: the next command goes on with it. Nothing was run. */
#define BOOTKEEP_END_NOT_SETTLED 3
/* The variables were refused, for `fault`. Nothing was changed. */
#define BOOTKEEP_END_RUN_REFUSED 4
/* A move was refused, and the change is taken back: it hasn't happened. */
#define BOOTKEEP_END_TAKEN_BACK 5
/* A move was refused, and then one that takes the change back. It may still happen: don't take it for one that failed.
 */
#define BOOTKEEP_END_UNSETTLED 6
/* Memory was refused. Nothing was changed. */
#define BOOTKEEP_END_NO_MEMORY 7

/* How a command ended. Later versions may add fields at its end: of those a call writes none that `size` leaves out. */
struct bootkeep_moves_end {
    /* sizeof(struct bootkeep_moves_end): the caller writes it before a call, and no call changes it. */
    size_t size;
    /* One of BOOTKEEP_END_... */
    uint32_t kind;
    /* The program's number of why a move was refused, or 0. */
    uint32_t reason;
    /* The same of a move that takes it back, or 0. */
    uint32_t second_reason;
    /*
     * Why the variables were refused, or BOOTKEEP_NO_KIND: BOOTKEEP_FAULT_VARS_..., BOOTKEEP_FAULT_MACHINE_..., or of
     * an edit a number of edits or of load options.
     */
    uint32_t fault;
    /* How many replies there are: one to each frame, if it has happened. */
    size_t replies;
    /* One of BOOTKEEP_EDITED_...: what came of an edit that has happened. */
    uint32_t edited;
    /* The number of the entry that it added or found, or BOOTKEEP_NO_ENTRY. */
    uint32_t entry;
};

/* To GCC a call of C++ that has the name of a struct hides that struct's constructors. */
#if defined(__cplusplus) && defined(__GNUC__)
#pragma GCC diagnostic push
#pragma GCC diagnostic ignored "-Wshadow"
#endif

/*
 * How the command ended, in `*end`. This takes no memory.
 *
 *     end   how, of which the caller has written `size`
 *
 *     BOOTKEEP_DONE, BOOTKEEP_CLOSED
 *     BOOTKEEP_ABSENT     bootkeep_moves_next hasn't told that it ended
 *     BOOTKEEP_BAD_SIZE   `end->size` is below that of the struct of version 1
 */
uint32_t bootkeep_moves_end(struct bootkeep_moves *moves, struct bootkeep_moves_end *end)
    BOOTKEEP_CHECKED BOOTKEEP_NONNULL((1, 2));

#if defined(__cplusplus) && defined(__GNUC__)
#pragma GCC diagnostic pop
#endif

/*
 * The reply to the frame at this place of the stream, counted from 0, in `*reply`. This takes no memory.
 *
 *     place   the place of the frame
 *
 *     BOOTKEEP_DONE, BOOTKEEP_CLOSED
 *     BOOTKEEP_ABSENT     there is no such reply
 *     BOOTKEEP_BAD_SIZE   `reply->size` is below that of the struct of version 1
 */
uint32_t bootkeep_moves_reply(struct bootkeep_moves *moves, size_t place, struct bootkeep_reply *reply)
    BOOTKEEP_CHECKED BOOTKEEP_NONNULL((1, 3));

/*
 * Gives up what the command holds. It is closed then; to close one that is closed is no fault. A command may be closed
 * at any time: what it has left to do, the next one does.
 *
 *     BOOTKEEP_DONE, BOOTKEEP_CLOSED
 */
uint32_t bootkeep_moves_close(struct bootkeep_moves *moves) BOOTKEEP_NONNULL((1));

/*
 * In `*idle` whether a journal tells of nothing that is left to do: 1 if so, also if there is no such file, and 0 if a
 * command was cut off or couldn't take itself back, and bootkeep_moves_settle has something to do. Whose journal it is
 * isn't looked at. The bytes are those of the file after its notes, which bootkeep_notes_len tells: with notes they
 * are no journal.
 *
 *     idle   1 if nothing is left to do, and 0 if something is
 *
 *     BOOTKEEP_DONE, BOOTKEEP_NO_MEMORY
 *     BOOTKEEP_REFUSED   a number of journals, but none of BOOTKEEP_FAULT_JOURNAL_OF_ANOTHER and
 *                        BOOTKEEP_FAULT_JOURNAL_TOO_LONG
 */
uint32_t bootkeep_journal_is_idle(const uint8_t *journal, size_t journal_len, uint32_t *idle,
                                  struct bootkeep_refusal *refusal) BOOTKEEP_CHECKED BOOTKEEP_NONNULL((3, 4));

/* ---- Notes ------------------------------------------------------------------------------------------------------ */

/*
 * Notes stand at the start of a journal's file, and are kept for those who send requests: an identity, by which a
 * sender knows the journal again, and digests of the frames that were applied last, by which it is told whether a
 * number that comes again was given to the same request. docs/formats/machine.md has them to the byte. Without them a
 * journal does all that it does for the machine.
 *
 * A program that begins a journal for requests draws an identity at random and makes notes of it. Before a command of
 * requests it runs the same command over a copy of what it read, in memory: it answers BOOTKEEP_BECAME_DONE to each
 * move. bootkeep_moves_notes gives the notes after it then, and these are written before each journal that the command
 * replaces, when it is made. Commands of other kinds leave the notes as they are.
 *
 * A call that is handed notes takes the whole file that begins with them too: what is after them isn't looked at.
 * Bytes that don't begin with the four bytes `BKJ3` have no notes.
 */

/*
 * In `*taken` how many bytes of notes a journal's file begins with: 0 if it has none. The journal is after them.
 *
 *     taken   how many of the bytes the notes take
 *
 *     BOOTKEEP_DONE, BOOTKEEP_NO_MEMORY
 *     BOOTKEEP_REFUSED   a number of notes
 */
uint32_t bootkeep_notes_len(const uint8_t *notes, size_t notes_len, size_t *taken, struct bootkeep_refusal *refusal)
    BOOTKEEP_CHECKED BOOTKEEP_NONNULL((3, 4));

/*
 * Notes with this identity, of which no frame was applied as yet.
 *
 *     identity, identity_len   the identity, drawn at random, and how many bytes it has: BOOTKEEP_IDENTITY_LEN
 *
 *     BOOTKEEP_DONE, BOOTKEEP_NO_ROOM, BOOTKEEP_NO_MEMORY
 *     BOOTKEEP_REFUSED   BOOTKEEP_FAULT_NOTES_BAD_IDENTITY
 */
uint32_t bootkeep_notes_make(const uint8_t *identity, size_t identity_len, uint8_t *out, size_t cap, size_t *len,
                             struct bootkeep_refusal *refusal) BOOTKEEP_CHECKED BOOTKEEP_NONNULL((5, 6));

/*
 * The identity in the notes, BOOTKEEP_IDENTITY_LEN bytes.
 *
 *     BOOTKEEP_DONE, BOOTKEEP_NO_ROOM, BOOTKEEP_NO_MEMORY
 *     BOOTKEEP_ABSENT    there are no notes
 *     BOOTKEEP_REFUSED   a number of notes
 */
uint32_t bootkeep_notes_identity(const uint8_t *notes, size_t notes_len, uint8_t *out, size_t cap, size_t *len,
                                 struct bootkeep_refusal *refusal) BOOTKEEP_CHECKED BOOTKEEP_NONNULL((5, 6));

/*
 * The notes after a command of frames that has happened, from those before it, which are handed in. If there were none
 * there are none: the answer has no bytes then.
 *
 *     BOOTKEEP_DONE, BOOTKEEP_NO_ROOM, BOOTKEEP_NO_MEMORY, BOOTKEEP_CLOSED
 *     BOOTKEEP_ABSENT    the command isn't one of frames, or hasn't happened: bootkeep_moves_end doesn't tell
 *                        BOOTKEEP_END_DONE
 *     BOOTKEEP_REFUSED   a number of notes
 */
uint32_t bootkeep_moves_notes(struct bootkeep_moves *moves, const uint8_t *notes, size_t notes_len, uint8_t *out,
                              size_t cap, size_t *len, struct bootkeep_refusal *refusal)
    BOOTKEEP_CHECKED BOOTKEEP_NONNULL((1, 6, 7));

/* The frame is no repeat of one that was applied, or no digest of that one is kept. */
#define BOOTKEEP_SAME_UNKNOWN 0
/* The frame is the one that was applied under its number. */
#define BOOTKEEP_SAME_YES 1
/* Another frame was applied under its number: its sender and that of the other one don't know of each other. */
#define BOOTKEEP_SAME_NO 2

/*
 * In `*same` whether the frame at this place of the stream, counted from 0, which was answered by
 * BOOTKEEP_REPLY_REPEAT, is the one that was applied under its number, in this command or before it: by the last 64
 * that this one applied up to then, and otherwise by the notes before it, which are handed in. The command has to have
 * happened. Each call takes the digests of all frames.
 *
 *     place   the place of the frame
 *     same    one of BOOTKEEP_SAME_...: BOOTKEEP_SAME_UNKNOWN of each frame if there are no notes
 *
 *     BOOTKEEP_DONE, BOOTKEEP_NO_MEMORY, BOOTKEEP_CLOSED
 *     BOOTKEEP_ABSENT    the command isn't one of frames, hasn't happened, or has no such frame
 *     BOOTKEEP_REFUSED   a number of notes
 */
uint32_t bootkeep_moves_same(struct bootkeep_moves *moves, const uint8_t *notes, size_t notes_len, size_t place,
                             uint32_t *same, struct bootkeep_refusal *refusal)
    BOOTKEEP_CHECKED BOOTKEEP_NONNULL((1, 5, 6));

/* ---- Records ---------------------------------------------------------------------------------------------------- */

/*
 * A record is the bytes of a file in the folder `history`, all of them: what the boot manager's variables of a machine
 * were before a change and after it, the time, and the words of the command that made it. docs/machines.md has where
 * `bootvars` keeps them, and when. With one a change can be undone: bootkeep_record_standing tells whether it still
 * stands, and bootkeep_record_back what bootkeep_moves_restore is to bring back.
 */

/*
 * The record of a change of a machine's boot variables. Of the two sets it has Boot####, BootOrder, BootNext and
 * Timeout.
 *
 *     time                 when the change is made, in seconds since 1970-01-01T00:00:00Z
 *     before, before_len   what the machine keeps before the change, as `variables` of bootkeep_moves_requests has it,
 *                          and how many bytes the set has
 *     after, after_len     the same after the change
 *     words, words_len     the words of the command, each in UTF-8 and ended by a zero, one after the other, and how
 *                          many bytes they have with their zeros: no bytes for no words. The command line of a process
 *                          is in this form in /proc/self/cmdline
 *
 *     BOOTKEEP_DONE, BOOTKEEP_NO_ROOM, BOOTKEEP_NO_MEMORY
 *     BOOTKEEP_REFUSED   BOOTKEEP_FAULT_MACHINE_BAD_NAME; otherwise BOOTKEEP_FAULT_RECORD_OPEN_WORD; otherwise
 *                        BOOTKEEP_FAULT_RECORD_BAD_WORD; otherwise a number of sets, of `before`; otherwise one of
 *                        `after`; otherwise BOOTKEEP_FAULT_RECORD_TOO_LONG
 */
uint32_t bootkeep_record_make(const uint8_t *machine, size_t machine_len, uint64_t time, const uint8_t *before,
                              size_t before_len, const uint8_t *after, size_t after_len, const uint8_t *words,
                              size_t words_len, uint8_t *out, size_t cap, size_t *len, struct bootkeep_refusal *refusal)
    BOOTKEEP_CHECKED BOOTKEEP_NONNULL((12, 13));

/*
 * The parts of a record, and where those are in its bytes that are bytes. Later versions may add fields at its end: of
 * those a call writes none that `size` leaves out.
 */
struct bootkeep_record_parts {
    /* sizeof(struct bootkeep_record_parts): the caller writes it before a call, and no call changes it. */
    size_t size;
    /* Where the name of the machine is, and how many bytes it has. */
    size_t machine;
    size_t machine_len;
    /* When the change was made, in seconds since 1970-01-01T00:00:00Z. */
    uint64_t time;
    /* Where the set of what the machine kept before the change is, and how many bytes it has. */
    size_t before;
    size_t before_len;
    /* The same after the change. */
    size_t after;
    size_t after_len;
    /* How many words the command has. */
    size_t words;
};

/* To GCC a call of C++ that has the name of a struct hides that struct's constructors. */
#if defined(__cplusplus) && defined(__GNUC__)
#pragma GCC diagnostic push
#pragma GCC diagnostic ignored "-Wshadow"
#endif

/*
 * The parts of a record, in `*parts`.
 *
 *     parts   the parts, of which the caller has written `size`
 *
 *     BOOTKEEP_DONE, BOOTKEEP_NO_MEMORY
 *     BOOTKEEP_BAD_SIZE   `parts->size` is below that of the struct of version 1
 *     BOOTKEEP_REFUSED    a number of records
 */
uint32_t bootkeep_record_parts(const uint8_t *record, size_t record_len, struct bootkeep_record_parts *parts,
                               struct bootkeep_refusal *refusal) BOOTKEEP_CHECKED BOOTKEEP_NONNULL((3, 4));

#if defined(__cplusplus) && defined(__GNUC__)
#pragma GCC diagnostic pop
#endif

/*
 * The word of this number of the command, of which the first is 0: UTF-8, without a zero at its end. A record that this
 * library made has no zero in a word.
 *
 *     number   the number of the word
 *
 *     BOOTKEEP_DONE, BOOTKEEP_NO_ROOM, BOOTKEEP_NO_MEMORY
 *     BOOTKEEP_ABSENT    the command has no such word
 *     BOOTKEEP_REFUSED   a number of records
 */
uint32_t bootkeep_record_word(const uint8_t *record, size_t record_len, size_t number, uint8_t *out, size_t cap,
                              size_t *len, struct bootkeep_refusal *refusal) BOOTKEEP_CHECKED BOOTKEEP_NONNULL((6, 7));

/* The boot manager's variables are those after the change, but perhaps for a BootNext that a start has used. */
#define BOOTKEEP_STANDING_UNCHANGED 0
/*
 * They are those before the change, but perhaps for such a BootNext, and not those after it: the change wasn't made, or
 * was taken back, or it only set a BootNext, which a start has used.
 */
#define BOOTKEEP_STANDING_NOT_MADE 1
/* They are neither: something else has changed them since. */
#define BOOTKEEP_STANDING_CHANGED 2

/*
 * In `*standing` what the boot manager's variables of a machine are now, beside a record of a change of it. A record
 * that says nothing of Timeout, before the change and after it, counts as one with the Timeout that is there now. Whose
 * record it is isn't looked at: bootkeep_record_parts tells the machine.
 *
 * Who undoes changes passes one over that is BOOTKEEP_STANDING_NOT_MADE, and so `bootvars undo` does with one that is
 * BOOTKEEP_STANDING_CHANGED if what bootkeep_record_back gives is there already, but perhaps for its BootNext: it was
 * undone, and its record left.
 *
 *     standing   how the change stands: one of BOOTKEEP_STANDING_...
 *
 *     BOOTKEEP_DONE, BOOTKEEP_NO_MEMORY
 *     BOOTKEEP_REFUSED   a number of records; otherwise one of sets, of `variables`
 */
uint32_t bootkeep_record_standing(const uint8_t *record, size_t record_len, const uint8_t *variables,
                                  size_t variables_len, uint32_t *standing, struct bootkeep_refusal *refusal)
    BOOTKEEP_CHECKED BOOTKEEP_NONNULL((5, 6));

/*
 * The set that undoes the change of a record, for bootkeep_moves_restore: what the machine kept before the change. If
 * the record says nothing of Timeout, before the change and after it, the set has the one that is there now. It has no
 * BootNext if the one that the change left is there no more, and the one before the change isn't there again: a start
 * may have used it, and would otherwise use it once more. How the change stands isn't looked at.
 *
 * The set is what is to be there; what of it firmware takes is the machine's to say. `bootvars undo` leaves out entries
 * that would have to be stored and are no load option.
 *
 *     BOOTKEEP_DONE, BOOTKEEP_NO_ROOM, BOOTKEEP_NO_MEMORY
 *     BOOTKEEP_REFUSED   a number of records; otherwise one of sets, of `variables`
 */
uint32_t bootkeep_record_back(const uint8_t *record, size_t record_len, const uint8_t *variables, size_t variables_len,
                              uint8_t *out, size_t cap, size_t *len, struct bootkeep_refusal *refusal)
    BOOTKEEP_CHECKED BOOTKEEP_NONNULL((7, 8));

/* ---- Variable files --------------------------------------------------------------------------------------------- */

/*
 * An emulator's variable file, as edk2's OVMF keeps it, is all the bytes of the file, `file, file_len`. It is read and
 * written while the machine is off: docs/machines.md has how.
 */

/*
 * What the file has of the variables that the standard names (UEFI 2.10, 3.3), as a set of what a machine keeps: the
 * data of Boot####, BootOrder, BootNext and Timeout comes after its attributes. It is `variables` of
 * bootkeep_moves_requests. What no set can hold is left out.
 *
 *     file, file_len   all the bytes of the file, and how many there are
 *
 *     BOOTKEEP_DONE, BOOTKEEP_NO_ROOM, BOOTKEEP_NO_MEMORY
 *     BOOTKEEP_REFUSED   a number of variable files; otherwise BOOTKEEP_FAULT_MACHINE_TOO_LONG
 */
uint32_t bootkeep_store_vars(const uint8_t *file, size_t file_len, uint8_t *out, size_t cap, size_t *len,
                             struct bootkeep_refusal *refusal) BOOTKEEP_CHECKED BOOTKEEP_NONNULL((5, 6));

/*
 * The bytes of the file once its Boot####, BootOrder, BootNext and Timeout are those of a set of what a machine keeps:
 * those that the set hasn't got are deleted, and all other variables stay, as do the records of those that are the
 * same. A new record has the attributes of the set. The answer has as many bytes as the file.
 *
 *     file, file_len   all the bytes of the file, and how many there are
 *
 *     BOOTKEEP_DONE, BOOTKEEP_NO_ROOM, BOOTKEEP_NO_MEMORY
 *     BOOTKEEP_REFUSED   a number of sets; otherwise BOOTKEEP_FAULT_MACHINE_NO_DATA; otherwise a number of
 *                        variable files
 */
uint32_t bootkeep_store_with(const uint8_t *file, size_t file_len, const uint8_t *set, size_t set_len, uint8_t *out,
                             size_t cap, size_t *len, struct bootkeep_refusal *refusal)
    BOOTKEEP_CHECKED BOOTKEEP_NONNULL((7, 8));

/* ---- Images ------------------------------------------------------------------------------------------------------ */

/* Which part of firmware finds a fault: the boot manager, for which there is no such file then. */
#define BOOTKEEP_STAGE_BOOT_MANAGER 0
/* LoadImage. With Secure Boot the faults up to BOOTKEEP_FAULT_IMAGE_DEBUG_BEYOND_FILE are found before it. */
#define BOOTKEEP_STAGE_LOADER 1
/* StartImage. */
#define BOOTKEEP_STAGE_START 2

/* What comes of a fault: firmware doesn't start the file. */
#define BOOTKEEP_EFFECT_REFUSED 0
/* Firmware doesn't look at it, and goes wrong: it writes after the image's memory, or runs what isn't in it. */
#define BOOTKEEP_EFFECT_UNSAFE 1
/* The file's bytes don't tell whether it starts: the machine decides. */
#define BOOTKEEP_EFFECT_UNDECIDED 2

/*
 * What firmware for x86-64 asks of a file that an entry names before it starts it: `image` is all its bytes. The fault
 * is the first one, in firmware's order; which part of firmware finds it is in `*stage`, and what comes of it in
 * `*effect`. Without a fault the file may still be refused: docs/formats/images.md has what isn't looked at. This takes
 * no memory.
 *
 *     stage    which part of firmware finds the fault: one of BOOTKEEP_STAGE_...
 *     effect   what comes of it: one of BOOTKEEP_EFFECT_...
 *
 *     BOOTKEEP_DONE      there is no fault
 *     BOOTKEEP_REFUSED   a number of images
 */
uint32_t bootkeep_image_check(const uint8_t *image, size_t image_len, uint32_t *stage, uint32_t *effect,
                              struct bootkeep_refusal *refusal) BOOTKEEP_CHECKED BOOTKEEP_NONNULL((3, 4, 5));

/*
 * The Authenticode digest of an image by SHA-256, in 32 bytes, by which a signature, db and dbx tell of it.
 *
 *     BOOTKEEP_DONE, BOOTKEEP_NO_ROOM, BOOTKEEP_NO_MEMORY
 *     BOOTKEEP_REFUSED   a number of images: the boot manager's, and the loader's up to
 *                        BOOTKEEP_FAULT_IMAGE_SECTION_BEYOND_FILE, or one of the two of digests
 */
uint32_t bootkeep_image_digest(const uint8_t *image, size_t image_len, uint8_t *out, size_t cap, size_t *len,
                               struct bootkeep_refusal *refusal) BOOTKEEP_CHECKED BOOTKEEP_NONNULL((5, 6));

/*
 * Where a signature list is (UEFI 2.10, 32.4.1). It begins with the GUID of its type, in 16 bytes; its header is after
 * 28, and after that are its signatures, each of the GUID of its owner, in 16 bytes, and its data.
 */
struct bootkeep_signature_list {
    size_t place;
    size_t len;
    size_t header_len;
    size_t signature_len;
};

/*
 * Where the signature lists are in the data of db, dbx or KEK, in their order: nothing is copied. `cap` and `*len`
 * count lists.
 *
 *     lists   where the answer goes: where each list is
 *
 *     BOOTKEEP_DONE, BOOTKEEP_NO_ROOM, BOOTKEEP_NO_MEMORY
 *     BOOTKEEP_BAD_SIZE  `item_size` isn't the size of the struct
 *     BOOTKEEP_REFUSED   a number of signature lists
 */
uint32_t bootkeep_signature_lists(const uint8_t *bytes, size_t bytes_len, struct bootkeep_signature_list *lists,
                                  size_t cap, size_t item_size, size_t *len, struct bootkeep_refusal *refusal)
    BOOTKEEP_CHECKED BOOTKEEP_NONNULL((6, 7));

/* ---- Layouts ---------------------------------------------------------------------------------------------------- */

/* Where the library has the fields of each struct. A compiler that can compares its own places with these. */
#if defined(__cplusplus) && __cplusplus >= 201103L
#define BOOTKEEP_ASSERT(condition) static_assert(condition, #condition)
#elif defined(__STDC_VERSION__) && __STDC_VERSION__ >= 201112L
#define BOOTKEEP_ASSERT(condition) _Static_assert(condition, #condition)
#endif

#ifdef BOOTKEEP_ASSERT
BOOTKEEP_ASSERT(offsetof(struct bootkeep_refusal, kind) == 0);
BOOTKEEP_ASSERT(offsetof(struct bootkeep_refusal, inner_kind) == 4);
BOOTKEEP_ASSERT(offsetof(struct bootkeep_refusal, place) == 8);
BOOTKEEP_ASSERT(offsetof(struct bootkeep_refusal, inner_place) == 16);
BOOTKEEP_ASSERT(sizeof(struct bootkeep_refusal) == 24);

BOOTKEEP_ASSERT(offsetof(struct bootkeep_option_parts, attributes) == 0);
BOOTKEEP_ASSERT(offsetof(struct bootkeep_option_parts, reserved) == 4);
BOOTKEEP_ASSERT(offsetof(struct bootkeep_option_parts, description) == 8);
BOOTKEEP_ASSERT(offsetof(struct bootkeep_option_parts, description_len) == 16);
BOOTKEEP_ASSERT(offsetof(struct bootkeep_option_parts, list) == 24);
BOOTKEEP_ASSERT(offsetof(struct bootkeep_option_parts, list_len) == 32);
BOOTKEEP_ASSERT(offsetof(struct bootkeep_option_parts, optional) == 40);
BOOTKEEP_ASSERT(offsetof(struct bootkeep_option_parts, optional_len) == 48);
BOOTKEEP_ASSERT(sizeof(struct bootkeep_option_parts) == 56);

BOOTKEEP_ASSERT(offsetof(struct bootkeep_frame_parts, size) == 0);
BOOTKEEP_ASSERT(offsetof(struct bootkeep_frame_parts, number) == 8);
BOOTKEEP_ASSERT(offsetof(struct bootkeep_frame_parts, kind) == 12);
BOOTKEEP_ASSERT(offsetof(struct bootkeep_frame_parts, entry) == 16);
BOOTKEEP_ASSERT(offsetof(struct bootkeep_frame_parts, reserved) == 20);
BOOTKEEP_ASSERT(offsetof(struct bootkeep_frame_parts, option) == 24);
BOOTKEEP_ASSERT(offsetof(struct bootkeep_frame_parts, option_len) == 32);
BOOTKEEP_ASSERT(sizeof(struct bootkeep_frame_parts) == 40);

BOOTKEEP_ASSERT(offsetof(struct bootkeep_variable, name) == 0);
BOOTKEEP_ASSERT(offsetof(struct bootkeep_variable, name_len) == 8);
BOOTKEEP_ASSERT(offsetof(struct bootkeep_variable, data) == 16);
BOOTKEEP_ASSERT(offsetof(struct bootkeep_variable, data_len) == 24);
BOOTKEEP_ASSERT(sizeof(struct bootkeep_variable) == 32);

BOOTKEEP_ASSERT(offsetof(struct bootkeep_signature_list, place) == 0);
BOOTKEEP_ASSERT(offsetof(struct bootkeep_signature_list, len) == 8);
BOOTKEEP_ASSERT(offsetof(struct bootkeep_signature_list, header_len) == 16);
BOOTKEEP_ASSERT(offsetof(struct bootkeep_signature_list, signature_len) == 24);
BOOTKEEP_ASSERT(sizeof(struct bootkeep_signature_list) == 32);

BOOTKEEP_ASSERT(offsetof(struct bootkeep_named, variable) == 0);
BOOTKEEP_ASSERT(offsetof(struct bootkeep_named, number) == 4);
BOOTKEEP_ASSERT(offsetof(struct bootkeep_named, state) == 8);
BOOTKEEP_ASSERT(sizeof(struct bootkeep_named) == 12);

BOOTKEEP_ASSERT(offsetof(struct bootkeep_change, variable) == 0);
BOOTKEEP_ASSERT(offsetof(struct bootkeep_change, kind) == 4);
BOOTKEEP_ASSERT(sizeof(struct bootkeep_change) == 8);

BOOTKEEP_ASSERT(offsetof(struct bootkeep_edit, size) == 0);
BOOTKEEP_ASSERT(offsetof(struct bootkeep_edit, kind) == 8);
BOOTKEEP_ASSERT(offsetof(struct bootkeep_edit, number) == 12);
BOOTKEEP_ASSERT(offsetof(struct bootkeep_edit, position) == 16);
BOOTKEEP_ASSERT(offsetof(struct bootkeep_edit, again) == 20);
BOOTKEEP_ASSERT(offsetof(struct bootkeep_edit, stale) == 24);
BOOTKEEP_ASSERT(offsetof(struct bootkeep_edit, only) == 28);
BOOTKEEP_ASSERT(sizeof(struct bootkeep_edit) == 32);

BOOTKEEP_ASSERT(offsetof(struct bootkeep_edited, size) == 0);
BOOTKEEP_ASSERT(offsetof(struct bootkeep_edited, kind) == 8);
BOOTKEEP_ASSERT(offsetof(struct bootkeep_edited, entry) == 12);
BOOTKEEP_ASSERT(sizeof(struct bootkeep_edited) == 16);

BOOTKEEP_ASSERT(offsetof(struct bootkeep_reply, size) == 0);
BOOTKEEP_ASSERT(offsetof(struct bootkeep_reply, kind) == 8);
BOOTKEEP_ASSERT(offsetof(struct bootkeep_reply, fault) == 12);
BOOTKEEP_ASSERT(offsetof(struct bootkeep_reply, option_fault) == 16);
BOOTKEEP_ASSERT(offsetof(struct bootkeep_reply, outcome) == 40);
BOOTKEEP_ASSERT(offsetof(struct bootkeep_reply, entry) == 44);
BOOTKEEP_ASSERT(offsetof(struct bootkeep_reply, next_number) == 48);
BOOTKEEP_ASSERT(offsetof(struct bootkeep_reply, plan_next) == 52);
BOOTKEEP_ASSERT(offsetof(struct bootkeep_reply, count) == 56);
BOOTKEEP_ASSERT(sizeof(struct bootkeep_reply) == 64);

BOOTKEEP_ASSERT(offsetof(struct bootkeep_keeper, is_open) == 0);
BOOTKEEP_ASSERT(offsetof(struct bootkeep_keeper, at) == 8);
BOOTKEEP_ASSERT(sizeof(struct bootkeep_keeper) == 16);

BOOTKEEP_ASSERT(offsetof(struct bootkeep_moves, is_open) == 0);
BOOTKEEP_ASSERT(offsetof(struct bootkeep_moves, at) == 8);
BOOTKEEP_ASSERT(sizeof(struct bootkeep_moves) == 16);

BOOTKEEP_ASSERT(offsetof(struct bootkeep_moves_end, size) == 0);
BOOTKEEP_ASSERT(offsetof(struct bootkeep_moves_end, kind) == 8);
BOOTKEEP_ASSERT(offsetof(struct bootkeep_moves_end, reason) == 12);
BOOTKEEP_ASSERT(offsetof(struct bootkeep_moves_end, second_reason) == 16);
BOOTKEEP_ASSERT(offsetof(struct bootkeep_moves_end, fault) == 20);
BOOTKEEP_ASSERT(offsetof(struct bootkeep_moves_end, replies) == 24);
BOOTKEEP_ASSERT(offsetof(struct bootkeep_moves_end, edited) == 32);
BOOTKEEP_ASSERT(offsetof(struct bootkeep_moves_end, entry) == 36);
BOOTKEEP_ASSERT(sizeof(struct bootkeep_moves_end) == 40);

BOOTKEEP_ASSERT(offsetof(struct bootkeep_record_parts, size) == 0);
BOOTKEEP_ASSERT(offsetof(struct bootkeep_record_parts, machine) == 8);
BOOTKEEP_ASSERT(offsetof(struct bootkeep_record_parts, machine_len) == 16);
BOOTKEEP_ASSERT(offsetof(struct bootkeep_record_parts, time) == 24);
BOOTKEEP_ASSERT(offsetof(struct bootkeep_record_parts, before) == 32);
BOOTKEEP_ASSERT(offsetof(struct bootkeep_record_parts, before_len) == 40);
BOOTKEEP_ASSERT(offsetof(struct bootkeep_record_parts, after) == 48);
BOOTKEEP_ASSERT(offsetof(struct bootkeep_record_parts, after_len) == 56);
BOOTKEEP_ASSERT(offsetof(struct bootkeep_record_parts, words) == 64);
BOOTKEEP_ASSERT(sizeof(struct bootkeep_record_parts) == 72);
#undef BOOTKEEP_ASSERT
#endif

#undef BOOTKEEP_CHECKED
#undef BOOTKEEP_NONNULL

#ifdef __cplusplus
}
#endif

#endif
