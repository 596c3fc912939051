/*
 * The text console, line by line, and messages.
 */
#ifndef SCREEN_H
#define SCREEN_H

#include <bootkeep.h>
#include <efi.h>

/* The most messages, and the most units of a line. */
enum { MESSAGES = 5, LINE_MAX = 256 };

/* What the console has, up to LINE_MAX columns, and what is said. */
extern UINTN columns, lines, message_count;
extern CHAR16 messages[MESSAGES][LINE_MAX];

/* Asks the console for its size, and clears it. */
void screen_begin(void);

/* Appends to the line what there is room for, in a format of Print. */
void add(const CHAR16 *format, ...);

/* Ends the line in this column, with spaces or by cutting it off. */
void end_in(UINTN column);

/* Shows the line in this place of the screen, and begins another one. */
void show_line(UINTN place);

/* Keeps the line as a message, and begins another one. */
void say_line(void);

/* Appends the word of a refusal of the library. */
void add_refusal(const struct bootkeep_refusal *refusal);

/* Appends the description of a load option, which it has to be, or with its parts the text of its path, from here on.
 */
void add_text(const uint8_t *option, size_t len, const struct bootkeep_option_parts *parts, size_t from);

#endif
