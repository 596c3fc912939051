#include "screen.h"

#include <efilib.h>

UINTN columns, lines, message_count;
CHAR16 messages[MESSAGES][LINE_MAX];

static CHAR16 line[LINE_MAX];
static UINTN line_len;

void screen_begin(void)
{
    SIMPLE_TEXT_OUTPUT_INTERFACE *console = ST->ConOut;

    /* Each console has so many (UEFI 2.10, 12.4). Of one that tells of fewer, what doesn't fit isn't shown. */
    if (EFI_ERROR(console->QueryMode(console, (UINTN)console->Mode->Mode, &columns, &lines)) || columns < 80 ||
        lines < 25) {
        columns = 80;
        lines = 25;
    }
    columns = columns < LINE_MAX ? columns : LINE_MAX;
    console->EnableCursor(console, FALSE);
    console->ClearScreen(console);
}

void add(const CHAR16 *format, ...)
{
    va_list words;

    va_start(words, format);
    if (line_len + 1 < columns)
        line_len += VSPrint(line + line_len, (columns - line_len) * sizeof *line, format, words);
    va_end(words);
}

void end_in(UINTN column)
{
    while (line_len < column && line_len + 1 < columns)
        line[line_len++] = ' ';
    line_len = line_len < column ? line_len : column;
}

/* Ends the line, and begins another one. */
static const CHAR16 *take_line(void)
{
    line[line_len] = 0;
    line_len = 0;
    return line;
}

void show_line(UINTN place)
{
    end_in(columns - 1);
    ST->ConOut->SetCursorPosition(ST->ConOut, 0, place);
    ST->ConOut->OutputString(ST->ConOut, (CHAR16 *)take_line());
}

void say_line(void)
{
    const CHAR16 *said = take_line();

    if (message_count < MESSAGES)
        StrCpy(messages[message_count++], said);
}

void add_refusal(const struct bootkeep_refusal *refusal)
{
    uint8_t word[BOOTKEEP_WORD_MAX + 1] = {0};
    size_t len = 0;

    if (bootkeep_refusal_word(refusal->kind, word, BOOTKEEP_WORD_MAX, &len) == BOOTKEEP_DONE)
        add(L"%a", word);
}

/* The description of an entry, or with its parts where its path leads. */
static uint32_t tell_text(const uint8_t *option, size_t len, const struct bootkeep_option_parts *parts, uint8_t *text,
                          size_t room, size_t *text_len)
{
    struct bootkeep_refusal refusal;
    size_t taken;

    if (parts == NULL)
        return bootkeep_option_description(option, len, text, room, text_len, &refusal);
    return bootkeep_path_names(option + parts->list, parts->list_len, text, room, text_len, &taken, &refusal);
}

/* A text with a question mark in the place of each byte that isn't ASCII, as of a file's name. */
static uint8_t *ascii_of(uint8_t *text)
{
    for (uint8_t *at = text; *at != 0; at++)
        if (*at > 0x7e)
            *at = '?';
    return text;
}

void add_text(const uint8_t *option, size_t len, const struct bootkeep_option_parts *parts, size_t from)
{
    size_t room = 0;
    uint32_t status = tell_text(option, len, parts, NULL, 0, &room);
    uint8_t *text = status == BOOTKEEP_NO_ROOM ? bootkeep_allocate(room + 1) : NULL;

    if (text != NULL)
        status = tell_text(option, len, parts, text, room, &room);
    if (status != BOOTKEEP_DONE)
        add(L"out of memory");
    else if (from < room) {
        text[room] = 0;
        add(L"%a", ascii_of(text + from));
    }
    bootkeep_free(text);
}
