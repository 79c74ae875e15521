/* The lines of a file, one after the other: see lines.h. */
#include "lines.h"

enum { CHUNK = 65536, LINE_FEED = 10, CARRIAGE_RETURN = 13 };

bool lines_open(struct lines *lines, const char *name, size_t most)
{
    *lines = (struct lines){.most = most};
    if (!input_open(&lines->input, name)) return false;
    bytes_reserve(&lines->chunk, CHUNK);
    bytes_reserve(&lines->line, CHUNK);
    return true;
}

void lines_close(struct lines *lines)
{
    input_close(&lines->input);
    bytes_free(&lines->chunk);
    bytes_free(&lines->line);
}

/* Whether a byte is left at `at` of the chunk; reads the next chunk where this one is used up. */
static bool has_byte(struct lines *lines)
{
    if (lines->at < lines->chunk.length) return true;
    lines->at = lines->chunk.length = 0;
    if (lines->failed) return false;
    lines->failed = !input_read(&lines->input, lines->chunk.at, CHUNK, &lines->chunk.length);
    return !lines->failed && lines->chunk.length > 0;
}

static uint8_t next_byte(const struct lines *lines) { return lines->chunk.at[lines->at]; }

static bool ends_line(uint8_t byte) { return byte == LINE_FEED || byte == CARRIAGE_RETURN; }

/* Takes the bytes before the line's end out of the chunk, and keeps as many of them as the line is to have. */
static void take_part(struct lines *lines)
{
    size_t end = lines->at;
    while (end < lines->chunk.length && !ends_line(lines->chunk.at[end])) end++;
    size_t part = end - lines->at, left = lines->most - lines->line.length;
    bytes_append(&lines->line, lines->chunk.at + lines->at, part < left ? part : left);
    lines->at = end;
}

static void take_end(struct lines *lines, struct line *line)
{
    line->end[line->end_length++] = next_byte(lines);
    lines->at++;
    if (line->end[0] != CARRIAGE_RETURN || !has_byte(lines) || next_byte(lines) != LINE_FEED) return;
    line->end[line->end_length++] = LINE_FEED;
    lines->at++;
}

bool lines_next(struct lines *lines, struct line *line)
{
    if (!has_byte(lines)) return false;
    lines->line.length = line->end_length = 0;
    while (has_byte(lines) && !ends_line(next_byte(lines))) take_part(lines);
    if (!lines->failed && has_byte(lines)) take_end(lines, line);
    if (lines->failed) return false;
    line->number = ++lines->number;
    line->bytes = lines->line.at;
    line->length = lines->line.length;
    return true;
}
