/* The words of the program `rt1553` by the calls of rt1553.h: PLAYER check P | canon P | compare P Q | run P SCRIPT
   And what states.py asks for: PLAYER save CUTS | resume CUTS

   `run` plays the script twice, by rt1553_run and line by line to a terminal, and ends with status 9 where the two differ. A line
   of CUTS is `NAME N`. `save` plays the first N lines of NAME.script to the terminal of NAME.toml, and saves it to NAME-N.state.
   `resume` restores that, and prints the line of CUTS and the transcript of the lines behind. */
#include "script_line.h"

#include <stdlib.h>

typedef struct {
    uint8_t *bytes;
    size_t length;
} text;

static rt1553_fault fault;

static text read_file(const char *name) {
    FILE *file = fopen(name, "rb");
    text read = {malloc(1 << 24), 0};
    if (!file || !read.bytes)
        exit(8);
    read.length = fread(read.bytes, 1, (1 << 24) - 1, file);
    read.bytes[read.length] = '\0';
    fclose(file);
    return read;
}

/* Prints what a call wrote, and tells its fault; the status to end with. */
static int told(uint8_t status, const uint8_t *written, size_t length) {
    fwrite(written, 1, length, stdout);
    if (status == RT1553_REFUSED || status == RT1553_NO_MEMORY)
        fputs(fault.text, stderr);
    return status;
}

static int check(text profile) {
    uint8_t status = rt1553_check(profile.bytes, profile.length, &fault);
    return told(status, (const uint8_t *)"ok\n", status == RT1553_DONE ? 3 : 0);
}

static int canon(text profile) {
    uint8_t to[RT1553_CANONICAL_ROOM];
    size_t length;
    uint8_t status = rt1553_canonical(profile.bytes, profile.length, to, sizeof to, &length, &fault);
    return told(status, to, length);
}

static int compare(text first, text second) {
    uint8_t to[RT1553_SCRIPT_ROOM];
    size_t length;
    uint8_t status = rt1553_compare(first.bytes, first.length, second.bytes, second.length, to, sizeof to, &length, &fault);
    if (status == RT1553_DONE)
        return told(status, (const uint8_t *)"same\n", 5);
    return told(status, to, length);
}

/* Plays a line to a terminal, and writes what is answered; false where the line is none of a script. */
static bool play_line(rt1553_terminal *terminal, const uint8_t *line, size_t length, uint8_t *to, size_t *written) {
    char copy[LONGEST_LINE + 1] = "";
    rt1553_event event;
    if (length > LONGEST_LINE)
        return false;
    if (length == 0 || line[0] == '#')
        return true;
    memcpy(copy, line, length);
    if (strlen(copy) != length || !read_event(copy, &event) || rt1553_play(terminal, event) != RT1553_DONE)
        return false;
    char answer[LINE_ROOM];
    size_t size = write_answer(&terminal->answer, answer);
    memcpy(to + *written, answer, size);
    *written += size;
    return true;
}

/* Plays the lines up to the first that is none of a script. */
static size_t play_lines(rt1553_terminal *terminal, text script, uint8_t *to) {
    size_t written = 0, at = 0;
    while (at < script.length) {
        const uint8_t *end = memchr(script.bytes + at, '\n', script.length - at);
        size_t length = end ? (size_t)(end - (script.bytes + at)) : script.length - at;
        if (!play_line(terminal, script.bytes + at, length, to, &written))
            break;
        at += length + 1;
    }
    return written;
}

static size_t room_for(text script) {
    size_t lines = 1;
    for (size_t i = 0; i < script.length; i++)
        lines += script.bytes[i] == '\n';
    return lines * LINE_ROOM;
}

static int run(text profile, text script) {
    size_t room = room_for(script), length;
    uint8_t *to = malloc(room), *again = malloc(room);
    rt1553_terminal *terminal;
    uint8_t status = rt1553_run(profile.bytes, profile.length, script.bytes, script.length, to, room, &length, &fault);
    int told_status = told(status, to, length);
    if (rt1553_terminal_new(profile.bytes, profile.length, &terminal, &fault) == RT1553_DONE) {
        size_t written = play_lines(terminal, script, again);
        if (written != length || memcmp(to, again, length) != 0)
            told_status = 9;
        rt1553_terminal_free(terminal);
    }
    free(to);
    free(again);
    return told_status;
}

/* A line of CUTS: the name of a profile and its script, and after how many lines this is cut. */
typedef struct {
    char name[32];
    size_t lines;
} cut;

/* Takes a line of CUTS; false at the end. */
static bool next_cut(text *cuts, cut *to) {
    int length = 0;
    if (cuts->length == 0 || sscanf((const char *)cuts->bytes, "%31s %zu\n%n", to->name, &to->lines, &length) != 2)
        return false;
    cuts->bytes += length;
    cuts->length -= (size_t)length;
    return true;
}

/* The file NAME with this ending. */
static text file_of(const char *name, const char *ending) {
    char path[64];
    snprintf(path, sizeof path, "%s%s", name, ending);
    return read_file(path);
}

static const char *state_name(const cut *at) {
    static char path[64];
    snprintf(path, sizeof path, "%s-%zu.state", at->name, at->lines);
    return path;
}

/* How many bytes so many lines have. */
static size_t size_of_lines(text script, size_t lines) {
    size_t at = 0;
    for (; lines > 0; at++)
        lines -= script.bytes[at] == '\n';
    return at;
}

static bool save_at(const cut *at) {
    text profile = file_of(at->name, ".toml"), script = file_of(at->name, ".script");
    uint8_t state[RT1553_STATE_ROOM], *transcript = malloc(room_for(script));
    rt1553_terminal *terminal;
    size_t length = 0;
    script.length = size_of_lines(script, at->lines);
    bool is_saved = rt1553_terminal_new(profile.bytes, profile.length, &terminal, &fault) == RT1553_DONE;
    if (is_saved) {
        play_lines(terminal, script, transcript);
        is_saved = rt1553_terminal_save(terminal, state, sizeof state, &length, &fault) == RT1553_DONE;
        rt1553_terminal_free(terminal);
    }
    FILE *file = fopen(state_name(at), "wb");
    is_saved = is_saved && file && fwrite(state, 1, length, file) == length && fclose(file) == 0;
    free(profile.bytes);
    free(script.bytes);
    free(transcript);
    return is_saved;
}

static bool resume_at(const cut *at) {
    text state = read_file(state_name(at)), script = file_of(at->name, ".script");
    uint8_t *transcript = malloc(room_for(script));
    size_t played = size_of_lines(script, at->lines);
    rt1553_terminal *terminal;
    bool is_restored = rt1553_terminal_restore(state.bytes, state.length, &terminal, &fault) == RT1553_DONE;
    if (is_restored) {
        size_t length = play_lines(terminal, (text){script.bytes + played, script.length - played}, transcript);
        printf("%s %zu\n", at->name, at->lines);
        fwrite(transcript, 1, length, stdout);
        rt1553_terminal_free(terminal);
    }
    free(state.bytes);
    free(script.bytes);
    free(transcript);
    return is_restored;
}

static int at_each(text cuts, bool (*call)(const cut *)) {
    cut at;
    while (next_cut(&cuts, &at))
        if (!call(&at))
            return told(RT1553_REFUSED, NULL, 0);
    return 0;
}

int main(int count, char **words) {
    text first = count > 2 ? read_file(words[2]) : (text){NULL, 0}, second = count > 3 ? read_file(words[3]) : (text){NULL, 0};
    int status = 7;
    if (count == 3 && strcmp(words[1], "save") == 0)
        status = at_each(first, save_at);
    if (count == 3 && strcmp(words[1], "resume") == 0)
        status = at_each(first, resume_at);
    if (count == 3 && strcmp(words[1], "check") == 0)
        status = check(first);
    if (count == 3 && strcmp(words[1], "canon") == 0)
        status = canon(first);
    if (count == 4 && strcmp(words[1], "compare") == 0)
        status = compare(first, second);
    if (count == 4 && strcmp(words[1], "run") == 0)
        status = run(first, second);
    free(first.bytes);
    free(second.bytes);
    return status;
}
