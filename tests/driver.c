/* driver [FILE..]: holds the library to cases in the format of tests/vectors, from the files or from standard input.
 *
 * Each slice is lent so that an unreadable page begins where it ends; what stands before it, back to another such page, is filled. A case
 * passes when the call returns what is expected, writes what it has to at the start of an area, and leaves all else that was lent, and what
 * stands before it, as it was. A case that differs is printed, with its line; so is a line that is no case, which has failed too. A line
 * that begins with '#' names the cases after it. Cases of calls that the driver doesn't make yet are counted apart and named. A call that
 * reads or writes elsewhere, or works longer than CALL_SECONDS, ends the driver. The last line is 'N passed, M failed'; the exit status is 0
 * only when something passed and nothing failed. */
#define _GNU_SOURCE
#include <errno.h>
#include <inttypes.h>
#include <signal.h>
#include <stdbool.h>
#include <stdio.h>
#include <stdlib.h>
#include <string.h>
#include <sys/mman.h>
#include <sys/time.h>
#include <unistd.h>

#include "mpendozilu.h"

enum { MOST_FIELDS = 7, MOST_SLICES = 5, MOST_ROOM = 1 << 20, CALL_WORDS = 3, NODE_WORDS = 4, CALL_SECONDS = 3 };

enum { UNWRITTEN = 0x5a5a5a5a, FILL = 0xa5 };

enum verdict { PASSED, FAILED, LATER };

/* Which case is being judged, for what is printed. */
static struct {
    const char *path;
    size_t line;
    char *name;
    char fault[256];
} here;

/* Words, or the bytes of a file: so many, each of so many bytes. */
struct list {
    void *at;
    size_t count, each;
};

/* A copy of a list that ends where an unreadable page begins, and what fills its pages before it. */
struct lent {
    void *at;
    unsigned char *pages, *fill;
    size_t size, filled;
};

/* What a case lends, and what the call has to write over its start: nothing where it is lent to be read. */
struct slice {
    struct list given, written;
    struct lent copy;
};

/* What a call returns, and the three numbers. */
struct answer {
    uint64_t number, first, second, third;
};

/* A case: its slices in the order of the call's arguments, the number among them, and what is expected. */
struct trial {
    struct slice slices[MOST_SLICES];
    size_t count;
    uint32_t number;
    struct answer expected;
};

static void stop(const char *why)
{
    fprintf(stderr, "driver: %s: %s\n", why, strerror(errno));
    exit(2);
}

/* Begins a line about this case. */
static void print_here(void)
{
    printf("%s:%zu: ", here.path, here.line);
}

static void print_name(void)
{
    printf("%s%s\n", here.name == NULL ? "" : " ", here.name == NULL ? "" : here.name);
}

/* The library read or wrote where nothing was lent to it, or worked too long. A handler may not print, so the line stands ready. */
static void caught(int signal)
{
    (void)signal;
    (void)!write(STDOUT_FILENO, here.fault, strlen(here.fault));
    _exit(1);
}

static size_t bytes_of(const struct list *given)
{
    return given->count * given->each;
}

/* Lends a copy. An empty slice is the unreadable page itself, or NULL. */
static struct lent lend(const struct list *given, bool empty_is_null)
{
    size_t page = (size_t)sysconf(_SC_PAGESIZE);
    size_t bytes = bytes_of(given);
    size_t readable = (bytes + page - 1) / page * page;
    struct lent l;
    l.size = page + readable + page;
    l.pages = mmap(NULL, l.size, PROT_NONE, MAP_PRIVATE | MAP_ANONYMOUS, -1, 0);
    if (l.pages == MAP_FAILED || (readable > 0 && mprotect(l.pages + page, readable, PROT_READ | PROT_WRITE) != 0)) {
        stop("no pages");
    }
    l.fill = l.pages + page;
    l.filled = readable - bytes;
    memset(l.fill, FILL, l.filled);
    l.at = l.fill + l.filled;
    memcpy(l.at, given->at, bytes);
    if (bytes == 0 && empty_is_null) {
        l.at = NULL;
    }
    return l;
}

/* Takes the copy back, and says whether it is as it has to be and what stands before it as it was. */
static bool take_back(const struct slice *s)
{
    const unsigned char *copy = s->copy.fill + s->copy.filled, *given = s->given.at, *written = s->written.at;
    size_t new = bytes_of(&s->written);
    bool same = true;
    for (size_t i = 0; i < bytes_of(&s->given); i++) {
        same = same && copy[i] == (i < new ? written[i] : given[i]);
    }
    for (size_t i = 0; i < s->copy.filled; i++) {
        same = same && s->copy.fill[i] == FILL;
    }
    if (munmap(s->copy.pages, s->copy.size) != 0) {
        stop("pages not taken back");
    }
    return same;
}

/* Reads a decimal number of at most 32 bits; *text is then what follows it. */
static bool read_number(char **text, uint32_t *number)
{
    uint64_t n = 0;
    char *at = *text;
    while (*at >= '0' && *at <= '9' && n <= UINT32_MAX) {
        n = n * 10 + (uint64_t)(*at++ - '0');
    }
    if (at == *text || n > UINT32_MAX) {
        return false;
    }
    *text = at;
    *number = (uint32_t)n;
    return true;
}

/* An empty list with room for some and one more. The caller frees it. */
static void *room_for(size_t count, size_t each, struct list *l)
{
    *l = (struct list){calloc(count + 1, each), 0, each};
    if (l->at == NULL) {
        stop("no memory");
    }
    return l->at;
}

/* Reads words that are separated by single spaces; none is a list too. The caller frees them. */
static bool read_words(char *text, struct list *ws)
{
    uint32_t *at = room_for(strlen(text), sizeof *at, ws);
    if (*text == '\0') {
        return true;
    }
    while (read_number(&text, &at[ws->count++])) {
        if (*text == '\0') {
            return true;
        }
        if (*text++ != ' ') {
            return false;
        }
    }
    return false;
}

/* Reads an area's room, and fills the area so that no two of its words are alike. The caller frees it. */
static bool read_room(char *text, struct list *ws)
{
    uint32_t room, *at;
    if (!read_number(&text, &room) || *text != '\0' || room > MOST_ROOM) {
        return false;
    }
    at = room_for(room, sizeof *at, ws);
    for (; ws->count < room; ws->count++) {
        at[ws->count] = UNWRITTEN + (uint32_t)ws->count;
    }
    return true;
}

/* Reads a file in hex, with small letters. The caller frees it. */
static bool read_file(const char *text, struct list *file)
{
    static const char digits[] = "0123456789abcdef";
    size_t length = strlen(text);
    unsigned char *at = room_for(length / 2, sizeof *at, file);
    if (length % 2 != 0 || strspn(text, digits) != length) {
        return false;
    }
    for (; file->count < length / 2; file->count++, text += 2) {
        at[file->count] = (unsigned char)((strchr(digits, text[0]) - digits) * 16 + (strchr(digits, text[1]) - digits));
    }
    return true;
}

/* Whether the text begins with the word; *text is then what follows it. */
static bool read_word(char **text, const char *word)
{
    size_t length = strlen(word);
    if (strncmp(*text, word, length) != 0) {
        return false;
    }
    *text += length;
    return true;
}

/* Reads two numbers with a space between them. */
static bool read_two(char **text, uint32_t *a, uint32_t *b)
{
    return read_number(text, a) && read_word(text, " ") && read_number(text, b);
}

/* Reads 'refused NUMBER PLACE'. */
static bool read_refusal(char *text, struct answer *a)
{
    uint32_t number, place;
    if (!read_word(&text, "refused ") || !read_two(&text, &number, &place) || *text != '\0') {
        return false;
    }
    *a = (struct answer){number, place, 0, 0};
    return number > 0;
}

static enum verdict malformed(void)
{
    print_here();
    printf("no case");
    print_name();
    return FAILED;
}

static void print_answer(const char *which, const struct answer *a)
{
    printf("%s %" PRIu64 " with %" PRIu64 " %" PRIu64 " %" PRIu64, which, a->number, a->first, a->second, a->third);
}

/* Whether the call gave what was expected and left what was lent as it has to be. */
static enum verdict compare(const struct answer *expected, const struct answer *got, bool areas_same)
{
    bool same = expected->number == got->number && expected->first == got->first && expected->second == got->second
        && expected->third == got->third;
    if (same && areas_same) {
        return PASSED;
    }
    print_here();
    print_answer("expected", expected);
    print_answer(", got", got);
    printf("%s", areas_same ? "" : ", and what was lent is not as it has to be");
    print_name();
    return FAILED;
}

/* Signals when the process has worked so long from now on; 0 for never. */
static void limit_time(time_t seconds)
{
    struct itimerval limit = {{0, 0}, {seconds, 0}};
    if (setitimer(ITIMER_VIRTUAL, &limit, NULL) != 0) {
        stop("no timer");
    }
}

/* Makes the call, and judges what it gave. */
static enum verdict hold(struct trial *t, uint64_t (*call)(const struct trial *, struct answer *), bool empty_is_null)
{
    struct answer got = {UNWRITTEN, UNWRITTEN, UNWRITTEN, UNWRITTEN};
    bool same = true;
    for (size_t i = 0; i < t->count; i++) {
        t->slices[i].copy = lend(&t->slices[i].given, empty_is_null);
    }
    limit_time(CALL_SECONDS);
    got.number = call(t, &got);
    limit_time(0);
    for (size_t i = 0; i < t->count; i++) {
        same = take_back(&t->slices[i]) && same;
    }
    return compare(&t->expected, &got, same);
}

/* ok A B : words : words, for a call that writes them to two areas, of which the first has so many words for each of A and the second B. */
static bool answers_two_areas(char *text, struct slice *areas, size_t each, struct answer *expected)
{
    uint32_t a, b;
    char *second;
    if (!read_word(&text, "ok ") || !read_two(&text, &a, &b) || !read_word(&text, " : ") || (second = strstr(text, " : ")) == NULL) {
        return false;
    }
    *second = '\0';
    *expected = (struct answer){0, a, b, 0};
    return read_words(text, &areas[0].written) && areas[0].written.count == each * a && areas[0].given.count >= areas[0].written.count
        && read_words(second + strlen(" : "), &areas[1].written) && areas[1].written.count == b && areas[1].given.count >= b;
}

/* Load: ok LENGTH LENGTH : pipeline : rules */
static bool answers_blocks(char *text, struct trial *t)
{
    return answers_two_areas(text, &t->slices[1], 1, &t->expected);
}

static uint64_t call_load(const struct trial *t, struct answer *got)
{
    const struct slice *s = t->slices;
    return mz_load(s[0].copy.at, s[0].given.count, s[1].copy.at, s[1].given.count, s[2].copy.at, s[2].given.count, &got->first,
                   &got->second, &got->third);
}

/* Check: ok */
static bool answers_ok(char *text, struct trial *t)
{
    (void)t;
    return strcmp(text, "ok") == 0;
}

static uint64_t call_check(const struct trial *t, struct answer *got)
{
    const struct slice *s = t->slices;
    return mz_check(s[0].copy.at, s[0].given.count, s[1].copy.at, s[1].given.count, &got->first, &got->second, &got->third);
}

/* Lookup: empty; part pipeline OFFSET; part rules OFFSET. The three words stand in that block. */
static bool answers_part(char *text, struct trial *t)
{
    static const char *const parts[] = {"part pipeline ", "part rules "};
    uint32_t offset = 0;
    for (size_t i = 0; i < 2; i++) {
        if (read_word(&text, parts[i])) {
            bool readable = read_number(&text, &offset) && *text == '\0';
            t->expected = (struct answer){0, 2 - i, offset, 0};
            return readable && (size_t)offset + CALL_WORDS <= t->slices[i].given.count;
        }
    }
    return strcmp(text, "empty") == 0;
}

static uint64_t call_lookup(const struct trial *t, struct answer *got)
{
    const struct slice *s = t->slices;
    return mz_lookup(s[0].copy.at, s[0].given.count, s[1].copy.at, s[1].given.count, s[2].copy.at, s[2].given.count, t->number,
                     &got->first, &got->second, &got->third);
}

/* Run: passed 0 USED : packet; blocked NODE USED : packet; failed NODE USED : packet. The packet is written to the end area. */
static bool answers_ending(char *text, struct trial *t)
{
    static const char *const endings[] = {"passed ", "blocked ", "failed "};
    struct slice *end = &t->slices[4];
    uint32_t node, used;
    size_t how = 0;
    while (how < 3 && !read_word(&text, endings[how])) {
        how++;
    }
    if (how == 3 || !read_two(&text, &node, &used) || !read_word(&text, " : ") || !read_words(text, &end->written)) {
        return false;
    }
    t->expected = (struct answer){0, how, node, used};
    return end->written.count <= end->given.count;
}

static uint64_t call_run(const struct trial *t, struct answer *got)
{
    const struct slice *s = t->slices;
    return mz_run(s[0].copy.at, s[0].given.count, s[1].copy.at, s[1].given.count, s[2].copy.at, s[2].given.count, s[3].copy.at,
                  s[3].given.count, s[4].copy.at, s[4].given.count, &got->first, &got->second, &got->third);
}

/* Confirm: yes; no */
static bool answers_yes_or_no(char *text, struct trial *t)
{
    t->expected.first = strcmp(text, "yes") == 0;
    return t->expected.first == 1 || strcmp(text, "no") == 0;
}

static uint64_t call_confirm(const struct trial *t, struct answer *got)
{
    const struct slice *s = t->slices;
    return mz_confirm(s[0].copy.at, s[0].given.count, s[1].copy.at, s[1].given.count, s[2].copy.at, s[2].given.count, s[3].copy.at,
                      s[3].given.count, &got->first, &got->second, &got->third);
}

/* Passify: ok N V : node words : widths */
static bool answers_form(char *text, struct trial *t)
{
    return answers_two_areas(text, &t->slices[2], NODE_WORDS, &t->expected);
}

static uint64_t call_passify(const struct trial *t, struct answer *got)
{
    const struct slice *s = t->slices;
    return mz_passify(s[0].copy.at, s[0].given.count, s[1].copy.at, s[1].given.count, s[2].copy.at, s[2].given.count, s[3].copy.at,
                      s[3].given.count, &got->first, &got->second, &got->third);
}

/* The calls of the format, and for each argument a letter: a file that is read (f), words that are read (r), an area that may be
 * written (w), a number (n). What the call answers with when it doesn't refuse is read by a function of its own. Calls with no function are
 * left for later. */
static struct call {
    const char *name, *arguments;
    bool (*answers)(char *text, struct trial *t);
    uint64_t (*call)(const struct trial *t, struct answer *got);
    size_t later;
} calls[] = {
    {"load", "fww", answers_blocks, call_load, 0},
    {"check", "rr", answers_ok, call_check, 0},
    {"lookup", "rrrn", answers_part, call_lookup, 0},
    {"run", "rrrrw", answers_ending, call_run, 0},
    {"confirm", "rrrr", answers_yes_or_no, call_confirm, 0},
    {"passify", "rrww", answers_form, call_passify, 0},
    {"condition", NULL, NULL, NULL, 0},
    {"evaluate", NULL, NULL, NULL, 0},
    {"extract", NULL, NULL, NULL, 0},
    {"listing", NULL, NULL, NULL, 0},
};

enum { CALLS = sizeof calls / sizeof calls[0] };

static bool read_argument(char letter, char *text, struct trial *t)
{
    switch (letter) {
    case 'f':
        return read_file(text, &t->slices[t->count++].given);
    case 'n':
        return read_number(&text, &t->number) && *text == '\0';
    case 'w':
        return read_room(text, &t->slices[t->count++].given);
    default:
        return read_words(text, &t->slices[t->count++].given);
    }
}

/* Reads a case: the call's name, its arguments, its answer. */
static bool read_trial(const struct call *c, char **fields, size_t count, struct trial *t)
{
    size_t arguments = strlen(c->arguments);
    if (count != arguments + 2) {
        return false;
    }
    for (size_t i = 0; i < arguments; i++) {
        if (!read_argument(c->arguments[i], fields[i + 1], t)) {
            return false;
        }
    }
    return read_refusal(fields[count - 1], &t->expected) || c->answers(fields[count - 1], t);
}

/* Judges a case, and once more with NULL where one of its slices is empty. */
static enum verdict judge_trial(const struct call *c, char **fields, size_t count)
{
    struct trial t = {0};
    bool empty = false;
    enum verdict v = read_trial(c, fields, count, &t) ? hold(&t, c->call, false) : malformed();
    for (size_t i = 0; i < t.count; i++) {
        empty = empty || t.slices[i].given.count == 0;
    }
    if (v == PASSED && empty) {
        v = hold(&t, c->call, true);
    }
    for (size_t i = 0; i < t.count; i++) {
        free(t.slices[i].given.at);
        free(t.slices[i].written.at);
    }
    return v;
}

/* Cuts a line at each ';', with the space on either side, in place. Gives how many fields there are, or 0 where there are too many. */
static size_t cut(char *line, char **fields)
{
    for (size_t count = 0; count < MOST_FIELDS;) {
        char *end = strchr(line, ';');
        fields[count++] = line;
        if (end == NULL) {
            return count;
        }
        end[end > line && end[-1] == ' ' ? -1 : 0] = '\0';
        line = end[1] == ' ' ? end + 2 : end + 1;
    }
    return 0;
}

static enum verdict judge(char *line)
{
    char *fields[MOST_FIELDS];
    size_t count = cut(line, fields);
    for (size_t i = 0; count > 0 && i < CALLS; i++) {
        if (strcmp(fields[0], calls[i].name) != 0) {
            continue;
        }
        if (calls[i].call != NULL) {
            return judge_trial(&calls[i], fields, count);
        }
        calls[i].later++;
        return LATER;
    }
    return malformed();
}

/* Judges every line of a file, and adds to the counts of verdicts. */
static void judge_file(FILE *file, const char *path, size_t *verdicts)
{
    char *line = NULL;
    size_t size = 0;
    ssize_t length;
    here.path = path;
    here.line = 0;
    while ((length = getline(&line, &size, file)) >= 0) {
        here.line++;
        if (length > 0 && line[length - 1] == '\n') {
            line[length - 1] = '\0';
        }
        if (line[0] == '#') {
            free(here.name);
            here.name = strdup(line);
        } else {
            snprintf(here.fault, sizeof here.fault, "%s:%zu: the call was ended by a signal\n", here.path, here.line);
            verdicts[judge(line)]++;
        }
    }
    if (ferror(file)) {
        stop(path);
    }
    free(line);
    free(here.name);
    here.name = NULL;
}

static void print_later(void)
{
    const char *before = "left for later: ";
    for (size_t i = 0; i < CALLS; i++) {
        if (calls[i].later > 0) {
            printf("%s%s %zu", before, calls[i].name, calls[i].later);
            before = ", ";
        }
    }
    printf("%s", before[0] == ',' ? "\n" : "");
}

int main(int count, char **paths)
{
    size_t verdicts[] = {0, 0, 0};
    signal(SIGSEGV, caught);
    signal(SIGBUS, caught);
    signal(SIGVTALRM, caught);
    if (count < 2) {
        judge_file(stdin, "standard input", verdicts);
    }
    for (int i = 1; i < count; i++) {
        FILE *file = fopen(paths[i], "r");
        if (file == NULL) {
            stop(paths[i]);
        }
        judge_file(file, paths[i], verdicts);
        fclose(file);
    }
    print_later();
    printf("%zu passed, %zu failed\n", verdicts[PASSED], verdicts[FAILED]);
    return verdicts[PASSED] > 0 && verdicts[FAILED] == 0 ? 0 : 1;
}
