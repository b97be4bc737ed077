/*
 * Makes the calls of a recording on a machine of libvobrekan, and compares each view that QEMU had with the library's. docs/QEMU.md has the
 * grammar of recordings. SPDX-License-Identifier: Apache-2.0 OR MIT
 *
 * Each argument is a file. For each it writes a line that says what was compared, or the first difference; the last line is
 * 'N passed, M failed'.
 */
#define _POSIX_C_SOURCE 200809L

#include <inttypes.h>
#include <stdarg.h>
#include <stdio.h>
#include <stdlib.h>
#include <string.h>

#include "../bindings/vobrekan.h"

#define SPACES 16
#define WORDS 12
#define POOL ((size_t)1 << 26)

/* A range of QEMU's, as the recording has it. */
struct range {
    vb_flat_range range;
    bool is_part;      /* its logging and its ROM mode are not compared */
};

/* The last view of a space that is recorded. */
struct view {
    struct range *ranges;
    size_t count, room;
    uint64_t limit;    /* the last address that is compared */
    bool is_there;
    char name[64];
};

struct replay {
    const char *file;
    vb_machine machine;
    struct view views[SPACES];
    struct view *open;         /* the view whose ranges come next */
    size_t line, calls, checks, compared, ranges;
    char call[256];            /* the last call */
    size_t call_line;
    bool is_good;
};

static void say(struct replay *r, const char *form, ...)
{
    va_list words;

    va_start(words, form);
    printf("%s:%zu: ", r->file, r->line);
    vprintf(form, words);
    printf("\n");
    va_end(words);
    r->is_good = false;
}

static uint64_t hex(const char *word)
{
    return strtoull(word, NULL, 16);
}

static uint32_t decimal(const char *word)
{
    return (uint32_t)strtoul(word, NULL, 10);
}

static bool is(const char *word, const char *other)
{
    return strcmp(word, other) == 0;
}

/* `new REGION KIND SIZE ..` */
static vb_answer make(struct replay *r, char **word, size_t count)
{
    vb_device latch = { .kind = VB_DEVICE_LATCH, .regs = 1, .valid_min = 1, .valid_max = 8, .impl_min = 1, .impl_max = 8 };
    uint64_t size = hex(word[3]);

    if (is(word[2], "alias") && count > 5) {
        return vb_alias(&r->machine, size, decimal(word[4]), hex(word[5]));
    } else if (is(word[2], "container")) {
        return vb_container(&r->machine, size);
    } else if (is(word[2], "host")) {
        return vb_host(&r->machine, size);
    } else if (is(word[2], "romdev")) {
        return vb_rom_device(&r->machine, size, &latch);
    } else if (is(word[2], "io") || is(word[2], "stand-in")) {
        return vb_io(&r->machine, size, &latch);
    } else if (is(word[2], "iommu")) {
        return vb_iommu(&r->machine, size);
    } else if (is(word[2], "reserve")) {
        return vb_reserve(&r->machine, size);
    }
    return (vb_answer) { .code = VB_ARGUMENT };
}

/* `event REGION OFFSET SIZE NOTIFIER any|VALUE`, and `unevent` */
static vb_answer event(struct replay *r, char **word)
{
    vb_ioevent it = {
        .offset = hex(word[2]), .size = (uint8_t)decimal(word[3]), .number = decimal(word[4]), .matched = !is(word[5], "any"),
    };

    it.value = it.matched ? hex(word[5]) : 0;
    return is(word[0], "event") ? vb_event(&r->machine, decimal(word[1]), &it) : vb_unevent(&r->machine, decimal(word[1]), &it);
}

/* A call that switches something of a region. */
static vb_answer switched(struct replay *r, char **word)
{
    uint32_t region = decimal(word[1]);
    bool on = is(word[2], "1");

    if (is(word[0], "enable")) {
        return vb_enable(&r->machine, region, on);
    } else if (is(word[0], "readonly")) {
        return vb_readonly(&r->machine, region, on);
    } else if (is(word[0], "nonvolatile")) {
        return vb_nonvolatile(&r->machine, region, on);
    }
    return vb_romd(&r->machine, region, on);
}

static vb_answer drop(struct replay *r, uint32_t region)
{
    uint32_t list[1];
    vb_answer answer = vb_drop(&r->machine, region);

    vb_reap(&r->machine, list, 1);
    return answer;
}

/* A call, by its line; the code is VB_ARGUMENT where it is none. */
static vb_answer call(struct replay *r, char **word, size_t count)
{
    static const struct { const char *word; size_t count; } forms[] = {
        { "begin", 1 }, { "commit", 1 }, { "global", 2 }, { "drop", 2 }, { "space", 3 }, { "del", 3 }, { "move", 3 }, { "resize", 3 },
        { "retarget", 3 }, { "enable", 3 }, { "readonly", 3 }, { "nonvolatile", 3 }, { "romd", 3 }, { "new", 4 }, { "log", 4 }, { "add", 5 },
        { "event", 6 }, { "unevent", 6 },
    };
    size_t i = 0, forms_count = sizeof forms / sizeof forms[0];

    while (i < forms_count && !is(forms[i].word, word[0])) {
        i++;
    }
    if (i == forms_count || count < forms[i].count) {
        return (vb_answer) { .code = VB_ARGUMENT };
    }
    switch (i) {
    case 0: return vb_begin(&r->machine);
    case 1: return vb_commit(&r->machine);
    case 2: return vb_global(&r->machine, is(word[1], "1"));
    case 3: return drop(r, decimal(word[1]));
    case 4: return vb_space(&r->machine, decimal(word[1]), decimal(word[2]));
    case 5: return vb_del(&r->machine, decimal(word[1]), decimal(word[2]));
    case 6: return vb_move(&r->machine, decimal(word[1]), hex(word[2]));
    case 7: return vb_resize(&r->machine, decimal(word[1]), hex(word[2]));
    case 8: return vb_retarget(&r->machine, decimal(word[1]), hex(word[2]));
    case 13: return make(r, word, count);
    case 14: return vb_log(&r->machine, decimal(word[1]), decimal(word[2]), is(word[3], "1"));
    case 15: return vb_add(&r->machine, decimal(word[1]), hex(word[2]), decimal(word[3]), (int32_t)strtol(word[4], NULL, 10));
    case 16: case 17: return event(r, word);
    default: return switched(r, word);
    }
}

/* `view SPACE COUNT LAST NAME`: the ranges come in the next lines. */
static void view(struct replay *r, char **word, size_t count)
{
    uint32_t space = count > 3 ? decimal(word[1]) : SPACES;

    if (space >= SPACES) {
        say(r, "no view of a space");
        return;
    }
    r->open = &r->views[space];
    r->open->count = 0;
    r->open->limit = hex(word[3]);
    r->open->is_there = true;
    snprintf(r->open->name, sizeof r->open->name, "%s", count > 4 ? word[4] : "-");
}

/* `r START LAST REGION OFFSET FLAGS LOG` */
static void range(struct replay *r, char **word, size_t count)
{
    struct view *it = r->open;

    if (!it || count < 7) {
        say(r, "no range of a view");
        return;
    }
    if (it->count == it->room) {
        it->room = it->room ? 2 * it->room : 64;
        it->ranges = realloc(it->ranges, it->room * sizeof it->ranges[0]);
        if (!it->ranges) {
            abort();
        }
    }
    it->ranges[it->count++] = (struct range) {
        .range = {
            .start = hex(word[1]), .last = hex(word[2]), .region = decimal(word[3]), .offset = hex(word[4]),
            .readonly = strchr(word[5], 'r'), .nonvolatile = strchr(word[5], 'n'), .romd = strchr(word[5], 'd'),
            .log = is(word[6], "-") ? 0 : (uint8_t)decimal(word[6]),
        },
        .is_part = is(word[6], "-"),
    };
}

static bool is_same(const struct range *theirs, const vb_flat_range *mine)
{
    const vb_flat_range *it = &theirs->range;

    return it->start == mine->start && it->last == mine->last && it->region == mine->region && it->offset == mine->offset
        && it->readonly == mine->readonly && it->nonvolatile == mine->nonvolatile
        && (theirs->is_part || (it->romd == mine->romd && it->log == mine->log));
}

static void print(const char *whose, const vb_flat_range *it)
{
    printf("  %s %" PRIx64 "-%" PRIx64 " region %u @%" PRIx64 "%s%s%s log=%u\n", whose, it->start, it->last, it->region, it->offset,
           it->readonly ? " ro" : "", it->nonvolatile ? " nv" : "", it->romd ? " romd" : "", it->log);
}

/* Compares the view of a space with the last one that QEMU had. */
static void compare(struct replay *r, uint32_t space)
{
    const struct view *it = &r->views[space];
    vb_flat_range mine = { 0 };
    uint64_t count = vb_range(&r->machine, space, 0, &mine).value;

    for (size_t i = 0; i < it->count || i < count; i++) {
        if (i < count) {
            vb_range(&r->machine, space, i, &mine);
            mine.last = mine.last < it->limit ? mine.last : it->limit;
        }
        if (i == it->count && mine.start > it->limit) {
            break;
        }
        if (i >= count || i >= it->count || !is_same(&it->ranges[i], &mine)) {
            say(r, "the views of %s differ at range %zu, after line %zu: %s", it->name, i, r->call_line, r->call);
            if (i < it->count) {
                print("QEMU:    ", &it->ranges[i].range);
            }
            if (i < count) {
                print("vobrekan:", &mine);
            }
            return;
        }
    }
    r->compared++;
    r->ranges += it->count;
}

/* A line that is a call: it has to be done, and to make the region that it names. */
static void line_of_call(struct replay *r, const char *text, char **word, size_t count)
{
    vb_answer answer = call(r, word, count);
    char said[160];
    size_t whole = 0;

    r->open = NULL;
    r->calls++;
    r->call_line = r->line;
    snprintf(r->call, sizeof r->call, "%s", text);
    if (answer.code != VB_DONE) {
        vb_print(&answer, (uint8_t *)said, sizeof said, &whole);
        say(r, "%s: %.*s", text, (int)(whole < sizeof said ? whole : sizeof said), said);
    } else if (is(word[0], "new") && answer.value != decimal(word[1])) {
        say(r, "%s: this makes the region %" PRIu64, text, answer.value);
    }
}

/* A line of a recording. */
static void line(struct replay *r, char *text)
{
    char copy[256], *word[WORDS], *rest = copy;
    size_t count = 0;

    snprintf(copy, sizeof copy, "%s", text);
    while (count < WORDS && (word[count] = strtok_r(rest, " ", &rest))) {
        count++;
    }
    if (!count || word[0][0] == '#') {
        return;
    }
    if (r->line == 1) {
        if (count < 2 || !is(word[0], "recording") || !is(word[1], "1")) {
            say(r, "this is no recording of version 1");
        }
    } else if (is(word[0], "view")) {
        view(r, word, count);
    } else if (is(word[0], "r")) {
        range(r, word, count);
    } else if (is(word[0], "left") && count > 1 && decimal(word[1]) < SPACES) {
        r->views[decimal(word[1])].is_there = false;
    } else if (is(word[0], "check")) {
        r->checks++;
        for (uint32_t space = 0; space < SPACES && r->is_good; space++) {
            if (r->views[space].is_there) {
                compare(r, space);
            }
        }
    } else {
        line_of_call(r, text, word, count);
    }
}

static bool replay(const char *file)
{
    struct replay r = { .file = file, .machine = VB_MACHINE_INIT, .is_good = true };
    FILE *in = fopen(file, "r");
    char *text = NULL;
    size_t room = 0;
    ssize_t got;

    if (!in) {
        say(&r, "cannot be read");
        return false;
    }
    vb_new(&r.machine, POOL);
    while (r.is_good && (got = getline(&text, &room, in)) > 0) {
        r.line++;
        if (text[got - 1] == '\n') {
            text[got - 1] = 0;
        }
        line(&r, text);
    }
    if (r.is_good && !r.compared) {
        say(&r, "no view is recorded");
    }
    if (r.is_good) {
        printf("%s: same: %zu calls, %zu checks, %zu views, %zu ranges\n", file, r.calls, r.checks, r.compared, r.ranges);
    }
    free(text);
    fclose(in);
    vb_free(&r.machine);
    for (size_t i = 0; i < SPACES; i++) {
        free(r.views[i].ranges);
    }
    return r.is_good;
}

int main(int count, char **files)
{
    int passed = 0;

    for (int i = 1; i < count; i++) {
        passed += replay(files[i]);
    }
    printf("%d passed, %d failed\n", passed, count - 1 - passed);
    return passed == count - 1 ? 0 : 1;
}
