/* The maps of real machines, call by call: each argument is a script of examples/machines, whose commands are done by the calls of a handle,
 * as far as these scripts use them. What `show` and the accesses tell is written as the program writes it, and is compared with the
 * file beside the script, which has what QEMU showed. */
#define _POSIX_C_SOURCE 200809L

#include <stdarg.h>
#include <stdio.h>
#include <stdlib.h>
#include <string.h>

#include "../vobrekan.h"

#define MOST_NAMES 512
#define MOST_WORDS 16

/* Names of regions, or of address spaces, each with its number. */
struct names {
    char name[MOST_NAMES][64];
    uint32_t number[MOST_NAMES];
    size_t count;
};

struct reader {
    vb_machine machine;
    struct names regions, spaces;
    char *out;
    size_t len, room;
    bool is_good;
};

static void refuse(struct reader *r, const char *line, const char *why)
{
    printf("%s: %s\n", line, why);
    r->is_good = false;
}

static void say(struct reader *r, const char *form, ...)
{
    va_list words;
    va_start(words, form);
    int count = vsnprintf(r->out + r->len, r->room - r->len, form, words);
    va_end(words);
    r->len += (size_t)count;
    if (r->len >= r->room) {
        r->len = r->room - 1;
        r->is_good = false;
    }
}

static void name(struct reader *r, struct names *names, const char *word, uint64_t number)
{
    if (names->count == MOST_NAMES || strlen(word) >= sizeof names->name[0]) {
        refuse(r, word, "too many names, or too long a one");
        return;
    }
    strcpy(names->name[names->count], word);
    names->number[names->count++] = (uint32_t)number;
}

static uint32_t number_of(struct reader *r, const struct names *names, const char *word)
{
    for (size_t i = 0; i < names->count; i++) {
        if (strcmp(names->name[i], word) == 0) {
            return names->number[i];
        }
    }
    refuse(r, word, "no such name");
    return UINT32_MAX;
}

static const char *name_of(const struct names *names, uint32_t number)
{
    for (size_t i = 0; i < names->count; i++) {
        if (names->number[i] == number) {
            return names->name[i];
        }
    }
    return "?";
}

/* A number, of which 2^64 stands for all addresses. */
static uint64_t size_in(const char *word)
{
    return strcmp(word, "0x10000000000000000") == 0 ? UINT64_MAX : strtoull(word, NULL, 0);
}

static uint32_t region_in(struct reader *r, const char *word)
{
    return number_of(r, &r->regions, word);
}

static uint32_t space_in(struct reader *r, const char *word)
{
    return number_of(r, &r->spaces, word);
}

static bool is_on(const char *word)
{
    return strcmp(word, "on") == 0;
}

/* `region NAME KIND SIZE ..` */
static vb_answer make(struct reader *r, char **word, size_t count)
{
    vb_device latch = { .kind = VB_DEVICE_LATCH, .regs = 1, .valid_min = 1, .valid_max = 8, .impl_min = 1, .impl_max = 8 };
    uint64_t size = size_in(word[3]);
    latch.valid_unaligned = count > 5 && strcmp(word[5], "vunaligned") == 0;
    if (strcmp(word[2], "container") == 0) {
        return vb_container(&r->machine, size);
    } else if (strcmp(word[2], "ram") == 0) {
        return vb_ram(&r->machine, size);
    } else if (strcmp(word[2], "rom") == 0) {
        return vb_rom(&r->machine, size);
    } else if (strcmp(word[2], "alias") == 0) {
        return vb_alias(&r->machine, size, region_in(r, word[4]), size_in(word[5]));
    } else if (strcmp(word[2], "io") == 0) {
        return vb_io(&r->machine, size, &latch);
    } else if (strcmp(word[2], "romdev") == 0) {
        return vb_rom_device(&r->machine, size, &latch);
    }
    return (vb_answer){ .code = VB_ARGUMENT };
}

/* `show SPACE`: the ranges of its view. */
static vb_answer show(struct reader *r, const char *word)
{
    static const char *const kinds[] = { "container", "ram", "rom", "romdev", "io", "iommu", "alias", "reserve", "host" };
    uint32_t space = space_in(r, word);
    vb_flat_range range;
    vb_answer answer = vb_range(&r->machine, space, 0, &range);
    say(r, "view %s g%llu\n", word, (unsigned long long)answer.other);
    for (size_t i = 0; answer.code == VB_DONE && i < answer.value; i++) {
        vb_found found;
        vb_range(&r->machine, space, i, &range);
        if (vb_find(&r->machine, space, range.start, &found).code != VB_DONE || found.region != range.region || found.last != range.last) {
            refuse(r, word, "a look-up tells something else than the view");
        }
        say(r, "%llx-%llx %s @%llx %s", (unsigned long long)range.start, (unsigned long long)range.last, name_of(&r->regions, range.region),
            (unsigned long long)range.offset, kinds[found.kind]);
        say(r, "%s%s%s%s", range.readonly ? " ro" : "", range.nonvolatile ? " nv" : "", range.romd ? " romd" : "", range.unmergeable ? " um" : "");
        say(r, range.log == 0 ? "\n" : " log=%u\n", range.log);
    }
    return answer;
}

/* `v0 write SPACE ADDRESS BYTES` and `v0 read SPACE ADDRESS COUNT` */
static vb_answer access(struct reader *r, char **word)
{
    uint8_t bytes[64];
    size_t count = 0;
    uint32_t space = space_in(r, word[2]);
    uint64_t addr = size_in(word[3]);
    vb_answer answer;
    if (strcmp(word[1], "write") == 0) {
        for (const char *at = word[4]; count < sizeof bytes && sscanf(at, "%2hhx", &bytes[count]) == 1; at += 2) {
            count++;
        }
        answer = vb_write(&r->machine, 0, space, addr, bytes, count);
        say(r, "v0 g%llu write", (unsigned long long)answer.value);
    } else {
        count = size_in(word[4]) < sizeof bytes ? (size_t)size_in(word[4]) : sizeof bytes;
        answer = vb_read(&r->machine, 0, space, addr, bytes, count);
        say(r, "v0 g%llu read ", (unsigned long long)answer.value);
        for (size_t i = 0; i < count; i++) {
            say(r, "%02x", bytes[i]);
        }
    }
    say(r, answer.what == 0 ? " ok\n" : answer.what == VB_ACCESS_DECODE ? " decode\n" : " error\n");
    return answer;
}

static vb_answer command(struct reader *r, char **word, size_t count)
{
    static const char *const clients[] = { "vga", "code", "migration" };
    vb_machine *m = &r->machine;
    const char *what = word[0];
    if (strcmp(what, "machine") == 0) {
        return vb_new(m, (size_t)(size_in(word[1]) / 8));
    } else if (strcmp(what, "region") == 0) {
        vb_answer answer = make(r, word, count);
        name(r, &r->regions, word[1], answer.value);
        return answer;
    } else if (strcmp(what, "space") == 0) {
        name(r, &r->spaces, word[1], r->spaces.count);
        return vb_space(m, (uint32_t)r->spaces.count - 1, region_in(r, word[2]));
    } else if (strcmp(what, "add") == 0) {
        return vb_add(m, region_in(r, word[1]), size_in(word[2]), region_in(r, word[3]), count > 5 ? atoi(word[5]) : 0);
    } else if (strcmp(what, "del") == 0) {
        return vb_del(m, region_in(r, word[1]), region_in(r, word[2]));
    } else if (strcmp(what, "move") == 0) {
        return vb_move(m, region_in(r, word[1]), size_in(word[2]));
    } else if (strcmp(what, "disable") == 0) {
        return vb_enable(m, region_in(r, word[1]), false);
    } else if (strcmp(what, "readonly") == 0) {
        return vb_readonly(m, region_in(r, word[1]), is_on(word[2]));
    } else if (strcmp(what, "log") == 0) {
        uint32_t client = 0;
        while (client < 2 && strcmp(clients[client], word[2]) != 0) {
            client++;
        }
        return vb_log(m, region_in(r, word[1]), client, is_on(word[3]));
    } else if (strcmp(what, "begin") == 0) {
        return vb_begin(m);
    } else if (strcmp(what, "commit") == 0) {
        return vb_commit(m);
    } else if (strcmp(what, "show") == 0) {
        return show(r, word[1]);
    } else if (strcmp(what, "v0") == 0) {
        return access(r, word);
    }
    return (vb_answer){ .code = VB_ARGUMENT };
}

/* Does the commands of a script. */
static void read_script(struct reader *r, char *text)
{
    char *rest_of_text = NULL, *rest_of_line = NULL;
    for (char *line = strtok_r(text, "\n", &rest_of_text); line != NULL; line = strtok_r(NULL, "\n", &rest_of_text)) {
        char *word[MOST_WORDS + 1] = { NULL };
        size_t count = 0;
        line[strcspn(line, "#")] = 0;
        for (char *it = strtok_r(line, " ", &rest_of_line); it != NULL && count < MOST_WORDS; it = strtok_r(NULL, " ", &rest_of_line)) {
            word[count++] = it;
        }
        if (count > 0 && command(r, word, count).code != VB_DONE) {
            refuse(r, word[0], count > 1 ? word[1] : "refused");
        }
    }
}

static char *content(const char *name)
{
    FILE *file = fopen(name, "rb");
    if (file == NULL) {
        return NULL;
    }
    fseek(file, 0, SEEK_END);
    size_t len = (size_t)ftell(file);
    rewind(file);
    char *text = malloc(len + 1);
    text[fread(text, 1, len, file)] = 0;
    fclose(file);
    return text;
}

static bool is_as_beside(const char *file)
{
    char beside[512];
    snprintf(beside, sizeof beside, "%.*s.out", (int)(strlen(file) - 3), file);
    char *script = content(file), *wanted = content(beside);
    struct reader *r = calloc(1, sizeof *r);
    bool is_so = false;
    if (script != NULL && wanted != NULL) {
        r->is_good = true;
        r->room = strlen(wanted) + 4096;
        r->out = calloc(1, r->room);
        read_script(r, script);
        is_so = r->is_good && strcmp(r->out, wanted) == 0;
        vb_free(&r->machine);
    }
    free(r->out);
    free(r);
    free(script);
    free(wanted);
    return is_so;
}

int main(int count, char **files)
{
    int passed = 0;
    for (int i = 1; i < count; i++) {
        bool is_so = is_as_beside(files[i]);
        passed += is_so;
        if (!is_so) {
            printf("failed: %s, call by call\n", files[i]);
        }
    }
    printf("%d passed, %d failed\n", passed, count - 1 - passed);
    return passed != count - 1;
}
