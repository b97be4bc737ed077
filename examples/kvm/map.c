/* The guest's map: a desk of libvobrekan, what the monitor keeps of each region, and what an exit of the guest reaches.
 *
 * Locks: `changing` is held from the begin of a change until KVM has been told of it, and a device's lock for one callback. A callback changes
 * nothing of the map: it names a change by `map_later`, and its virtual CPU makes that when it has left its generation and holds no lock. So a
 * publish that waits for a virtual CPU is waited for by none that it waits for. */
#include <sched.h>
#include <string.h>
#include <sys/eventfd.h>
#include <sys/mman.h>

#include "monitor.h"

enum { MOST_REACHED = 16, MOST_LATER = 8 };     /* of each of at most 8 bytes a plan names what answers it, and a mark */

vb_desk desk = VB_DESK_INIT;
struct region *_Atomic regions[MOST_REGIONS];
_Atomic uint64_t exits[2], reached[5];
struct counts counts;
static pthread_mutex_t changing = PTHREAD_MUTEX_INITIALIZER;
static _Thread_local void (*later[MOST_LATER])(void);
static _Thread_local size_t later_count;

/* Asks the desk, between `map_begin` and `map_commit`. A publish is held up while a virtual CPU is entered in the generation seven before the
 * current one; that leaves soon, since it waits for nobody who changes the map. */
uint32_t map_ask(const vb_order *order)
{
    vb_answer answer = vb_desk_ask(&desk, order);
    for (; answer.code == VB_HELD; counts.held++) {
        sched_yield();
        answer = vb_desk_ask(&desk, order);
    }
    return (uint32_t)good(answer).value;
}

void map_begin(void)
{
    pthread_mutex_lock(&changing);
    ASK(.what = VB_DO_BEGIN);
}

/* Gives up what the monitor keeps of a region that was released. Who still used it would be seen to. */
static void forget(uint32_t number)
{
    struct region *region = regions[number];
    regions[number] = NULL;
    if (region != NULL) {
        munmap(region->bytes, region->size);    /* which does nothing where the size is 0 */
        free((void *)region->dirty);
        memset(region, 0xdd, sizeof *region);
        free(region);
    }
}

/* Publishes the change, tells KVM of it, and gives up what was kept of dropped regions that no virtual CPU can reach any more. */
void map_commit(void)
{
    uint32_t released[64];
    ASK(.what = VB_DO_COMMIT);
    slots_follow();
    uint64_t count = good(vb_desk_reap(&desk, released, 64)).value;
    for (uint64_t i = 0; i < count && i < 64; i++) {
        forget(released[i]);
    }
    counts.released += count;
    counts.changes++;
    pthread_mutex_unlock(&changing);
}

/* Makes a region, and keeps something for it, which virtual CPUs look up once the region is published. */
static uint32_t keep(const vb_order *order, struct region kept)
{
    uint32_t number = map_ask(order);
    struct region *region = malloc(sizeof *region);
    if (number >= MOST_REGIONS || region == NULL) {
        die("no room for a region");
    }
    *region = kept;
    regions[number] = region;
    return number;
}

uint32_t map_host(uint64_t size)
{
    void *bytes = mmap(NULL, size, PROT_READ | PROT_WRITE, MAP_PRIVATE | MAP_ANONYMOUS, -1, 0);
    struct region kept = { .bytes = bytes, .size = size, .dirty = calloc(size / PAGE / 64 + 1, 8) };
    if (bytes == MAP_FAILED || kept.dirty == NULL) {
        die("no host memory");
    }
    return keep(&(vb_order){ .what = VB_DO_REGION, .kind = VB_KIND_HOST, .size = size }, kept);
}

/* A region of a device, which takes accesses of 1 to 4 bytes. The register that the library has for it is not used. */
uint32_t map_device(uint64_t size, uint64_t (*read)(uint64_t), void (*write)(uint64_t, unsigned, uint64_t))
{
    vb_device shape = { .kind = VB_DEVICE_LATCH, .regs = 1, .valid_min = 1, .valid_max = 4, .impl_min = 1, .impl_max = 4 };
    vb_order order = { .what = VB_DO_REGION, .kind = VB_KIND_IO, .size = size, .device = shape };
    return keep(&order, (struct region){ .lock = PTHREAD_MUTEX_INITIALIZER, .read = read, .write = write });
}

void map_mark(uint32_t region, uint64_t page)
{
    atomic_fetch_or(&regions[region]->dirty[page / 64], 1ull << page % 64);
}

/* How many pages were written since the last round: those that KVM's logs have, and those that plans marked. */
uint64_t map_round(void)
{
    uint64_t pages = 0;
    pthread_mutex_lock(&changing);
    slots_log();
    for (uint32_t i = 0; i < MOST_REGIONS; i++) {
        for (uint64_t at = 0; regions[i] != NULL && at < regions[i]->size; at += 64 * PAGE) {
            pages += (uint64_t)__builtin_popcountll(atomic_exchange(&regions[i]->dirty[at / PAGE / 64], 0));
        }
    }
    counts.pages += pages;
    counts.rounds++;
    pthread_mutex_unlock(&changing);
    return pages;
}

/* A callback's way to change the map: its virtual CPU makes the change when it has left the generation, before the guest goes on. */
void map_later(void (*change)(void))
{
    later[later_count++] = change;
}

static void call_back(struct region *region, const vb_reached *it, uint8_t *data)
{
    pthread_mutex_lock(&region->lock);
    if (!it->takes) {
        uint64_t value = region->read != NULL ? region->read(it->offset) : region->word;
        memcpy(data, &value, it->len);
    } else if (region->write != NULL) {
        region->write(it->offset, it->size, it->value);
    }
    pthread_mutex_unlock(&region->lock);
}

/* Does one of the things that an access reaches; `data` are the bytes of the access that it is about. */
static void reach(uint32_t space, const vb_reached *it, uint8_t *data, bool is_write)
{
    if (it->what == VB_REACHED_CALLBACK) {
        call_back(regions[it->region], it, data);
    } else if (it->what == VB_REACHED_NOTIFIER) {
        eventfd_write(bells[it->number], 1);
    } else if (it->what == VB_REACHED_MARK) {
        map_mark(it->region, it->offset);
    } else if (it->what == VB_REACHED_MEMORY) {
        uint8_t *bytes = regions[it->region]->bytes + it->offset;
        memcpy(is_write ? bytes : data, is_write ? data : bytes, it->len);
    } else if (!is_write) {
        memset(data, space == PORTS ? 0xff : 0, it->len);   /* a PC's ports read as all ones where nothing is */
    }
    reached[it->what]++;
}

/* Answers an exit of the guest, in one generation and without a lock: what the plan names is not released before the virtual CPU leaves. */
void map_access(struct cpu *cpu, uint32_t space, uint64_t addr, uint8_t *data, size_t len, bool is_write)
{
    vb_reached list[MOST_REACHED];
    good(vb_cpu_enter(&cpu->sees));
    vb_answer plan = is_write ? vb_cpu_plan_write(&cpu->sees, VB_WAY_QEMU, space, addr, data, len, list, MOST_REACHED)
                              : vb_cpu_plan_read(&cpu->sees, VB_WAY_QEMU, space, addr, len, list, MOST_REACHED);
    if (good(plan).value > MOST_REACHED) {
        die("a plan is too long");
    }
    for (uint64_t i = 0; i < plan.value; i++) {
        reach(space, &list[i], data + list[i].at, is_write);
    }
    good(vb_cpu_leave(&cpu->sees));
    exits[space]++;
    for (size_t i = 0; i < later_count; i++) {
        later[i]();
    }
    later_count = 0;
}
