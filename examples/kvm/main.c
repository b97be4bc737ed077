/* The beginning and the end: makes the machine, loads the guest, runs it on so many virtual CPUs, and tells what came of it in one line.
 *
 * monitor GUEST [CPUS [MOVES]]: GUEST has the bytes made of guest.c and start.S, and moves its BAR MOVES times. Status 0 where it found nothing
 * wrong, 1 where something was, 2 for another command line, 77 where KVM is not there. */
#include <errno.h>
#include <fcntl.h>
#include <stdio.h>
#include <string.h>
#include <sys/eventfd.h>
#include <sys/ioctl.h>

#include "monitor.h"

#define GIB (1ull << 30)
enum { LOW = 64 << 20, HIGH = 8 << 20, ROM = 0x40000, GUEST_AT = 0x1000000, MOST_BYTES = 0x100000 };

int vm, bells[BELLS];

_Noreturn void die(const char *what)
{
    perror(what);
    exit(1);
}

/* An answer, where the call was not refused. */
vb_answer good(vb_answer answer)
{
    char text[200];
    size_t len = 0;
    if (answer.code != VB_DONE) {
        vb_print(&answer, (uint8_t *)text, sizeof text, &len);
        fprintf(stderr, "the library refused: %.*s\n", (int)(len < sizeof text ? len : sizeof text), text);
        exit(1);
    }
    return answer;
}

int kvm_call(int fd, unsigned long call, void *argument, const char *name)
{
    int answer = ioctl(fd, call, argument);
    if (answer < 0) {
        die(name);
    }
    return answer;
}

/* The map that the guest begins with: one memory, shown below 4 GiB and above, a ROM, and the devices. */
static void build(void)
{
    good(vb_desk_new(&desk, 1 << 14));
    map_begin();
    uint32_t system = ASK(.what = VB_DO_REGION, .kind = VB_KIND_CONTAINER, .size = UINT64_MAX);
    uint32_t ports = ASK(.what = VB_DO_REGION, .kind = VB_KIND_CONTAINER, .size = 0x10000);
    uint32_t ram = map_host(LOW + HIGH), rom = map_host(ROM);
    uint32_t low = ASK(.what = VB_DO_REGION, .kind = VB_KIND_ALIAS, .size = LOW, .other = ram);
    uint32_t high = ASK(.what = VB_DO_REGION, .kind = VB_KIND_ALIAS, .size = HIGH, .other = ram, .offset = LOW);
    memset(regions[rom]->bytes, 0x52, ROM);
    ASK(.what = VB_DO_READONLY, .region = rom, .on = true);
    ASK(.what = VB_DO_ADD, .region = system, .other = low);
    ASK(.what = VB_DO_ADD, .region = system, .offset = 4 * GIB, .other = high);
    ASK(.what = VB_DO_ADD, .region = system, .offset = 4 * GIB - ROM, .other = rom);
    devices_add(system, ports);
    ASK(.what = VB_DO_SPACE, .space = MEMORY, .other = system);
    ASK(.what = VB_DO_SPACE, .space = PORTS, .other = ports);
    ASK(.what = VB_DO_LISTEN, .listener = MEMORY, .space = MEMORY);
    ASK(.what = VB_DO_LISTEN, .listener = PORTS, .space = PORTS);
    map_commit();
}

/* Bytes of the guest's memory, for what it begins with. */
static void *bytes_at(uint64_t addr, uint64_t len)
{
    vb_found found;
    good(vb_desk_find(&desk, MEMORY, addr, &found));
    if (!found.is_there || found.kind != VB_KIND_HOST || found.last - addr < len - 1) {
        die("the guest has no memory there");
    }
    return regions[found.region]->bytes + found.offset;
}

/* Loads the guest's bytes, and makes the tables with which its virtual CPUs begin: each address below 5 GiB stands for itself. */
static void load(const char *name)
{
    FILE *file = fopen(name, "rb");
    uint64_t *tables = bytes_at(0x9000, 0x7000), *segments = bytes_at(0x500, 32);
    if (file == NULL || fread(bytes_at(GUEST_AT, MOST_BYTES), 1, MOST_BYTES, file) == 0) {
        die(name);
    }
    fclose(file);
    tables[0] = 0xa003;
    for (uint64_t i = 0; i < 5; i++) {
        tables[512 + i] = 0xb003 + PAGE * i;
    }
    for (uint64_t i = 0; i < 5 * 512; i++) {
        tables[1024 + i] = i << 21 | 0x83;
    }
    segments[2] = 0x00af9b000000ffff;
    segments[3] = 0x00cf93000000ffff;
}

static void tell(void)
{
    const struct counts *it = &counts;
    printf("%u CPUs: exits: %lu memory, %lu ports; reached: %lu memory, %lu callbacks, %lu notifiers, %lu marks, %lu nothing; ", cpu_count,
        exits[MEMORY], exits[PORTS], reached[0], reached[1], reached[2], reached[3], reached[4]);
    printf("changes %lu, held up %lu; slots set %lu, taken away %lu; pauses %lu; ioeventfds told %lu; rounds %lu, dirty pages %lu; released %lu; %s\n",
        it->changes, it->held, it->slots_set, it->slots_gone, it->pauses, it->events, it->rounds, it->pages, it->released,
        guest_status == 0 ? "nothing wrong" : "WRONG");
}

int main(int argc, char **argv)
{
    unsigned wanted = argc > 2 ? (unsigned)strtoul(argv[2], NULL, 10) : 2;
    if (argc < 2 || argc > 4 || wanted < 1 || wanted > MOST_CPUS) {
        fprintf(stderr, "usage: monitor GUEST [CPUS, at most %d [MOVES]]\n", MOST_CPUS);
        return 2;
    }
    int kvm = open("/dev/kvm", O_RDWR);
    if (kvm < 0) {
        fprintf(stderr, "/dev/kvm: %s: no guest is run\n", strerror(errno));
        return 77;
    }
    vm = kvm_call(kvm, KVM_CREATE_VM, NULL, "a machine");
    for (int i = 0; i < BELLS; i++) {
        bells[i] = eventfd(0, EFD_NONBLOCK);
    }
    build();
    load(argv[1]);
    cpu_count = wanted;
    cpus_make(kvm, GUEST_AT, argc > 3 ? strtoull(argv[3], NULL, 10) : 200);
    cpus_run();
    tell();
    for (unsigned i = 0; i < cpu_count; i++) {
        vb_cpu_free(&cpus[i].sees);
    }
    vb_desk_free(&desk);
    return guest_status;
}
