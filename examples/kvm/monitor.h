/* A monitor that runs a guest under KVM, its map a desk of libvobrekan: what its files share.
 *
 * map.c has the map and what an exit of the guest reaches, slots.c what KVM is told of the map, cpus.c the virtual CPUs, devices.c the
 * devices, main.c the beginning and the end; guest.c and start.S are the guest. */
#ifndef MONITOR_H
#define MONITOR_H

#include <linux/kvm.h>
#include <pthread.h>
#include <stdatomic.h>
#include <stdbool.h>
#include <stdint.h>
#include <stdlib.h>

#include "vobrekan.h"

enum { MEMORY, PORTS };                         /* the address spaces, and the listeners on them */
enum { PAGE = 4096, MOST_CPUS = 8, BELLS = 3, MOST_REGIONS = 1 << 16 };

/* What the monitor keeps of a region that guests reach: the bytes of host memory, or the callbacks of a device, one at a time. A device without
 * callbacks reads as its word, and takes nothing. */
struct region {
    uint8_t *bytes;
    uint64_t size;
    _Atomic uint64_t *dirty;                    /* a bit for each page of the bytes */
    pthread_mutex_t lock;
    uint64_t (*read)(uint64_t offset);
    void (*write)(uint64_t offset, unsigned size, uint64_t value);
    uint64_t word;
};

/* A virtual CPU. Its thread alone uses `sees`. */
struct cpu {
    int fd;
    struct kvm_run *run;
    pthread_t thread;
    vb_cpu sees;
};

extern int vm;                                  /* KVM's handle of the machine */
extern int bells[BELLS];                        /* eventfds, by the number of a notifier */
extern struct cpu cpus[MOST_CPUS];
extern unsigned cpu_count;
extern vb_desk desk;                            /* used by who makes a change, and by `main` before and after all threads */
extern struct region *_Atomic regions[MOST_REGIONS];   /* by a region's number, which is never used again */
extern _Atomic uint64_t exits[2], reached[5];   /* by space, and by VB_REACHED_.. */
extern struct counts {
    unsigned long changes, held, slots_set, slots_gone, pauses, events, rounds, pages, released;
} counts;                                       /* written by who makes a change */
extern int guest_status;                        /* 0 when the guest has ended and found nothing wrong */

_Noreturn void die(const char *what);
vb_answer good(vb_answer answer);
int kvm_call(int fd, unsigned long call, void *argument, const char *name);

#define ASK(...) map_ask(&(vb_order){ __VA_ARGS__ })
uint32_t map_ask(const vb_order *order);
void map_begin(void);
void map_commit(void);
uint32_t map_host(uint64_t size);
uint32_t map_device(uint64_t size, uint64_t (*read)(uint64_t), void (*write)(uint64_t, unsigned, uint64_t));
uint64_t map_round(void);
void map_mark(uint32_t region, uint64_t page);
void map_access(struct cpu *cpu, uint32_t space, uint64_t addr, uint8_t *data, size_t len, bool is_write);
void map_later(void (*change)(void));

void slots_follow(void);
void slots_log(void);

void cpus_make(int kvm, uint64_t entry, uint64_t moves);
void cpus_run(void);
void cpus_pause(void);
void cpus_go_on(void);
void cpus_stop(void);

void devices_add(uint32_t system, uint32_t ports);

#endif
