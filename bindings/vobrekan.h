/* The machine of a guest's memory, as a library. Made by bindings/declare from crates/libvobrekan/src.
 *
 * No pointer may be null, also where a length is 0. One call at a time works on a handle; a handle may pass from thread to
 * thread. A handle begins as VB_MACHINE_INIT, VB_DESK_INIT or VB_CPU_INIT. */
#ifndef VOBREKAN_H
#define VOBREKAN_H

#include <stdbool.h>
#include <stddef.h>
#include <stdint.h>

#ifdef __cplusplus
extern "C" {
#endif

#define VB_DONE 0 /* It is done. */
#define VB_UNKNOWN 1 /* Something that the call names is not there: `what` is its sort, `value` its number. */
#define VB_NAME_TAKEN 2 /* The space or the listener is there already: `what` is its sort, `value` its number. */
#define VB_HAS_CONTAINER 3 /* The region is in the container `value`. */
#define VB_NOT_CHILD 4 /* The region `value` is in another container than the one named, or in none. */
#define VB_ALIAS_PARENT 5 /* `value` is an alias, which takes no children. */
#define VB_LOOP 6 /* `value` would be its own container, or is reached from the region to be placed in it. */
#define VB_TOO_DEEP 7 /* Some region would have the depth `value`, above 32. */
#define VB_TOO_WIDE 8 /* Some region would have the weight `value`, above 65,536. */
#define VB_BAD_SIZE 9 /* The size, or the range of bytes, is not valid. */
#define VB_BAD_OPS 10 /* No device has such access sizes, registers or ioeventfd. */
#define VB_WRONG_KIND 11 /* The region `value` is of another kind than the call is for. */
#define VB_NO_TRANSACTION 12 /* No transaction is open. */
#define VB_TOO_NESTED 13 /* 64 transactions are open. */
#define VB_IN_USE 14 /* The region is used by `value`: `what` is 0 for a region, 1 for a space. */
#define VB_PAGE_OVERLAP 15 /* The translation meets the one at the offset `value`. */
#define VB_BAD_PAGE 16 /* The page of a translation is no power of two, or not aligned to its size. */
#define VB_LIMIT_REACHED 17 /* The count `what` stands at its limit `value`. */
#define VB_NO_BACKING 18 /* No hole of the pool has `value` words. */
#define VB_HELD 19 /* The pass `value` may still use the generation `other`. */
#define VB_EVENT_TAKEN 20 /* The region has this ioeventfd. */
#define VB_MEMORY 21 /* Out of memory. */
#define VB_ARGUMENT 22 /* An argument, `value`, stands for nothing. */
#define VB_NO_MACHINE 23 /* The handle has no machine, desk or virtual CPU. */
#define VB_HAS_MACHINE 24 /* The handle has one. */
#define VB_NO_SCRIPT 25 /* The text is no script: `other` is the number of its first line at fault. */
#define VB_NOT_WHOLE 26 /* Only a part of some word would be replaced, in the generation `other`. */
#define VB_NO_CPU 27 /* All 16 virtual CPUs are handed out. */
#define VB_CONTENDED 28 /* Of a write only the first `value` bytes are written, in the generation `other`: a word was changed each time that it was tried. */
#define VB_NOT_ENTERED 29 /* The virtual CPU is entered in no generation. */

#define VB_SORT_REGION 0 /* A refusal names a region. */
#define VB_SORT_SPACE 1 /* A refusal names an address space. */
#define VB_SORT_LISTENER 2 /* A refusal names a listener. */
#define VB_SORT_WATCHER 3 /* A refusal names a watcher. */
#define VB_SORT_ENTRY 4 /* A refusal names a translation, by its offset. */
#define VB_SORT_EVENT 5 /* A refusal names an ioeventfd, by its offset. */
#define VB_LIMIT_REGIONS 0 /* The regions that are there. */
#define VB_LIMIT_MADE 1 /* The regions that were ever made. */
#define VB_LIMIT_SPACES 2 /* The address spaces. */
#define VB_LIMIT_LISTENERS 3 /* The listeners. */
#define VB_LIMIT_ENTRIES 4 /* The translations of a region. */
#define VB_LIMIT_EVENTS 5 /* The ioeventfds of a region. */
#define VB_LIMIT_CALLS 6 /* The calls of the machine. */
#define VB_LIMIT_WATCHERS 7 /* The watchers. */
#define VB_KIND_CONTAINER 0 /* A container, which only groups its children. */
#define VB_KIND_RAM 1 /* RAM. */
#define VB_KIND_ROM 2 /* ROM. */
#define VB_KIND_ROM_DEVICE 3 /* A ROM device. */
#define VB_KIND_IO 4 /* A device. */
#define VB_KIND_IOMMU 5 /* An IOMMU region. */
#define VB_KIND_ALIAS 6 /* An alias. */
#define VB_KIND_RESERVE 7 /* A reservation. */
#define VB_KIND_HOST 8 /* Host memory. */
#define VB_DEVICE_LATCH 0 /* A latch: a register keeps what is written. */
#define VB_DEVICE_COUNT 1 /* A counter: a read adds one. */
#define VB_DEVICE_BELL 2 /* A bell: a write sets bits, and a read clears them. */
#define VB_DEVICE_FAULT 3 /* A fault: it answers with an error. */
#define VB_DO_BEGIN 0 /* An order: `vb_begin`. */
#define VB_DO_COMMIT 1 /* An order: `vb_commit`. */
#define VB_DO_LISTEN 2 /* An order: `vb_listen`. */
#define VB_DO_UNLISTEN 3 /* An order: `vb_unlisten`. */
#define VB_DO_REGION 4 /* An order: a region of the kind `kind` is made. */
#define VB_DO_SPACE 5 /* An order: `vb_space`. */
#define VB_DO_ADD 6 /* An order: `vb_add`. */
#define VB_DO_DEL 7 /* An order: `vb_del`. */
#define VB_DO_MOVE 8 /* An order: `vb_move`. */
#define VB_DO_RESIZE 9 /* An order: `vb_resize`. */
#define VB_DO_RETARGET 10 /* An order: `vb_retarget`. */
#define VB_DO_ENABLE 11 /* An order: `vb_enable`. */
#define VB_DO_READONLY 12 /* An order: `vb_readonly`. */
#define VB_DO_NONVOLATILE 13 /* An order: `vb_nonvolatile`. */
#define VB_DO_UNMERGEABLE 14 /* An order: `vb_unmergeable`. */
#define VB_DO_ROMD 15 /* An order: `vb_romd`. */
#define VB_DO_LOG 16 /* An order: `vb_log`. */
#define VB_DO_GLOBAL 17 /* An order: `vb_global`. */
#define VB_DO_MAP 18 /* An order: `vb_map`. */
#define VB_DO_UNMAP 19 /* An order: `vb_unmap`. */
#define VB_DO_EVENT 20 /* An order: `vb_event`. */
#define VB_DO_UNEVENT 21 /* An order: `vb_unevent`. */
#define VB_DO_DROP 22 /* An order: `vb_drop`. */
#define VB_CLIENT_DISPLAY 0 /* The client `vga` of a script: a display. */
#define VB_CLIENT_CODE 1 /* The client `code`: translated code. */
#define VB_CLIENT_MIGRATION 2 /* The client `migration`. */
#define VB_PERM_NOTHING 0 /* A translation lets nothing through. */
#define VB_PERM_READ 1 /* A translation lets reads through. */
#define VB_PERM_WRITE 2 /* A translation lets writes through. */
#define VB_PERM_BOTH 3 /* A translation lets reads and writes through. */
#define VB_ACCESS_ERROR 1 /* How an access ended: a device answered with an error. */
#define VB_ACCESS_DECODE 2 /* How an access ended: nothing answered some byte. */
#define VB_ACCESS_BEGUN 4 /* Of a write that was given up: a device has taken the first of the callbacks that come next. */
#define VB_WAY_CHUNKS 0 /* A plan in which each range takes its own bytes. */
#define VB_WAY_QEMU 1 /* A plan by QEMU's rule: a device takes whole pieces, which the end of its range does not cut. */
#define VB_REACHED_MEMORY 0 /* An access reaches memory. */
#define VB_REACHED_CALLBACK 1 /* An access reaches a callback of a device. */
#define VB_REACHED_NOTIFIER 2 /* An access sets a notifier. */
#define VB_REACHED_MARK 3 /* An access marks a page. */
#define VB_REACHED_NOTHING 4 /* Nothing answers. */
#define VB_TOLD_BEGIN 0 /* A listener is told that a change begins. */
#define VB_TOLD_DELETE 1 /* A listener is told that a range is gone. */
#define VB_TOLD_ADD 2 /* A listener is told that a range is there. */
#define VB_TOLD_KEEP 3 /* A listener is told that a range stays. */
#define VB_TOLD_LOG_START 4 /* A listener is told that logging starts. */
#define VB_TOLD_LOG_STOP 5 /* A listener is told that logging stops. */
#define VB_TOLD_EVENT_ADD 6 /* A listener is told that an ioeventfd is there. */
#define VB_TOLD_EVENT_DEL 7 /* A listener is told that an ioeventfd is gone. */
#define VB_TOLD_COMMIT 8 /* A listener is told that the change is whole. */

/* What C keeps of a machine: a pointer, which is null where there is none. */
typedef struct vb_machine {
    /* What the library keeps there; a caller leaves it alone. */
    void *at;
} vb_machine;

/* What C keeps of the desk of a machine that virtual CPUs share: a pointer, which is null where there is none. */
typedef struct vb_desk {
    /* What the library keeps there; a caller leaves it alone. */
    void *at;
} vb_desk;

/* What C keeps of a virtual CPU: a pointer, which is null where there is none. */
typedef struct vb_cpu {
    /* What the library keeps there; a caller leaves it alone. */
    void *at;
} vb_cpu;

/* What a call answers: a code, and what it names.
 *
 * The code is 0 where it is done. 1 to 20 are the refusals of the machine, numbered as the lines of a script number them, and
 * above these stand those of the library itself. A refused call changes nothing of the map. The code 28 alone is no refusal: a write was given up
 * after its first bytes. */
typedef struct vb_answer {
    /* What came of the call, by `VB_DONE` and those after it. */
    uint32_t code;
    /* Which sort of thing `value` is: of a refusal that may name several, or 1 where a region was made. */
    uint32_t what;
    /* The region that was made, what a refusal names, a limit, or a count. */
    uint64_t value;
    /* The number of the generation that a call published, 0 where none was; of a pass that holds a publish up, its generation. */
    uint64_t other;
} vb_answer;

/* A device: what its registers do, how many words of 8 bytes they are, and its access sizes in bytes.
 *
 * The kinds are 0 latch, 1 counter, 2 bell and 3 fault. */
typedef struct vb_device {
    /* What its registers do, by `VB_DEVICE_..`. */
    uint32_t kind;
    /* How many registers of 8 bytes it has. */
    uint32_t regs;
    /* The smallest access of a guest, in bytes. */
    uint8_t valid_min;
    /* The largest access of a guest, in bytes. */
    uint8_t valid_max;
    /* Whether a guest's access may be unaligned. */
    bool valid_unaligned;
    /* The smallest callback, in bytes. */
    uint8_t impl_min;
    /* The largest callback, in bytes. */
    uint8_t impl_max;
    /* Whether a callback may be unaligned. */
    bool impl_unaligned;
    /* Whether the first byte of a callback is the highest. */
    bool big;
} vb_device;

/* An ioeventfd: a write of `size` bytes at `offset` in its device sets the notifier `number`, where it is any write or
 * writes `value`. */
typedef struct vb_ioevent {
    /* The offset in its device, in bytes. */
    uint64_t offset;
    /* The value that counts, where `matched` is set. */
    uint64_t value;
    /* The notifier, 0 to 63. */
    uint32_t number;
    /* The size of the write, in bytes. */
    uint8_t size;
    /* Whether only a write of `value` counts. */
    bool matched;
} vb_ioevent;

/* What is asked of a desk. `what` says which of the calls of a machine it is, by `VB_DO_..`; each takes the numbers that it names, and the
 * others are not looked at. */
typedef struct vb_order {
    /* An offset in a container, in a target, or in a table, in bytes. */
    uint64_t offset;
    /* In bytes; 2^64 - 1 stands for 2^64. */
    uint64_t size;
    /* Where a translation goes on. */
    uint64_t translated;
    /* Which call it is, by `VB_DO_..`. */
    uint32_t what;
    /* The kind of a region that is made, by `VB_KIND_..`. */
    uint32_t kind;
    /* The region, by its number. */
    uint32_t region;
    /* The region that is placed or taken out, the target of an alias, or the root of a space. */
    uint32_t other;
    /* The address space, by its number. */
    uint32_t space;
    /* The listener, by its number. */
    uint32_t listener;
    /* Whose logging is switched, by `VB_CLIENT_..`. */
    uint32_t client;
    /* Which accesses a translation lets through, by `VB_PERM_..`. */
    uint32_t perm;
    /* The priority of a child or of a listener. */
    int32_t priority;
    /* Whether something is switched on. */
    bool on;
    /* The device of a region that is made. */
    vb_device device;
    /* The ioeventfd. */
    vb_ioevent event;
} vb_order;

/* A range of a view: the addresses `start` to `last` inclusive are answered by a region, from `offset` in it on. */
typedef struct vb_flat_range {
    /* The first address. */
    uint64_t start;
    /* The last address, inclusive. */
    uint64_t last;
    /* The offset of the first address in the region, in bytes. */
    uint64_t offset;
    /* The region, by its number. */
    uint32_t region;
    /* The logging mask: bits 0 display, 1 code, 2 migration. */
    uint8_t log;
    /* Whether it is read-only. */
    bool readonly;
    /* Whether it is non-volatile. */
    bool nonvolatile;
    /* The mode of a ROM device. */
    bool romd;
    /* Whether it ends where the path to its leaf changes. */
    bool unmergeable;
} vb_flat_range;

/* What an address leads to: the byte of a region, if there is one, and the last address after it that is answered alike. */
typedef struct vb_found {
    /* The last address of the range that holds the address, or of the hole that does. */
    uint64_t last;
    /* The offset in the region, in bytes. */
    uint64_t offset;
    /* The region, by its number. */
    uint32_t region;
    /* 0 container, 1 RAM, 2 ROM, 3 ROM device, 4 device, 5 IOMMU region, 6 alias, 7 reservation, 8 host memory. */
    uint32_t kind;
    /* The logging mask: bits 0 display, 1 code, 2 migration. */
    uint8_t log;
    /* Whether it is read-only. */
    bool readonly;
    /* Whether it is non-volatile. */
    bool nonvolatile;
    /* The mode of a ROM device. */
    bool romd;
    /* Whether it ends where the path to its leaf changes. */
    bool unmergeable;
    /* Whether some region answers. Where none does, all but `last` is 0. */
    bool is_there;
} vb_found;

/* One thing that an access reaches. `what` is 0 memory, 1 a callback of a device, 2 a notifier, 3 a mark of a page, 4 nothing. It is
 * about `len` bytes of the access, those from byte `at` of it on; a mark is about none. */
typedef struct vb_reached {
    /* The offset in the region, or the page that is marked, of 4,096 bytes, from 0 on. */
    uint64_t offset;
    /* The number that a callback takes. */
    uint64_t value;
    /* The first byte of the access that it is about. */
    uint64_t at;
    /* How many bytes of the access it is about. */
    uint64_t len;
    /* What is reached, by `VB_REACHED_..`. */
    uint32_t what;
    /* The region whose memory, callback or page it is. */
    uint32_t region;
    /* The number of the notifier, or of the client for whom a page is marked: 0 display, 1 code, 2 migration. */
    uint32_t number;
    /* The size of a callback, in bytes. */
    uint8_t size;
    /* Whether a callback takes a number; else it answers one, of whose bytes in the order of addresses the first `len` are read. */
    bool takes;
    /* Whether the first of these bytes is the highest. */
    bool big;
} vb_reached;

/* An ioeventfd as a view shows it. Its address is `distance` bytes from 0: below it where a view shows only the end of its bytes. */
typedef struct vb_live_event {
    /* How many bytes from 0 its address is. */
    uint64_t distance;
    /* The value that counts, where `matched` is set. */
    uint64_t value;
    /* The notifier. */
    uint32_t number;
    /* The size of the write, in bytes. */
    uint8_t size;
    /* Whether only a write of `value` counts. */
    bool matched;
    /* Whether its address is below 0. */
    bool is_below;
} vb_live_event;

/* One call of a listener. `what` is 0 begin, 1 a range is gone, 2 it is there, 3 it stays, 4 logging starts, 5 logging stops, 6 an
 * ioeventfd is there, 7 it is gone, 8 commit. */
typedef struct vb_listener_call {
    /* What the listener is told, by `VB_TOLD_..`. */
    uint32_t what;
    /* The listener, by its number. */
    uint32_t listener;
    /* The range. */
    vb_flat_range range;
    /* The ioeventfd. */
    vb_live_event event;
    /* The logging mask before, where logging starts or stops. */
    uint8_t from;
    /* The logging mask after it. */
    uint8_t to;
} vb_listener_call;

/* A handle that has nothing yet. */
#define VB_MACHINE_INIT { 0 }
#define VB_DESK_INIT { 0 }
#define VB_CPU_INIT { 0 }

/* Reads bytes of a space by a pass, 0 to 15, as many as there is room for. A pass that is out enters the current generation
 * before it and leaves after it. QEMU's core, `address_space_read`.
 *
 * `what` of the answer has 1 where a device answered with an error and 2 where nothing answered some byte; `value` is the number
 * of the generation. A greater pass is refused. */
vb_answer vb_read(vb_machine *handle, uint32_t pass, uint32_t space, uint64_t addr, uint8_t *out, size_t out_len);

/* Writes bytes to a space by a pass, as `vb_read` reads them. QEMU's core, `address_space_write`. */
vb_answer vb_write(vb_machine *handle, uint32_t pass, uint32_t space, uint64_t addr, const uint8_t *bytes, size_t bytes_len);

/* Makes an address space with this root. */
vb_answer vb_space(vb_machine *handle, uint32_t space, uint32_t root);

/* Places a region in a container, `offset` bytes into it. Of two children that hold an address, the one of higher priority is
 * found. */
vb_answer vb_add(vb_machine *handle, uint32_t parent, uint64_t offset, uint32_t child, int32_t priority);

/* Takes a region out of its container. */
vb_answer vb_del(vb_machine *handle, uint32_t parent, uint32_t child);

/* Moves a region in its container. */
vb_answer vb_move(vb_machine *handle, uint32_t child, uint64_t offset);

/* Gives a region another size: any region but memory. */
vb_answer vb_resize(vb_machine *handle, uint32_t region, uint64_t size);

/* Moves the window of an alias in its target. */
vb_answer vb_retarget(vb_machine *handle, uint32_t alias, uint64_t offset);

/* Switches a region on or off: one that is off is left out wherever it stands. */
vb_answer vb_enable(vb_machine *handle, uint32_t region, bool on);

/* Switches whether what is found through the region is read-only. */
vb_answer vb_readonly(vb_machine *handle, uint32_t region, bool on);

/* Switches whether what is found through the region is non-volatile. */
vb_answer vb_nonvolatile(vb_machine *handle, uint32_t region, bool on);

/* Switches whether ranges that are found through the region end where the path to their leaf changes. */
vb_answer vb_unmergeable(vb_machine *handle, uint32_t region, bool on);

/* Switches the mode of a ROM device. */
vb_answer vb_romd(vb_machine *handle, uint32_t region, bool on);

/* Switches the logging of a region for one client: 0 display, 1 code, 2 migration. Another is refused. */
vb_answer vb_log(vb_machine *handle, uint32_t region, uint32_t client, bool on);

/* Switches global logging. */
vb_answer vb_global(vb_machine *handle, bool on);

/* Puts a translation into the table of an IOMMU region: the page at `iova` goes on at `translated` in a space. `perm` is 0
 * nothing, 1 reads, 2 writes, 3 both; another is refused. */
vb_answer vb_map(vb_machine *handle, uint32_t region, uint64_t iova, uint64_t size, uint32_t space, uint64_t translated, uint32_t perm);

/* Takes a translation out. */
vb_answer vb_unmap(vb_machine *handle, uint32_t region, uint64_t iova);

/* Gives a device an ioeventfd. */
vb_answer vb_event(vb_machine *handle, uint32_t region, const vb_ioevent *event);

/* Takes an ioeventfd away: the one with this offset, size, value and `matched`. Its notifier does not matter. */
vb_answer vb_unevent(vb_machine *handle, uint32_t region, const vb_ioevent *event);

/* Drops a region that nothing uses. A `vb_reap` gives its memory back. */
vb_answer vb_drop(vb_machine *handle, uint32_t region);

/* Enters the current generation: accesses go by it until the virtual CPU leaves it or enters anew. `other` of the answer is its number.
 * QEMU's core, `rcu_read_lock`. */
vb_answer vb_cpu_enter(vb_cpu *handle);

/* Leaves the generation that the virtual CPU is entered in; where it is in none, it does nothing. QEMU's core, `rcu_read_unlock`. */
vb_answer vb_cpu_leave(vb_cpu *handle);

/* Reads bytes of a space, as many as there is room for, in the generation that the virtual CPU is entered in, and where it is in none in the
 * current one. The answer is that of `vb_read`. It never waits. QEMU's core, `address_space_read`. */
vb_answer vb_cpu_read(vb_cpu *handle, uint32_t space, uint64_t addr, uint8_t *out, size_t out_len);

/* Writes the eight bytes of a number, the lowest first, as `vb_cpu_read` reads bytes. It never waits: where it would replace only a part
 * of some word, it writes nothing, with the code 26, and `other` of the answer is the number of the generation. QEMU's core,
 * `address_space_write`. */
vb_answer vb_cpu_write8(vb_cpu *handle, uint32_t space, uint64_t addr, uint64_t value);

/* Writes bytes to a space, as `vb_cpu_read` reads them. It never waits: a part of a word is replaced by an exchange, which fails where
 * another changed the word meanwhile, and each is tried at most `tries` times. QEMU's core, `address_space_write`.
 *
 * Where all are written the answer is that of `vb_write`. Else its code is 28, `value` is how many of the first bytes are written, with the
 * marks of just these, `what` how their write ended, and `other` the number of the generation: the caller may go on after them. `what` has 4
 * where a device, whose access takes several callbacks, has taken the first of those that come next. */
vb_answer vb_cpu_write(vb_cpu *handle, uint32_t space, uint64_t addr, const uint8_t *bytes, size_t bytes_len, uint32_t tries);

/* Leaves where the virtual CPU is entered, and frees it, if the handle has one. The handle has none then. */
void vb_cpu_free(vb_cpu *handle);

/* What listeners were told: the call at an index, counted from the first that is not forgotten, where there is one. `value` of the
 * answer is how many there are, so that a caller that keeps its index polls: it reads on from there until it comes to `value`. Calls
 * are kept until `vb_forget` forgets them. */
vb_answer vb_delivery(vb_machine *handle, size_t index, vb_listener_call *out);

/* Makes a machine that virtual CPUs share, over a pool of this many words of 8 bytes, at most 2^26, and its desk for a handle that has
 * none. */
vb_answer vb_desk_new(vb_desk *handle, size_t words);

/* Frees the desk of a handle, if it has one. The handle has none then. Virtual CPUs that it handed out stay, in the last generation that
 * was published; what they share is freed with the last of them. */
void vb_desk_free(vb_desk *handle);

/* Asks the desk for a call that changes the map, a transaction, or a listener, as the call of that name asks a machine for it. It is done
 * beside the virtual CPUs: what is published, those that enter later see. `vb_desk_ask` waits for none of them: where one may still use the
 * generation that a publish would overwrite, seven before the current one, it is refused with the code 19. */
vb_answer vb_desk_ask(vb_desk *handle, const vb_order *order);

/* Hands out a virtual CPU, for a handle that has none. There are 16, numbered from 0 in the order in which they are handed out, and after
 * these it is refused with the code 27. It has seen all that the desk has done. */
vb_answer vb_desk_cpu(vb_desk *handle, vb_cpu *cpu);

/* Takes a notifier, as `vb_notified` does. */
vb_answer vb_desk_notified(vb_desk *handle, uint32_t number);

/* Releases dropped regions, as `vb_reap` does: a generation in which a virtual CPU is entered is in use. */
vb_answer vb_desk_reap(vb_desk *handle, uint32_t *out, size_t out_len);

/* Takes the marks of a region for one client, as `vb_harvest` does: a page that a virtual CPU writes meanwhile is told now or the next time. */
vb_answer vb_desk_harvest(vb_desk *handle, uint32_t region, uint32_t client, uint64_t *out, size_t out_len);

/* What an address of a space leads to in the current generation, as `vb_find` tells it. */
vb_answer vb_desk_find(vb_desk *handle, uint32_t space, uint64_t addr, vb_found *out);

/* A range of the current view of a space, as `vb_range` tells it. */
vb_answer vb_desk_range(vb_desk *handle, uint32_t space, size_t index, vb_flat_range *out);

/* What listeners were told, as `vb_delivery` tells it. */
vb_answer vb_desk_delivery(vb_desk *handle, size_t index, vb_listener_call *out);

/* What a read of `len` bytes of a space reaches in the generation that the virtual CPU is entered in, as `vb_plan_read` tells it of the current
 * one, in its `way`. No region that is named is released before the virtual CPU leaves the generation, so what a plan names may be used until
 * then. Where it is in none, it is refused with code 29. It asks no lock, and may be called beside the desk and other virtual CPUs. */
vb_answer vb_cpu_plan_read(vb_cpu *handle, uint32_t way, uint32_t space, uint64_t addr, size_t len, vb_reached *out, size_t out_len);

/* What a write of bytes to a space reaches in the generation that the virtual CPU is entered in, as `vb_plan_write` tells it of the current one
 * and `vb_cpu_plan_read` of a read. */
vb_answer vb_cpu_plan_write(vb_cpu *handle, uint32_t way, uint32_t space, uint64_t addr, const uint8_t *bytes, size_t bytes_len, vb_reached *out, size_t out_len);

/* What an address of a space leads to in the generation that the virtual CPU is entered in, as `vb_find` tells it of the current one. Where it is
 * in none, it is refused with code 29. It asks no lock. */
vb_answer vb_cpu_find(vb_cpu *handle, uint32_t space, uint64_t addr, vb_found *out);

/* The range at an index of the view of a space in the generation that the virtual CPU is entered in, as `vb_range` tells it of the current one.
 * Where it is in none, it is refused with code 29. It asks no lock. */
vb_answer vb_cpu_range(vb_cpu *handle, uint32_t space, size_t index, vb_flat_range *out);

/* The path on which an address of a space is found in the generation that the virtual CPU is entered in, as `vb_path` tells it of the current
 * one. Where it is in none, it is refused with code 29. It asks no lock. */
vb_answer vb_cpu_path(vb_cpu *handle, uint32_t space, uint64_t addr, uint32_t *out, size_t out_len);

/* Forgets the first `count` of the calls that listeners got and that are not forgotten yet, all of them where there are fewer. `value`
 * of the answer is how many it forgot: `vb_delivery` counts from the first that is not forgotten, so an index that a caller keeps is
 * lower by that many. The listeners stay, and are told nothing. It takes no memory.
 *
 * A machine that runs for long keeps what listeners were told until it is forgotten here. */
vb_answer vb_forget(vb_machine *handle, size_t count);

/* Forgets what the listeners of a desk were told, as `vb_forget` does: `vb_desk_delivery` counts from the first call that is not forgotten. */
vb_answer vb_desk_forget(vb_desk *handle, size_t count);

/* Takes the marks of a region for one client, 0 display, 1 code, 2 migration: the pages that were written since they were last taken.
 * Page 64 i + b, of 4,096 bytes, was written where bit b of word i of `out` is set. `value` of the answer is how many pages were. QEMU's
 * core, `cpu_physical_memory_snapshot_and_clear_dirty`.
 *
 * The region is one whose bytes the machine has. Another client is refused, and so is a buffer with fewer words than have a bit for each
 * page of the region in the current generation: `value` of that answer is how many it takes. Where the call is refused, or memory runs out,
 * the marks stay, and nothing is written. */
vb_answer vb_harvest(vb_machine *handle, uint32_t region, uint32_t client, uint64_t *out, size_t out_len);

/* The path on which an address of a space is found in the current generation: the regions that the search passes, aliases among them,
 * from the root to the one that answers, at most 32. Where nothing answers there is none. QEMU's manual, "The memory API", "Visibility".
 *
 * `out` has as many of their numbers as there is room for; `value` of the answer is how many there are, and `other` the number of the
 * generation. It takes one pass over all regions: `vb_find` is for each access, this for a person. Where memory runs out nothing is written. */
vb_answer vb_path(vb_machine *handle, uint32_t space, uint64_t addr, uint32_t *out, size_t out_len);

/* What a read of `len` bytes of a space reaches in the current generation, in order and nothing else, for a monitor that has the memory
 * and the devices itself: it makes the callbacks, reads its memory, and takes 0 where nothing is. `way` is 0 for this machine's way, in
 * which each range takes its own bytes, and 1 for QEMU's, in which a device takes whole pieces that the end of its range does not
 * cut. Memory of the host is reached as RAM is. QEMU's core, `address_space_read`.
 *
 * `out` has as many things as there is room for; `value` of the answer is how many there are, and `other` the number of the
 * generation. It is refused with code 9 where the access goes on past the last address (or, in QEMU's way, meets the last 7 offsets of
 * a device of 2^64 bytes), and with 22 for another way; then nothing is written, and neither where memory runs out. */
vb_answer vb_plan_read(vb_machine *handle, uint32_t way, uint32_t space, uint64_t addr, size_t len, vb_reached *out, size_t out_len);

/* What a write of bytes to a space reaches, as `vb_plan_read` tells it of a read: callbacks come with the numbers that they take, and
 * pages that are logged are to be marked. Memory that is shown through a read-only alias takes no write in this machine's way, and takes it
 * in QEMU's, which asks the region itself. QEMU's core, `address_space_write`. */
vb_answer vb_plan_write(vb_machine *handle, uint32_t way, uint32_t space, uint64_t addr, const uint8_t *bytes, size_t bytes_len, vb_reached *out, size_t out_len);

/* Makes a container: a region that only groups others. `size` is in bytes, and 2^64 - 1 stands for 2^64, here and below. */
vb_answer vb_container(vb_machine *handle, uint64_t size);

/* Makes RAM. Its size is whole pages of 4,096 bytes, at most 512 MiB. */
vb_answer vb_ram(vb_machine *handle, uint64_t size);

/* Makes ROM: memory that a guest only reads, and that `vb_load` fills. */
vb_answer vb_rom(vb_machine *handle, uint64_t size);

/* Makes host memory: RAM whose bytes the caller keeps. */
vb_answer vb_host(vb_machine *handle, uint64_t size);

/* Makes an IOMMU region, whose table is empty at first. */
vb_answer vb_iommu(vb_machine *handle, uint64_t size);

/* Makes a reservation: a range that is claimed and has no callbacks. */
vb_answer vb_reserve(vb_machine *handle, uint64_t size);

/* Makes an alias: a window on `target`, from `offset` in it on. */
vb_answer vb_alias(vb_machine *handle, uint64_t size, uint32_t target, uint64_t offset);

/* Makes a device. A kind of device that there is not is refused. */
vb_answer vb_io(vb_machine *handle, uint64_t size, const vb_device *device);

/* Makes a ROM device. A kind of device that there is not is refused. */
vb_answer vb_rom_device(vb_machine *handle, uint64_t size, const vb_device *device);

/* Runs a script on a machine of its own: `out` has as many bytes of what it writes as there is room for, and `value` of the answer is
 * how many there are.
 *
 * Of a text that is no script, with the code 25, the line of its first fault is written, and `other` of the answer is the number of
 * that line: 0 where the text as a whole is too long. Where memory runs out nothing is written. It needs no handle. */
vb_answer vb_run(const uint8_t *script, size_t script_len, uint8_t *out, size_t out_len);

/* The range at an index of the current view of a space, by ascending address: `out` has it, where there is one. `value` of the
 * answer is the number of ranges, and `other` that of the generation. */
vb_answer vb_range(vb_machine *handle, uint32_t space, size_t index, vb_flat_range *out);

/* What an address of a space leads to in the current generation: the byte of a region, and how far it goes on alike. QEMU's
 * core, `memory_region_find`. `other` of the answer is the number of the generation. */
vb_answer vb_find(vb_machine *handle, uint32_t space, uint64_t addr, vb_found *out);

/* What an answer says to a person, in ASCII: `out` has as many bytes of it as there is room for, and `whole` is how many there are.
 *
 * It answers 0, or 21 where memory ran out: then nothing is written. Any answer is taken, one that no call gives too. */
uint32_t vb_print(const vb_answer *answer, uint8_t *out, size_t out_len, size_t *whole);

/* Makes a machine over a pool of this many words of 8 bytes, at most 2^26, for a handle that has none.
 *
 * The memory of RAM, ROM and ROM devices, their marks, and the registers of devices are in the pool. */
vb_answer vb_new(vb_machine *handle, size_t words);

/* Frees the machine of a handle, if it has one. The handle has none then. */
void vb_free(vb_machine *handle);

/* Opens a transaction, inside of those that are open. What is changed in it is published by the `vb_commit` that closes the
 * outermost one. */
vb_answer vb_begin(vb_machine *handle);

/* Closes a transaction. The outermost one publishes what is pending, and `other` of the answer is the number of the generation
 * that is current then. */
vb_answer vb_commit(vb_machine *handle);

/* A listener joins a space, and is told what the current generation shows there. `vb_delivery` reads what listeners were told. */
vb_answer vb_listen(vb_machine *handle, uint32_t listener, uint32_t space, int32_t priority);

/* A listener leaves its space, and is told that what the current generation shows there is gone. */
vb_answer vb_unlisten(vb_machine *handle, uint32_t listener);

/* Loads bytes into a region that has bytes, ROM among them, from an offset in it on. No page is marked. */
vb_answer vb_load(vb_machine *handle, uint32_t region, uint64_t offset, const uint8_t *bytes, size_t bytes_len);

/* Takes a notifier, 0 to 63: `value` of the answer is what stood in its word, and 0 stands there then. A greater number is
 * refused. */
vb_answer vb_notified(vb_machine *handle, uint32_t number);

/* Releases the dropped regions that no generation in use names: their memory is free again. `value` of the answer is how many they
 * are.
 *
 * `out` has the numbers of as many of them as there is room for, ascending. Room for as many regions as were dropped is enough. Where
 * memory runs out nothing is written. */
vb_answer vb_reap(vb_machine *handle, uint32_t *out, size_t out_len);

#ifdef __cplusplus
}
#endif

#endif
