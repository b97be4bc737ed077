/* What KVM is told of the map, as listeners hear of it: a slot for each range of host memory, and each ioeventfd that a space shows. */
#include "monitor.h"

enum { MOST_SLOTS = 64 };

/* A slot: the whole pages of a range of host memory. An access to what the range has besides leaves the guest, and its plan reaches memory. */
static struct slot {
    vb_flat_range range;
    uint64_t start, size, offset;               /* `size` is 0 where the slot is free */
} slots[MOST_SLOTS];

static void set_slot(struct slot *slot, uint64_t size)
{
    const vb_flat_range *range = &slot->range;
    struct kvm_userspace_memory_region told = {
        .slot = (uint32_t)(slot - slots),
        .flags = (range->readonly ? KVM_MEM_READONLY : 0) | (range->log != 0 ? KVM_MEM_LOG_DIRTY_PAGES : 0),
        .guest_phys_addr = slot->start,
        .memory_size = size,
        .userspace_addr = (uint64_t)(regions[range->region]->bytes + slot->offset),
    };
    kvm_call(vm, KVM_SET_USER_MEMORY_REGION, &told, "a slot");
    slot->size = size;
    counts.slots_set += size != 0;
    counts.slots_gone += size == 0;
}

/* Marks the pages that the guest has written through a slot, where it is logged, and clears KVM's log of them. */
static void take_log(const struct slot *slot)
{
    uint64_t pages = slot->size / PAGE, *bits = calloc(pages / 64 + 1, 8);
    struct kvm_dirty_log log = { .slot = (uint32_t)(slot - slots), .dirty_bitmap = bits };
    if (pages != 0 && slot->range.log != 0) {
        kvm_call(vm, KVM_GET_DIRTY_LOG, &log, "a log of dirty pages");
    }
    for (uint64_t page = 0; page < pages; page++) {
        if (bits[page / 64] >> page % 64 & 1) {
            map_mark(slot->range.region, slot->offset / PAGE + page);
        }
    }
    free(bits);
}

void slots_log(void)
{
    for (int i = 0; i < MOST_SLOTS; i++) {
        take_log(&slots[i]);
    }
}

/* The slot of a range, or a free one where it has none. */
static struct slot *slot_of(const vb_flat_range *range)
{
    struct slot *found = NULL;
    for (int i = 0; i < MOST_SLOTS; i++) {
        if (slots[i].size != 0 && slots[i].range.start == range->start) {
            return &slots[i];
        }
        found = slots[i].size == 0 ? &slots[i] : found;
    }
    if (found == NULL) {
        die("no slot is free");
    }
    return found;
}

/* A range of memory comes or goes, or its log begins or ends. No start of a log is told of a range that comes logged. */
static void follow_range(const vb_listener_call *call)
{
    struct slot *slot = slot_of(&call->range);
    uint64_t start = (call->range.start + PAGE - 1) / PAGE * PAGE, end = (call->range.last + 1) / PAGE * PAGE;
    uint64_t offset = call->range.offset + (start - call->range.start);
    take_log(slot);
    if (call->what == VB_TOLD_DELETE && slot->size != 0) {
        set_slot(slot, 0);
    } else if (call->what != VB_TOLD_DELETE && start < end && offset % PAGE == 0) {
        *slot = (struct slot){ .range = call->range, .start = start, .offset = offset };
        slot->range.log = call->what == VB_TOLD_ADD ? call->range.log : call->to;
        set_slot(slot, end - start);
    }
}

static void follow_event(const vb_listener_call *call)
{
    struct kvm_ioeventfd told = {
        .datamatch = call->event.value,
        .addr = call->event.distance,
        .len = call->event.size,
        .fd = bells[call->event.number],
        .flags = (call->listener == PORTS ? KVM_IOEVENTFD_FLAG_PIO : 0) | (call->event.matched ? KVM_IOEVENTFD_FLAG_DATAMATCH : 0)
            | (call->what == VB_TOLD_EVENT_DEL ? KVM_IOEVENTFD_FLAG_DEASSIGN : 0),
    };
    kvm_call(vm, KVM_IOEVENTFD, &told, "an ioeventfd");
    counts.events++;
}

/* Whether a call is about a range of memory, and not that it stays. */
static bool is_of_slot(const vb_listener_call *call)
{
    bool is_range = call->what == VB_TOLD_ADD || call->what == VB_TOLD_DELETE || call->what == VB_TOLD_LOG_START || call->what == VB_TOLD_LOG_STOP;
    return is_range && call->listener == MEMORY && regions[call->range.region]->bytes != NULL;
}

/* Whether a batch of calls is for a time when no virtual CPU is in the guest: where a range goes of which a part comes back, since one that
 * stands on it would be ended; and where a logged one goes, since what is written after its log was taken would be lost. */
static bool needs_pause(uint64_t told)
{
    vb_listener_call gone, call;
    bool needs = false;
    for (uint64_t i = 0; i < told; i++) {
        good(vb_desk_delivery(&desk, i, &gone));
        bool is_gone = is_of_slot(&gone) && gone.what == VB_TOLD_DELETE;
        needs |= is_gone && gone.range.log != 0;
        for (uint64_t j = i + 1; is_gone && !needs && j < told; j++) {
            good(vb_desk_delivery(&desk, j, &call));
            bool meets = call.range.start <= gone.range.last && gone.range.start <= call.range.last;
            needs = meets && is_of_slot(&call) && call.what == VB_TOLD_ADD;
        }
    }
    return needs;
}

/* Does what the listeners were told of a change, and forgets it. */
void slots_follow(void)
{
    vb_listener_call call;
    uint64_t told = good(vb_desk_delivery(&desk, 0, &call)).value;
    bool is_alone = needs_pause(told);
    if (is_alone) {
        cpus_pause();
    }
    for (uint64_t i = 0; i < told; i++) {
        good(vb_desk_delivery(&desk, i, &call));
        if (is_of_slot(&call)) {
            follow_range(&call);
        } else if (call.what == VB_TOLD_EVENT_ADD || call.what == VB_TOLD_EVENT_DEL) {
            follow_event(&call);
        }
    }
    if (is_alone) {
        cpus_go_on();
    }
    good(vb_desk_forget(&desk, told));
}
