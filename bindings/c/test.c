/* Tests of the library from C: a machine behind a handle. */
#include <stdio.h>
#include <stdlib.h>
#include <string.h>

#include "../vobrekan.h"

static int passed, failed;

static void check(bool is_so, const char *what)
{
    if (is_so) {
        passed++;
    } else {
        failed++;
        printf("failed: %s\n", what);
    }
}

/* An answer is a refusal that names this. */
static void refused(vb_answer answer, uint32_t code, uint32_t what, uint64_t value, const char *text)
{
    bool is_so = answer.code == code && answer.what == what && answer.value == value;
    if (!is_so) {
        printf("code %u what %u value %llu: ", answer.code, answer.what, (unsigned long long)answer.value);
    }
    check(is_so, text);
}

/* The region that a call made. */
static uint32_t made(vb_answer answer, const char *text)
{
    check(answer.code == VB_DONE && answer.what == 1, text);
    return (uint32_t)answer.value;
}

static void done(vb_answer answer, const char *text)
{
    if (answer.code != VB_DONE) {
        printf("code %u: ", answer.code);
    }
    check(answer.code == VB_DONE, text);
}

static void test_handles(void)
{
    vb_machine m = VB_MACHINE_INIT;
    vb_found found;
    vb_flat_range range;
    uint8_t byte = 0;
    uint32_t number = 7;
    uint64_t word = 7;
    refused(vb_begin(&m), VB_NO_MACHINE, 0, 0, "begin without a machine");
    refused(vb_commit(&m), VB_NO_MACHINE, 0, 0, "commit without a machine");
    refused(vb_ram(&m, 4096), VB_NO_MACHINE, 0, 0, "RAM without a machine");
    refused(vb_move(&m, 0, 0), VB_NO_MACHINE, 0, 0, "a move without a machine");
    refused(vb_listen(&m, 0, 0, 0), VB_NO_MACHINE, 0, 0, "a listener without a machine");
    refused(vb_reap(&m, &number, 1), VB_NO_MACHINE, 0, 0, "a reap without a machine");
    refused(vb_path(&m, 0, 0, &number, 1), VB_NO_MACHINE, 0, 0, "a path without a machine");
    refused(vb_harvest(&m, 0, VB_CLIENT_DISPLAY, &word, 1), VB_NO_MACHINE, 0, 0, "a harvest without a machine");
    check(number == 7 && word == 7, "nothing is written");
    refused(vb_notified(&m, 0), VB_NO_MACHINE, 0, 0, "a notifier without a machine");
    refused(vb_find(&m, 0, 0, &found), VB_NO_MACHINE, 0, 0, "a look-up without a machine");
    refused(vb_range(&m, 0, 0, &range), VB_NO_MACHINE, 0, 0, "a view without a machine");
    refused(vb_read(&m, 0, 0, 0, &byte, 1), VB_NO_MACHINE, 0, 0, "a read without a machine");
    refused(vb_write(&m, 0, 0, 0, &byte, 1), VB_NO_MACHINE, 0, 0, "a write without a machine");
    refused(vb_load(&m, 0, 0, &byte, 1), VB_NO_MACHINE, 0, 0, "a load without a machine");
    vb_free(&m);
    refused(vb_new(&m, (1 << 26) + 1), VB_ARGUMENT, 0, (1 << 26) + 1, "a pool that is too large");
    done(vb_new(&m, 0), "a machine without words");
    refused(vb_new(&m, 0), VB_HAS_MACHINE, 0, 0, "a second machine");
    refused(vb_ram(&m, 4096), VB_NO_BACKING, 0, 515, "RAM without words");
    vb_free(&m);
    vb_free(&m);
    refused(vb_ram(&m, 4096), VB_NO_MACHINE, 0, 0, "a machine that was freed");
}

static void test_arguments(vb_machine *m)
{
    vb_device device = { .kind = 4, .regs = 1, .valid_min = 1, .valid_max = 4, .impl_min = 1, .impl_max = 4 };
    uint8_t byte = 0;
    refused(vb_io(m, 16, &device), VB_ARGUMENT, 0, 4, "a kind of device that there is not");
    refused(vb_rom_device(m, 4096, &device), VB_ARGUMENT, 0, 4, "a ROM device of such a kind");
    device.kind = VB_DEVICE_LATCH;
    device.valid_max = 3;
    refused(vb_io(m, 16, &device), VB_BAD_OPS, 0, 0, "an access size of 3 bytes");
    refused(vb_log(m, 0, 3, true), VB_ARGUMENT, 0, 3, "a client that there is not");
    refused(vb_map(m, 0, 0, 4096, 0, 0, 4), VB_ARGUMENT, 0, 4, "a permission that there is not");
    refused(vb_read(m, 16, 0, 0, &byte, 1), VB_ARGUMENT, 0, 16, "a read by pass 16");
    refused(vb_write(m, UINT32_MAX, 0, 0, &byte, 1), VB_ARGUMENT, 0, UINT32_MAX, "a write by a pass that there is not");
    refused(vb_notified(m, 64), VB_ARGUMENT, 0, 64, "notifier 64");
    refused(vb_ram(m, 0), VB_BAD_SIZE, 0, 0, "RAM of no size");
    refused(vb_ram(m, 100), VB_BAD_SIZE, 0, 0, "RAM of no whole page");
    refused(vb_alias(m, 4096, 77, 0), VB_UNKNOWN, VB_SORT_REGION, 77, "an alias of nothing");
    refused(vb_space(m, 5, 77), VB_UNKNOWN, VB_SORT_REGION, 77, "a space without a root");
    refused(vb_del(m, 77, 78), VB_UNKNOWN, VB_SORT_REGION, 77, "a container that is not there");
    refused(vb_drop(m, UINT32_MAX), VB_UNKNOWN, VB_SORT_REGION, UINT32_MAX, "the greatest id");
    refused(vb_unlisten(m, 9), VB_UNKNOWN, VB_SORT_LISTENER, 9, "a listener that is not there");
    refused(vb_listen(m, 9, 8, INT32_MIN), VB_UNKNOWN, VB_SORT_SPACE, 8, "a listener of a space that is not there");
    refused(vb_commit(m), VB_NO_TRANSACTION, 0, 0, "a commit without a transaction");
}

/* A PC in small: memory below, a device over it, and a ROM at the top. */
static void test_map(void)
{
    vb_machine m = VB_MACHINE_INIT;
    vb_found found;
    vb_flat_range range;
    vb_device device = { .kind = VB_DEVICE_LATCH, .regs = 1, .valid_min = 1, .valid_max = 4, .impl_min = 1, .impl_max = 4 };
    done(vb_new(&m, 1 << 16), "a machine");
    test_arguments(&m);
    done(vb_begin(&m), "a transaction");
    uint32_t system = made(vb_container(&m, UINT64_MAX), "a container of 2^64 bytes");
    uint32_t ram = made(vb_ram(&m, 0x10000), "RAM");
    uint32_t rom = made(vb_rom(&m, 0x1000), "ROM");
    uint32_t uart = made(vb_io(&m, 0x100, &device), "a device");
    uint32_t host = made(vb_host(&m, 0x100000000), "host memory");
    uint32_t low = made(vb_alias(&m, 0x1000, ram, 0x2000), "an alias");
    done(vb_space(&m, 1, system), "a space");
    done(vb_add(&m, system, 0, ram, 0), "RAM at 0");
    done(vb_add(&m, system, 0x1000, uart, 1), "a device over it");
    done(vb_add(&m, system, 0xfffff000, rom, 0), "ROM below 4 GiB");
    done(vb_add(&m, system, 0x100000000, host, 0), "host memory above 4 GiB");
    done(vb_add(&m, system, 0x20000, low, -1), "an alias");
    refused(vb_add(&m, system, 0, uart, 0), VB_HAS_CONTAINER, 0, system, "a device in two places");
    refused(vb_find(&m, 1, 0, &found), VB_UNKNOWN, VB_SORT_SPACE, 1, "nothing is published inside of the transaction");
    vb_answer published = vb_commit(&m);
    check(published.code == VB_DONE && published.other == 1, "the commit publishes generation 1");

    done(vb_find(&m, 1, 0x10, &found), "a look-up");
    check(found.is_there && found.region == ram && found.offset == 0x10 && found.last == 0xfff && found.kind == VB_KIND_RAM, "RAM is found");
    done(vb_find(&m, 1, 0x1004, &found), "a look-up");
    check(found.is_there && found.region == uart && found.offset == 4 && found.last == 0x10ff && found.kind == VB_KIND_IO, "the device is found");
    done(vb_find(&m, 1, 0x20000, &found), "a look-up");
    check(found.is_there && found.region == ram && found.offset == 0x2000 && found.last == 0x20fff, "the alias leads to RAM");
    done(vb_find(&m, 1, 0x10000, &found), "a look-up");
    check(!found.is_there && found.last == 0x1ffff, "a hole, with its end");
    done(vb_find(&m, 1, UINT64_MAX, &found), "a look-up");
    check(!found.is_there && found.last == UINT64_MAX, "the last address");
    done(vb_find(&m, 1, 0x100000000, &found), "a look-up");
    check(found.region == host && found.kind == VB_KIND_HOST && found.last == 0x1ffffffff, "host memory");
    refused(vb_find(&m, 2, 0, &found), VB_UNKNOWN, VB_SORT_SPACE, 2, "a space that is not there");

    vb_answer count = vb_range(&m, 1, 0, &range);
    check(count.code == VB_DONE && count.value == 6 && count.other == 1, "six ranges");
    uint64_t starts[6] = { 0, 0x1000, 0x1100, 0x20000, 0xfffff000, 0x100000000 };
    uint64_t lasts[6] = { 0xfff, 0x10ff, 0xffff, 0x20fff, 0xffffffff, 0x1ffffffff };
    for (size_t i = 0; i < 6; i++) {
        vb_range(&m, 1, i, &range);
        check(range.start == starts[i] && range.last == lasts[i], "a range of the view");
    }
    check(range.region == host && !range.readonly, "the last range");
    vb_range(&m, 1, 4, &range);
    check(range.region == rom && range.readonly, "ROM is read-only");
    vb_range(&m, 1, 99, &range);
    check(range.region == rom, "past the last range nothing is written");
    refused(vb_range(&m, 7, 0, &range), VB_UNKNOWN, VB_SORT_SPACE, 7, "a view that is not there");

    vb_answer moved = vb_move(&m, uart, 0x3000);
    check(moved.code == VB_DONE && moved.other == 2, "a move publishes generation 2");
    done(vb_find(&m, 1, 0x1004, &found), "a look-up");
    check(found.region == ram && found.last == 0x2fff, "the device is elsewhere");
    done(vb_enable(&m, rom, false), "the ROM is off");
    done(vb_find(&m, 1, 0xfffff000, &found), "a look-up");
    check(!found.is_there, "a ROM that is off is not found");
    done(vb_listen(&m, 3, 1, 0), "a listener");
    refused(vb_listen(&m, 3, 1, 0), VB_NAME_TAKEN, VB_SORT_LISTENER, 3, "the same listener");
    done(vb_unlisten(&m, 3), "it leaves");
    refused(vb_add(&m, ram, 0, system, 0), VB_LOOP, 0, ram, "a loop");
    refused(vb_resize(&m, ram, 0x2000), VB_WRONG_KIND, 0, ram, "RAM keeps its size");
    refused(vb_drop(&m, ram), VB_HAS_CONTAINER, 0, system, "a region in use");
    vb_free(&m);
}

static void test_accesses(void)
{
    vb_machine m = VB_MACHINE_INIT;
    vb_device device = { .kind = VB_DEVICE_LATCH, .regs = 1, .valid_min = 1, .valid_max = 4, .impl_min = 1, .impl_max = 4 };
    vb_ioevent event = { .offset = 8, .size = 4, .matched = false, .value = 0, .number = 5 };
    uint8_t word[8] = { 1, 2, 3, 4, 5, 6, 7, 8 }, out[8] = { 0 };
    done(vb_new(&m, 1 << 14), "a machine");
    uint32_t system = made(vb_container(&m, 0x100000), "a container");
    uint32_t ram = made(vb_ram(&m, 0x1000), "RAM");
    uint32_t rom = made(vb_rom(&m, 0x1000), "ROM");
    uint32_t latch = made(vb_io(&m, 0x100, &device), "a device");
    done(vb_space(&m, 0, system), "a space");
    done(vb_add(&m, system, 0, ram, 0), "RAM");
    done(vb_add(&m, system, 0x1000, rom, 0), "ROM");
    done(vb_add(&m, system, 0x2000, latch, 0), "a device");
    done(vb_event(&m, latch, &event), "an ioeventfd");
    refused(vb_event(&m, latch, &event), VB_EVENT_TAKEN, 0, 0, "the same ioeventfd");
    vb_answer ended = vb_write(&m, 0, 0, 0xffc, word, 4);
    check(ended.code == VB_DONE && ended.what == 0 && ended.value == 5, "a write to RAM, in generation 5");
    ended = vb_read(&m, 15, 0, 0xffc, out, 4);
    check(ended.code == VB_DONE && ended.what == 0 && memcmp(out, word, 4) == 0, "it is read again");
    done(vb_load(&m, rom, 0, word, 8), "the ROM is loaded");
    refused(vb_load(&m, rom, 0xffc, word, 8), VB_BAD_SIZE, 0, 0, "a load past the end");
    refused(vb_load(&m, latch, 0, word, 8), VB_WRONG_KIND, 0, latch, "a load into a device");
    ended = vb_read(&m, 0, 0, 0x1000, out, 8);
    check(ended.what == 0 && memcmp(out, word, 8) == 0, "the ROM is read");
    ended = vb_write(&m, 0, 0, 0x2000, word, 4);
    check(ended.what == 0, "a write to the device");
    ended = vb_read(&m, 0, 0, 0x2000, out, 4);
    check(ended.what == 0 && memcmp(out, word, 4) == 0, "the device gives what was written last");
    ended = vb_write(&m, 0, 0, 0x2008, word, 4);
    check(ended.what == 0, "a write that sets a notifier");
    vb_answer taken = vb_notified(&m, 5);
    check(taken.code == VB_DONE && taken.value != 0, "the notifier was set");
    taken = vb_notified(&m, 5);
    check(taken.code == VB_DONE && taken.value == 0, "it was taken");
    ended = vb_read(&m, 0, 0, 0x8000, out, 4);
    check(ended.code == VB_DONE && (ended.what & VB_ACCESS_DECODE) != 0, "nothing answers there");
    ended = vb_read(&m, 0, 9, 0, out, 0);
    check(ended.code == VB_DONE && ended.what == 0, "no byte of no space");
    done(vb_unevent(&m, latch, &event), "the ioeventfd is taken away");
    done(vb_del(&m, system, latch), "the device is taken out");
    done(vb_drop(&m, latch), "and dropped");
    uint32_t released[2] = { 99, 99 };
    for (uint64_t i = 0; i < 8; i++) {
        done(vb_move(&m, ram, 0x4000 + 0x1000 * (i % 2)), "a move");
    }
    vb_answer reaped = vb_reap(&m, released, 2);
    check(reaped.code == VB_DONE && reaped.value == 1 && released[0] == latch && released[1] == 99, "a reap, and what it released");
    reaped = vb_reap(&m, released, 2);
    check(reaped.code == VB_DONE && reaped.value == 0 && released[0] == latch, "a reap of nothing");
    vb_free(&m);
}

/* What listeners were told, read by an index that the caller keeps. */
static void test_listeners(void)
{
    vb_machine m = VB_MACHINE_INIT;
    vb_listener_call call;
    vb_device device = { .kind = VB_DEVICE_LATCH, .regs = 1, .valid_min = 1, .valid_max = 4, .impl_min = 1, .impl_max = 4 };
    vb_ioevent event = { .offset = 8, .size = 4, .matched = true, .value = 3, .number = 5 };
    memset(&call, 0, sizeof call);
    done(vb_new(&m, 1 << 14), "a machine");
    uint32_t system = made(vb_container(&m, 0x10000), "a container");
    uint32_t ram = made(vb_ram(&m, 0x1000), "RAM");
    uint32_t latch = made(vb_io(&m, 0x100, &device), "a device");
    done(vb_space(&m, 0, system), "a space");
    done(vb_add(&m, system, 0x2000, ram, 0), "RAM");
    done(vb_listen(&m, 7, 0, 0), "a listener");
    vb_answer told = vb_delivery(&m, 0, &call);
    check(told.code == VB_DONE && told.value == 3 && call.what == VB_TOLD_BEGIN && call.listener == 7, "it is told that its calls begin");
    vb_delivery(&m, 1, &call);
    check(call.what == VB_TOLD_ADD && call.range.start == 0x2000 && call.range.last == 0x2fff && call.range.region == ram, "of RAM");
    vb_delivery(&m, 2, &call);
    check(call.what == VB_TOLD_COMMIT, "and that they end");
    vb_delivery(&m, 3, &call);
    check(call.what == VB_TOLD_COMMIT, "past the last call nothing is written");
    done(vb_move(&m, ram, 0x4000), "RAM moves");
    told = vb_delivery(&m, 4, &call);
    check(told.value == 7 && call.what == VB_TOLD_DELETE && call.range.start == 0x2000, "it is gone there");
    vb_delivery(&m, 5, &call);
    check(call.what == VB_TOLD_ADD && call.range.start == 0x4000, "it is here");
    done(vb_begin(&m), "a transaction");
    done(vb_add(&m, system, 0, latch, 0), "a device");
    done(vb_event(&m, latch, &event), "an ioeventfd");
    check(vb_delivery(&m, 0, &call).value == 7, "nothing is told inside of the transaction");
    done(vb_commit(&m), "its end");
    bool is_found = false;
    told = vb_delivery(&m, 0, &call);
    for (size_t i = 7; i < told.value; i++) {
        vb_delivery(&m, i, &call);
        if (call.what == VB_TOLD_EVENT_ADD) {
            is_found = call.event.distance == 8 && !call.event.is_below && call.event.number == 5 && call.event.matched
                && call.event.value == 3 && call.event.size == 4;
        }
    }
    check(is_found, "the ioeventfd is told");
    uint64_t all = told.value;
    told = vb_forget(&m, 7);
    check(told.code == VB_DONE && told.value == 7, "seven calls are forgotten");
    told = vb_delivery(&m, 0, &call);
    check(told.value == all - 7 && call.what == VB_TOLD_BEGIN, "the first that is not forgotten is the first of the commit");
    check(vb_forget(&m, SIZE_MAX).value == all - 7, "the others are forgotten");
    check(vb_delivery(&m, 0, &call).value == 0, "nothing is left");
    check(vb_forget(&m, 1).value == 0, "there is nothing to forget");
    done(vb_move(&m, ram, 0x6000), "RAM moves");
    told = vb_delivery(&m, 3, &call);
    check(told.value == 5 && call.what == VB_TOLD_ADD && call.range.start == 0x6000, "the listener is told of it, and stays");
    vb_free(&m);
    check(vb_forget(&m, 1).code == VB_NO_MACHINE, "a handle that has no machine");
}

/* What accesses reach: a PC's configuration ports, and memory of the host. */
static void test_plans(void)
{
    vb_machine m = VB_MACHINE_INIT;
    vb_reached list[16];
    vb_device wide = { .kind = VB_DEVICE_LATCH, .regs = 1, .valid_min = 1, .valid_max = 4, .impl_min = 4, .impl_max = 4 };
    vb_device narrow = { .kind = VB_DEVICE_LATCH, .regs = 1, .valid_min = 1, .valid_max = 1, .impl_min = 1, .impl_max = 1 };
    uint8_t value[4] = { 0x10, 0x08, 0x00, 0x80 };
    memset(list, 0xaa, sizeof list);
    refused(vb_plan_read(&m, VB_WAY_CHUNKS, 0, 0, 4, list, 16), VB_NO_MACHINE, 0, 0, "a plan without a machine");
    done(vb_new(&m, 1 << 12), "a machine");
    uint32_t io = made(vb_container(&m, 0x10000), "ports");
    uint32_t config = made(vb_io(&m, 8, &wide), "the configuration ports");
    uint32_t reset = made(vb_io(&m, 1, &narrow), "the reset register");
    uint32_t host = made(vb_host(&m, 0x2000), "memory of the host");
    done(vb_space(&m, 0, io), "a space");
    done(vb_add(&m, io, 0xcf8, config, 0), "the configuration ports");
    done(vb_add(&m, io, 0xcf9, reset, 1), "the reset register over them");
    done(vb_add(&m, io, 0x2000, host, 0), "memory of the host");
    done(vb_log(&m, host, VB_CLIENT_MIGRATION, true), "its pages are logged");

    vb_answer told = vb_plan_write(&m, VB_WAY_QEMU, 0, 0xcf8, value, 4, list, 16);
    check(told.code == VB_DONE && told.value == 1 && told.other == 5, "in QEMU's way one callback takes outl 0xcf8");
    check(list[0].what == VB_REACHED_CALLBACK && list[0].region == config && list[0].offset == 0 && list[0].size == 4 && list[0].takes
              && list[0].value == 0x80000810 && list[0].at == 0 && list[0].len == 4,
        "with its whole number");
    told = vb_plan_write(&m, VB_WAY_CHUNKS, 0, 0xcf8, value, 4, list, 16);
    check(told.value == 3 && list[1].region == reset && list[1].value == 8 && list[2].region == config && list[2].offset == 2
              && list[2].value == 0x8000 && list[2].at == 2 && list[2].len == 2,
        "by chunks the reset register takes its byte");
    for (uint32_t way = 0; way < 2; way++) {
        told = vb_plan_write(&m, way, 0, 0xcf9, value, 1, list, 16);
        check(told.value == 1 && list[0].region == reset && list[0].value == 0x10, "outb 0xcf9");
        told = vb_plan_read(&m, way, 0, 0xcfc, 4, list, 16);
        check(told.value == 1 && list[0].region == config && list[0].offset == 4 && list[0].size == 4 && !list[0].takes, "inl 0xcfc");
        told = vb_plan_write(&m, way, 0, 0x2ffe, value, 4, list, 16);
        check(told.value == 3 && list[0].what == VB_REACHED_MEMORY && list[0].region == host && list[0].offset == 0xffe && list[0].len == 4
                  && list[1].what == VB_REACHED_MARK && list[1].offset == 0 && list[1].number == VB_CLIENT_MIGRATION && list[2].offset == 1,
            "memory of the host, and the marks of two pages");
        told = vb_plan_read(&m, way, 0, 0x3ffe, 4, list, 16);
        check(told.value == 2 && list[1].what == VB_REACHED_NOTHING && list[1].at == 2 && list[1].len == 2, "its end, and nothing there");
        told = vb_plan_read(&m, way, 9, 0, 4, list, 16);
        check(told.value == 1 && list[0].what == VB_REACHED_NOTHING && list[0].len == 4, "a space that is not there");
        told = vb_plan_read(&m, way, 0, 0, 0, list, 16);
        check(told.code == VB_DONE && told.value == 0, "no byte");
        refused(vb_plan_read(&m, way, 0, UINT64_MAX, 2, list, 16), VB_BAD_SIZE, 0, 0, "past the last address");
        refused(vb_plan_read(&m, way, 0, 2, SIZE_MAX, list, 16), VB_BAD_SIZE, 0, 0, "far past it");
    }
    memset(list, 0xaa, sizeof list);
    told = vb_plan_write(&m, VB_WAY_CHUNKS, 0, 0xcf8, value, 4, list, 1);
    check(told.value == 3 && list[0].region == config && list[1].region == 0xaaaaaaaa, "a buffer that is too small has the first of them");
    refused(vb_plan_read(&m, 2, 0, 0, 4, list, 16), VB_ARGUMENT, 0, 2, "another way");
    vb_free(&m);
}

/* On which path an address is found, and which pages were written. */
static void test_paths_and_pages(void)
{
    vb_machine m = VB_MACHINE_INIT;
    uint32_t path[32] = { 0 };
    uint64_t words[3] = { 7, 7, 7 };
    uint8_t bytes[16] = { 1 };
    done(vb_new(&m, 1 << 18), "a machine");
    uint32_t system = made(vb_container(&m, UINT64_MAX), "a container");
    uint32_t ram = made(vb_ram(&m, 100 * 0x1000), "RAM of 100 pages");
    uint32_t window = made(vb_alias(&m, 0x2000, ram, 0x1000), "an alias");
    uint32_t latch = made(vb_iommu(&m, 0x1000), "a region without bytes");
    done(vb_space(&m, 0, system), "a space");
    done(vb_add(&m, system, 0x100000, ram, 0), "RAM");
    done(vb_add(&m, system, 0, window, 0), "the window");
    done(vb_add(&m, system, 0x8000, latch, 0), "the region without bytes");

    vb_answer told = vb_path(&m, 0, 0x1010, path, 32);
    check(told.code == VB_DONE && told.value == 3 && told.other == 4 && path[0] == system && path[1] == window && path[2] == ram,
        "a path through an alias");
    path[1] = path[2] = 99;
    told = vb_path(&m, 0, 0x100000, path, 1);
    check(told.value == 2 && path[0] == system && path[1] == 99, "a buffer that is too small has the first of them");
    told = vb_path(&m, 0, 0x7000, path, 32);
    check(told.code == VB_DONE && told.value == 0, "no path to nothing");
    refused(vb_path(&m, 4, 0, path, 32), VB_UNKNOWN, VB_SORT_SPACE, 4, "a path in a space that is not there");

    done(vb_log(&m, ram, VB_CLIENT_DISPLAY, true), "its pages are logged");
    vb_write(&m, 0, 0, 0x100ff8, bytes, 16);
    vb_write(&m, 0, 0, 0x100000 + 99 * 0x1000, bytes, 1);
    refused(vb_harvest(&m, ram, VB_CLIENT_DISPLAY, words, 1), VB_ARGUMENT, 0, 2, "a buffer without a bit for each page");
    check(words[0] == 7, "nothing is written");
    refused(vb_harvest(&m, ram, 3, words, 3), VB_ARGUMENT, 0, 3, "a client that there is not");
    told = vb_harvest(&m, ram, VB_CLIENT_DISPLAY, words, 3);
    check(told.code == VB_DONE && told.value == 3 && words[0] == 3 && words[1] == 1ull << 35 && words[2] == 0, "pages 0, 1 and 99");
    told = vb_harvest(&m, ram, VB_CLIENT_DISPLAY, words, 2);
    check(told.code == VB_DONE && told.value == 0 && words[0] == 0 && words[1] == 0, "they were taken");
    refused(vb_harvest(&m, latch, VB_CLIENT_DISPLAY, words, 3), VB_WRONG_KIND, 0, latch, "a region without bytes");
    refused(vb_harvest(&m, 99, VB_CLIENT_DISPLAY, words, 0), VB_UNKNOWN, VB_SORT_REGION, 99, "a region that is not there");
    vb_free(&m);
}

/* Writes of parts of words by a virtual CPU, at 0 of a space in which memory of a page is: without a try they are given up. */
static void test_parts(vb_desk *d, vb_cpu *cpu, uint32_t ram)
{
    static const uint8_t bytes[16] = "0123456789abcdef";
    uint8_t out[16];
    uint64_t pages = 0;
    vb_order order = { .what = VB_DO_LOG, .region = ram, .client = VB_CLIENT_CODE, .on = true };
    done(vb_desk_ask(d, &order), "its pages are logged");
    done(vb_cpu_write8(cpu, 1, 0x20, 0), "a word of zeros");
    done(vb_cpu_write8(cpu, 1, 0x28, 0), "and another");
    vb_answer ended = vb_cpu_write(cpu, 1, 0x23, bytes, 10, 1);
    check(ended.code == VB_DONE && ended.what == 0, "parts of two words");
    vb_cpu_read(cpu, 1, 0x20, out, 16);
    check(memcmp(out, "\0\0\0000123456789\0\0\0", 16) == 0, "just these bytes are written");
    ended = vb_cpu_write(cpu, 1, 0x24, bytes, 3, 0);
    check(ended.code == VB_CONTENDED && ended.what == 0 && ended.value == 0, "a part that is not tried");
    ended = vb_cpu_write(cpu, 1, 0x20, bytes, 12, 0);
    check(ended.code == VB_CONTENDED && ended.value == 8, "only the word before the part is written");
    vb_cpu_read(cpu, 1, 0x20, out, 16);
    check(memcmp(out, "0123456756789\0\0\0", 16) == 0, "and nothing of the part");
    done(vb_cpu_write(cpu, 1, 0x20, bytes, 16, 0), "whole words need no try");
    done(vb_cpu_write(cpu, 1, 0x20, bytes, 0, 0), "nor does nothing");
    ended = vb_cpu_write(cpu, 1, 0xffc, bytes, 8, 4);
    check(ended.code == VB_DONE && ended.what == VB_ACCESS_DECODE, "the last bytes of memory, and what is above it");
    ended = vb_cpu_write(cpu, 9, 0, bytes, 8, 4);
    check(ended.code == VB_DONE && ended.what == VB_ACCESS_DECODE, "a space that is not there");
    done(vb_desk_harvest(d, ram, VB_CLIENT_CODE, &pages, 1), "the marks are taken");
    check(pages == 1, "the page is marked");
    done(vb_cpu_enter(cpu), "it enters");
    ended = vb_cpu_write(cpu, 1, 0x23, bytes, 3, 0);
    check(ended.code == VB_CONTENDED && ended.value == 0, "a part that is not tried, while it is entered");
    done(vb_desk_harvest(d, ram, VB_CLIENT_CODE, &pages, 1), "the marks are taken again");
    check(pages == 0, "what is not written is not marked");
    done(vb_cpu_leave(cpu), "it leaves");
    order.on = false;
    done(vb_desk_ask(d, &order), "its pages are logged no more");
}

/* What the listeners of a desk are told, and that it forgets it. RAM stands at 0 before and after. */
static void test_told(vb_desk *d, uint32_t ram)
{
    vb_listener_call call;
    vb_order order = { .what = VB_DO_LISTEN, .listener = 5, .space = 1 };
    done(vb_desk_ask(d, &order), "a listener joins");
    vb_answer told = vb_desk_delivery(d, 1, &call);
    check(told.value == 3 && call.what == VB_TOLD_ADD && call.listener == 5 && call.range.region == ram, "it is told of RAM");
    check(vb_desk_forget(d, 2).value == 2, "two calls are forgotten");
    told = vb_desk_delivery(d, 0, &call);
    check(told.value == 1 && call.what == VB_TOLD_COMMIT, "the first that is not forgotten is the commit");
    check(vb_desk_forget(d, SIZE_MAX).value == 1 && vb_desk_forget(d, 1).value == 0, "the last is forgotten");
    check(vb_desk_delivery(d, 0, &call).value == 0, "nothing is left");
    order = (vb_order){ .what = VB_DO_UNLISTEN, .listener = 5 };
    done(vb_desk_ask(d, &order), "the listener leaves");
    told = vb_desk_delivery(d, 1, &call);
    check(told.value == 3 && call.what == VB_TOLD_DELETE && call.range.region == ram, "and is told that RAM is gone");
}

/* What a virtual CPU asks of the generation that it is entered in, while the map changes under it: RAM stands at 0, and goes to 0x3000 and back. */
static void test_asked(vb_desk *d, vb_cpu *cpu, uint32_t ram)
{
    vb_reached plan[4];
    vb_found found;
    vb_flat_range range;
    uint32_t path[4] = { 7, 7, 7, 7 };
    uint8_t bytes[2] = { 1, 2 };
    refused(vb_cpu_plan_read(cpu, VB_WAY_QEMU, 1, 0, 8, plan, 4), VB_NOT_ENTERED, 0, 0, "no plan outside of all generations");
    refused(vb_cpu_plan_write(cpu, VB_WAY_CHUNKS, 1, 0, bytes, 2, plan, 4), VB_NOT_ENTERED, 0, 0, "nor of a write");
    refused(vb_cpu_find(cpu, 1, 0, &found), VB_NOT_ENTERED, 0, 0, "no look-up");
    refused(vb_cpu_range(cpu, 1, 0, &range), VB_NOT_ENTERED, 0, 0, "no range");
    refused(vb_cpu_path(cpu, 1, 0, path, 4), VB_NOT_ENTERED, 0, 0, "no path");
    check(path[0] == 7, "and nothing is written");
    uint64_t entered = vb_cpu_enter(cpu).other;
    vb_order order = { .what = VB_DO_MOVE, .region = ram, .offset = 0x3000 };
    done(vb_desk_ask(d, &order), "RAM moves away");
    refused(vb_cpu_plan_read(cpu, 2, 1, 0, 8, plan, 4), VB_ARGUMENT, 0, 2, "a way that there is not");
    for (uint32_t way = VB_WAY_CHUNKS; way <= VB_WAY_QEMU; way++) {
        vb_answer asked = vb_cpu_plan_read(cpu, way, 1, 0xffe, 4, plan, 4);
        check(asked.code == VB_DONE && asked.value == 2 && asked.other == entered, "two things, in the generation that it entered");
        check(plan[0].what == VB_REACHED_MEMORY && plan[0].region == ram && plan[0].offset == 0xffe && plan[0].len == 2, "two bytes of RAM");
        check(plan[1].what == VB_REACHED_NOTHING && plan[1].at == 2 && plan[1].len == 2, "and two of nothing");
        asked = vb_cpu_plan_write(cpu, way, 1, 0x10, bytes, 2, plan, 4);
        check(asked.code == VB_DONE && asked.value == 1 && plan[0].region == ram && plan[0].offset == 0x10, "a write reaches RAM");
    }
    vb_answer asked = vb_cpu_find(cpu, 1, 0x20, &found);
    check(asked.code == VB_DONE && asked.other == entered && found.is_there && found.region == ram && found.offset == 0x20, "RAM is found");
    asked = vb_cpu_range(cpu, 1, 0, &range);
    check(asked.code == VB_DONE && asked.value == 1 && range.start == 0 && range.last == 0xfff && range.region == ram, "it is the one range");
    asked = vb_cpu_path(cpu, 1, 0x20, path, 4);
    check(asked.code == VB_DONE && asked.value == 2 && path[1] == ram && path[2] == 7, "below the container");
    done(vb_cpu_leave(cpu), "it leaves");
    vb_cpu_enter(cpu);
    done(vb_cpu_find(cpu, 1, 0x20, &found), "a look-up in the new generation");
    check(!found.is_there, "which has nothing there");
    done(vb_cpu_leave(cpu), "it leaves");
    order.offset = 0;
    done(vb_desk_ask(d, &order), "RAM is back");
}

/* A desk, and virtual CPUs beside it. */
static void test_desks(void)
{
    vb_desk d = VB_DESK_INIT;
    vb_cpu cpu = VB_CPU_INIT, cpus[16] = { VB_CPU_INIT };
    vb_found found;
    uint8_t out[8] = { 7 };
    uint64_t word = 0;
    uint32_t number = 0;
    vb_order order = { .what = VB_DO_BEGIN };
    refused(vb_desk_ask(&d, &order), VB_NO_MACHINE, 0, 0, "an order without a desk");
    refused(vb_desk_cpu(&d, &cpu), VB_NO_MACHINE, 0, 0, "a virtual CPU without a desk");
    refused(vb_desk_find(&d, 0, 0, &found), VB_NO_MACHINE, 0, 0, "a look-up without a desk");
    refused(vb_desk_reap(&d, &number, 1), VB_NO_MACHINE, 0, 0, "a reap without a desk");
    refused(vb_desk_harvest(&d, 0, 0, &word, 1), VB_NO_MACHINE, 0, 0, "a harvest without a desk");
    refused(vb_desk_forget(&d, 1), VB_NO_MACHINE, 0, 0, "nothing is forgotten without a desk");
    refused(vb_cpu_enter(&cpu), VB_NO_MACHINE, 0, 0, "no virtual CPU enters");
    refused(vb_cpu_leave(&cpu), VB_NO_MACHINE, 0, 0, "none leaves");
    refused(vb_cpu_read(&cpu, 0, 0, out, 8), VB_NO_MACHINE, 0, 0, "none reads");
    refused(vb_cpu_write8(&cpu, 0, 0, 1), VB_NO_MACHINE, 0, 0, "none writes");
    refused(vb_cpu_write(&cpu, 0, 0, out, 8, 1), VB_NO_MACHINE, 0, 0, "nor parts of words");
    refused(vb_cpu_find(&cpu, 0, 0, &found), VB_NO_MACHINE, 0, 0, "none looks up");
    vb_cpu_free(&cpu);
    vb_desk_free(&d);
    refused(vb_desk_new(&d, SIZE_MAX), VB_ARGUMENT, 0, SIZE_MAX, "a pool that is too large");
    done(vb_desk_new(&d, 1 << 14), "a desk");
    refused(vb_desk_new(&d, 1), VB_HAS_MACHINE, 0, 0, "a second desk");
    order.what = 23;
    refused(vb_desk_ask(&d, &order), VB_ARGUMENT, 0, 23, "an order that there is not");
    order = (vb_order){ .what = VB_DO_REGION, .kind = 9, .size = 0x1000 };
    refused(vb_desk_ask(&d, &order), VB_ARGUMENT, 0, VB_DO_REGION, "a kind that there is not");
    order = (vb_order){ .what = VB_DO_REGION, .kind = VB_KIND_CONTAINER, .size = UINT64_MAX };
    uint32_t system = made(vb_desk_ask(&d, &order), "a container");
    order = (vb_order){ .what = VB_DO_REGION, .kind = VB_KIND_RAM, .size = 0x1000 };
    uint32_t ram = made(vb_desk_ask(&d, &order), "RAM");
    order = (vb_order){ .what = VB_DO_SPACE, .space = 1, .other = system };
    done(vb_desk_ask(&d, &order), "a space");
    order = (vb_order){ .what = VB_DO_ADD, .region = system, .other = ram };
    vb_answer published = vb_desk_ask(&d, &order);
    check(published.code == VB_DONE && published.other == 2, "RAM at 0, in generation 2");
    done(vb_desk_find(&d, 1, 0x10, &found), "a look-up");
    check(found.is_there && found.region == ram && found.offset == 0x10, "RAM is found");

    done(vb_desk_cpu(&d, &cpu), "a virtual CPU");
    refused(vb_desk_cpu(&d, &cpu), VB_HAS_MACHINE, 0, 0, "a handle that has one");
    vb_answer ended = vb_cpu_write8(&cpu, 1, 0x10, 0x0807060504030201);
    check(ended.code == VB_DONE && ended.what == 0 && ended.value == 2, "it writes a word, in generation 2");
    ended = vb_cpu_read(&cpu, 1, 0x12, out, 4);
    check(ended.code == VB_DONE && ended.what == 0 && out[0] == 3 && out[3] == 6, "and reads a part of it");
    ended = vb_cpu_write8(&cpu, 1, 0x14, 1);
    check(ended.code == VB_NOT_WHOLE && ended.other == 2, "parts of two words are not replaced");
    test_parts(&d, &cpu, ram);
    test_told(&d, ram);
    test_asked(&d, &cpu, ram);
    ended = vb_cpu_enter(&cpu);
    check(ended.code == VB_DONE && ended.other == 6, "it enters generation 6");
    order = (vb_order){ .what = VB_DO_MOVE, .region = ram, .offset = 0x4000 };
    done(vb_desk_ask(&d, &order), "RAM moves");
    ended = vb_cpu_read(&cpu, 1, 0x10, out, 1);
    check(ended.what == 0 && out[0] == 1 && ended.value == 6, "it sees the old map");
    done(vb_cpu_leave(&cpu), "it leaves");
    ended = vb_cpu_read(&cpu, 1, 0x10, out, 1);
    check((ended.what & VB_ACCESS_DECODE) != 0 && ended.value == 7, "it sees the new one");
    done(vb_cpu_enter(&cpu), "it enters");
    uint64_t held = 0;
    for (uint64_t i = 0; i < 20 && held == 0; i++) {
        order.offset = 0x1000 * (i % 2);
        vb_answer moved = vb_desk_ask(&d, &order);
        held = moved.code == VB_HELD ? i : 0;
    }
    check(held != 0, "a virtual CPU that stays holds the seventh publish after it up");
    vb_cpu_free(&cpu);
    done(vb_desk_ask(&d, &order), "once it was freed it does not");
    for (int i = 0; i < 15; i++) {
        done(vb_desk_cpu(&d, &cpus[i]), "a virtual CPU");
    }
    refused(vb_desk_cpu(&d, &cpus[15]), VB_NO_CPU, 0, 0, "there are 16");
    vb_desk_free(&d);
    ended = vb_cpu_write8(&cpus[3], 1, order.offset, 5);
    check(ended.code == VB_DONE && ended.what == 0, "virtual CPUs outlive their desk");
    for (int i = 0; i < 16; i++) {
        vb_cpu_free(&cpus[i]);
    }
}

static uint8_t *content(const char *name, size_t *len)
{
    FILE *file = fopen(name, "rb");
    if (file == NULL) {
        return NULL;
    }
    fseek(file, 0, SEEK_END);
    *len = (size_t)ftell(file);
    rewind(file);
    uint8_t *bytes = malloc(*len + 1);
    *len = fread(bytes, 1, *len, file);
    fclose(file);
    return bytes;
}

/* A script writes what stands beside it. */
static void test_script(const char *name)
{
    char out_name[512];
    size_t len = 0, wanted_len = 0;
    snprintf(out_name, sizeof out_name, "%.*s.out", (int)(strlen(name) - 3), name);
    uint8_t *script = content(name, &len), *wanted = content(out_name, &wanted_len);
    check(script != NULL && wanted != NULL, name);
    if (script != NULL && wanted != NULL) {
        uint8_t *out = malloc(wanted_len + 1);
        out[wanted_len] = 0xaa;
        vb_answer ran = vb_run(script, len, out, wanted_len + 1);
        check(ran.code == VB_DONE && ran.value == wanted_len && memcmp(out, wanted, wanted_len) == 0 && out[wanted_len] == 0xaa, name);
        free(out);
    }
    free(script);
    free(wanted);
}

static void test_run(void)
{
    static const char text[] = "region r container 0x1000\nspace s r\nshow s\n";
    static const char bad[] = "region r container 0x1000\nregion q circle\n";
    uint8_t out[64];
    memset(out, 0xaa, sizeof out);
    vb_answer ran = vb_run((const uint8_t *)text, sizeof text - 1, out, sizeof out);
    check(ran.code == VB_DONE && ran.value == 10 && memcmp(out, "view s g1\n", 10) == 0 && out[10] == 0xaa, "a script");
    memset(out, 0xaa, sizeof out);
    ran = vb_run((const uint8_t *)text, sizeof text - 1, out, 4);
    check(ran.value == 10 && memcmp(out, "view", 4) == 0 && out[4] == 0xaa, "a buffer that is too small has its beginning");
    ran = vb_run((const uint8_t *)bad, sizeof bad - 1, out, sizeof out);
    check(ran.code == VB_NO_SCRIPT && ran.other == 2 && ran.value < sizeof out && out[ran.value - 1] == '\n', "a text that is no script");
    ran = vb_run(out, 0, out + 1, 0);
    check(ran.code == VB_NO_SCRIPT || ran.code == VB_DONE, "no text");
}

/* What answers say. */
static void test_texts(void)
{
    static const struct {
        vb_answer answer;
        const char *text;
    } rows[] = {
        { { VB_DONE, 0, 0, 0 }, "done" },
        { { VB_UNKNOWN, VB_SORT_REGION, 7, 0 }, "region 7 is not there" },
        { { VB_NAME_TAKEN, VB_SORT_SPACE, 1, 0 }, "address space 1 is there already" },
        { { VB_LOOP, 0, 3, 0 }, "region 3 cannot be the container: it is the child itself, or is reached from it" },
        { { VB_NO_TRANSACTION, 0, 0, 0 }, "no transaction is open" },
        { { VB_PAGE_OVERLAP, 0, 0x1000, 0 }, "the translation meets the one at 0x1000" },
        { { VB_NO_BACKING, 0, 515, 0 }, "no hole of the pool has 515 words" },
        { { VB_HELD, 0, 2, 9 }, "pass 2 may still use generation 9" },
        { { VB_MEMORY, 0, 0, 0 }, "out of memory" },
        { { VB_ARGUMENT, 0, 4, 0 }, "an argument stands for nothing" },
        { { VB_NO_MACHINE, 0, 0, 0 }, "the handle has no machine" },
        { { VB_NO_SCRIPT, 0, 12, 1 }, "the text is no script" },
        { { VB_NOT_WHOLE, 0, 0, 3 }, "only a part of some word would be replaced" },
        { { VB_NO_CPU, 0, 0, 0 }, "all virtual CPUs are handed out" },
        { { VB_CONTENDED, 0, 3, 1 }, "others changed a word each time that it was tried" },
        { { VB_NOT_ENTERED, 0, 0, 0 }, "the virtual CPU is entered in no generation" },
        { { 99, 0, 0, 0 }, "this is no answer of the library" },
        { { VB_UNKNOWN, 6, 0, 0 }, "this is no answer of the library" },
        { { VB_UNKNOWN, VB_SORT_REGION, 1ull << 32, 0 }, "this is no answer of the library" },
    };
    for (size_t i = 0; i < sizeof rows / sizeof rows[0]; i++) {
        uint8_t out[128];
        size_t whole = 0, len = strlen(rows[i].text);
        memset(out, 0xaa, sizeof out);
        bool is_so = vb_print(&rows[i].answer, out, 4, &whole) == 0 && whole == len && memcmp(out, rows[i].text, 4) == 0 && out[4] == 0xaa
            && vb_print(&rows[i].answer, out, sizeof out, &whole) == 0 && memcmp(out, rows[i].text, len) == 0 && out[len] == 0xaa;
        check(is_so, rows[i].text);
    }
}

/* The arguments are scripts, which are run too. */
int main(int count, char **names)
{
    for (int i = 1; i < count; i++) {
        test_script(names[i]);
    }
    test_run();
    test_paths_and_pages();
    test_desks();
    test_listeners();
    test_texts();
    test_plans();
    test_handles();
    test_map();
    test_accesses();
    printf("%d passed, %d failed\n", passed, failed);
    return failed != 0;
}
