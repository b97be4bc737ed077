/* What docs/C.md says beside the header, under "What else there is to know": each sentence is a check. */
#include "../vobrekan.h"
#include <stdio.h>
#include <string.h>

static int passed, failed;

static void check(const char *what, bool holds) {
    passed += holds;
    failed += !holds;
    if (!holds) printf("failed: %s\n", what);
}

/* A machine with a page of RAM at 0 of the space 0. */
static uint32_t made(vb_machine *m) {
    vb_new(m, 1 << 12);
    uint32_t board = vb_container(m, UINT64_MAX).value, ram = vb_ram(m, 0x1000).value;
    vb_space(m, 0, board);
    vb_add(m, board, 0, ram, 0);
    return ram;
}

static void of_spaces(void) {
    vb_machine m = VB_MACHINE_INIT;
    vb_found found;
    vb_flat_range range;
    vb_reached list[2];
    uint32_t path[32];
    uint8_t bytes[4] = { 7, 7, 7, 7 };
    uint32_t ram = made(&m);
    vb_begin(&m);
    vb_space(&m, 1, ram);
    check("an unpublished space is there for a second make", vb_space(&m, 1, ram).code == VB_NAME_TAKEN);
    check("an unpublished space takes a listener", vb_listen(&m, 3, 1, 0).code == VB_DONE);
    for (uint32_t space = 1; space <= 2; space++) {
        check("vb_find of no published space", vb_find(&m, space, 0, &found).code == VB_UNKNOWN);
        check("vb_range of no published space", vb_range(&m, space, 0, &range).code == VB_UNKNOWN);
        check("vb_path of no published space", vb_path(&m, space, 0, path, 32).code == VB_UNKNOWN);
        vb_answer a = vb_read(&m, 0, space, 0, bytes, 4);
        check("a read of no published space", a.code == VB_DONE && a.what == VB_ACCESS_DECODE && bytes[0] == 0);
        a = vb_write(&m, 0, space, 0, bytes, 4);
        check("a write to no published space", a.code == VB_DONE && a.what == VB_ACCESS_DECODE);
        a = vb_plan_read(&m, VB_WAY_QEMU, space, 0, 4, list, 2);
        check("a plan of no published space", a.code == VB_DONE && a.value == 1 && list[0].what == VB_REACHED_NOTHING && list[0].len == 4);
    }
    check("the commit publishes it", vb_commit(&m).code == VB_DONE && vb_find(&m, 1, 0, &found).code == VB_DONE && found.region == ram);
    vb_free(&m);
}

static void of_codes(void) {
    vb_machine none = VB_MACHINE_INIT, m = VB_MACHINE_INIT;
    vb_desk no_desk = VB_DESK_INIT, desk = VB_DESK_INIT;
    vb_cpu no_cpu = VB_CPU_INIT, cpu = VB_CPU_INIT;
    vb_reached list[1];
    uint8_t byte[1] = { 0 };
    uint64_t words[1];
    made(&m);
    check("22 before 23: a pass", vb_read(&none, 16, 0, 0, byte, 1).code == VB_ARGUMENT && vb_write(&none, 16, 0, 0, byte, 1).code == VB_ARGUMENT);
    check("22 before 23: a client", vb_harvest(&none, 0, 3, words, 1).code == VB_ARGUMENT && vb_log(&none, 0, 3, true).code == VB_ARGUMENT);
    check("22 before 23: a way", vb_plan_read(&none, 2, 0, 0, 1, list, 1).code == VB_ARGUMENT);
    check("22 before 23 and 29: a way", vb_cpu_plan_read(&no_cpu, 2, 0, 0, 1, list, 1).code == VB_ARGUMENT);
    check("22 before 23: a permission, a notifier", vb_map(&none, 0, 0, 4096, 0, 0, 4).code == VB_ARGUMENT && vb_notified(&none, 64).code == VB_ARGUMENT);
    check("22 before 24", vb_new(&m, SIZE_MAX).code == VB_ARGUMENT && vb_new(&m, 64).code == VB_HAS_MACHINE);
    check("a desk", vb_desk_new(&desk, 1 << 12).code == VB_DONE && vb_desk_cpu(&desk, &cpu).code == VB_DONE);
    check("24 before 23", vb_desk_cpu(&no_desk, &cpu).code == VB_HAS_MACHINE && vb_desk_cpu(&no_desk, &no_cpu).code == VB_NO_MACHINE);
    check("22 of room before 11", vb_harvest(&m, 0, 0, words, 1).value == 1ull << 46);
    vb_order order = { .what = VB_DO_LOG, .client = 3 };
    vb_answer a = vb_desk_ask(&no_desk, &order);
    check("22 of an order names what it is", a.code == VB_ARGUMENT && a.value == VB_DO_LOG);
    vb_cpu_free(&cpu);
    vb_desk_free(&desk);
    vb_free(&m);
}

static vb_answer asked(vb_desk *desk, vb_order order) {
    return vb_desk_ask(desk, &order);
}

static void of_a_hold(void) {
    vb_desk desk = VB_DESK_INIT;
    vb_cpu first = VB_CPU_INIT, second = VB_CPU_INIT;
    vb_desk_new(&desk, 1 << 12);
    uint32_t ram = asked(&desk, (vb_order){ .what = VB_DO_REGION, .kind = VB_KIND_RAM, .size = 0x1000 }).value;
    asked(&desk, (vb_order){ .what = VB_DO_SPACE, .space = 0, .other = ram });
    vb_desk_cpu(&desk, &first);
    vb_desk_cpu(&desk, &second);
    uint64_t entered = vb_cpu_enter(&second).other;
    vb_answer a;
    uint64_t turns = 0;
    while ((a = asked(&desk, (vb_order){ .what = VB_DO_ENABLE, .region = ram, .on = turns % 2 })).code == VB_DONE) turns++;
    check("VB_HELD names the virtual CPU and its generation", a.code == VB_HELD && a.value == 1 && a.other == entered && turns == 7);
    vb_cpu_free(&first);
    vb_cpu_free(&second);
    vb_desk_free(&desk);
}

static void of_texts(void) {
    const char *script = "region r container 4K\nspace s r\nshow s\n";
    uint8_t out[64];
    size_t whole;
    memset(out, 'x', sizeof out);
    vb_answer a = { .code = VB_UNKNOWN, .value = 99 };
    check("no closing NUL of vb_print", vb_print(&a, out, sizeof out, &whole) == VB_DONE && out[whole - 1] == 'e' && out[whole] == 'x');
    memset(out, 'x', sizeof out);
    a = vb_run((const uint8_t *)script, strlen(script), out, sizeof out);
    check("no closing NUL of vb_run", a.value == 10 && out[9] == '\n' && out[10] == 'x');
}

/* Whether all that a listener's call does not tell is 0, by its `what`. */
static bool rest_is_zero(const vb_listener_call *call) {
    const vb_flat_range no_range = { 0 };
    const vb_live_event no_event = { 0 };
    bool is_event = call->what == VB_TOLD_EVENT_ADD || call->what == VB_TOLD_EVENT_DEL;
    bool has_range = call->what >= VB_TOLD_DELETE && call->what <= VB_TOLD_LOG_STOP;
    bool is_log = call->what == VB_TOLD_LOG_START || call->what == VB_TOLD_LOG_STOP;
    return (has_range || (call->range.last == no_range.last && call->range.start == 0 && call->range.region == 0)) &&
           (is_event || (call->event.distance == no_event.distance && call->event.size == 0 && call->event.number == 0)) &&
           (is_log || (call->from == 0 && call->to == 0));
}

static void of_listeners(void) {
    vb_machine m = VB_MACHINE_INIT;
    vb_device latch = { .regs = 1, .valid_min = 1, .valid_max = 4, .impl_min = 1, .impl_max = 4 };
    vb_ioevent event = { .offset = 4, .size = 4, .number = 3 };
    uint32_t ram = made(&m), device = vb_io(&m, 0x100, &latch).value;
    vb_add(&m, 0, 0x8000, device, 0);
    vb_listen(&m, 9, 0, 0);
    vb_log(&m, ram, VB_CLIENT_MIGRATION, true);
    vb_log(&m, ram, VB_CLIENT_MIGRATION, false);
    vb_event(&m, device, &event);
    vb_unevent(&m, device, &event);
    vb_enable(&m, device, false);
    vb_listener_call call;
    unsigned seen = 0;
    for (size_t i = 0; memset(&call, 0xee, sizeof call), i < vb_delivery(&m, i, &call).value; i++) {
        seen |= 1u << call.what;
        check("what a call does not tell is 0", call.listener == 9 && rest_is_zero(&call));
        if (call.what == VB_TOLD_LOG_START) check("the masks of a start", call.from == 0 && call.to == 4 && call.range.region == ram);
        if (call.what == VB_TOLD_LOG_STOP) check("the masks of a stop", call.from == 4 && call.to == 0 && call.range.region == ram);
        if (call.what == VB_TOLD_EVENT_ADD) check("the ioeventfd", call.event.distance == 0x8004 && call.event.number == 3 && call.event.size == 4);
    }
    check("all nine are told", seen == 0x1ff);
    vb_free(&m);
}

int main(void) {
    of_spaces();
    of_codes();
    of_a_hold();
    of_texts();
    of_listeners();
    printf("%d passed, %d failed\n", passed, failed);
    return failed != 0;
}
