#include "example.h"

/* What the desk answers to an order. */
static vb_answer ask(vb_desk *desk, vb_order order) {
    return done(vb_desk_ask(desk, &order));
}

int main(void) {
    vb_desk desk = VB_DESK_INIT;
    vb_cpu cpu = VB_CPU_INIT;
    uint8_t word[8];
    done(vb_desk_new(&desk, 1 << 20));
    uint32_t system = ask(&desk, (vb_order){ .what = VB_DO_REGION, .kind = VB_KIND_CONTAINER, .size = UINT64_MAX }).value;
    uint32_t ram = ask(&desk, (vb_order){ .what = VB_DO_REGION, .kind = VB_KIND_RAM, .size = 0x10000 }).value;
    ask(&desk, (vb_order){ .what = VB_DO_SPACE, .space = 0, .other = system });
    ask(&desk, (vb_order){ .what = VB_DO_ADD, .region = system, .offset = 0, .other = ram });
    done(vb_desk_cpu(&desk, &cpu));             /* hand it to a thread */

    uint64_t entered = done(vb_cpu_enter(&cpu)).other;          /* on that thread */
    done(vb_cpu_write8(&cpu, 0, 0x100, 42));
    done(vb_cpu_read(&cpu, 0, 0x100, word, 8));
    check(word[0] == 42, "what was written is read");
    vb_answer a = vb_cpu_write(&cpu, 0, 0x102, word, 5, 64);    /* parts of words, each tried at most 64 times */
    check(a.code == VB_DONE || a.code == VB_CONTENDED, "all is written, or the first a.value bytes are");

    a = ask(&desk, (vb_order){ .what = VB_DO_MOVE, .region = ram, .offset = 0x100000 });
    check(a.other == entered + 1, "meanwhile: refused with VB_HELD where a virtual CPU is entered seven generations back");
    a = done(vb_cpu_read(&cpu, 0, 0x100, word, 8));
    check(a.value == entered && word[0] == 42, "the virtual CPU still sees the map that it entered");
    done(vb_cpu_leave(&cpu));
    a = done(vb_cpu_read(&cpu, 0, 0x100, word, 8));
    check(a.what == VB_ACCESS_DECODE, "and after it the current one");

    vb_cpu_free(&cpu);
    vb_desk_free(&desk);
    return 0;
}
