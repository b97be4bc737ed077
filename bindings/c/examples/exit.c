#include "example.h"

/* What a virtual CPU's thread does at an exit of its guest: a write of some bytes into memory that the monitor keeps. */
static size_t write_at_exit(vb_cpu *cpu, uint8_t *memory, uint64_t addr, const uint8_t *bytes, size_t len) {
    vb_reached plan[16];
    size_t written = 0;
    done(vb_cpu_enter(cpu));
    vb_answer a = done(vb_cpu_plan_write(cpu, VB_WAY_QEMU, 0, addr, bytes, len, plan, 16));     /* a.value things, in order */
    check(a.value <= 16, "the list has all of them");
    for (uint64_t i = 0; i < a.value; i++) {
        if (plan[i].what == VB_REACHED_MEMORY) { /* the bytes from `at` on go to the memory of plan[i].region */
            memcpy(memory + plan[i].offset, bytes + plan[i].at, plan[i].len);
            written += plan[i].len;
        }
    }
    done(vb_cpu_leave(cpu));
    return written;
}

int main(void) {
    static uint8_t memory[0x10000];
    const uint8_t bytes[4] = { 1, 2, 3, 4 };
    vb_desk desk = VB_DESK_INIT;
    vb_cpu cpu = VB_CPU_INIT;
    vb_order order = { .what = VB_DO_REGION, .kind = VB_KIND_HOST, .size = sizeof memory };
    done(vb_desk_new(&desk, 1 << 10));
    uint32_t host = done(vb_desk_ask(&desk, &order)).value;
    order = (vb_order){ .what = VB_DO_SPACE, .space = 0, .other = host };
    done(vb_desk_ask(&desk, &order));
    done(vb_desk_cpu(&desk, &cpu));
    check(write_at_exit(&cpu, memory, 0x100, bytes, 4) == 4 && memcmp(memory + 0x100, bytes, 4) == 0, "all bytes are in memory");
    check(write_at_exit(&cpu, memory, 0xfffe, bytes, 4) == 2 && memory[0xffff] == 2, "after its end nothing answers");
    vb_found found;
    check(vb_cpu_find(&cpu, 0, 0x100, &found).code == VB_NOT_ENTERED, "outside of a generation nothing is asked");
    vb_cpu_free(&cpu);
    vb_desk_free(&desk);
    return 0;
}
