/* The guest's virtual CPUs: each a thread that runs it, answers what it asks, and can be held up. */
#define _GNU_SOURCE
#include <errno.h>
#include <signal.h>
#include <stdio.h>
#include <sys/ioctl.h>
#include <sys/mman.h>

#include "monitor.h"

struct cpu cpus[MOST_CPUS];
unsigned cpu_count;
static bool is_over;

/* A virtual CPU reads it while its thread is in the guest; who writes it has all of them out. The one who waits to write comes first. */
static pthread_rwlock_t gate = PTHREAD_RWLOCK_WRITER_NONRECURSIVE_INITIALIZER_NP;

/* Waits until no virtual CPU is in the guest. The flag makes one leave that has not entered yet when the signal comes. */
void cpus_pause(void)
{
    for (unsigned i = 0; i < cpu_count; i++) {
        __atomic_store_n(&cpus[i].run->immediate_exit, 1, __ATOMIC_SEQ_CST);
        pthread_kill(cpus[i].thread, SIGUSR1);
    }
    pthread_rwlock_wrlock(&gate);
    counts.pauses++;
}

void cpus_go_on(void)
{
    for (unsigned i = 0; i < cpu_count; i++) {
        __atomic_store_n(&cpus[i].run->immediate_exit, 0, __ATOMIC_SEQ_CST);
    }
    pthread_rwlock_unlock(&gate);
}

/* Ends the guest: no virtual CPU enters it any more. As a change of the map, since two threads may not hold all up at once. */
void cpus_stop(void)
{
    map_begin();
    cpus_pause();
    is_over = true;
    cpus_go_on();
    map_commit();
}

/* Runs the guest until it asks for something or is held up. False once it has ended. */
static bool enter_guest(struct cpu *cpu)
{
    pthread_rwlock_rdlock(&gate);
    bool goes_on = !is_over;
    int left = goes_on ? ioctl(cpu->fd, KVM_RUN, 0) : 0;
    if (left < 0 && errno != EINTR && errno != EAGAIN) {
        die("KVM_RUN");
    }
    pthread_rwlock_unlock(&gate);
    if (left < 0) {
        cpu->run->exit_reason = KVM_EXIT_INTR;
    }
    return goes_on;
}

static void *run_cpu(void *given)
{
    struct cpu *cpu = given;
    struct kvm_run *run = cpu->run;
    while (enter_guest(cpu)) {
        if (run->exit_reason == KVM_EXIT_MMIO) {
            map_access(cpu, MEMORY, run->mmio.phys_addr, run->mmio.data, run->mmio.len, run->mmio.is_write);
        } else if (run->exit_reason == KVM_EXIT_IO) {
            for (uint32_t i = 0; i < run->io.count; i++) {
                uint8_t *data = (uint8_t *)run + run->io.data_offset + i * run->io.size;
                map_access(cpu, PORTS, run->io.port, data, run->io.size, run->io.direction == KVM_EXIT_IO_OUT);
            }
        } else if (run->exit_reason != KVM_EXIT_INTR) {
            fprintf(stderr, "virtual CPU %d has left the guest for reason %u\n", (int)(cpu - cpus), run->exit_reason);
            cpus_stop();
        }
    }
    return NULL;
}

/* Registers as a system leaves them that has entered 64-bit code, with the tables that `load` of main.c has made. */
static void set_registers(const struct cpu *cpu, uint64_t entry, uint64_t moves)
{
    struct kvm_regs regs = { .rip = entry, .rflags = 2, .rdi = (uint64_t)(cpu - cpus), .rsi = cpu_count, .rdx = moves };
    struct kvm_segment code = { .limit = UINT32_MAX, .selector = 16, .type = 11, .present = 1, .l = 1, .s = 1, .g = 1 };
    struct kvm_segment data = { .limit = UINT32_MAX, .selector = 24, .type = 3, .present = 1, .db = 1, .s = 1, .g = 1 };
    struct kvm_sregs all;
    kvm_call(cpu->fd, KVM_GET_SREGS, &all, "registers");
    all.gdt.base = 0x500;
    all.gdt.limit = 31;
    all.cs = code;
    all.ds = all.es = all.fs = all.gs = all.ss = data;
    all.cr3 = 0x9000;
    all.cr4 = 0x20;
    all.cr0 = 0x80050033;
    all.efer = 0x500;
    kvm_call(cpu->fd, KVM_SET_SREGS, &all, "registers");
    kvm_call(cpu->fd, KVM_SET_REGS, &regs, "registers");
}

void cpus_make(int kvm, uint64_t entry, uint64_t moves)
{
    static struct {
        struct kvm_cpuid2 head;
        struct kvm_cpuid_entry2 entries[128];
    } can = { .head.nent = 128 };
    size_t size = (size_t)kvm_call(kvm, KVM_GET_VCPU_MMAP_SIZE, NULL, "a size");
    kvm_call(kvm, KVM_GET_SUPPORTED_CPUID, &can, "what a virtual CPU can do");
    for (unsigned i = 0; i < cpu_count; i++) {
        cpus[i].fd = kvm_call(vm, KVM_CREATE_VCPU, (void *)(uintptr_t)i, "a virtual CPU");
        cpus[i].run = mmap(NULL, size, PROT_READ | PROT_WRITE, MAP_SHARED, cpus[i].fd, 0);
        if (cpus[i].run == MAP_FAILED) {
            die("what KVM shares of a virtual CPU");
        }
        kvm_call(cpus[i].fd, KVM_SET_CPUID2, &can, "what a virtual CPU can do");
        set_registers(&cpus[i], entry, moves);
        good(vb_desk_cpu(&desk, &cpus[i].sees));
    }
}

static void on_signal(int number)
{
    (void)number;
}

/* Runs all virtual CPUs until the guest has ended. None enters it before all threads are there to be held up. */
void cpus_run(void)
{
    struct sigaction action = { .sa_handler = on_signal, .sa_flags = SA_RESTART };
    sigaction(SIGUSR1, &action, NULL);
    pthread_rwlock_wrlock(&gate);
    for (unsigned i = 0; i < cpu_count; i++) {
        if (pthread_create(&cpus[i].thread, NULL, run_cpu, &cpus[i]) != 0) {
            die("a thread");
        }
    }
    pthread_rwlock_unlock(&gate);
    for (unsigned i = 0; i < cpu_count; i++) {
        pthread_join(cpus[i].thread, NULL);
    }
}
