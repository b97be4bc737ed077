/* A guest without a system. Its first virtual CPU sizes and moves a BAR, rings bells, writes to a ROM, asks for rounds of a migration, has the
 * memory that all run in split, and plugs a card in and out; the others read the BAR and the card all the while. It counts what is not as it should
 * be, and tells that at the port at which it ends. */
typedef unsigned char u8;
typedef unsigned short u16;
typedef unsigned int u32;
typedef unsigned long u64;

enum { BAR = 0xd0000000, OTHER = 0xd8000000, CARD = 0xe0000000, ROM = 0xfffc0000, NOWHERE = 0xf0000000, LATCH = 0x31, CARD_WORD = 0xca4d };
enum { SCRATCH = 0, MIGRATION = 8, OVERLAY = 16, CARD_IN = 24, PAGES = 32, OTHERS = 40, RUNG = 48 };

static volatile u32 wrong, go, begun, stop, ended, reads[8];

static void out8(u16 port, u8 value) { __asm__ volatile("outb %0, %1" :: "a"(value), "Nd"(port)); }
static void out16(u16 port, u16 value) { __asm__ volatile("outw %0, %1" :: "a"(value), "Nd"(port)); }
static void out32(u16 port, u32 value) { __asm__ volatile("outl %0, %1" :: "a"(value), "Nd"(port)); }
static u32 in32(u16 port) { u32 value; __asm__ volatile("inl %1, %0" : "=a"(value) : "Nd"(port)); return value; }
static void store(u64 at, u32 value) { __asm__ volatile("movl %0, (%1)" :: "r"(value), "r"(at) : "memory"); }
static u32 load(u64 at) { u32 value; __asm__ volatile("movl (%1), %0" : "=r"(value) : "r"(at) : "memory"); return value; }

static void say(const char *text)
{
    while (*text != 0) {
        out8(0x3f8, (u8)*text++);
    }
}

static void say_number(u32 value)
{
    for (int i = 28; i >= 0; i -= 4) {
        out8(0x3f8, (u8)"0123456789abcdef"[value >> i & 15]);
    }
}

static void add(volatile u32 *count) { __asm__ volatile("lock incl %0" : "+m"(*count) :: "memory"); }

/* What is found has to be from `least` to `most`. */
static void within(const char *what, u32 found, u32 least, u32 most)
{
    if (found >= least && found <= most) {
        return;
    }
    add(&wrong);
    say("wrong: ");
    say(what);
    say(" is ");
    say_number(found);
    say("\n");
}

static void same(const char *what, u32 found, u32 is) { within(what, found, is, is); }

static u32 configuration(u32 number) { out32(0xcf8, 0x80000800 | number); return in32(0xcfc); }
static void configure(u32 number, u32 value) { out32(0xcf8, 0x80000800 | number); out32(0xcfc, value); }

/* The other virtual CPUs: what they read is the register of the BAR or nothing, and the card's word or nothing. */
static void read_beside(u64 cpu)
{
    while (!go) {
        __asm__ volatile("pause");
    }
    add(&begun);
    while (!stop) {
        u32 bar = load(OTHER), device = load(CARD), memory = load(CARD + 0x1000);
        if ((bar != 0 && bar != LATCH) || (device != 0 && device != CARD_WORD) || (memory != 0 && memory != CARD_WORD)) {
            add(&wrong);
        }
        reads[cpu]++;
    }
    add(&ended);
    for (;;) {
        __asm__ volatile("pause");
    }
}

/* Waits until another virtual CPU has read once more. */
static void let_others_read(u64 cpus)
{
    u32 before = reads[1];
    while (cpus > 1 && reads[1] == before) {
        __asm__ volatile("pause");
    }
}

static void try_bar(void)
{
    same("the device", configuration(0), 0x00051b36);
    configure(0x10, 0xffffffff);
    same("the size of the BAR", configuration(0x10), 0xfffe0000);
    same("a BAR that is off", load(BAR), 0);
    configure(0x10, BAR);
    configure(4, 2);
    store(BAR, 0x12345678);
    same("a register", load(BAR), 0x12345678);
    same("the upper half of it", load(BAR + 2) & 0xffff, 0x1234);
    store(BAR + 0x10000, 0xabc);
    configure(0x10, OTHER);
    same("the register after the move", load(OTHER), 0x12345678);
    same("memory after the move", load(OTHER + 0x10000), 0xabc);
    same("the old place", load(BAR), 0);
}

static void try_bells(void)
{
    for (int i = 0; i < 3; i++) {
        store(OTHER + 0x100, (u32)i);
    }
    store(OTHER + 0x104, 7);
    store(OTHER + 0x104, 8);
    out16(0x510, 5);
    same("writes of any value", load(OTHER + RUNG), 3);
    same("writes of the value that counts", load(OTHER + RUNG + 8), 1);
    same("writes to a port", load(OTHER + RUNG + 16), 1);
    same("writes of another value", load(OTHER + OTHERS), 1);
}

static void try_memory(void)
{
    same("the ROM", load(ROM), 0x52525252);
    store(ROM, 1);
    same("the ROM after a write", load(ROM), 0x52525252);
    store(0x100000000, 77);
    same("memory above 4 GiB", load(0x100000000), 77);
    same("nothing", load(NOWHERE), 0);
    same("ports of nothing", in32(0x600), 0xffffffff);
    out32(0xcf8, 0x80000400);                   /* over a port that ends the guest, which is not reached by a part of a whole piece */
}

/* The pages that were written since the last round: that of the stack among them, since a call writes there. */
static __attribute__((noinline)) u32 round_of_migration(void)
{
    store(OTHER + MIGRATION, 2);
    return load(OTHER + PAGES);
}

/* A round has the pages that were written since the one before it, and few of the guest's own. */
static void try_rounds(void)
{
    store(OTHER + MIGRATION, 1);
    round_of_migration();
    for (u64 i = 0; i < 100; i++) {
        store(0x2000000 + 4096 * i, (u32)i);
        store(OTHER + 0x10000 + 4096 * (i % 4), (u32)i);
    }
    store(0x100010000, 1);
    within("the pages of a round", round_of_migration(), 105, 117);
    store(OTHER + OVERLAY, 1);
    store(0x1800800, 4);                        /* memory beside a device in one page: a plan writes it, and marks the page */
    round_of_migration();
    u32 own = round_of_migration();
    within("the guest's own pages", own, 1, 8);
    store(0x1800800, 5);
    same("its own pages and one that a plan marked", round_of_migration(), own + 1);
    store(OTHER + OVERLAY, 0);
    same("memory beside a device", load(0x1800800), 5);
    store(OTHER + MIGRATION, 3);
}

void guest(u64 cpu, u64 cpus, u64 moves)
{
    if (cpu != 0) {
        read_beside(cpu);
    }
    try_bar();
    try_bells();
    try_memory();
    try_rounds();
    store(OTHER, LATCH);
    go = 1;
    for (u32 before = 0; before + 1 < cpus; before = begun) {
        __asm__ volatile("pause");
    }
    say("the BAR moves\n");
    for (u64 i = 0; i < moves; i++) {
        configure(0x10, i % 2 == 0 ? BAR : OTHER);
        let_others_read(cpus);
    }
    configure(0x10, OTHER);
    say("the memory is split\n");
    for (u64 i = 0; i < 50; i++) {
        store(OTHER + OVERLAY, i % 2 == 0);
        same("where the overlay lies", load(0x1800000), 0);
        let_others_read(cpus);
    }
    say("the card comes and goes\n");
    for (u64 i = 0; i < 100; i++) {
        store(OTHER + CARD_IN, i % 2 == 0);
        same("the card", load(CARD), i % 2 == 0 ? CARD_WORD : 0);
        let_others_read(cpus);
    }
    stop = 1;
    while (ended + 1 < cpus) {
        __asm__ volatile("pause");
    }
    out32(0x514, wrong);
    for (;;) {
    }
}
