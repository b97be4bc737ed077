#include "example.h"

int main(void) {
    vb_machine m = VB_MACHINE_INIT;             /* a handle of no machine */
    done(vb_new(&m, 1 << 20));                  /* a pool of 2^20 words of 8 bytes: the memory that is the machine's own */

    done(vb_begin(&m));                         /* changes from here on are published together */
    uint32_t system = done(vb_container(&m, UINT64_MAX)).value;  /* 2^64 - 1 stands for 2^64 bytes */
    uint32_t ram = done(vb_ram(&m, 0x10000)).value;
    uint32_t host = done(vb_host(&m, 1ull << 32)).value;         /* memory whose bytes you keep */
    done(vb_space(&m, 0, system));              /* address space 0: the number is yours to choose */
    done(vb_add(&m, system, 0, ram, 0));        /* container, offset, region, priority */
    done(vb_add(&m, system, 1ull << 32, host, 0));
    vb_answer a = done(vb_commit(&m));
    check(a.other == 1, "the number of the generation that is current now");

    vb_found found;
    done(vb_find(&m, 0, 0x100000010, &found));
    check(found.region == host && found.offset == 0x10, "what is at the address");
    check(found.last == 0x1ffffffff, "it goes on alike up to here");

    uint8_t word[8];
    a = done(vb_read(&m, 0, 0, 0x100, word, 8)); /* by pass 0, space 0 */
    check(a.what == 0, "neither VB_ACCESS_ERROR nor VB_ACCESS_DECODE");

    done(vb_listen(&m, 7, 0, 0));               /* listener 7 on space 0: it is told what there is */
    vb_listener_call call;
    size_t i = 0, ranges = 0;
    while (i < done(vb_delivery(&m, i, &call)).value) {         /* what listeners were told, the first call first */
        ranges += call.what == VB_TOLD_ADD;
        i++;
    }
    check(ranges == 2, "the RAM and the host's memory are told");
    i -= done(vb_forget(&m, i)).value;          /* what was read is forgotten: the first call that is not has the index 0 then */
    check(i == 0, "all is forgotten");

    uint32_t path[32];
    a = done(vb_path(&m, 0, 0x100000010, path, 32));            /* the regions that the search passes */
    check(a.value == 2 && path[0] == system && path[1] == host, "the root first, the one that answers last");

    uint64_t words[1];                          /* page 64 i + b is bit b of word i: RAM of 64 KiB has 16 pages */
    done(vb_log(&m, ram, VB_CLIENT_MIGRATION, true));
    done(vb_write(&m, 0, 0, 0x1ffe, word, 4));
    a = done(vb_harvest(&m, ram, VB_CLIENT_MIGRATION, words, 1));
    check(a.value == 2 && words[0] == 6, "which pages were written since the last harvest, and how many");

    uint32_t released[8];
    check(vb_drop(&m, ram).code == VB_HAS_CONTAINER, "RAM that is in a container is not dropped");
    done(vb_del(&m, system, ram));
    done(vb_drop(&m, ram));
    a = done(vb_reap(&m, released, 8));
    check(a.value == 1 && released[0] == ram, "how many regions were released, of which the list has the first 8");

    vb_free(&m);
    return 0;
}
