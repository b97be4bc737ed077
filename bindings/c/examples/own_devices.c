#include "example.h"

int main(void) {
    vb_machine m = VB_MACHINE_INIT;
    vb_device wide = { .regs = 1, .valid_min = 1, .valid_max = 4, .impl_min = 4, .impl_max = 4 };
    vb_device narrow = { .regs = 1, .valid_min = 1, .valid_max = 1, .impl_min = 1, .impl_max = 1 };
    done(vb_new(&m, 1 << 12));
    uint32_t io = done(vb_container(&m, 0x10000)).value;
    uint32_t config = done(vb_io(&m, 8, &wide)).value, reset = done(vb_io(&m, 1, &narrow)).value;
    done(vb_space(&m, 1, io));
    done(vb_add(&m, io, 0xcf8, config, 0));
    done(vb_add(&m, io, 0xcf9, reset, 1));      /* over the second byte of the configuration port */

    vb_reached list[16];
    uint8_t value[4] = { 0x10, 0x08, 0x00, 0x80 };
    vb_answer a = done(vb_plan_write(&m, VB_WAY_QEMU, 1, 0xcf8, value, 4, list, 16)); /* a.value things, of which list has the first 16 */
    for (uint64_t i = 0; i < a.value && i < 16; i++) switch (list[i].what) {
    case VB_REACHED_MEMORY:   /* value[at .. at + len] goes to list[i].offset of the memory of list[i].region, the host's too */
        break;
    case VB_REACHED_CALLBACK: /* its device takes list[i].value, a number of list[i].size bytes, at list[i].offset */
        printf("device %u takes %#llx, %u bytes, at %llu\n", list[i].region, (unsigned long long)list[i].value, list[i].size, (unsigned long long)list[i].offset);
        break;
    case VB_REACHED_NOTIFIER: /* the notifier list[i].number is set, and the device is not called */
        break;
    case VB_REACHED_MARK:     /* the page list[i].offset of the region is new for the client list[i].number */
        break;
    case VB_REACHED_NOTHING:  /* nothing answers these bytes */
        break;
    }
    check(a.value == 1 && list[0].region == config && list[0].value == 0x80000810, "the port takes the whole number");
    vb_free(&m);
    return 0;
}
