/* The guest's devices: a serial port, the ports of PCI's configuration with one device on the bus, that device's registers, a card that comes and
 * goes, and a port at which the guest ends. A callback keeps what the guest wants; the change that it names reads that when it is made. */
#include <stdio.h>
#include <string.h>
#include <sys/eventfd.h>

#include "monitor.h"

enum { CARD_AT = 0xe0000000, CARD_WORD = 0xca4d, OVERLAY_AT = 0x1800000, BAR_SIZE = 0x20000 };

/* The registers of the PCI device's BAR, 8 bytes each. */
enum { SCRATCH, MIGRATION, OVERLAY, CARD, PAGES, OTHERS, RUNG, REGISTERS = RUNG + BELLS };
enum { MIGRATION_BEGINS = 1, MIGRATION_ROUND, MIGRATION_ENDS };
/* The registers of its configuration, 4 bytes each. */
enum { IDENTITY, COMMAND, BAR_PLACE = 4, CONFIGURATION = 16 };

int guest_status = 1;
static uint32_t system_map, bar, overlay, card[2];
static uint32_t config_address;                 /* what was last written to port 0xcf8 */
static _Atomic uint32_t config[CONFIGURATION] = { [IDENTITY] = 0x00051b36 };
static _Atomic uint64_t values[REGISTERS];

static void place_bar(void)
{
    map_begin();
    ASK(.what = VB_DO_MOVE, .region = bar, .offset = config[BAR_PLACE]);
    ASK(.what = VB_DO_ENABLE, .region = bar, .on = (config[COMMAND] & 2) != 0);
    map_commit();
}

static void place_overlay(void)
{
    map_begin();
    ASK(.what = VB_DO_ENABLE, .region = overlay, .on = values[OVERLAY] != 0);
    map_commit();
}

/* Plugs the card in, with a device and a page of memory, or takes it out: then both are released when no virtual CPU can reach them any more. */
static void place_card(void)
{
    map_begin();
    bool is_in = values[CARD] != 0, was_in = card[0] != 0;
    if (is_in && !was_in) {
        card[0] = map_device(PAGE, NULL, NULL);
        card[1] = map_host(PAGE);
        regions[card[0]]->word = CARD_WORD;
        memcpy(regions[card[1]]->bytes, &regions[card[0]]->word, 8);
    }
    for (int i = 0; i < 2 && is_in != was_in; i++) {
        if (is_in) {
            ASK(.what = VB_DO_ADD, .region = system_map, .offset = CARD_AT + PAGE * (uint64_t)i, .other = card[i]);
        } else {
            ASK(.what = VB_DO_DEL, .region = system_map, .other = card[i]);
            ASK(.what = VB_DO_DROP, .region = card[i]);
            card[i] = 0;
        }
    }
    map_commit();
}

static void migrate(void)
{
    uint64_t order = values[MIGRATION];
    if (order == MIGRATION_ROUND) {
        values[PAGES] = map_round();
    } else {
        map_begin();
        ASK(.what = VB_DO_GLOBAL, .on = order == MIGRATION_BEGINS);
        map_commit();
    }
}

static uint64_t read_register(uint64_t offset)
{
    uint64_t number = offset / 8, rung = 0;
    if (number >= RUNG && number < REGISTERS && eventfd_read(bells[number - RUNG], &rung) == 0) {
        values[number] += rung;
    }
    return number < REGISTERS ? values[number] >> 8 * (offset % 8) : 0;
}

static void write_register(uint64_t offset, unsigned size, uint64_t value)
{
    static void (*const changes[PAGES])(void) = { [MIGRATION] = migrate, [OVERLAY] = place_overlay, [CARD] = place_card };
    uint64_t number = offset / 8;
    if (number >= PAGES || size != 4) {
        values[OTHERS]++;
        return;
    }
    values[number] = value;
    if (changes[number] != NULL) {
        map_later(changes[number]);
    }
}

/* The address of a configuration register at the offsets 0 to 3, and its value at 4 to 7. There is one device, 00:01.0. */
static uint64_t read_pci(uint64_t offset)
{
    uint32_t number = config_address >> 2 & 0x3f, value = config_address;
    if (offset >= 4) {
        value = config_address >> 8 != 0x800008 ? UINT32_MAX : number < CONFIGURATION ? config[number] : 0;
    }
    return value >> 8 * (offset % 4);
}

static void write_pci(uint64_t offset, unsigned size, uint64_t value)
{
    uint32_t number = config_address >> 2 & 0x3f;
    if (offset == 0 && size == 4) {
        config_address = (uint32_t)value;
    } else if (offset == 4 && size == 4 && config_address >> 8 == 0x800008 && (number == COMMAND || number == BAR_PLACE)) {
        config[number] = (uint32_t)value & (number == COMMAND ? 7u : -(uint32_t)BAR_SIZE);   /* the bits that a BAR keeps tell its size */
        map_later(place_bar);
    }
}

static void write_serial(uint64_t offset, unsigned size, uint64_t value)
{
    if (offset == 0 && size == 1) {
        putchar((int)value);
    }
}

/* The guest tells here how much it found wrong. */
static void write_end(uint64_t offset, unsigned size, uint64_t value)
{
    guest_status = offset != 4 || size != 4 || value != 0;
    map_later(cpus_stop);
}

/* Adds the devices to the maps of memory and ports. A byte of the last one lies over a byte of PCI's ports, as the port of a PC's reset does. */
void devices_add(uint32_t system, uint32_t ports)
{
    uint32_t pci = map_device(8, read_pci, write_pci), registers = map_device(PAGE, read_register, write_register);
    uint32_t end = map_device(8, NULL, write_end), over = ASK(.what = VB_DO_REGION, .kind = VB_KIND_ALIAS, .size = 1, .other = end, .offset = 7);
    system_map = system;
    overlay = map_device(PAGE / 2, NULL, NULL);
    bar = ASK(.what = VB_DO_REGION, .kind = VB_KIND_CONTAINER, .size = BAR_SIZE);
    ASK(.what = VB_DO_ENABLE, .region = bar, .on = false);
    ASK(.what = VB_DO_ENABLE, .region = overlay, .on = false);
    ASK(.what = VB_DO_ADD, .region = system, .offset = OVERLAY_AT, .other = overlay, .priority = 1);
    ASK(.what = VB_DO_ADD, .region = system, .other = bar, .priority = 1);
    ASK(.what = VB_DO_ADD, .region = bar, .other = registers);
    ASK(.what = VB_DO_ADD, .region = bar, .offset = BAR_SIZE / 2, .other = map_host(BAR_SIZE / 2));
    ASK(.what = VB_DO_ADD, .region = ports, .offset = 0x3f8, .other = map_device(8, NULL, write_serial));
    ASK(.what = VB_DO_ADD, .region = ports, .offset = 0x510, .other = end);
    ASK(.what = VB_DO_ADD, .region = ports, .offset = 0xcf8, .other = pci);
    ASK(.what = VB_DO_ADD, .region = ports, .offset = 0xcf9, .other = over, .priority = 1);
    ASK(.what = VB_DO_EVENT, .region = registers, .event = { .offset = 0x100, .number = 0, .size = 4 });
    ASK(.what = VB_DO_EVENT, .region = registers, .event = { .offset = 0x104, .number = 1, .size = 4, .value = 7, .matched = true });
    ASK(.what = VB_DO_EVENT, .region = end, .event = { .offset = 0, .number = 2, .size = 2 });
}
