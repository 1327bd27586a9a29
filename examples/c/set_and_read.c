/* Sets the time of both parts, lets it run over the end of an hour, sleeps, and reads it back.

   Build, at the top of a checkout, after `cd crates/clockparts && rt lib`:

       cc -std=c99 -Wall -Wextra -O2 -Iinclude -o set_and_read examples/c/set_and_read.c crates/clockparts/out/libclockparts.a */

#include <clock.h>

#include <stdio.h>
#include <string.h>

/* What survives sleep: a maker would put it into memory that keeps its bytes. */
static unsigned char kept[sizeof(clock348)];

static int served(const char *call, uint32_t answer) {
    if (answer < CLOCK_REFUSED) {
        return 1;
    }
    printf("%s: refused with %u\n", call, (unsigned)(answer - CLOCK_REFUSED));
    return 0;
}

/* One bit on the wires: SCLK up and down with SI at the bit. Answers SO after the rise. */
static uint32_t clock_bit(clock348 *part, uint32_t si) {
    uint32_t so = CLOCK_SO(clock348_pins(part, CLOCK_CE + CLOCK_SCLK + si));
    clock348_pins(part, CLOCK_CE + si);
    return so;
}

static void byte_in(clock348 *part, uint32_t byte) {
    for (int place = 7; place >= 0; place--) {
        clock_bit(part, byte >> place & 1);
    }
}

static uint32_t byte_out(clock348 *part) {
    uint32_t byte = 0;
    for (int place = 7; place >= 0; place--) {
        byte = byte << 1 | clock_bit(part, 0);
    }
    return byte;
}

/* Date and time by a burst read from register 0, under one CE. The month register has the century in bit 7. */
static void print_time(clock348 *part) {
    uint32_t cells[7];
    clock348_pins(part, CLOCK_CE);
    byte_in(part, 0x04);
    for (int i = 0; i < 7; i++) {
        cells[i] = byte_out(part);
    }
    clock348_pins(part, 0);
    printf("348A %s%02x-%02x-%02x %02x:%02x:%02x, weekday %x\n", cells[5] & 0x80 ? "20" : "19", (unsigned)cells[6], (unsigned)(cells[5] & 0x7F),
           (unsigned)cells[4], (unsigned)cells[2], (unsigned)cells[1], (unsigned)cells[0], (unsigned)cells[3]);
}

static int run_348(void) {
    clock348 part;
    memset(&part, 0, sizeof part);
    served("pulses of no record", clock348_pulses(&part, 1));
    /* Friday 17 July 2026, 13:59:58: Unix time 1,784,296,798 */
    if (!served("power on", clock348_power_on(&part)) ||
        !served("load", clock348_load(&part, 1784296798u + 2209075200u, 5, 0, CLOCK_24_HOURS))) {
        return 0;
    }
    print_time(&part);
    if (!served("pulses", clock348_pulses(&part, 65536))) {
        return 0;
    }
    /* sleep: the record is copied away and back */
    memcpy(kept, &part, sizeof part);
    memset(&part, 0, sizeof part);
    memcpy(&part, kept, sizeof part);
    print_time(&part);
    served("pulses", clock348_pulses(&part, 1048577));
    return 1;
}

/* The seconds' and minutes' digits, read while the part is held. */
static int run_62(void) {
    clock62 part;
    uint8_t registers[16];
    memset(&part, 0, sizeof part);
    /* Friday 17 July of year 26, 13:59:59 */
    if (!served("power on", clock62_power_on(&part)) ||
        !served("load", clock62_load(&part, 837611999u, 5, CLOCK_24_HOURS)) ||
        !served("pulses", clock62_pulses(&part, 32760)) || !served("hold", clock62_write(&part, 13, 1)) ||
        !served("pulses", clock62_pulses(&part, 20))) {
        return 0;
    }
    printf("62X42 held at %u%u:%u%u:%u%u\n", (unsigned)clock62_read(&part, 5), (unsigned)clock62_read(&part, 4),
           (unsigned)clock62_read(&part, 3), (unsigned)clock62_read(&part, 2), (unsigned)clock62_read(&part, 1),
           (unsigned)clock62_read(&part, 0));
    if (!served("deselect", clock62_deselect(&part)) || !served("look", clock62_look(&part, registers, sizeof registers))) {
        return 0;
    }
    printf("62X42 let go  %u%u:%u%u:%u%u\n", (unsigned)registers[5], (unsigned)registers[4], (unsigned)registers[3], (unsigned)registers[2],
           (unsigned)registers[1], (unsigned)registers[0]);
    served("write", clock62_write(&part, 16, 0));
    return 1;
}

int main(void) {
    return run_348() && run_62() ? 0 : 1;
}
