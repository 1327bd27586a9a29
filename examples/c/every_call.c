/* Tries each call from C: what it answers, what it refuses, and that a refused call changes nothing. Prints how many checks held.

   Build as in set_and_read.c. */

#include <clock.h>

#include <stdio.h>
#include <string.h>

static unsigned held, broken;

static void check(int holds, const char *what, int line) {
    if (holds) {
        held++;
    } else {
        broken++;
        printf("line %d: %s\n", line, what);
    }
}

#define CHECK(condition) check((condition), #condition, __LINE__)

/* Records with guards around them: no call may write beside its record. */
static struct {
    uint32_t before;
    clock348 part;
    uint32_t behind;
} serial;

static struct {
    uint32_t before;
    clock62 part;
    uint32_t behind;
} bus;

#define GUARD 0xA5A5A5A5u

static int guards_stand(void) {
    return serial.before == GUARD && serial.behind == GUARD && bus.before == GUARD && bus.behind == GUARD;
}

/* A call that must answer `wanted` and leave its record as it is. */
#define REFUSED(record, call, wanted)                            \
    do {                                                         \
        unsigned char before[sizeof(record)];                    \
        memcpy(before, &(record), sizeof before);                \
        CHECK((call) == (wanted));                               \
        CHECK(memcmp(before, &(record), sizeof before) == 0);    \
    } while (0)

#define REFUSED_348(call, wanted) REFUSED(serial.part, call, wanted)
#define REFUSED_62(call, wanted) REFUSED(bus.part, call, wanted)

static void no_call_takes_this_record(void) {
    uint8_t buffer[16] = {7};
    REFUSED_348(clock348_load(&serial.part, 0, 0, 0, 0), CLOCK_NO_RECORD);
    REFUSED_348(clock348_halt(&serial.part), CLOCK_NO_RECORD);
    REFUSED_348(clock348_pulses(&serial.part, 1), CLOCK_NO_RECORD);
    REFUSED_348(clock348_pins(&serial.part, 8), CLOCK_NO_RECORD);
    REFUSED_348(clock348_look(&serial.part, buffer, 16), CLOCK_NO_RECORD);
    REFUSED_62(clock62_load(&bus.part, 0, 0, 0), CLOCK_NO_RECORD);
    REFUSED_62(clock62_pulses(&bus.part, 1), CLOCK_NO_RECORD);
    REFUSED_62(clock62_read(&bus.part, 16), CLOCK_NO_RECORD);
    REFUSED_62(clock62_write(&bus.part, 0, 0), CLOCK_NO_RECORD);
    REFUSED_62(clock62_deselect(&bus.part), CLOCK_NO_RECORD);
    REFUSED_62(clock62_look(&bus.part, buffer, 16), CLOCK_NO_RECORD);
    CHECK(buffer[0] == 7);
}

/* Records of parts, but for one byte of each. */
static void no_part_has(clock348 one, size_t place, unsigned char byte, clock62 other, size_t other_place, unsigned char other_byte) {
    serial.part = one;
    ((unsigned char *)&serial.part)[place] = byte;
    bus.part = other;
    ((unsigned char *)&bus.part)[other_place] = other_byte;
    no_call_takes_this_record();
}

static void records_of_no_part(void) {
    memset(&serial.part, 0, sizeof serial.part);
    memset(&bus.part, 0, sizeof bus.part);
    no_call_takes_this_record();
    memset(&serial.part, 0xFF, sizeof serial.part);
    memset(&bus.part, 0xFF, sizeof bus.part);
    no_call_takes_this_record();
    /* the record of the other part, as far as there is room */
    clock348 one;
    clock62 other;
    clock348_power_on(&one);
    clock62_power_on(&other);
    memcpy(&serial.part, &other, sizeof other);
    memcpy(&bus.part, &one, sizeof bus.part);
    no_call_takes_this_record();
    /* CE up with no transfer, and a trim */
    no_part_has(one, 36, 1, other, 15, 7);
    /* held with CE down, and another second than 32,768 */
    no_part_has(one, 12, 1, other, 8, 2);
    /* an unused bit of a cell: of the seconds and the hours, and of the first, second and last digit */
    no_part_has(one, 16, 0x80, other, 16, 0x10);
    no_part_has(one, 18, 0x40, other, 17, 8);
    /* of an alarm's hour; Alarm_D not on every day */
    no_part_has(one, 24, 0x40, other, 28, 8);
    no_part_has(one, 30, 0x3F, other, 28, 8);
    /* of what Eh and Fh only store */
    no_part_has(one, 34, 0x08, other, 28, 8);
    no_part_has(one, 35, 0x40, other, 28, 8);
}

static void looks(void) {
    uint8_t buffer[20];
    memset(buffer, 0xEE, sizeof buffer);
    REFUSED_348(clock348_look(&serial.part, buffer, 15), CLOCK_SHORT_BUFFER);
    REFUSED_62(clock62_look(&bus.part, buffer, 15), CLOCK_SHORT_BUFFER);
    CHECK(buffer[0] == 0xEE && buffer[14] == 0xEE);
    CHECK(clock348_look(&serial.part, buffer, 20) == 0);
    CHECK(buffer[15] != 0xEE && buffer[16] == 0xEE && buffer[19] == 0xEE);
    CHECK(clock62_look(&bus.part, buffer, 16) == 0);
    CHECK(buffer[16] == 0xEE);
}

static void the_348a(void) {
    uint8_t registers[16];
    CHECK(clock348_power_on(&serial.part) == 0);
    CHECK(clock348_look(&serial.part, registers, 16) == 0);
    CHECK(registers[0] == 0 && registers[15] == 0x10);
    REFUSED_348(clock348_load(&serial.part, 6311520000u, 0, 0, 0), CLOCK_NO_SUCH_MOMENT);
    REFUSED_348(clock348_load(&serial.part, 0x100000000u * 2, 0, 0, 0), CLOCK_NO_SUCH_MOMENT);
    REFUSED_348(clock348_load(&serial.part, 0, 7, 0, 0), CLOCK_NO_SUCH_MOMENT);
    REFUSED_348(clock348_load(&serial.part, 0, 0x100, 0, 0), CLOCK_NO_SUCH_MOMENT);
    REFUSED_348(clock348_load(&serial.part, 0, 0, 128, 0), CLOCK_NO_SUCH_SETTING);
    REFUSED_348(clock348_load(&serial.part, 0, 0, 0x107, 0), CLOCK_NO_SUCH_SETTING);
    REFUSED_348(clock348_load(&serial.part, 0, 0, 0, 2), CLOCK_NO_SUCH_SETTING);
    CHECK(clock348_load(&serial.part, 6311519999u, 6, 7, CLOCK_24_HOURS) == 0);
    CHECK(clock348_look(&serial.part, registers, 16) == 0);
    CHECK(memcmp(registers, "\x59\x59\x23\x06\x31\x92\x99\x07\0\0\0\0\0\0\x20\0", 16) == 0);
    REFUSED_348(clock348_pulses(&serial.part, 1048577), CLOCK_TOO_MANY_PULSES);
    REFUSED_348(clock348_pulses(&serial.part, 0xFFFFFFFFu), CLOCK_TOO_MANY_PULSES);
    CHECK(clock348_pulses(&serial.part, 32768) == 0);
    CHECK(clock348_look(&serial.part, registers, 16) == 0);
    CHECK(memcmp(registers, "\0\0\0\0\x01\x01\0\x07\0\0\0\0\0\0\x20\0", 16) == 0);
    /* the second at 0 is twelve pulses longer */
    CHECK(clock348_pulses(&serial.part, 32779) == 0);
    CHECK(clock348_look(&serial.part, registers, 16) == 0 && registers[0] == 0);
    CHECK(clock348_pulses(&serial.part, 1) == 0);
    CHECK(clock348_look(&serial.part, registers, 16) == 0 && registers[0] == 1);
    REFUSED_348(clock348_pins(&serial.part, 8), CLOCK_NO_SUCH_LEVELS);
    REFUSED_348(clock348_pins(&serial.part, 0x100), CLOCK_NO_SUCH_LEVELS);
    REFUSED_348(clock348_pins(&serial.part, 6), CLOCK_TWO_PINS_CHANGE);
    /* CE up: a halt does nothing; down: it does */
    CHECK(clock348_pins(&serial.part, CLOCK_CE) == 2 + 4);
    CHECK(clock348_halt(&serial.part) == 0);
    CHECK(clock348_look(&serial.part, registers, 16) == 0 && registers[7] == 7);
    CHECK(clock348_pins(&serial.part, 0) == 2 + 4);
    CHECK(clock348_halt(&serial.part) == 0);
    CHECK(clock348_look(&serial.part, registers, 16) == 0 && registers[7] == 0 && registers[15] == 0x10);
}

/* The record copied away, spoilt and put back before each level of a read of register 2: the read does not notice. */
static void sleep_in_mid_transfer(void) {
    clock348 kept;
    uint32_t byte = 0;
    CHECK(clock348_load(&serial.part, 3993371998u, 5, 0, CLOCK_24_HOURS) == 0);
    CHECK(clock348_pins(&serial.part, CLOCK_CE) == 2 + 4);
    for (int place = 15; place >= 0; place--) {
        uint32_t si = 0x2C00u >> place & 1;
        kept = serial.part;
        memset(&serial.part, 0, sizeof serial.part);
        serial.part = kept;
        uint32_t answer = clock348_pins(&serial.part, CLOCK_CE + CLOCK_SCLK + si);
        if (place < 8) {
            byte = byte << 1 | CLOCK_SO(answer);
        } else {
            CHECK(CLOCK_SO(answer) == 2);
        }
        kept = serial.part;
        memset(&serial.part, 0xFF, sizeof serial.part);
        serial.part = kept;
        CHECK(clock348_pins(&serial.part, CLOCK_CE + si) < CLOCK_REFUSED);
    }
    CHECK(byte == 0x13);
    CHECK(CLOCK_INTR(clock348_pins(&serial.part, 0)) == 1);
}

/* The bytes of a record of each part, as the page on the parts from C has them. */
static void layouts(void) {
    static const unsigned char serial_bytes[] = {
        0x41, 0x38, 0x34, 0x33, 5, 0, 0, 0, 0x00, 0x80, 0, 0, 1, 0, 1, 7, 0x58, 0x59, 0x13, 0x05, 0x17, 0x87,
        0x26, 0, 0, 0, 0, 0, 0, 0, 0x7F, 0, 0, 0, 0, 0, 1, 0, 1, 0, 0, 1, 1, 0,
    };
    static const unsigned char bus_bytes[] = {
        0x36, 0x32, 0x58, 0x34, 3, 0, 0, 0, 0x00, 0x80, 0, 0, 1, 0, 1, 0, 9, 5, 9, 5, 3, 1, 7, 1, 7, 0, 6, 2, 5, 0, 0, 0,
    };
    CHECK(sizeof(clock348) == 44 && sizeof serial_bytes == 44);
    CHECK(sizeof(clock62) == 32 && sizeof bus_bytes == 32);
    clock348_load(&serial.part, 3993371998u, 5, 7, CLOCK_24_HOURS);
    clock348_pulses(&serial.part, 5);
    clock348_pins(&serial.part, CLOCK_CE);
    clock348_pins(&serial.part, CLOCK_CE + CLOCK_SCLK + CLOCK_SI);
    clock348_pins(&serial.part, CLOCK_CE + CLOCK_SI);
    CHECK(memcmp(&serial.part, serial_bytes, sizeof serial_bytes) == 0);
    clock62_load(&bus.part, 837611999u, 5, CLOCK_24_HOURS);
    clock62_pulses(&bus.part, 3);
    clock62_write(&bus.part, 13, 1);
    CHECK(memcmp(&bus.part, bus_bytes, sizeof bus_bytes) == 0);
    clock348_pins(&serial.part, 0);
    clock62_deselect(&bus.part);
}

static void the_62x42(void) {
    CHECK(clock62_power_on(&bus.part) == 0);
    CHECK(clock62_read(&bus.part, 13) == 2);
    REFUSED_62(clock62_load(&bus.part, 3155760000u, 0, 0), CLOCK_NO_SUCH_MOMENT);
    REFUSED_62(clock62_load(&bus.part, 0, 7, 0), CLOCK_NO_SUCH_MOMENT);
    REFUSED_62(clock62_load(&bus.part, 0, 0, 2), CLOCK_NO_SUCH_SETTING);
    CHECK(clock62_load(&bus.part, 0, 3, CLOCK_12_HOURS) == 0);
    CHECK(clock62_read(&bus.part, 4) == 2 && clock62_read(&bus.part, 5) == 1 && clock62_read(&bus.part, 12) == 3);
    REFUSED_62(clock62_pulses(&bus.part, 1048577), CLOCK_TOO_MANY_PULSES);
    CHECK(clock62_pulses(&bus.part, 32768) == 0);
    CHECK(clock62_read(&bus.part, 0) == 1);
    REFUSED_62(clock62_read(&bus.part, 16), CLOCK_NO_SUCH_REGISTER);
    REFUSED_62(clock62_write(&bus.part, 16, 0), CLOCK_NO_SUCH_REGISTER);
    REFUSED_62(clock62_write(&bus.part, 0x100, 0), CLOCK_NO_SUCH_REGISTER);
    REFUSED_62(clock62_write(&bus.part, 0, 16), CLOCK_NO_SUCH_REGISTER);
    REFUSED_62(clock62_write(&bus.part, 0, 0x105), CLOCK_NO_SUCH_REGISTER);
    CHECK(clock62_write(&bus.part, 13, 1) == 0 && clock62_read(&bus.part, 13) == 1);
    CHECK(clock62_pulses(&bus.part, 32768) == 0 && clock62_read(&bus.part, 0) == 1);
    CHECK(clock62_deselect(&bus.part) == 0 && clock62_read(&bus.part, 0) == 2);
    CHECK(clock62_write(&bus.part, 0, 9) == 0 && clock62_read(&bus.part, 0) == 9);
    CHECK(clock62_write(&bus.part, 15, 4) == 0 && clock62_read(&bus.part, 15) == 4);
}

int main(void) {
    serial.before = serial.behind = bus.before = bus.behind = GUARD;
    records_of_no_part();
    the_348a();
    the_62x42();
    sleep_in_mid_transfer();
    looks();
    layouts();
    CHECK(guards_stand());
    printf("%u checks held, %u broken\n", held, broken);
    return broken == 0 ? 0 : 1;
}
