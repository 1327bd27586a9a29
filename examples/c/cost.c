/* What calls cost over the boundary: nanoseconds of processor time a call, in a burst read of a 348A and in reads of a 62X42.

   Build as in set_and_read.c. */

#include <clock.h>

#include <stdio.h>
#include <string.h>
#include <time.h>

#ifndef CALLS
#define CALLS 20000000
#endif

static const unsigned calls = CALLS;

static double nanoseconds(clock_t from) {
    return (double)(clock() - from) * 1e9 / CLOCKS_PER_SEC / calls;
}

int main(void) {
    clock348 serial;
    clock62 bus;
    uint32_t sum = 0;
    memset(&serial, 0, sizeof serial);
    memset(&bus, 0, sizeof bus);
    clock348_power_on(&serial);
    clock348_load(&serial, 3993371998u, 5, 0, CLOCK_24_HOURS);
    clock348_pins(&serial, CLOCK_CE);
    for (int place = 7; place >= 0; place--) {
        uint32_t si = 0x04u >> place & 1;
        clock348_pins(&serial, CLOCK_CE + CLOCK_SCLK + si);
        clock348_pins(&serial, CLOCK_CE + si);
    }
    clock_t from = clock();
    for (unsigned i = 0; i < calls; i++) {
        sum += clock348_pins(&serial, CLOCK_CE + (i % 2 == 0 ? CLOCK_SCLK : 0));
    }
    printf("clock348_pins  %5.1f ns\n", nanoseconds(from));
    from = clock();
    for (unsigned i = 0; i < calls; i++) {
        sum += clock348_pulses(&serial, 1);
    }
    printf("clock348_pulses of 1  %5.1f ns\n", nanoseconds(from));
    clock62_power_on(&bus);
    clock62_load(&bus, 837611999u, 5, CLOCK_24_HOURS);
    from = clock();
    for (unsigned i = 0; i < calls; i++) {
        sum += clock62_read(&bus, i % 16);
    }
    printf("clock62_read   %5.1f ns\n", nanoseconds(from));
    from = clock();
    for (unsigned i = 0; i < calls; i++) {
        sum += clock62_write(&bus, i % 13, i % 7);
    }
    printf("clock62_write  %5.1f ns\n", nanoseconds(from));
    return sum == 0;
}
