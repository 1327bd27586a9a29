/* Clock parts 348A and 62X42 as a static library.

   A part lives in a record that the caller owns. Zero the record, call power_on, and then any call. A record is plain bytes without
   pointers: it may be copied, kept in memory that survives sleep, and put back. The library has no heap and no state of its own.

   Every call answers a number: 0 to 255 what was asked for (0 where nothing was), or CLOCK_REFUSED + n, the refusal n of the list below.
   A refused call changes neither the record nor a buffer. Every call but power_on looks at the record first: one that is no saved state
   of its part is refused with CLOCK_NO_RECORD, and the record of one part is none of the other.

   Nothing checks that the pointers point to a record, aligned as its type is, and to a buffer of the length given, that these do not
   overlap, or that a record is in one call at a time.

   The library is built for x86-64, level 2, with System V calls. What the registers hold is in docs/PART_348A.md and docs/PART_62X42.md,
   and how to keep a record at sleep in docs/FROM_C.md. */

#ifndef CLOCK_H
#define CLOCK_H

#include <stddef.h>
#include <stdint.h>

#ifdef __cplusplus
extern "C" {
#endif

/* The record of a 348A: 44 bytes. What they hold is the library's. */
typedef struct clock348 {
    uint32_t words[11];
} clock348;

/* The record of a 62X42: 32 bytes. */
typedef struct clock62 {
    uint32_t words[8];
} clock62;

/* Answers from here on are refusals. */
#define CLOCK_REFUSED 256u

#define CLOCK_NO_SUCH_MOMENT 257u   /* moment not below the cycle, or weekday over 6 */
#define CLOCK_NO_SUCH_SETTING 258u  /* trim over 127, or mode over 1 */
#define CLOCK_TOO_MANY_PULSES 259u  /* over 1,048,576 pulses in one call */
#define CLOCK_NO_SUCH_LEVELS 260u   /* levels over 7 */
#define CLOCK_TWO_PINS_CHANGE 261u  /* CE and SCLK both change */
#define CLOCK_SHORT_BUFFER 262u     /* under 16 bytes */
#define CLOCK_NO_SUCH_REGISTER 263u /* address or data over 15 */
#define CLOCK_NO_RECORD 511u        /* the record is no saved state of this part */

/* Hour modes. */
#define CLOCK_12_HOURS 0u
#define CLOCK_24_HOURS 1u

/* Levels of the 348A's wires, added. */
#define CLOCK_CE 4u
#define CLOCK_SCLK 2u
#define CLOCK_SI 1u

/* Of an accepted answer of clock348_pins, below CLOCK_REFUSED, only: SO is 0 or 1, or 2 where it is off; /INTR is 0 where it is low. */
#define CLOCK_SO(answer) ((answer) & 3u)
#define CLOCK_INTR(answer) ((answer) >> 2 & 1u)

/* ---- 348A ---- */

/* The part as its supply comes up: all registers zero but XSTP, nothing shown. Takes any record. Answers 0. */
uint32_t clock348_power_on(clock348 *part);

/* Shows a moment, below 6,311,520,000, and a weekday, 0 to 6, and begins a second. Clears alarms, XSTP, flags and stored bits; CE and SCLK
   are low after it, and a transfer under way is dropped. Answers 0.
   The moment is in seconds since 1 January 1900 00:00:00 of this part's calendar, in which 1900 is a leap year: from 1 March 1900 on it is
   one day, 86,400, more than the seconds that passed. It is Unix time + 2,209,075,200. */
uint32_t clock348_load(clock348 *part, uint64_t moment, uint32_t weekday, uint32_t trim, uint32_t mode);

/* The oscillator stopped: sets XSTP, zeroes trim, control and the other flags, and so disables the alarms and sets 12-hour mode. The cells
   of the time stay: 13 hours are none then, and such a time stands still until it is set. Nothing happens while CE is high. Answers 0. */
uint32_t clock348_halt(clock348 *part);

/* Takes so many pulses of the 32,768 Hz crystal, at most 1,048,576. Answers 0. */
uint32_t clock348_pulses(clock348 *part, uint32_t count);

/* New levels on CE, SCLK and SI, of which at most one of CE and SCLK changes. SI is taken at a fall of SCLK, SO changes at a rise.
   Answers SO + 4 x /INTR. */
uint32_t clock348_pins(clock348 *part, uint32_t levels);

/* Registers 0 to 15 into the first 16 bytes of a buffer; the rest of it stays. Answers 0. */
uint32_t clock348_look(const clock348 *part, uint8_t *buffer, size_t length);

/* ---- 62X42 ---- */

/* The part as its supply comes up: all registers zero but BUSY, nothing shown. Takes any record. Answers 0. */
uint32_t clock62_power_on(clock62 *part);

/* Shows a moment, below 3,155,760,000, and a weekday, 0 to 6, and begins a second, released. Answers 0.
   The moment is in seconds since 1 January of year 00, 00:00:00, a leap year. With the years read as 2000 to 2099 it is
   Unix time - 946,684,800. */
uint32_t clock62_load(clock62 *part, uint64_t moment, uint32_t weekday, uint32_t mode);

/* Takes so many pulses of the 32,768 Hz crystal, at most 1,048,576. Answers 0. */
uint32_t clock62_pulses(clock62 *part, uint32_t count);

/* Answers the register at an address, 0 to 15. */
uint32_t clock62_read(const clock62 *part, uint32_t address);

/* Writes data, 0 to 15, to the register at an address. Answers 0. */
uint32_t clock62_write(clock62 *part, uint32_t address, uint32_t data);

/* The fall of the select line: releases the part. Answers 0. */
uint32_t clock62_deselect(clock62 *part);

/* Registers 0 to 15 into the first 16 bytes of a buffer; the rest of it stays. Answers 0. */
uint32_t clock62_look(const clock62 *part, uint8_t *buffer, size_t length);

#ifdef __cplusplus
}
#endif

#endif
