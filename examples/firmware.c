/*
 * A recorder's firmware over the library: makes a file, appends lines to it and shows it, on a card that `bittsalak format` made. To
 * be run on a host, it reads the card from the standard input, writes it to the standard output and has the standard error for a
 * display.
 */
#include <stdio.h>

#include "exfat.h"

static uint8_t card[16 * 1024 * 1024];  /* on a device, the mapped memory */
static const uint8_t map[512] = {0x0F}; /* system clusters 2 to 5: allocation bitmap, up-case table, root directory */
/* from the boot sector; exfat.h has the order */
static const uint32_t geometry[EXFAT_GEOMETRY_WORDS] = {9, 3, 24, 32, 1, 0, 56, 4089, 5, 2, 0};
#define CARD card, sizeof card, map, sizeof map, geometry

static const uint16_t name[8] = {'M', 'E', 'L', 'T', '.', 'C', 'S', 'V'}; /* UTF-16 */
static const uint16_t hash = 0x0A7A;                                      /* the standard's NameHash of that name */
static const uint8_t stamps[18] = {0, 0x60, 0x70, 0x5D, 0, 0x80,          /* created: 2026-11-16, 12:00, UTC */
                                   0, 0x60, 0x70, 0x5D, 0, 0x80,          /* modified */
                                   0, 0x60, 0x70, 0x5D, 0, 0x80};         /* accessed */

static void display(const uint8_t *bytes, size_t length); /* the device's own */

/* Shows a file from where it lies, part by part, without a copy. */
static void show(uint32_t slot)
{
    static const uint8_t zeros[512];
    struct exfat_part part;

    for (uint64_t at = 0; (part = exfat_read_part(CARD, zeros, sizeof zeros, slot, at)).length != 0; at += part.length)
        display(part.start, part.length);
}

/* Makes MELT.CSV, appends three lines of 9 bytes and shows it. Gives 0, or the number of the call that was refused. */
static uint32_t record(void)
{
    static const uint8_t lines[3][10] = {"0,1712.5\n", "1,1713.1\n", "2,1711.8\n"}; /* seconds, degrees Celsius */
    uint32_t out[EXFAT_OUT_WORDS];
    uint32_t number = exfat_new_file(CARD, name, 8, 0x20, hash, stamps, 2, out); /* 0x20: archive; 2: seek clusters from there */
    uint32_t slot = out[0], hint = out[1];

    for (uint64_t i = 0; number == 0 && i < 3; i++) {
        number = exfat_write(CARD, slot, 9 * i, lines[i], 9, stamps, hint, out);
        hint = out[0]; /* where the next call had best seek */
    }
    if (number == 0)
        show(slot);
    return number;
}

static void display(const uint8_t *bytes, size_t length)
{
    fwrite(bytes, 1, length, stderr);
}

int main(void)
{
    if (fread(card, 1, sizeof card, stdin) != sizeof card)
        return 99;
    uint32_t number = record();
    if (number == 7)
        fputs("the card is full\n", stderr); /* a refused call changes nothing: what was recorded before stays */
    else if (number != 0)
        fprintf(stderr, "the card is damaged: number %u\n", (unsigned)number);
    return fwrite(card, 1, sizeof card, stdout) == sizeof card ? (int)number : 99;
}
