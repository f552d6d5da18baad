/* crc_32 LIBRARY FILE..: CRC_32 of each file by libisal, libucsi or libdvbpsi: one line per file, eight hexadecimal digits and the name. */
#include <stdbool.h>
#include <stdint.h>
#include <stdio.h>
#include <stdlib.h>
#include <string.h>

#include <dvbpsi/dvbpsi.h>
#include <dvbpsi/psi.h>
#include <isa-l/crc.h>
#include <libucsi/crc32.h>

/* The normal, not the reflected polynomial; it starts with the seed inverted and inverts at the end, as CRC_32 does not. */
static uint32_t isal(uint8_t *bytes, size_t length) { return ~crc32_ieee(0, bytes, length); }

static uint32_t ucsi(uint8_t *bytes, size_t length) { return crc32(CRC32_INIT, bytes, length); }

/* It writes CRC_32 after the bytes, too. */
static uint32_t dvbpsi(uint8_t *bytes, size_t length)
{
    dvbpsi_psi_section_t section = { .b_syntax_indicator = true, .p_data = bytes, .p_payload_end = bytes + length };
    dvbpsi_CalculateCRC32(&section);
    return section.i_crc;
}

static uint32_t of_file(const char *name, uint32_t (*crc_32)(uint8_t *, size_t))
{
    static uint8_t bytes[2 << 20];
    FILE *file = fopen(name, "rb");
    if (!file) {
        perror(name);
        exit(1);
    }
    size_t length = fread(bytes, 1, sizeof bytes - 4, file);
    fclose(file);
    return crc_32(bytes, length);
}

int main(int count, char **words)
{
    uint32_t (*crc_32)(uint8_t *, size_t) = NULL;
    const char *library = count > 1 ? words[1] : "";
    if (!strcmp(library, "libisal"))
        crc_32 = isal;
    else if (!strcmp(library, "libucsi"))
        crc_32 = ucsi;
    else if (!strcmp(library, "libdvbpsi"))
        crc_32 = dvbpsi;
    else
        return 2;
    for (int i = 2; i < count; i++)
        printf("%08X %s\n", of_file(words[i], crc_32), words[i]);
    return 0;
}
