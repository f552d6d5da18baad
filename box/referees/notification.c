/* notification: reads INT sections from standard input, a line each: a device's address and the section, in hexadecimal digits.
 *
 * A line a section, with tabs between: the answer that document 01 gives by what libucsi reads, with the fields of a location; the
 * fields of a section that is answered by 3 or 4, else `-`; and whether libucsi itself takes the loops, `-` where it is not asked.
 */
#include <libucsi/dvb/descriptor.h>
#include <libucsi/dvb/int_section.h>
#include <stdbool.h>
#include <stdio.h>
#include <stdlib.h>
#include <string.h>

/* libucsi has no names for these two. */
enum { TARGET_MAC_ADDRESS = 0x07, TARGET_MAC_ADDRESS_RANGE = 0x0E };

struct loop {
    size_t length, count;
    struct descriptor *descriptors[2048];
};

/* The loop of OWNER whose length is FIELD, by libucsi's iterator. */
#define COLLECT(loop, owner, field, for_each)                      \
    do {                                                           \
        struct descriptor *d;                                      \
        (loop).length = (owner)->field;                            \
        (loop).count = 0;                                          \
        for_each(owner, d) (loop).descriptors[(loop).count++] = d; \
    } while (0)

static struct loop platform, target, operational;

static void collect_pair(struct dvb_int_target *pair)
{
    struct dvb_int_operational_loop *after = dvb_int_target_operational_loop(pair);
    COLLECT(target, pair, target_descriptors_length, dvb_int_target_target_descriptors_for_each);
    COLLECT(operational, after, operational_descriptors_length, dvb_int_operational_loop_operational_descriptors_for_each);
}

/* libucsi takes some sections in which a loop runs into the CRC_32; 01 takes none (docs/DECISIONS.md). */
static bool filled(struct dvb_int_section *in)
{
    uint8_t *end = (uint8_t *) in + sizeof *in + in->platform_descriptors_length;
    struct dvb_int_target *pair;
    dvb_int_section_target_loop_for_each(in, pair) {
        struct dvb_int_operational_loop *last = dvb_int_target_operational_loop(pair);
        end = (uint8_t *) last + sizeof *last + last->operational_descriptors_length;
    }
    return end == (uint8_t *) in + section_ext_length(&in->head);
}

static bool length_is_right(struct descriptor *d)
{
    switch (d->tag) {
    case TARGET_MAC_ADDRESS: return d->len >= 6 && d->len % 6 == 0;
    case TARGET_MAC_ADDRESS_RANGE: return d->len % 12 == 0;
    case dtag_dvb_ip_mac_stream_location: return d->len == sizeof(struct dvb_ip_mac_stream_location_descriptor) - 2;
    default: return true;
    }
}

/* Writes the loop's fields; whether its known descriptors have their lengths. */
static bool write_loop(FILE *fields, const char *name, struct loop *loop)
{
    bool right = true;
    fprintf(fields, " %s %zu:", name, loop->length);
    for (size_t i = 0; i < loop->count; i++) {
        fprintf(fields, " %02X/%u", loop->descriptors[i]->tag, loop->descriptors[i]->len);
        right = right && length_is_right(loop->descriptors[i]);
    }
    return right;
}

static bool write_fields(FILE *fields, struct dvb_int_section *in)
{
    struct dvb_int_target *pair;
    fprintf(fields, "action_type %02X platform_id_hash %02X platform_id %06X processing_order %02X", dvb_int_section_action_type(in),
        dvb_int_section_platform_id_hash(in), in->platform_id, in->processing_order);
    COLLECT(platform, in, platform_descriptors_length, dvb_int_section_platform_descriptors_for_each);
    bool right = write_loop(fields, "platform", &platform);
    dvb_int_section_target_loop_for_each(in, pair) {
        collect_pair(pair);
        right = write_loop(fields, "target", &target) && right;
        right = write_loop(fields, "operational", &operational) && right;
    }
    return right;
}

static bool equal_under(const uint8_t *mask, const uint8_t *address, const uint8_t *device)
{
    for (int i = 0; i < 6; i++)
        if ((address[i] ^ device[i]) & mask[i])
            return false;
    return true;
}

static bool covers(struct descriptor *d, const uint8_t *device)
{
    const uint8_t *bytes = unknown_descriptor_data((struct unknown_descriptor *) d), *end = bytes + d->len;
    if (d->tag == TARGET_MAC_ADDRESS)
        for (const uint8_t *address = bytes + 6; address < end; address += 6)
            if (equal_under(bytes, address, device))
                return true;
    if (d->tag == TARGET_MAC_ADDRESS_RANGE)
        for (const uint8_t *lowest = bytes; lowest < end; lowest += 12)
            if (memcmp(lowest, device, 6) <= 0 && memcmp(device, lowest + 6, 6) <= 0)
                return true;
    return false;
}

static bool covered(const uint8_t *device)
{
    for (size_t i = 0; i < target.count; i++)
        if (covers(target.descriptors[i], device))
            return true;
    return target.length == 0;
}

static struct descriptor *location_of(struct loop *loop)
{
    for (size_t i = 0; i < loop->count; i++)
        if (loop->descriptors[i]->tag == dtag_dvb_ip_mac_stream_location)
            return loop->descriptors[i];
    return NULL;
}

static struct descriptor *search(struct dvb_int_section *in, const uint8_t *device)
{
    struct dvb_int_target *pair;
    dvb_int_section_target_loop_for_each(in, pair) {
        collect_pair(pair);
        struct descriptor *own = location_of(&operational), *found = own ? own : location_of(&platform);
        if (covered(device) && found)
            return found;
    }
    return NULL;
}

/* The first of 12 to 18 that applies, else 0; libucsi decodes in place. */
static int section_fault(uint8_t *bytes, size_t length)
{
    if (length < 18)
        return 12;
    if (bytes[0] != 0x4C)
        return 13;
    struct section *section = section_codec(bytes, length);
    if (!section || section->length > 4093)
        return 14;
    if (!section->syntax_indicator)
        return 15;
    if (section_check_crc(section))
        return 16;
    struct section_ext *ext = section_ext_decode(section, 0);
    if (!ext->current_next_indicator)
        return 17;
    return ext->section_number > ext->last_section_number ? 18 : 0;
}

/* The first of 30 to 33 that applies, else 0, and the fields of a section that none applies to. */
static int int_fault(struct dvb_int_section *in, bool taken, FILE *fields)
{
    uint32_t platform_id = in->platform_id;
    if (dvb_int_section_action_type(in) != 0x01)
        return 30;
    if (dvb_int_section_platform_id_hash(in) != ((platform_id >> 16 ^ platform_id >> 8 ^ platform_id) & 0xFF))
        return 31;
    if (!taken || !filled(in))
        return 32;
    return write_fields(fields, in) ? 0 : 33;
}

static void print_found(struct descriptor *found)
{
    struct dvb_ip_mac_stream_location_descriptor *l = dvb_ip_mac_stream_location_descriptor_codec(found);
    printf("3 %04X %04X %04X %04X %02X", l->network_id, l->original_network_id, l->transport_stream_id, l->service_id, l->component_tag);
}

static void print_line(const uint8_t *device, uint8_t *bytes, size_t length)
{
    int fault = section_fault(bytes, length);
    if (fault) {
        printf("%d\t-\t-\n", fault);
        return;
    }
    /* It decodes the header also where it refuses the loops. */
    struct dvb_int_section *in = (struct dvb_int_section *) bytes;
    bool taken = dvb_int_section_codec(&in->head);
    char *text;
    size_t size;
    FILE *fields = open_memstream(&text, &size);
    fault = int_fault(in, taken, fields);
    fclose(fields);
    struct descriptor *found = fault ? NULL : search(in, device);
    if (found)
        print_found(found);
    else
        printf("%d", fault ? fault : 4);
    printf("\t%s\t%s\n", fault ? "-" : text, taken ? "taken" : "refused");
    free(text);
}

static size_t parse(const char *digits, uint8_t *bytes)
{
    size_t length = 0;
    while (sscanf(digits + 2 * length, "%2hhx", &bytes[length]) == 1)
        length++;
    return length;
}

int main(void)
{
    static uint8_t bytes[5 * 4096]; /* with zeros after the section: libucsi reads on where a loop runs over its end */
    uint8_t device[6];
    char *line = NULL;
    size_t room = 0;
    while (getline(&line, &room, stdin) > 0) {
        char *digits = strchr(line, ' ');
        if (digits != line + 2 * sizeof device)
            return 2;
        *digits = '\0';
        parse(line, device);
        memset(bytes, 0, sizeof bytes);
        print_line(device, bytes, parse(digits + 1, bytes));
    }
    free(line);
    return 0;
}
