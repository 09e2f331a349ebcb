/* bench.c: the bench computer's side, in three calls: checks a table, walks a captured datagram, frames a setpoint.
 *
 *   bench TABLE CONNECTION SWITCHES DATAGRAM ID VALUE
 *
 * TABLE and DATAGRAM are files; CONNECTION is the row the datagram came in on, SWITCHES its routing switches; a setpoint of VALUE is
 * framed with header id ID. The header's id is the unit: 0x101 is bar, 0x102 kilopascal, and a number without a unit is not printed.
 * Numbers are decimal without a leading zero, or 0x and hex digits. The last line is OK or REFUSED; the status is 0 or 1, and 2 for a
 * call that is not understood, or a file that cannot be read or an output that cannot be written.
 *
 *   ./soad bench-example examples/debarker.table 3 0x3 examples/scanner.datagram 0x101 180
 *
 * builds it, shows the commands that do, and runs it.
 */
#include "soad.h"

#include <inttypes.h>
#include <stdio.h>
#include <stdlib.h>
#include <string.h>

struct bytes {
    uint8_t at[65536];
    size_t length;
};

static void misused(const char *field, const char *word, const char *why)
{
    fprintf(stderr, "bench: %s %s: %s\n", field, word, why);
    exit(2);
}

/* All of a file, or its first 65,536 bytes: of a table they are enough, since no accepted one is that long. */
static void read_file(const char *field, const char *name, int all, struct bytes *bytes)
{
    FILE *file = fopen(name, "rb");
    if (file == NULL)
        misused(field, name, "cannot be opened");
    bytes->length = fread(bytes->at, 1, sizeof bytes->at, file);
    int more = fgetc(file);
    if (ferror(file))
        misused(field, name, "cannot be read");
    if (all && more != EOF)
        misused(field, name, "longer than 65536 bytes");
    fclose(file);
}

/* A number: decimal digits without a leading zero, or 0x and hex digits, and nothing else. */
static uint32_t read_number(const char *field, const char *word, uint32_t most)
{
    int hex = strncmp(word, "0x", 2) == 0;
    const char *from = hex ? word + 2 : word;
    size_t length = strspn(from, hex ? "0123456789abcdefABCDEF" : "0123456789");
    if (length == 0 || from[length] != '\0' || (!hex && from[0] == '0' && length > 1))
        misused(field, word, "no number (decimal without a leading zero, or 0x and hex digits)");
    unsigned long long number = strtoull(from, NULL, hex ? 16 : 10);
    if (number > most)
        misused(field, word, most == 65535 ? "more than 65535" : "more than 4294967295");
    return (uint32_t)number;
}

static const char *unit_of(uint32_t id)
{
    return id == 0x101 ? "bar" : id == 0x102 ? "kPa" : NULL;
}

static const char *reason_of(uint32_t drop)
{
    switch (drop) {
    case SOAD_DROP_NO_ROUTE:
        return "no route for this id";
    case SOAD_DROP_SWITCHED_OFF:
        return "its route is switched off";
    case SOAD_DROP_TOO_LONG:
        return "longer than its route allows";
    default:
        return "cut off: no whole header, or a length beyond the end";
    }
}

static const char *meaning_of(uint32_t answer)
{
    switch (answer) {
    case SOAD_TABLE_REFUSED:
        return "table refused";
    case SOAD_NOT_THERE:
        return "no such connection";
    case SOAD_NOT_ALLOWED:
        return "a TCP connection";
    case SOAD_TOO_LONG:
        return "payload longer than 1464 bytes";
    default:
        return "out buffer too short";
    }
}

static int refused(const char *call, uint32_t answer)
{
    printf("%s: refused, answer number %" PRIu32 " (%s)\nREFUSED\n", call, answer, meaning_of(answer));
    return 1;
}

/* A pressure in two bytes, with its unit; the bytes as they are where the id names no unit. */
static void print_payload(uint32_t id, const uint8_t *payload, uint32_t length)
{
    const char *unit = unit_of(id);
    if (unit != NULL && length == 2) {
        printf("%u %s", payload[0] * 256u + payload[1], unit);
        return;
    }
    printf("%" PRIu32 " bytes, no known unit", length);
}

/* Step after step until the end. */
static int walk(const struct bytes *table, size_t connection, uint32_t switches, const struct bytes *datagram)
{
    size_t place = 0, next = 0, at = 0;
    uint32_t kind = SOAD_WALK_PDU, number, id, length;
    for (; kind != SOAD_WALK_END; place = next) {
        uint32_t answer = soad_walk(table->at, table->length, connection, switches, datagram->at, datagram->length, place, &next, &kind,
                                    &number, &id, &length, &at);
        if (answer != SOAD_DONE)
            return refused("walk", answer);
        printf("datagram byte %zu: ", place);
        if (kind == SOAD_WALK_PDU) {
            printf("PDU, receive route %" PRIu32 ", header id 0x%08" PRIx32 ": ", number, id);
            print_payload(id, datagram->at + at, length);
        } else if (kind == SOAD_WALK_DROP) {
            printf("dropped, reason %" PRIu32 " (%s), header id 0x%08" PRIx32 ", length %" PRIu32 " bytes", number, reason_of(number), id, length);
        } else {
            printf("the end");
        }
        printf("\n");
    }
    return 0;
}

static int frame(uint32_t id, uint32_t value)
{
    uint8_t payload[2] = {(uint8_t)(value >> 8), (uint8_t)value}, out[10];
    uint32_t answer = soad_frame(id, payload, sizeof payload, out, sizeof out);
    if (answer != SOAD_DONE)
        return refused("framing", answer);
    printf("setpoint ");
    print_payload(id, payload, sizeof payload);
    printf(", framed in %zu bytes:", sizeof out);
    for (size_t i = 0; i < sizeof out; i++)
        printf(" %02x", out[i]);
    printf("\nOK\n");
    return 0;
}

static int bench(char **words)
{
    static struct bytes table, datagram;
    size_t place = 0;
    read_file("TABLE", words[1], 0, &table);
    uint32_t connection = read_number("CONNECTION", words[2], UINT32_MAX), switches = read_number("SWITCHES", words[3], UINT32_MAX);
    read_file("DATAGRAM", words[4], 1, &datagram);
    uint32_t id = read_number("ID", words[5], UINT32_MAX), value = read_number("VALUE", words[6], 65535);
    if (unit_of(id) == NULL)
        misused("ID", words[5], "no unit: 0x101 is bar, 0x102 kPa");
    if (soad_table_check(table.at, table.length, &place) != SOAD_DONE) {
        printf("table: refused, answer number 1, at byte %zu (./soad check says why)\nREFUSED\n", place);
        return 1;
    }
    printf("table: accepted, %zu bytes\n", table.length);
    int status = walk(&table, connection, switches, &datagram);
    return status != 0 ? status : frame(id, value);
}

int main(int count, char **words)
{
    if (count != 7) {
        fprintf(stderr, "usage: bench TABLE CONNECTION SWITCHES DATAGRAM ID VALUE\n");
        return 2;
    }
    int status = bench(words);
    if (fflush(stdout) != 0 || ferror(stdout)) {
        fprintf(stderr, "bench: the output cannot be written\n");
        return 2;
    }
    return status;
}
