/*
 * Calls the record check on every record of a table, and fails at the first
 * wrong answer. The table is the file named as the argument: in each line the
 * bytes in hexadecimal ('-' for none), then '|', the number and the place that
 * the check is to tell (0 and 0 for a record that is taken), then '|' and a
 * remark. Empty lines and lines that begin with '#' are passed over.
 */
#include <inttypes.h>
#include <stdio.h>
#include <stdlib.h>
#include <string.h>

#include "napkinridge.h"

enum { LONGEST = 256 };

static void fail(unsigned long line, const char *what)
{
    fprintf(stderr, "line %lu: %s\n", line, what);
    exit(1);
}

/* Reads the bytes at the start of the line, and leaves *text behind them. */
static size_t read_bytes(const char **text, uint8_t *bytes, unsigned long line)
{
    size_t length = 0;
    const char *at = *text;
    while (*at != '|' && *at != '\0') {
        if (*at == ' ' || *at == '-') {
            at++;
            continue;
        }
        char *end;
        unsigned long byte = strtoul(at, &end, 16);
        if (end != at + 2 || byte > 255 || length == LONGEST) {
            fail(line, "not a list of bytes");
        }
        bytes[length++] = (uint8_t)byte;
        at = end;
    }
    *text = at;
    return length;
}

/* The bytes go into memory of just their length, so that a tool that watches memory sees a read past the end. */
static uint32_t check(const uint8_t *bytes, size_t length, unsigned long line)
{
    uint8_t *copy = malloc(length > 0 ? length : 1);
    if (copy == NULL) {
        fail(line, "no memory");
    }
    memcpy(copy, bytes, length);
    uint32_t answer = napkinridge_record_check(copy, length);
    if (memcmp(copy, bytes, length) != 0) {
        fail(line, "the check changed the record");
    }
    free(copy);
    return answer;
}

int main(int argc, char **argv)
{
    if (argc != 2) {
        fprintf(stderr, "usage: record_check TABLE\n");
        return 1;
    }
    FILE *table = fopen(argv[1], "r");
    if (table == NULL) {
        perror(argv[1]);
        return 1;
    }
    char text[1024];
    unsigned long line = 0;
    unsigned long taken = 0;
    unsigned long refused = 0;
    while (fgets(text, sizeof text, table) != NULL) {
        line++;
        if (text[0] == '#' || text[0] == '\n') {
            continue;
        }
        uint8_t bytes[LONGEST];
        const char *rest = text;
        size_t length = read_bytes(&rest, bytes, line);
        uint32_t number;
        uint32_t place;
        if (sscanf(rest, "| %" SCNu32 " %" SCNu32 " |", &number, &place) != 2) {
            fail(line, "no number and place");
        }
        uint32_t answer = check(bytes, length, line);
        if (answer != number * 65536 + place) {
            fprintf(stderr, "line %lu: told %" PRIu32 " at %" PRIu32 ", and not %" PRIu32 " at %" PRIu32 "\n", line, answer >> 16,
                    answer & 0xFFFF, number, place);
            return 1;
        }
        if (number == 0) {
            taken++;
        } else {
            refused++;
        }
    }
    fclose(table);
    if (taken == 0 || refused == 0) {
        fprintf(stderr, "the table has no record that is taken, or none that is refused\n");
        return 1;
    }
    printf("record check from C: %lu records taken and %lu refused, as expected\n", taken, refused);
    return 0;
}
