/* Reads a label from standard input with the library, and prints each of its rows on a line; or the number and the place of its
 * refusal, with exit status 1. A word behind the program's name is the edition, 2005 or 2025; without it the edition is that of 2005. */
#include <stdio.h>
#include <stdlib.h>
#include <zielorad.h>

int main(int count, char **words)
{
    uint32_t edition = count > 1 ? (uint32_t)strtoul(words[1], NULL, 10) : ZIELORAD_2005;
    /* one byte more than a label may have is enough to see that it is too long; the table has room for every label */
    static uint8_t message[ZIELORAD_LONGEST + 1];
    static uint32_t table[ZIELORAD_TABLE];
    size_t length = fread(message, 1, sizeof message, stdin);
    zielorad_reading reading = zielorad_read(edition, message, length, table, ZIELORAD_TABLE);
    if (reading.number != 0) {
        printf("refused: %u at %u\n", (unsigned)reading.number, (unsigned)reading.place);
        return 1;
    }
    for (uint32_t row = 0; row < reading.rows; row++) {
        const uint32_t *numbers = &table[ZIELORAD_ROW * row];
        printf("kind %u, format %u, envelope %u: ", (unsigned)numbers[0], (unsigned)numbers[1], (unsigned)numbers[4]);
        fwrite(&message[numbers[2]], 1, numbers[3], stdout);
        putchar('\n');
    }
    return 0;
}
