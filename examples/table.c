#include <stdio.h>
#include "chainplater.h"

/* Prints the table of the book on standard input. One byte more than a book may have is enough to know that it has more. */
int main(void) {
    static uint8_t book[65537];
    uint8_t page[CHAINPLATER_PAGE];
    size_t length = fread(book, 1, sizeof book, stdin);
    size_t size = chainplater_table(book, length, page);
    return fwrite(page, 1, size, stdout) == size ? 0 : 1;
}
