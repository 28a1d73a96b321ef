/* shown BEGINNING ROW...: opens the beginning and enters the rows by the functions that docs/FORMAT.md shows, and prints the answer to each
 * row: number, tab, line. */
#include "lent.h"
#include "shown.h"

int main(int count, char **files) {
    for (int i = 1; i < count; i++) {
        struct bytes text = whole_file(files[i]);
        if (i == 1 && !open_sheet(text.at, text.length))
            return 1;
        if (i > 1) {
            struct elk_answer answer = enter_row(text.at, text.length);
            printf("%u\t%u\n", answer.number, answer.line);
        }
        free(text.at);
    }
    return 0;
}
