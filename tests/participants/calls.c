// Checks sheets of RSMs as standard input has them, and prints a line with what each answers: number and place.
// A line says so behind the answer where a cell beside it changed, or the sheet.
#include "sheets.h"

#include "knotsaffron.h"

int main(void) {
    Sheet sheet;
    while (read_sheet(&sheet)) {
        Lent lent;
        knotsaffron_check_rsm(sheet.cells, sheet.count, lend(&lent));
        print_answer(&lent, 2);
        if (!is_kept(&sheet)) printf(" and the sheet changed");
        printf("\n");
    }
    return 0;
}
