// Checks signal messages against maps as standard input has them, and prints a line with what each answers: number, node and phase.
// A case is the signal message's sheet and the map's. A line says so behind the answer where a cell beside it changed, or a sheet.
#include "sheets.h"

#include "knotsaffron.h"

int main(void) {
    Sheet signal, map;
    while (read_sheet(&signal)) {
        Lent lent;
        if (!read_sheet(&map)) return 2;
        knotsaffron_check_signal(signal.cells, signal.count, map.cells, map.count, lend(&lent));
        print_answer(&lent, 3);
        if (!is_kept(&signal)) printf(" and the signal sheet changed");
        if (!is_kept(&map)) printf(" and the map sheet changed");
        printf("\n");
    }
    return 0;
}
