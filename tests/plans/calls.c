// Checks plans and makes plans as standard input has them, and prints a line with what each call answers: number and place of a check; number,
// place and cells of a plan made, and behind them every cell that was lent for it, as it is afterwards.
// A case is four sheets: which of the two it is, with its kind and its limit; the header; the entries; and the plan, or the cells that are lent
// for one. A line says so behind the answer where a cell beside it changed, a cell beside the lent ones, or a sheet.
#include "sheets.h"

#include "knotsaffron.h"

// the first cell of a case's first sheet, and how many cells that has
enum { CHECKED, MADE };
#define CALL_CELLS 3

typedef struct {
    Sheet call, header, entries, plan;
} Case;

// The next case; 0 where the input is over.
static int read_case(Case *one) {
    if (!read_sheet(&one->call)) return 0;
    if (one->call.count != CALL_CELLS) exit(2);
    if (!read_sheet(&one->header) || !read_sheet(&one->entries) || !read_sheet(&one->plan)) exit(2);
    return 1;
}

static void check(const Case *one) {
    Lent lent;
    knotsaffron_check_plan((uint64_t)one->call.cells[1], one->header.cells, one->header.count, one->entries.cells, one->entries.count,
                           one->plan.cells, one->plan.count, (uint64_t)one->call.cells[2], lend(&lent));
    print_answer(&lent, 2);
}

// Prints the lent cells, and says so where a cell beside them changed.
static void print_plan(const int64_t *plan, size_t count) {
    int beside = 0;
    for (size_t i = 0; i < count; i++) printf(" %" PRId64, plan[i]);
    for (size_t i = 0; i < BESIDE; i++) beside += plan[-1 - (ptrdiff_t)i] != (int64_t)UNTOLD || plan[count + i] != (int64_t)UNTOLD;
    if (beside) printf(" and a cell beside the plan changed");
}

// The plan goes to a copy of the case's cells, between cells that no call may change.
static void make(const Case *one) {
    Lent lent;
    size_t count = one->plan.count;
    int64_t *room = room_for(BESIDE + count + BESIDE), *plan = room + BESIDE;
    for (size_t i = 0; i < BESIDE; i++) room[i] = plan[count + i] = (int64_t)UNTOLD;
    memcpy(plan, one->plan.cells, count * sizeof(int64_t));
    knotsaffron_make_plan((uint64_t)one->call.cells[1], one->header.cells, one->header.count, one->entries.cells, one->entries.count,
                          (uint64_t)one->call.cells[2], plan, count, lend(&lent));
    print_answer(&lent, 3);
    print_plan(plan, count);
    free(room);
}

int main(void) {
    Case one;
    while (read_case(&one)) {
        if (one.call.cells[0] == CHECKED) check(&one);
        else if (one.call.cells[0] == MADE) make(&one);
        else return 2;
        if (!is_kept(&one.header)) printf(" and the header changed");
        if (!is_kept(&one.entries)) printf(" and the entries changed");
        if (!is_kept(&one.plan)) printf(" and the plan changed");
        is_kept(&one.call);
        printf("\n");
    }
    return 0;
}
