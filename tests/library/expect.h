// What the programs of this folder share that count what is right: `expect` takes one case, and the last line is 'N passed, M failed'.
#ifndef EXPECT_H
#define EXPECT_H

#include <stdio.h>

static unsigned passed, failed;

static void expect(const char *name, int right)
{
    if (right) {
        passed++;
        return;
    }
    failed++;
    printf("wrong: %s\n", name);
}

// The last line, and the status to end with.
static int tell(void)
{
    printf("%u passed, %u failed\n", passed, failed);
    return failed != 0;
}

#endif
