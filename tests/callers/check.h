/* What the programs of tests here count: each check, and the last line 'N passed, M failed'. */
#include <stdio.h>

static int passed, failed;

static void check(int good, const char *what)
{
    if (good) {
        passed++;
    } else {
        failed++;
        printf("FAILED %s\n", what);
    }
}

/* The last line; the exit status. */
static int counted(void)
{
    printf("%d passed, %d failed\n", passed, failed);
    return failed != 0;
}
