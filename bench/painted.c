/* The driver of tests/judge over the painted calls: replies on standard output, the marks on standard error. */
#include "stack.h"

int driver_main(void);

int main(void)
{
    int status = driver_main();
    print_marks(stderr);
    return status;
}
