#include <stdio.h>
#include <stdlib.h>

extern int __VERIFIER_nondet_int(void);
extern void abort(void);

int main()
{
    int x = __VERIFIER_nondet_int();
    while (x > 0) {
        x -= 1;
    }
    return 0;
}
