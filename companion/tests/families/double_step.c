/*
 * Written in the form of the files of SV-COMP's termination category.
 */
typedef enum {false, true} bool;

extern int __VERIFIER_nondet_int(void);

int main()
{
    int x, y;
    x = __VERIFIER_nondet_int();
    y = __VERIFIER_nondet_int();
    while (x >= y) {
        if (x > 2 * y) {
            x = x - 1;
        }
        x = x - 1;
    }
    return 0;
}
