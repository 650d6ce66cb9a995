/*
 * Written in the form of the files of SV-COMP's termination category.
 */
typedef enum {false, true} bool;

extern int __VERIFIER_nondet_int(void);

int main()
{
    int x, y;
    x = __VERIFIER_nondet_int();
    y = __VERIFIER_nondet_int();
    while (x > 0 && y > 0 && x != y) {
        if (x > y) {
            x = x - y;
        } else {
            y = y - x;
        }
    }
    return 0;
}
