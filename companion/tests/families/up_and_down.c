/*
 * Written in the form of the files of SV-COMP's termination category.
 */
typedef enum {false, true} bool;

extern int __VERIFIER_nondet_int(void);

int main()
{
    int x;
    bool up;
    x = __VERIFIER_nondet_int();
    up = true;
    while (x > 0) {
        if (up == true) {
            x = x - 2;
        } else {
            x = x - 1;
        }
    }
    return 0;
}
