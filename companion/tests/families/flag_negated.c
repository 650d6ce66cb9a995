/*
 * Written in the form of the files of SV-COMP's termination category.
 */
typedef enum {false, true} bool;

extern int __VERIFIER_nondet_int(void);

int main()
{
    int x = __VERIFIER_nondet_int();
    bool up = false;
    while (x > 0) {
        if (up != false) {
            x = x + 1;
        } else {
            x = x - 1;
        }
    }
    return 0;
}
