/*
 * Written in the form of the files of SV-COMP's termination category.
 */
typedef enum {false, true} bool;

extern int __VERIFIER_nondet_int(void);

int main()
{
    int x;
    bool c;
    x = __VERIFIER_nondet_int();
    c = true;
    while (c == true) {
        if (x <= 0) {
            c = false;
        }
        x = x - 1;
    }
    return 0;
}
