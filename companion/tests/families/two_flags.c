/*
 * Written in the form of the files of SV-COMP's termination category.
 */
typedef enum {false, true} bool;

extern int __VERIFIER_nondet_int(void);

int main()
{
    bool a, b;
    int n;
    a = false;
    b = true;
    n = __VERIFIER_nondet_int();
    while (n > 0 && a == false) {
        if (b == true) {
            n = n - 1;
        } else {
            a = true;
        }
    }
    return 0;
}
