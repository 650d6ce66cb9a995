/*
 * Written in the form of the files of SV-COMP's termination category.
 */
typedef enum {false, true} bool;

extern int __VERIFIER_nondet_int(void);

int main()
{
    int i = 0;
    int n = __VERIFIER_nondet_int();
    while (i < n) {
        i = i + 1;
    }
    return 0;
}
