/*
 * Written in the form of the files of SV-COMP's termination category.
 */
typedef enum {false, true} bool;

extern int __VERIFIER_nondet_int(void);

int main()
{
    int n = __VERIFIER_nondet_int();
    int i;
    for (i = 0; i < n; i++) {
        ;
    }
    return 0;
}
