/*
 * Written in the form of the files of SV-COMP's termination category.
 */
typedef enum {false, true} bool;

extern int __VERIFIER_nondet_int(void);

int main()
{
    int n = __VERIFIER_nondet_int();
    int i;
    int j;
    for (i = 0; i < 3; i++) {
        for (j = 0; j < 2; j++) {
            n = n + 1;
        }
    }
    return 0;
}
