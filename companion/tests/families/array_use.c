/*
 * Written in the form of the files of SV-COMP's termination category.
 */
typedef enum {false, true} bool;

extern int __VERIFIER_nondet_int(void);

int main()
{
    int a[10];
    int i = __VERIFIER_nondet_int();
    while (i > 0) {
        a[i] = i;
        i = i - 1;
    }
    return 0;
}
