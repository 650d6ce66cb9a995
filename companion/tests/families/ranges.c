/*
 * Written in the form of the files of SV-COMP's termination category.
 */
typedef enum {false, true} bool;

extern int __VERIFIER_nondet_int(void);

int main()
{
    int i, j;
    i = __VERIFIER_nondet_int();
    j = __VERIFIER_nondet_int();
    if (i >= 0 && i <= 100 && j >= 0 && j <= 100) {
        while (i < j) {
            i = i + 1;
            j = j - 1;
        }
    }
    return 0;
}
