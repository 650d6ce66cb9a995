/*
 * Written in the form of the files of SV-COMP's termination category.
 */
typedef enum {false, true} bool;

extern int __VERIFIER_nondet_int(void);

int main()
{
    int x = __VERIFIER_nondet_int();
    do {
        x--;
    } while (x > 0);
    return 0;
}
