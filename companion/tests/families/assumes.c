extern int __VERIFIER_nondet_int(void);
extern void __VERIFIER_assume(int);

int main()
{
    int x = __VERIFIER_nondet_int();
    __VERIFIER_assume(x > 0);
    while (x > 0) {
        x = x - 1;
    }
    return 0;
}
