extern void __VERIFIER_error();
int __VERIFIER_nondet_int();
void reach_error(void);

int main()
{
    int x = __VERIFIER_nondet_int();
    while (x > 0) {
        x -= 3;
    }
    return 0;
}
