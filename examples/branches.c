/* Either side may run, and the longer one takes three steps more than its test. */
int main() {
  int x, y;
  x = 4;
  if (?) {
    x = 1;
    y = 2;
    ;
  } else
    y = 3;
}
