/* A call gives each counter its first value: what is below 0 counts as 0. */
int at_least_none(int n) {
  if (n < 0)
    n = 0;
  return n;
}

int main() {
  int x, y;
  int first = at_least_none(x), second = at_least_none(y);
  while (first + second > 0) {
    if (first > 0)
      first = first - 1;
    else
      second = second - 1;
  }
}
