/* Counting up to a bound is counting the distance down. */
int main() {
  int n;
  for (int i = 0; i < n; i++)
    ;
}
