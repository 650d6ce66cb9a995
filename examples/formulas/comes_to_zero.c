/* Guarantee: each run from 0 or above comes to 0. */
int main() {
  int x;
  while (x > 0)
    x = x - 1;
}
