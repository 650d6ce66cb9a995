/* Both ways lead to a number above 0. */
int main() {
  int x;
  if (?)
    x = 1;
  else
    x = 2;
}
