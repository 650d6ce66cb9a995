/* A search stops where it finds what it looks for, without a step of its loop. */
int main() {
  int i, n;
  for (i = 0; i < n; i++)
    if (?)
      break;
}
