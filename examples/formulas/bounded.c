/* An invariant of a loop: the index stays within the bound. */
int main() {
  int i;
  for (i = 0; i < 10; i++)
    ;
}
