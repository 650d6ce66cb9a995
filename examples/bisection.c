/* Half of what is left is cut off, in front or behind, until one is left. */
int main() {
  int first, length, half;
  while (length > 1) {
    half = length / 2;
    if (?)
      first = first + half;
    length = length - half;
  }
}
