/* McCarthy's 91 function in a function of its own, with a count of pending calls in the place of recursion. */
int mccarthy(int n) {
  int calls = 1;
  while (calls > 0) {
    if (n > 100) {
      n = n - 10;
      calls = calls - 1;
    } else {
      n = n + 11;
      calls = calls + 1;
    }
  }
  return n;
}

int main() {
  int n;
  n = mccarthy(n);
}
