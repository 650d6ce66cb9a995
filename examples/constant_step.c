/* The step is a variable that is set in front of the loop (after Heizmann, Hoenicke, Leike and Podelski, 2013). */
int main() {
  int x, y = 23;
  while (x >= 0)
    x = x - y;
}
