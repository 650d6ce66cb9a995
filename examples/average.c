/* The average of two numbers up to 100 is no more than 100. */
int main() {
  int a = [0, 100], b = [0, 100], average;
  average = (a + b) / 2;
  while (average > 0)
    average = average - 1;
}
