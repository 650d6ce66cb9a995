/* Three digits sum up to 27 at most. */
int main() {
  int number = [0, 999], sum;
  sum = number % 10 + number / 10 % 10 + number / 100;
  while (sum > 0)
    sum = sum - 1;
}
