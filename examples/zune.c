/* A player's clock that stood still on the last day of the leap year 2008: from 366 days the loop may run forever. */
int main() {
  int days, year = 1980;
  while (days > 365) {
    if (?) { // a leap year
      if (days > 366) {
        days = days - 366;
        year = year + 1;
      }
    } else {
      days = days - 365;
      year = year + 1;
    }
  }
}
