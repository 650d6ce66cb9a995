/* The loop's own test never fails: a `break` ends it (in the form of SV-COMP's while_break). */
typedef enum {false, true} bool;

int main(void) {
  int c;
  while (true) {
    if (c > 40)
      c = c - 1;
    else
      break;
  }
  return 0;
}
