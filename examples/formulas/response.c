/* Response: whenever something is asked for it is granted in the end (in the form of SV-COMP's liveness tasks). */
int main() {
  int request, grant;
  while (true) {
    request = [0, 1];
    grant = 0;
    if (request == 1)
      grant = 1;
  }
}
