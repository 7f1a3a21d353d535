// 44 at 85
int main() {
  int n = 3;
  while (n) {
    n = n - 1;
  }
  if (n == 0) break;
  return n;
}
