// 31 at 46
int largest(int a, int b) {
  int a = b;
  return a;
}

int main() {
  return largest(1, 2);
}
