// 33 at 77
int sum(int a, int b) {
  return a + b;
}

int main() {
  return sum(1, 2, 3);
}
