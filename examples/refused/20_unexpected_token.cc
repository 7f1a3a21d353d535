// 20 at 42
int main() {
  int sum = 0;
  for (int i = 0; i < 3; i = i + 1) {
    sum = sum + i;
  }
  return sum;
}
