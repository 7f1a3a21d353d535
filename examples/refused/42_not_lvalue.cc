// 42 at 110
void add(int& sum, int n) {
  sum = sum + n;
}

int main() {
  int sum = 1;
  add(sum, 2);
  add(sum + 1, 2);
  return sum;
}
