// 30 at 115
int twice(int n) {
  return n + n;
}

int main() {
  { int sum = twice(3); write_int(sum); }
  return sum;
}
