// 45 at 44
void show(int n) {
  if (n < 0) return 0;
  write_int(n);
}

int main() {
  show(1);
  return 0;
}
