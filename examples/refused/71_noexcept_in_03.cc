// 71 at 30
void close(int n) noexcept {
  write_int(n);
}

int main() {
  close(1);
  return 0;
}
