// 37 at 69
struct Error { };

void close(int n) throw(Error);

void close(int n) throw(Error, int) {
  if (n) throw n;
}

int main() {
  close(0);
  return 0;
}
