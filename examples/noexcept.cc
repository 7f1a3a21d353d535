// What comes out of a function that is noexcept unwinds it and is entered, and terminate is called.
struct Lock {
  int n;
  Lock(int k) { n = k; }
  ~Lock() { write_int(n); }
};

void close() noexcept {
  Lock l(1);
  throw 2;
}

int main() {
  try { close(); }
  catch (int) { write_int(3); }
  return 0;
}
