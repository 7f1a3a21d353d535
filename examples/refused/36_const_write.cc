// 36 at 147
struct Error {
  int code;
  Error(int c) : code(c) { }
};

int main() {
  try {
    throw Error(5);
  } catch (const Error& e) {
    e.code = 0;
  }
  return 0;
}
