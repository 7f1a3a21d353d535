// 35 at 119
struct Error { };

int main() {
  try {
    throw Error();
  } catch (...) {
    write_int(1);
  } catch (const Error& e) {
    write_int(2);
  }
  return 0;
}
