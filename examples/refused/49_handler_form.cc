// 49 at 85
void stop(int code) {
  exit(code);
}

int main() {
  std::set_terminate(stop);
  throw 1;
}
