// 47 at 87
void again() throw() {
  write_int(1);
}

int main() {
  again();
  return main();
}
