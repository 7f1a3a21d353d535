// 11 at 62
int main() {
  write_int(2147483647);
  write_int(2147483648);
  return 0;
}
