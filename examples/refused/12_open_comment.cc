// 12 at 77
int main() {
  write_int(1); // the line after is never closed
  /* return 0; * /
}
