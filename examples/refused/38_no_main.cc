// 38 at 44
void main() {
  write_int(1);
}
