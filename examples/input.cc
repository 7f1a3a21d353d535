// The sum of decimal numbers, one a line. A byte that is no digit is thrown with its place.
struct Bad {
  int byte;
  int place;
  Bad(int b, int p) : byte(b), place(p) { }
};
int digit(int b, int place) {
  if (b < 48 || b > 57) throw Bad(b, place);
  return b - 48;
}
int main() {
  int sum = 0;
  int number = 0;
  int place = 0;
  int b = read_byte();
  try {
    while (b != -1) {
      if (b == 10) { sum = sum + number; number = 0; }
      else number = number * 10 + digit(b, place);
      place = place + 1;
      b = read_byte();
    }
    write_int(sum);
  }
  catch (Bad& e) { write_int(e.byte); write_int(e.place); return 1; }
  return 0;
}
