// 32 at 96
struct Point {
  int x;
  int y;
};

int main() {
  Point p;
  p.x = 1;
  write_int(p);
  return 0;
}
