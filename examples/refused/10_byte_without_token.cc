// 10 at 12
#include <cstdio>

int main() {
  write_int(1);
  return 0;
}
