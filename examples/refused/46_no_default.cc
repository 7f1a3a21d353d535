// 46 at 116
struct File {
  int number;
  File(int n) : number(n) { }
};

struct Log {
  File file;
  int lines;
  Log() : lines(0) { }
};

int main() {
  Log log;
  return log.lines;
}
