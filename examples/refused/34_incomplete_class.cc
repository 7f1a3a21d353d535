// 34 at 41
struct List {
  int first;
  List rest;
};

int main() {
  return 0;
}
