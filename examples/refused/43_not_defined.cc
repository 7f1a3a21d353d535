// 43 at 16
int next(int n);

int main() {
  return next(1);
}
