// 20 at 66
int main() {
  int sum = 1;
  {
    sum = sum + sum
  }
  return sum;
}
