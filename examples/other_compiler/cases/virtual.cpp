// Virtual functions and an abstract base: what a handler for the base calls is the thrown object's own.
struct Shape {
  virtual int area() const = 0;
  virtual ~Shape() { write_int(1); }
};
struct Square : Shape {
  int side;
  Square(int s) : side(s) { }
  int area() const { return side * side; }
  ~Square() { write_int(side); }
};
struct Half : Square {
  Half(int s) : Square(s) { }
  int area() const { return side * side / 2; }
};
int main() {
  try { throw Half(4); } catch (const Shape& shape) { write_int(shape.area()); }
  Shape* kept = new Square(6);
  write_int(kept->area());
  delete kept;
  try { throw Square(3); } catch (Half&) { write_int(0); } catch (Square& square) { write_int(square.area()); }
  return 0;
}
