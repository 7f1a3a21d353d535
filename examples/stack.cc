// A call without end: of a run the stack is used up, of a meaning the open calls are too many.
void deeper() { deeper(); }
int main() { write_int(1); deeper(); return 0; }
