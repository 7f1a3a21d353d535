// A program that does not end: of a run the steps are used up, of a meaning the turns.
int main() { write_int(1); while (1) { } }
