// A sum that does not fit an int: the meaning ends there, and says nothing of what a run does.
int main() { write_int(1); write_int(2147483647 + 1); return 0; }
