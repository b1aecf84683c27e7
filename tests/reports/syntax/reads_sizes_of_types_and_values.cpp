int a;
int b = sizeof(a) + sizeof(int) * sizeof(a + 1);
int c = sizeof(const int* const*) - sizeof(unsigned long);
int d = sizeof(int(1)) + sizeof(int{}) + sizeof(int*);
