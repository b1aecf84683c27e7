int const a = 1;
const int b = 2;
const int* const c = &a;
int const* const* d = &c;
const int& e = b;
